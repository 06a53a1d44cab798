#!/usr/bin/env bash
# An import that has to reach an offset: over files and pipes that end before it, at it and behind it.
. "$(dirname -- "${BASH_SOURCE[0]}")/begin.sh"
two=$top/data/two-nodes.osm.pbf
country=$top/data/liechtenstein-raw.osm.pbf
size=$(stat -c %s "$country")
nl='
'
stored="0 stored 0${nl}47 stored 2${nl}blobs stored 2 held 0 bad 0 refused 0${nl}"
second="47 stored 2${nl}blobs stored 1 held 0 bad 0 refused 0${nl}"

# ends_at LENGTH: what is told of the two-node file where so many bytes of it come and 84 have to
ends_at() {
  [ "$1" -ge 47 ] && echo "0 stored 0"
  echo "fault 68 ReadFailed at $1"
}
for length in 0 1 3 4 17 46 47 48 51 62 83; do
  head -c "$length" "$two" > cut.osm.pbf
  rm -f cut.db* pipe.db*
  expect "a file of $length bytes" 1 "$(ends_at "$length")$nl" import cut.osm.pbf cut.db --to 84
  expect "a pipe of $length bytes" 1 "$(ends_at "$length")$nl" import /dev/stdin pipe.db --to 84 < <(cat cut.osm.pbf)
done
expect "the whole file behind the pipe of 83" 0 "0 held${nl}47 stored 2${nl}blobs stored 1 held 1 bad 0 refused 0${nl}" import "$two" pipe.db --to 84
rm -f whole.db*
expect "the whole file" 0 "$stored" import "$two" whole.db --to 84
rm -f whole.db*
expect "the whole file from a pipe" 0 "$stored" import /dev/stdin whole.db --to 84 < <(cat "$two")
sound "which sqlite3 finds whole" whole.db

# a part, of a file and from a pipe that holds only its bytes
rm -f part.db*
expect "a range of a file" 0 "$second" import "$two" part.db --from 47 --to 84
rm -f part.db*
expect "a range whose end is named first" 0 "$second" import "$two" part.db --to 84 --from 47
rm -f part.db*
expect "a range of a pipe" 0 "$second" import /dev/stdin part.db --from 47 --to 84 < <(cat "$two")
rm -f part.db*
expect "a pipe that is a range" 0 "$second" import /dev/stdin part.db --at 47 --to 84 < <(tail -c 37 "$two")
rm -f part.db*
expect "a file that is a range" 1 "fault 68 ReadFailed at 83${nl}" import cut.osm.pbf part.db --from 47 --to 84
expect "a pipe that is shorter" 1 "fault 68 ReadFailed at 83${nl}" import /dev/stdin part.db --at 47 --to 84 < <(tail -c 37 "$two" | head -c 36)
expect "an empty pipe" 1 "fault 68 ReadFailed at 47${nl}" import /dev/stdin part.db --at 47 --to 84 < <(true)
expect "no bytes" 1 "fault 68 ReadFailed at 47${nl}" import /dev/null part.db --at 47 --to 84
expect "a range of one byte" 1 "fault 10 LengthCut at 47${nl}" import /dev/stdin part.db --at 47 --to 48 < <(tail -c 37 "$two")
for options in "--from 47 --to 84" "--at 47 --to 84"; do
  expect "a file that isn't there, $options" 1 "fault 68 ReadFailed at 47${nl}" import nowhere.osm.pbf part.db $options
done
expect "a file that ends before the range" 1 "fault 68 ReadFailed at 84${nl}" import cut.osm.pbf part.db --from 84 --to 90
expect "a file that ends where the range begins" 1 "fault 68 ReadFailed at 84${nl}" import "$two" part.db --from 84 --to 90
expect "a pipe that ends before the range" 1 "fault 68 ReadFailed at 84${nl}" import /dev/stdin part.db --from 84 --to 90 < <(cat cut.osm.pbf)

# a pipe whose first command fails
for first in "cat nowhere.osm.pbf" "false" "head -c 47 $two" "head -c 60 $two"; do
  rm -f pipe.db*
  { $first 2> stderr.txt; false; } | "$pbfrow" import /dev/stdin pipe.db --to 84 > got.txt
  [ $? = 1 ] && pass "a pipe from '$first'" || fail "a pipe from '$first'"
done

# what goes on is read no further
rm -f pipe.db*
{ "$pbfrow" import /dev/stdin pipe.db --to 47 > got.txt; echo "status $?" >> got.txt; wc -c >> got.txt; } < <(cat "$two")
lines "0 stored 0" "blobs stored 1 held 0 bad 0 refused 0" "status 0" 37 > want.txt
same "a pipe that goes on is read no further" got.txt want.txt
expect "a file that goes on" 0 "0 held${nl}blobs stored 0 held 1 bad 0 refused 0${nl}" import "$two" pipe.db --to 47
expect "a pipe that never ends" 0 "0 held${nl}blobs stored 0 held 1 bad 0 refused 0${nl}" import /dev/stdin pipe.db --to 47 < <(cat "$two" /dev/zero)
cut_at() {
  expect "a frame that reaches behind $1" 1 "0 held${nl}fault $2 at 47${nl}" import "$two" pipe.db --to "$1"
  expect "a frame of a pipe that reaches behind $1" 1 "0 held${nl}fault $2 at 47${nl}" import /dev/stdin pipe.db --to "$1" < <(cat "$two")
}
cut_at 48 "10 LengthCut"
cut_at 60 "12 HeaderCut"
cut_at 83 "18 BlobCut"
expect "of which nothing is stored" 0 "blobs 1 end 47 gaps 0${nl}" status pipe.db

# nothing is read of what stands before a range
if truncate -s 4T far.osm.pbf 2> stderr.txt && tail -c 37 "$two" >> far.osm.pbf; then
  far=$((4 << 40))
  rm -f far.db*
  timeout 20 "$pbfrow" import far.osm.pbf far.db --from "$far" --to $((far + 37)) > got.txt
  lines "$far stored 2" "blobs stored 1 held 0 bad 0 refused 0" > want.txt
  same "a range behind 4 TB of a file" got.txt want.txt
  timeout 20 "$pbfrow" import far.osm.pbf far.db --from $((far + 38)) > got.txt
  lines "fault 68 ReadFailed at $((far + 38))" > want.txt
  same "a start behind the end of that file" got.txt want.txt
else
  skip "a range behind 4 TB of a file" "no file is that long here"
fi
rm -f far.osm.pbf

# each range of an extract, and each range of one that is cut between two frames
"$pbfrow" ranges "$country" 4 > plan.txt
"$pbfrow" list "$country" | awk '{ print $1 }' > frames.txt
while read -r from to; do
  "$pbfrow" import "$country" "range-$from.db" --from "$from" --to "$to" > got.txt
  [ $? = 0 ] && pass "the range $from $to" || fail "the range $from $to"
done < plan.txt
expect "the ranges together" 0 "blobs 12 end $size gaps 0${nl}" status range-*.db --size "$size"
read -r from to < <(sed -n 2p plan.txt)
awk -v from="$from" -v to="$to" '$1 > from && $1 < to { print; print $1 + 1; print $1 + 100 }' frames.txt > ends.txt
while read -r end; do
  head -c "$end" "$country" > cut.osm.pbf
  rm -f cut.db*
  "$pbfrow" import cut.osm.pbf cut.db --from "$from" --to "$to" > got.txt
  [ $? = 1 ] && [ "$(tail -n 1 got.txt)" = "fault 68 ReadFailed at $end" ] && pass "the range $from $to of $end bytes" || fail "the range $from $to of $end bytes"
done < ends.txt

# offsets that can't be
for options in "--to 0" "--at 47 --to 47" "--at 47 --to 46" "--from 47 --to 47" "--from 47 --to 46" "--to 4611686018427387905" "--to"; do
  expect "an import $options" 2 "" import "$two" words.db $options
done
grep -q -e "--to" stderr.txt && pass "standard error names --to" || fail "standard error names --to"
"$pbfrow" import "$two" words.db --at 47 --to 47 2> stderr.txt
grep -q -e "--to must be above" stderr.txt && pass "standard error says where --to has to be" || fail "standard error says where --to has to be"
[ -e words.db ] && fail "they touch no file" || pass "they touch no file"
counted
