#!/usr/bin/env bash
# Whether several databases that hold parts of a file are, together, exactly what an import of the file makes, and where not.
. "$(dirname -- "${BASH_SOURCE[0]}")/begin.sh"
two=$top/data/two-nodes.osm.pbf
country=$top/data/liechtenstein-raw.osm.pbf
nl='
'
size=$(stat -c %s "$country")
alike="blobs 12 gaps 0 differs 0 extra 0${nl}"

"$pbfrow" ranges "$country" 4 > plan.txt
parts=0
while read -r from to; do
  parts=$((parts + 1))
  "$pbfrow" import "$country" "part-$parts.db" --from "$from" --to "$to" > "part-$parts.txt"
done < plan.txt
[ "$parts" = 4 ] && pass "a plan of four parts" || fail "a plan of four parts"
read -r second third < <(sed -n 2p plan.txt)
sha256sum part-?.db > sums.txt
blobs_of() { awk '/^blobs/ { print $3 }' "part-$1.txt"; }
left=$((12 - $(blobs_of 2)))

for depth in "" --elements; do
  expect "verify${depth:+ $depth} of four parts" 0 "$alike" verify "$country" part-1.db part-2.db part-3.db part-4.db $depth
  expect "in another order" 0 "$alike" verify "$country" part-3.db part-1.db part-4.db part-2.db $depth
  expect "with one of them twice" 0 "$alike" verify "$country" part-3.db part-1.db part-4.db part-2.db part-1.db $depth
  expect "without the second" 1 "gap $second $third${nl}blobs $left gaps 1 differs 0 extra 0${nl}" verify "$country" part-4.db part-1.db part-3.db $depth
  # the longitude of the last node is another one
  { head -c 83 "$two"; printf '\002'; } > moved.osm.pbf
  rm -f header.db nodes.db
  "$pbfrow" import "$two" header.db --from 0 --to 47 > got.txt
  "$pbfrow" import "$two" nodes.db --from 47 > got.txt
  expect "of two parts" 0 "blobs 2 gaps 0 differs 0 extra 0${nl}" verify "$two" nodes.db header.db $depth
  expect "of a file with another blob there" 1 "differs 47${nl}blobs 2 gaps 0 differs 1 extra 0${nl}" verify moved.osm.pbf nodes.db header.db $depth
  # the length of the second header is one more, so that no frame reaches from 47 to 84
  { head -c 50 "$two"; printf '\x0c'; tail -c 33 "$two"; } > longer-header.osm.pbf
  expect "of a file with no frame there" 1 "extra 47${nl}blobs 2 gaps 0 differs 0 extra 1${nl}" verify longer-header.osm.pbf nodes.db header.db $depth
  rm -f other.db none.db
  "$pbfrow" import moved.osm.pbf other.db --from 47 > got.txt
  "$pbfrow" import /dev/null none.db > got.txt
  expect "of databases of two files" 1 "fault 63 Differs at 47${nl}" verify "$two" header.db nodes.db other.db $depth
  expect "of a part and of one that holds nothing" 1 "gap 47 84${nl}blobs 1 gaps 1 differs 0 extra 0${nl}" verify "$two" none.db header.db $depth
done

# a file that is longer, shorter, or another one
head -c 47 "$two" > front.osm.pbf
expect "a file that ends before a blob" 1 "extra 47${nl}blobs 2 gaps 0 differs 0 extra 1${nl}" verify front.osm.pbf nodes.db header.db
head -c 83 "$two" > cut.osm.pbf
expect "a file that ends inside a blob" 1 "extra 47${nl}blobs 2 gaps 0 differs 0 extra 1${nl}" verify cut.osm.pbf nodes.db header.db
cat "$two" <(tail -c 37 "$two") > longer.osm.pbf
expect "a file that goes on" 1 "gap 84 121${nl}blobs 2 gaps 1 differs 0 extra 0${nl}" verify longer.osm.pbf nodes.db header.db
expect "an empty file" 1 "extra 47${nl}extra 0${nl}blobs 2 gaps 0 differs 0 extra 2${nl}" verify /dev/null nodes.db header.db
expect "a file that isn't there" 1 "fault 68 ReadFailed at 0${nl}" verify nowhere.osm.pbf nodes.db header.db
# it has a size, and no bytes
expect "a folder" 1 "fault 68 ReadFailed at 47${nl}" verify . nodes.db header.db
expect "a pipe, which can't be read at an offset" 1 "fault 68 ReadFailed at 0${nl}" verify /dev/stdin nodes.db header.db < <(cat "$two")

# databases that aren't those of the file
expect "a database that isn't there" 1 "fault 66 NotThisStore${nl}" verify "$two" nodes.db nowhere.db
grep -q "nowhere.db" stderr.txt && pass "which is named" || fail "which is named"
[ ! -e nowhere.db ] && pass "and isn't made" || fail "and isn't made"
rm -f shifted.db
{ head -c 60 "$two"; tail -c 37 "$two"; } > shifted.osm.pbf
"$pbfrow" import shifted.osm.pbf shifted.db --from 60 > got.txt
expect "a blob over another one" 1 "fault 64 Overlap at 60${nl}" verify "$two" shifted.db nodes.db header.db
"$pbfrow" verify "$country" part-1.db part-2.db > /dev/full
[ $? = 1 ] && pass "to a full disk it ends with 1" || fail "to a full disk it ends with 1"

if has sqlite3; then
  # changed NAME SQL STATUS PLAIN STATUS ELEMENTS: a part whose rows were changed so, without and with --elements
  changed() {
    cp part-2.db changed.db
    sqlite3 changed.db "$2" || fail "$1: sqlite3"
    expect "$1" "$3" "$4" verify "$country" part-1.db changed.db part-3.db part-4.db
    expect "$1, by elements" "$5" "$6" verify "$country" part-1.db changed.db part-3.db part-4.db --elements
  }
  off=$(sqlite3 part-2.db "SELECT max(off) FROM blob")
  other="differs $off${nl}blobs 12 gaps 0 differs 1 extra 0${nl}"
  changed "a tag that was changed" "UPDATE tag SET val = 'x' WHERE rowid = (SELECT min(rowid) FROM tag WHERE off = $off)" 0 "$alike" 1 "$other"
  changed "an element that is gone" "DELETE FROM element WHERE rowid = (SELECT max(rowid) FROM element WHERE off = $off)" 0 "$alike" 1 "$other"
  changed "a link of no blob" "INSERT INTO link (off, pos, k, kind, ref, role) VALUES ($second + 1, 0, 0, 0, 1, '')" 0 "$alike" 1 "fault 66 NotThisStore${nl}"
  changed "a digest that was changed" "UPDATE blob SET digest = zeroblob(32) WHERE off = $off" 1 "$other" 1 "$other"
  gap="gap $second $(sqlite3 part-2.db "SELECT fin FROM blob WHERE off = $second")"
  changed "a blob that was taken out, whose rows are left" "DELETE FROM blob WHERE off = $second" 1 "$gap${nl}blobs 11 gaps 1 differs 0 extra 0${nl}" 1 "fault 66 NotThisStore${nl}"
  changed "a blob and its rows that were taken out" "DELETE FROM blob WHERE off = $second; DELETE FROM element WHERE off = $second; DELETE FROM tag WHERE off = $second; DELETE FROM link WHERE off = $second" 1 "$gap${nl}blobs 11 gaps 1 differs 0 extra 0${nl}" 1 "$gap${nl}blobs 11 gaps 1 differs 0 extra 0${nl}"
  # offsets that most file systems can't seek to
  for far in 4611686018427387000 1152921504606846976 17592186044416; do
    cp nodes.db far.db
    sqlite3 far.db "UPDATE blob SET off = off - 47 + $far, fin = fin - 47 + $far; UPDATE element SET off = off - 47 + $far; UPDATE tag SET off = off - 47 + $far; UPDATE link SET off = off - 47 + $far"
    for depth in "" --elements; do
      expect "a blob at $far${depth:+, $depth}" 1 "extra $far${nl}gap 47 84${nl}blobs 2 gaps 1 differs 0 extra 1${nl}" verify "$two" far.db header.db $depth
      expect "a blob at $far alone${depth:+, $depth}" 1 "missing 0${nl}missing 47${nl}extra $far${nl}blobs 2 missing 2 differs 0 extra 1${nl}" verify "$two" far.db $depth
    done
  done
  cp part-2.db unique.db
  sqlite3 unique.db "CREATE UNIQUE INDEX of_mine ON blob (fin)"
  expect "an index that pbfrow doesn't keep" 1 "fault 65 Disk${nl}" verify "$country" part-1.db unique.db part-3.db part-4.db
  grep -q '^pbfrow: unique.db: its index of_mine is UNIQUE, .*: DROP INDEX "of_mine"' stderr.txt && pass "which is named, with what to do" || { fail "which is named, with what to do"; cat stderr.txt; }
else
  skip "parts whose rows were changed" "sqlite3 isn't installed"
fi

# each page of a part overwritten in turn, as many as there are up to 40
pages=$(($(stat -c %s part-2.db) / 4096))
wrong=""
for page in $(seq 0 $(((pages + 39) / 40)) $((pages - 1))); do
  cp part-2.db damaged.db
  head -c 64 /dev/urandom | dd of=damaged.db bs=1 seek=$((page * 4096 + 40)) conv=notrunc status=none
  "$pbfrow" verify "$country" part-1.db damaged.db part-3.db part-4.db --elements > got.txt 2> stderr.txt
  ended=$?
  [ "$ended" = 1 ] || wrong="$wrong $page:$ended"
done
[ -z "$wrong" ] && pass "each damaged page of a part is noticed" || fail "each damaged page of a part is noticed: not page$wrong"

# an import of a part that was killed
rm -f killed.db
"$pbfrow" import "$country" killed.db --from "$second" --to "$third" > killed.txt &
importing=$!
until [ -s killed.txt ] || ! kill -0 $importing 2>/dev/null; do sleep 0.01; done
kill -9 $importing 2>/dev/null
wait $importing 2>/dev/null
"$pbfrow" verify "$country" part-1.db killed.db part-3.db part-4.db > got.txt 2> stderr.txt
ended=$?
if [ "$ended" = 0 ] || { [ "$ended" = 1 ] && grep -q "^gap " got.txt && tail -n 1 got.txt | grep -q "differs 0 extra 0"; }; then
  pass "a part whose import was killed has gaps and nothing else"
else
  fail "a part whose import was killed has gaps and nothing else"; head -n 5 got.txt stderr.txt
fi
"$pbfrow" import "$country" killed.db --from "$second" --to "$third" > got.txt
expect "and is whole after the same import again" 0 "$alike" verify "$country" part-1.db killed.db part-3.db part-4.db --elements

# what is only asked stays
sha256sum -c --quiet sums.txt && pass "the parts stay as they are" || fail "the parts stay as they are"
mkdir apart && cp part-?.db apart && chmod a-w apart/* apart
expect "parts in a folder that may only be read" 0 "$alike" verify "$country" apart/part-1.db apart/part-2.db apart/part-3.db apart/part-4.db --elements
chmod u+w apart
counted
