#!/usr/bin/env bash
# A file imported in parts, side by side: cut by `ranges`, imported by several schedulers, each of which is killed and goes on.
. "$(dirname -- "${BASH_SOURCE[0]}")/begin.sh"
two=$top/data/two-nodes.osm.pbf
country=$top/data/liechtenstein-raw.osm.pbf
program=$top/crates/pbfrow/out/pbfrow
size=$(stat -c %s "$country")
nl='
'
whole="blobs 12 missing 0 differs 0 extra 0${nl}"

expect "one range" 0 "0 84${nl}" ranges "$two" 1
expect "two ranges" 0 "0 47${nl}47 84${nl}" ranges "$two" 2
expect "more ranges than frames" 0 "0 47${nl}47 84${nl}" ranges "$two" 4294967295
expect "ranges of a pipe" 0 "0 47${nl}47 84${nl}" ranges /dev/stdin 2 < <(cat "$two")
expect "ranges of an empty input" 0 "" ranges /dev/null 4
head -c 83 "$two" > cut.osm.pbf
expect "ranges of a file that ends inside a frame" 1 "fault 18 BlobCut at 47${nl}" ranges cut.osm.pbf 2
expect "ranges of a file that isn't there" 1 "fault 68 ReadFailed at 0${nl}" ranges nowhere.osm.pbf 2
expect "no ranges" 2 "" ranges "$two" 0
expect "more ranges than 2^32 - 1" 2 "" ranges "$two" 4294967296
expect "ranges, and not how many" 2 "" ranges "$two"
"$pbfrow" ranges "$two" 2 > /dev/full
[ $? = 1 ] && pass "ranges to a full disk end with 1" || fail "ranges to a full disk end with 1"

# a header frame of 47 bytes, and six of 16
{ head -c 47 "$two"; for _ in 1 2 3 4 5 6; do printf '\0\0\0\x09\x0a\x05Extra\x18\x03\xff\xff\xff'; done; } > seven.osm.pbf
expect "one range of seven frames" 0 "0 143${nl}" ranges seven.osm.pbf 1
expect "two ranges of seven frames" 0 "0 79${nl}79 143${nl}" ranges seven.osm.pbf 2
expect "three ranges of seven frames" 0 "0 63${nl}63 111${nl}111 143${nl}" ranges seven.osm.pbf 3
expect "four ranges of seven frames" 0 "0 47${nl}47 79${nl}79 111${nl}111 143${nl}" ranges seven.osm.pbf 4
expect "as many as there are frames" 0 "0 47${nl}47 63${nl}63 79${nl}79 95${nl}95 111${nl}111 127${nl}127 143${nl}" ranges seven.osm.pbf 255

# ranges_are_even N: N ranges of the extract follow one another, begin at frames, and without its last frame each is shorter
# than the Nth part of the file; its frames are those that `list` has.
ranges_are_even() {
  "$pbfrow" list "$country" | awk -v size="$size" 'NR > 1 { print $1 } END { print size }' > ends.txt
  "$pbfrow" ranges "$country" "$1" | awk -v n="$1" -v size="$size" '
    BEGIN { while ((getline end < "ends.txt") > 0) { ends[++many] = end; is_end[end] = 1 } }
    $1 != at + 0 || !($2 in is_end) || NF != 2 { bad++ }
    { for (k = 1; k <= many; k++) if (ends[k] > $1 && ends[k] < $2 && (ends[k] - $1) * n >= size) bad++; at = $2 }
    END { exit bad + 0 > 0 || at != size || NR > n || NR < 1 }'
}
for n in 1 2 3 4 5 7 11 12 13 1000; do
  ranges_are_even "$n" && pass "$n ranges of the extract" || fail "$n ranges of the extract"
done

# a part, from a pipe that holds only its bytes
rm -f part-*.db part-*.db-wal whole.db whole.db-wal
expect "an import of the second blob alone" 0 "47 stored 2${nl}blobs stored 1 held 0 bad 0 refused 0${nl}" import /dev/stdin part-47.db --at 47 < <(tail -c 37 "$two")
expect "the gap before it" 0 "gap 0 47${nl}blobs 1 end 84 gaps 1${nl}" status part-47.db
expect "the whole file behind it" 0 "0 stored 0${nl}47 held${nl}blobs stored 1 held 1 bad 0 refused 0${nl}" import "$two" part-47.db --at 0
expect "a part that begins inside a frame" 1 "fault 12 HeaderCut at 48${nl}" import /dev/stdin part-47.db --at 48 < <(tail -c 36 "$two")
expect "an empty part" 0 "blobs stored 0 held 0 bad 0 refused 0${nl}" import /dev/null part-47.db --at 84
expect "an empty file at 0" 1 "fault 61 NoHeaderFirst at 0${nl}" import /dev/null part-47.db --at 0
expect "a part and bytes to drop" 2 "" import "$two" part-47.db --from 47 --at 47
expect "a part above 2^62" 2 "" import "$two" part-47.db --at 4611686018427387905

# what one import of the whole gives
"$pbfrow" import "$country" one.db > got.txt
"$pbfrow" export one.db > one.txt
"$pbfrow" export one.db --form pbf > one.osm.pbf

# scheduled NAME: the parts in this folder, asked as one, have no gap and export what one import of the extract does; and
# merged, they are the extract. The folder is left empty.
scheduled() {
  expect "$1, asked as one" 0 "blobs 12 end $size gaps 0${nl}" status part-*.db --size "$size"
  "$pbfrow" export part-*.db --size "$size" > got.txt
  same "$1, exported as lines" got.txt one.txt
  "$pbfrow" export part-*.db --size "$size" --form pbf > got.osm.pbf
  same "$1, exported as PBF" got.osm.pbf one.osm.pbf
  if "$pbfrow" merge whole.db part-*.db > got.txt; then
    expect "$1" 0 "$whole" verify "$country" whole.db --elements
  else
    fail "$1"
  fi
  rm -f part-* whole.* plan plan.mk*
}

export PBFROW=$program
import_part=$top/examples/import_part
"$pbfrow" ranges "$country" 4 > ranges.txt
rm -f part-* whole.* plan plan.mk*

# what was killed leaves imports that still have their databases for a while, as another machine's would
again() {
  local _
  for _ in 1 2 3 4 5; do
    "$@" > got.txt 2> stderr.txt && return 0
    sleep 1
  done
  return 1
}
by_xargs() { xargs -P 4 -L 1 "$import_part" "$country" < ranges.txt; }
by_make() { make -j 4 -f "$top/examples/parts.mk" FILE="$country" N=4 PBFROW="$program"; }

timeout -s KILL 0.3 xargs -P 4 -L 1 "$import_part" "$country" < ranges.txt > got.txt 2> stderr.txt
again by_xargs
[ $? = 0 ] && pass "xargs ends with 0 after one that was killed" || fail "xargs ends with 0 after one that was killed"
scheduled "parts imported by xargs"

# a file that isn't there, and one that was cut between two frames of the first range
read -r from to < <(head -n 1 ranges.txt)
cut=$("$pbfrow" list "$country" | awk -v to="$to" '$1 < to { last = $1 } END { print last }')
head -c "$cut" "$country" > cut.osm.pbf
for file in missing.osm.pbf cut.osm.pbf; do
  "$import_part" "$file" "$from" "$to" > got.txt 2> stderr.txt
  [ $? = 1 ] && pass "a part of $file isn't taken for whole" || fail "a part of $file isn't taken for whole"
done
[ "$(tail -n 1 got.txt)" = "fault 68 ReadFailed at $cut" ] && pass "which is told where the file ends" || fail "which is told where the file ends"
xargs -P 4 -L 1 "$import_part" cut.osm.pbf < ranges.txt > got.txt 2> stderr.txt
[ $? = 123 ] && pass "xargs tells parts of a file that was cut" || fail "xargs tells parts of a file that was cut"
rm -f part-* cut.osm.pbf

if has make; then
  timeout -s KILL 0.5 make -j 4 -f "$top/examples/parts.mk" FILE="$country" N=4 PBFROW="$program" > got.txt 2> stderr.txt
  again by_make
  [ $? = 0 ] && pass "make ends with 0 after one that was killed" || fail "make ends with 0 after one that was killed"
  by_make > got.txt 2> stderr.txt
  grep -q import_part got.txt && fail "a third make imports nothing" || pass "a third make imports nothing"
  expect "parts imported and merged by make" 0 "$whole" verify "$country" whole.db --elements
  rm -f part-* whole.* plan plan.mk*

  # a file that is cut between two frames of the first range once the plan stands
  cp "$country" short.osm.pbf
  by_make_short() { make -k -j 4 -f "$top/examples/parts.mk" FILE=short.osm.pbf N=4 PBFROW="$program" "$@"; }
  by_make_short plan.mk > got.txt 2> stderr.txt
  truncate -s "$cut" short.osm.pbf
  touch -d '1 hour ago' short.osm.pbf
  by_make_short > got.txt 2> stderr.txt
  [ $? != 0 ] && [ -z "$(ls part-*.done whole.* 2> /dev/null)" ] && pass "make marks no part of a file that was cut" || fail "make marks no part of a file that was cut"
  rm -f part-* whole.* plan plan.mk* short.osm.pbf
else
  skip "parts imported by make" "make isn't installed"
fi

if has parallel && parallel --version 2> /dev/null | grep -q '^GNU parallel'; then
  parallel -j 4 --retries 3 --colsep ' ' "$import_part" "$country" < ranges.txt > got.txt 2> stderr.txt
  [ $? = 0 ] && pass "GNU parallel ends with 0" || fail "GNU parallel ends with 0"
  scheduled "parts imported by GNU parallel"
  parallel -j 4 --colsep ' ' "$import_part" missing.osm.pbf < ranges.txt > got.txt 2> stderr.txt
  [ $? = 4 ] && pass "GNU parallel tells four parts of a file that isn't there" || fail "GNU parallel tells four parts of a file that isn't there"
else
  skip "parts imported by GNU parallel" "it isn't installed"
fi

# Dask: two workers, of which one is killed by -9 while it imports, and another started
if has dask-scheduler dask-worker && /usr/bin/python3 -c 'import distributed' 2> /dev/null; then
  dask-scheduler --host 127.0.0.1 --port 0 --no-dashboard --scheduler-file scheduler.json > scheduler.txt 2>&1 &
  scheduler=$!
  worker() { dask-worker --scheduler-file scheduler.json --host 127.0.0.1 --nthreads 1 --no-nanny --no-dashboard > "worker-$1.txt" 2>&1 & }
  for _ in $(seq 300); do [ -s scheduler.json ] && break; sleep 0.1; done
  worker 1
  first=$!
  worker 2
  second=$!
  address=$(sed -n 's/.*"address": "\([^"]*\)".*/\1/p' scheduler.json)
  timeout -k 10 300 "$top/examples/dask_import.py" "$address" "$country" 4 > dask.txt 2> stderr.txt &
  driver=$!
  for _ in $(seq 600); do [ -n "$(ls part-*.db 2> /dev/null)" ] && break; sleep 0.05; done
  kill -9 "$first"
  worker 3
  third=$!
  wait "$driver"
  [ $? = 0 ] && pass "Dask ends with 0 where a worker was killed" || fail "Dask ends with 0 where a worker was killed"
  # not asked to end: a worker that loses its scheduler while it does may wait for it for ever
  kill -9 "$second" "$third" "$scheduler" 2> /dev/null
  wait "$first" "$second" "$third" "$scheduler" 2> /dev/null
  lines "4 parts are imported" > want.txt
  same "and has imported all parts" dask.txt want.txt
  scheduled "parts imported by Dask"
else
  skip "parts imported by Dask" "Debian's python3-distributed isn't installed"
fi

if has sbatch sinfo && timeout 5 sinfo > /dev/null 2>&1; then
  cp ranges.txt plan
  timeout -k 10 300 sbatch --wait --requeue --array=1-4 --wrap "$import_part $country \$(sed -n \${SLURM_ARRAY_TASK_ID}p plan)" > got.txt 2> stderr.txt
  [ $? = 0 ] && pass "Slurm ends with 0" || fail "Slurm ends with 0"
  scheduled "parts imported by Slurm"
else
  skip "parts imported by Slurm" "no controller of Slurm answers"
fi
unset PBFROW
counted
