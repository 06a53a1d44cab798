#!/usr/bin/env bash
# Databases that hold blobs of one file are asked as one, in any order.
. "$(dirname -- "${BASH_SOURCE[0]}")/begin.sh"
. "$top/e2e/locks.sh"
. "$top/e2e/older.sh"
two=$top/data/two-nodes.osm.pbf
country=$top/data/liechtenstein-raw.osm.pbf
nl='
'
"$pbfrow" import "$country" whole.db > got.txt
"$pbfrow" export whole.db > whole.txt
"$pbfrow" export whole.db --form pbf > whole.osm.pbf
size=$(stat -c %s "$country")

"$pbfrow" ranges "$country" 4 > plan.txt
parts=0
while read -r from to; do
  parts=$((parts + 1))
  tail -c +$((from + 1)) "$country" | head -c $((to - from)) | "$pbfrow" import /dev/stdin "part-$parts.db" --at "$from" --to "$to" > "part-$parts.txt"
done < plan.txt
[ "$parts" = 4 ] && pass "a plan of four parts" || fail "a plan of four parts"
sha256sum part-?.db > sums.txt
for order in "1 2 3 4" "4 3 2 1" "3 1 4 2"; do
  files=$(for part in $order; do echo "part-$part.db"; done)
  expect "status of parts $order" 0 "blobs 12 end $size gaps 0${nl}" status $files --size "$size"
  "$pbfrow" export $files --size "$size" > got.txt
  same "lines of parts $order" got.txt whole.txt
  "$pbfrow" export $files --form pbf > got.osm.pbf
  same "PBF of parts $order" got.osm.pbf whole.osm.pbf
done

# the counts of the elements, of one database and of several, as osmium and sqlite3 have them
milliseconds() { echo "$(date -ud "$(osmium fileinfo -e -g "data.timestamp.$1" "$country")" +%s)000"; }
counts() { osmium fileinfo -e -g "data.count.$1" "$country"; }
"$pbfrow" status whole.db --counts > counts.txt
"$pbfrow" status part-4.db part-2.db part-1.db part-3.db --counts > got.txt
same "the counts of parts" got.txt counts.txt
"$pbfrow" status part-4.db part-1.db part-3.db whole.db part-2.db part-2.db --counts --size "$size" > got.txt
same "and of parts that hold the same" got.txt counts.txt
if has osmium; then
  grep -E '^(nodes|oldest) ' counts.txt > got.txt
  lines "nodes $(counts nodes) ways $(counts ways) relations $(counts relations)" "oldest $(milliseconds first) newest $(milliseconds last)" > want.txt
  same "osmium counts as many, and finds the same times" got.txt want.txt
else
  skip "the counts are osmium's" "osmium isn't installed"
fi
if has sqlite3; then
  tail -n 3 counts.txt > got.txt
  sqlite3 -readonly whole.db "SELECT format('nodes %d ways %d relations %d', sum(kind = 0), sum(kind = 1), sum(kind = 2)) FROM element;
    SELECT format('tags %d links %d', (SELECT count(*) FROM tag), (SELECT count(*) FROM link));
    SELECT format('oldest %d newest %d', min(time), max(time)) FROM element" > want.txt
  same "and sqlite3 counts as many rows" got.txt want.txt
else
  skip "the counts are those of the rows" "sqlite3 isn't installed"
fi

# some of the parts
blobs_of() { awk '/^blobs/ { print $3 }' "part-$1.txt"; }
read -r second third < <(sed -n 2p plan.txt)
read -r last _ < <(tail -n 1 plan.txt)
left=$((12 - $(blobs_of 2)))
expect "status without the second part" 0 "gap $second $third${nl}blobs $left end $size gaps 1${nl}" status part-4.db part-1.db part-3.db
expect "its export is refused" 1 "fault 67 Incomplete${nl}" export part-4.db part-1.db part-3.db
expect "and as PBF" 1 "fault 67 Incomplete${nl}" export part-4.db part-1.db part-3.db --form pbf
for part in 1 3 4; do "$pbfrow" export "part-$part.db" --partial; done > want.txt
"$pbfrow" export part-4.db part-1.db part-3.db --partial > got.txt
same "a partial one has the lines of the others" got.txt want.txt
left=$((12 - $(blobs_of 4)))
expect "the last part isn't missed without the size" 0 "blobs $left end $last gaps 0${nl}" status part-3.db part-2.db part-1.db
expect "but with it" 0 "gap $last $size${nl}blobs $left end $last gaps 1${nl}" status part-3.db part-2.db part-1.db --size "$size"
expect "which an export is refused for" 1 "fault 67 Incomplete${nl}" export part-3.db part-2.db part-1.db --size "$size"
expect "a size before the end" 1 "fault 70 PastEnd${nl}" export part-1.db part-2.db --size 98

# the same blob in several databases
expect "one database twice" 0 "blobs $(($(blobs_of 1) + $(blobs_of 2))) end $third gaps 0${nl}" status part-1.db part-2.db part-1.db
"$pbfrow" export part-1.db part-2.db --partial > want.txt
"$pbfrow" export part-1.db part-2.db part-1.db --partial > got.txt
same "its export" got.txt want.txt
expect "a part and the whole" 0 "blobs 12 end $size gaps 0${nl}" status part-2.db whole.db
"$pbfrow" export part-2.db whole.db > got.txt
same "their lines" got.txt whole.txt
"$pbfrow" export whole.db part-2.db part-4.db whole.db --form pbf > got.osm.pbf
same "the whole and parts as PBF" got.osm.pbf whole.osm.pbf

# databases whose blobs come in turn: the first blobs, each second one in the other database
"$pbfrow" list "$country" | awk '{ print $1 }' > from.txt
{ tail -n +2 from.txt; echo "$size"; } | paste -d ' ' from.txt - > blobs.txt
in_turn() {
  local index=0 from to
  rm -f turn-0.db turn-1.db
  while read -r from to; do
    tail -c +$((from + 1)) "$country" | head -c $((to - from)) | "$pbfrow" import /dev/stdin "turn-$((index % 2)).db" --at "$from" > got.txt
    index=$((index + 1))
  done < <(head -n "$1" blobs.txt)
}
in_turn 4
read -r _ end < <(sed -n 4p blobs.txt)
head -c "$end" "$country" > four.osm.pbf
"$pbfrow" import four.osm.pbf four.db > got.txt
expect "four blobs in turn" 0 "blobs 4 end $end gaps 0${nl}" status turn-1.db turn-0.db
"$pbfrow" export four.db > want.txt
"$pbfrow" export turn-0.db turn-1.db > got.txt
same "their lines" got.txt want.txt
"$pbfrow" export four.db --form pbf > want.osm.pbf
"$pbfrow" export turn-1.db turn-0.db --form pbf > got.osm.pbf
same "their PBF" got.osm.pbf want.osm.pbf
in_turn 5
read -r next _ < <(sed -n 2p blobs.txt)
expect "five blobs in turn" 1 "fault 71 Interleaved at $next${nl}" status turn-0.db turn-1.db
expect "their export" 1 "fault 71 Interleaved at $next${nl}" export turn-1.db turn-0.db
expect "their export, whatever is there" 1 "fault 71 Interleaved at $next${nl}" export turn-0.db turn-1.db --partial --form pbf
in_turn 12
expect "all blobs in turn" 1 "fault 71 Interleaved at $next${nl}" status turn-0.db turn-1.db
"$pbfrow" merge both.db turn-0.db turn-1.db > got.txt
"$pbfrow" export both.db > got.txt
same "a merge takes them" got.txt whole.txt

# databases that aren't of one file
"$pbfrow" import "$two" two-nodes.db > got.txt
expect "databases of two files" 1 "fault 63 Differs at 0${nl}" status whole.db two-nodes.db
expect "their export, whatever is there" 1 "fault 63 Differs at 0${nl}" export two-nodes.db whole.db --partial
tail -c +48 "$two" | "$pbfrow" import /dev/stdin over.db --at 50 > got.txt
expect "a blob inside another" 1 "fault 64 Overlap at 50${nl}" status over.db whole.db
expect "its export" 1 "fault 64 Overlap at 50${nl}" export whole.db over.db --form pbf

# what is no part
"$pbfrow" import "$two" some.db --from 47 > got.txt
"$pbfrow" import /dev/null none.db > got.txt
expect "one that holds nothing" 0 "blobs 2 end 84 gaps 0${nl}" status none.db two-nodes.db none.db
expect "two that hold nothing" 0 "gap 0 84${nl}blobs 0 end 0 gaps 1${nl}" status none.db none.db --size 84
expect "their export" 1 "fault 67 Incomplete${nl}" export none.db none.db
expect "one that isn't there" 1 "fault 66 NotThisStore${nl}" status some.db nowhere.db
expect "an export of one that isn't there" 1 "fault 66 NotThisStore${nl}" export nowhere.db some.db
[ ! -e nowhere.db ] && pass "which isn't made" || fail "which isn't made"
head -c 5000 part-3.db > cut.db
for command in status export; do
  got=$("$pbfrow" "$command" part-1.db part-2.db cut.db 2>/dev/null; echo "status $?")
  case "$got" in
    "fault 6"[56]" "*"status 1") pass "$command with a damaged one" ;;
    *) fail "$command with a damaged one"; echo "  got $got" ;;
  esac
done

# a thousand databases; in memory if that can be had, since each opening waits for the disk
many=$(mktemp -d -p /dev/shm 2>/dev/null || mktemp -d)
cp part-1.db part-2.db part-3.db part-4.db "$many"
expect "a thousand databases" 0 "blobs 12 end $size gaps 0${nl}" status $(for _ in $(seq 250); do echo "$many"/part-{4,2,1,3}.db; done) --size "$size"
rm -rf "$many"

if has python3; then
  lock_database part-2.db
  expect "status with one that another program has locked" 1 "fault 65 Disk${nl}" status part-1.db part-2.db part-3.db part-4.db
  expect "export with one" 1 "fault 65 Disk${nl}" export part-1.db part-2.db part-3.db part-4.db
  unlock_database
  expect "status when it is free again" 0 "blobs 12 end $size gaps 0${nl}" status part-1.db part-2.db part-3.db part-4.db
else
  skip "one that another program has locked" "python3 isn't installed"
fi
if has sqlite3; then
  older_two_nodes old.db
  expect "one of an earlier version" 1 "fault 66 NotThisStore${nl}" status some.db old.db
  expect "an export of one" 1 "fault 66 NotThisStore${nl}" export old.db some.db
else
  skip "one of an earlier version" "sqlite3 isn't installed"
fi
sha256sum -c --quiet sums.txt && pass "nothing was written to a part" || fail "nothing was written to a part"
counted
