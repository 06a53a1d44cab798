#!/usr/bin/env bash
# Databases of parts of one file become one, as one import of the whole makes it.
. "$(dirname -- "${BASH_SOURCE[0]}")/begin.sh"
two=$top/data/two-nodes.osm.pbf
country=$top/data/liechtenstein-raw.osm.pbf
nl='
'
nodes="n 1 1000 -100 [] {}${nl}n 2 900 -100 [] {}${nl}"

rm -f whole.db part-*.db into.db other.db
"$pbfrow" import "$country" whole.db > got.txt
"$pbfrow" export whole.db > whole.txt

# four ranges of about equal length that begin at frames, as `list` has them, imported at once
size=$(stat -c %s "$country")
"$pbfrow" list "$country" | awk -v n=4 -v size="$size" '
  BEGIN { k = 1 }
  $1 >= k * size / n && $1 > from { print from + 0, $1; from = $1; while ($1 >= k * size / n) k++ }
  END { print from + 0, size }' > plan.txt
parts=0
while read -r from to; do
  parts=$((parts + 1))
  head -c "$to" "$country" | "$pbfrow" import /dev/stdin "part-$parts.db" --from "$from" > "part-$parts.txt" &
done < plan.txt
wait
[ "$parts" = 4 ] && pass "a plan of four parts" || fail "a plan of four parts"
stored=$(cat part-?.txt | awk '/^blobs/ { sum += $3 } END { print sum }')
[ "$stored" = 12 ] && pass "four imports at once" || fail "four imports at once"
"$pbfrow" merge into.db part-4.db part-3.db part-2.db part-1.db > got.txt
[ $? = 0 ] && pass "a merge in reverse order" || fail "a merge in reverse order"
awk '/^copied/ { copied += $2; held += $4 } END { print "blobs copied", copied, "held", held }' got.txt > want.txt
echo "blobs copied 12 held 0" >> want.txt
{ tail -n 1 got.txt; tail -n 1 got.txt; } > last.txt
same "its counts" last.txt want.txt
"$pbfrow" export into.db --size "$size" > got.txt
same "its export is that of one import" got.txt whole.txt
sound "sqlite3 finds a merge whole" into.db
expect "a second merge finds all of it" 0 "copied 0 held 12${nl}blobs copied 0 held 12${nl}" merge into.db whole.db

# killed as soon as the line of the first part is written, with three parts still to copy; and run again
rm -f into.db into.db-wal
"$pbfrow" merge into.db part-1.db part-2.db part-3.db part-4.db > killed.txt 2> stderr.txt &
for _ in $(seq 1000); do [ -s killed.txt ] && break; sleep 0.01; done
kill -9 $!
# until it is gone it has the lock
wait $! 2>/dev/null
grep -q '^copied' killed.txt && ! grep -q '^blobs' killed.txt && pass "a merge that is killed between two parts" || fail "a merge that is killed between two parts"
held=$("$pbfrow" status into.db | sed -n 's/^blobs \([0-9]*\) .*/\1/p')
[ "${held:-0}" -ge 1 ] && [ "${held:-0}" -lt 12 ] && pass "which has copied some of the blobs" || fail "which has copied some of the blobs ($held)"
"$pbfrow" merge into.db part-1.db part-2.db part-3.db part-4.db > got.txt
[ $? = 0 ] && pass "a merge after one that was killed" || fail "a merge after one that was killed"
"$pbfrow" export into.db --size "$size" > got.txt
same "and its export" got.txt whole.txt
sound "sqlite3 finds it whole" into.db

# what isn't of one file, and what is no database
rm -f into.db into.db-wal two.db
{ head -c 83 "$two"; printf '\002'; } > moved.osm.pbf
"$pbfrow" import moved.osm.pbf other.db > got.txt
"$pbfrow" import "$two" two.db > got.txt
"$pbfrow" import "$two" into.db --from 47 > got.txt
expect "a database of another file" 1 "fault 63 Differs at 47${nl}" merge into.db other.db
expect "what came before it was copied" 0 "blobs 2 end 84 gaps 0${nl}" status into.db
expect "and what was held stays" 0 "$nodes" export into.db
sound "which sqlite3 finds whole" into.db
expect "a database that isn't there" 1 "copied 0 held 2${nl}fault 66 NotThisStore${nl}" merge into.db two.db nowhere.db two.db
[ ! -e nowhere.db ] && pass "which isn't made" || fail "which isn't made"
rm -f blank.db*
: > blank.db
expect "an empty file that is to be copied" 1 "copied 0 held 2${nl}fault 66 NotThisStore${nl}" merge into.db two.db blank.db two.db
rm -f blank.db*
: > blank.db
expect "a merge into an empty file" 0 "copied 2 held 0${nl}blobs copied 2 held 0${nl}" merge blank.db two.db
expect "its export" 0 "$nodes" export blank.db --size 84
sound "which sqlite3 finds whole, too" blank.db
expect "into a folder that isn't there" 1 "fault 65 Disk${nl}" merge nowhere/into.db two.db
"$pbfrow" merge two.db two.db > got.txt
expect "a database into itself leaves it as it was" 0 "$nodes" export two.db --size 84
if has sqlite3; then
  rm -f into.db into.db-wal new.db new.db-wal
  . "$top/e2e/older.sh"
  older_two_nodes old.db
  expect "a database of an earlier version" 1 "fault 66 NotThisStore${nl}" merge into.db old.db two.db
  "$pbfrow" merge into.db old.db > got.txt 2> stderr.txt
  grep -q "pbfrow migrate" stderr.txt && pass "which is to be copied by migrate first" || fail "which is to be copied by migrate first"
  "$pbfrow" migrate old.db new.db > got.txt
  expect "its copy of this version and another one" 0 "copied 2 held 0${nl}copied 0 held 2${nl}blobs copied 2 held 2${nl}" merge into.db new.db two.db
else
  skip "a merge of a database of an earlier version" "sqlite3 isn't installed"
fi
if has python3; then
  python3 "$top/e2e/every_list.py" "$pbfrow" "$two" > got.txt && pass "each list of databases makes their union" || fail "each list of databases makes their union"
  sed 's/^/  /' got.txt
else
  skip "merges of lists of databases" "python3 isn't installed"
fi
counted
