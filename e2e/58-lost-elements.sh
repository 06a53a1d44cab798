#!/usr/bin/env bash
# Databases in which a blob has more or fewer elements than its row says: `export`, `merge` and `migrate` stop at that blob
# with fault 66 and its offset. What comes before it is written and copied, and nothing of it.
. "$(dirname -- "${BASH_SOURCE[0]}")/begin.sh"
two=$top/data/two-nodes.osm.pbf
country=$top/data/liechtenstein-raw.osm.pbf
nl=$'\n'
nodes="n 1 1000 -100 [] {}${nl}n 2 900 -100 [] {}${nl}"

# stops NAME OFFSET BLOBS STATEMENT: in the database of the two-node file the statement changes how many elements the blob at
# this offset has, or should have. So many blobs come before it.
stops() {
  local line="fault 66 NotThisStore at $2" before
  rm -f changed.db* into.db*
  cp sound.db changed.db
  sqlite3 changed.db "$4"
  expect "$1: an export" 1 "$line$nl" export changed.db
  "$pbfrow" export changed.db --form pbf > changed.osm.pbf
  [ $? = 1 ] && [ "$(tail -c $((${#line} + 1)) changed.osm.pbf)" = "$line" ] && pass "$1: an export as PBF" || fail "$1: an export as PBF"
  expect "$1: the counts" 1 "$line$nl" status changed.db --counts
  before=$(($(stat -c %s changed.osm.pbf) - ${#line} - 1))
  head -c "$before" changed.osm.pbf > front.osm.pbf
  head -c "$before" sound.osm.pbf > want.osm.pbf
  same "$1: which has written a front of the file" front.osm.pbf want.osm.pbf
  expect "$1: a merge" 1 "$line$nl" merge into.db changed.db
  sqlite3 into.db "SELECT count(*) FROM blob; SELECT count(*) FROM element" > got.txt
  lines "$3" 0 > want.txt
  same "$1: which has copied nothing of the blob" got.txt want.txt
  sound "$1: sqlite3 finds the copy whole" into.db
  expect "$1: a merge of the sound one goes on from there" 0 "copied $((2 - $3)) held $3${nl}blobs copied $((2 - $3)) held $3${nl}" merge into.db sound.db
  expect "$1: its export" 0 "$nodes" export into.db --size 84
}

if has sqlite3; then
  "$pbfrow" import "$two" sound.db > got.txt
  "$pbfrow" export sound.db --form pbf > sound.osm.pbf
  stops "the last element is lost" 47 1 "DELETE FROM element WHERE off = 47 AND pos = 1"
  stops "all elements are lost" 47 1 "DELETE FROM element WHERE off = 47"
  stops "an element is added" 47 1 "INSERT INTO element (off, pos, kind, id, lat, lon) VALUES (47, 2, 0, 3, 0, 0)"
  stops "an element is added to the header" 0 0 "INSERT INTO element (off, pos, kind, id, lat, lon) VALUES (0, 0, 0, 3, 0, 0)"
  stops "the row of the blob says one more" 47 1 "UPDATE blob SET n = 3 WHERE off = 47"
  stops "the row of the blob says one less" 47 1 "UPDATE blob SET n = 1 WHERE off = 47"
  stops "the row of the blob says none" 47 1 "UPDATE blob SET n = 0 WHERE off = 47"

  # of several databases, and where the other has the blob already
  "$pbfrow" import "$two" header.db --to 47 > got.txt
  "$pbfrow" import "$two" nodes.db --from 47 > got.txt
  sqlite3 nodes.db "DELETE FROM element WHERE pos = 1"
  expect "an export of two databases, of which one has lost an element" 1 "fault 66 NotThisStore at 47${nl}" export nodes.db header.db
  expect "and their counts" 1 "fault 66 NotThisStore at 47${nl}" status nodes.db header.db --counts
  rm -f into.db*
  cp sound.db into.db
  expect "a blob that is held already isn't copied" 0 "copied 0 held 1${nl}blobs copied 0 held 1${nl}" merge into.db nodes.db
  expect "and stays" 0 "$nodes" export into.db --size 84

  # a database of the first layout
  . "$top/e2e/older.sh"
  older_two_nodes old.db
  sqlite3 old.db "DELETE FROM body WHERE off = 47 AND pos = 1"
  expect "an older database that has lost an element" 1 "fault 66 NotThisStore at 47${nl}" migrate old.db new.db
  sqlite3 new.db "SELECT count(*) FROM blob; SELECT count(*) FROM element" > got.txt
  lines 1 0 > want.txt
  same "of whose blob nothing is copied" got.txt want.txt
  sound "sqlite3 finds that copy whole" new.db

  # a real extract: the last element of one of its blobs, with its tags and links
  rm -f into.db*
  "$pbfrow" import "$country" whole.db > got.txt
  "$pbfrow" export whole.db > whole.txt
  cp whole.db lost.db
  off=$(sqlite3 lost.db "SELECT off FROM blob WHERE n > 0 ORDER BY off LIMIT 1 OFFSET 3")
  for table in link tag element; do
    sqlite3 lost.db "DELETE FROM $table WHERE off = $off AND pos = (SELECT n - 1 FROM blob WHERE off = $off)"
  done
  head -n "$(sqlite3 lost.db "SELECT sum(n) FROM blob WHERE off < $off")" whole.txt > front.txt
  "$pbfrow" export lost.db > got.txt
  [ $? = 1 ] && pass "an export of an extract that has lost an element" || fail "an export of an extract that has lost an element"
  { cat front.txt; lines "fault 66 NotThisStore at $off"; } > want.txt
  same "which has written the blobs before" got.txt want.txt
  expect "a merge of it" 1 "fault 66 NotThisStore at $off${nl}" merge into.db lost.db
  "$pbfrow" export into.db > got.txt
  same "which has copied the blobs before" got.txt front.txt
  for table in blob element tag link; do sqlite3 into.db "SELECT count(*) FROM $table WHERE off >= $off"; done > got.txt
  lines 0 0 0 0 > want.txt
  same "and nothing else" got.txt want.txt
  sound "sqlite3 finds it whole" into.db
  "$pbfrow" import "$country" into.db > got.txt
  "$pbfrow" export into.db > got.txt
  same "an import of the file stores the rest" got.txt whole.txt
else
  skip "blobs that have lost elements" "sqlite3 isn't installed"
fi
counted
