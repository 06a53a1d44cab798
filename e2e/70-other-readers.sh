#!/usr/bin/env bash
# The database and the exports, read by sqlite3 and osmium.
. "$(dirname -- "${BASH_SOURCE[0]}")/begin.sh"
country=$top/data/liechtenstein-raw.osm.pbf
rm -f country.db
"$pbfrow" import "$country" country.db > imported.txt
tail -n 1 imported.txt > last.txt
echo "blobs stored 12 held 0 bad 0 refused 0" > want.txt
same "a real extract is imported" last.txt want.txt

if has sqlite3; then
  sqlite3 country.db "PRAGMA integrity_check" > integrity.txt
  echo ok > want.txt
  same "sqlite3 finds the database whole" integrity.txt want.txt
  sqlite3 country.db "SELECT count(*), sum(n), max(fin) FROM blob; SELECT version FROM meta" > counts.txt
  printf '%s\n' "12|72967|1311970" "$(schema_version)" > want.txt
  same "sqlite3 counts its blobs and elements" counts.txt want.txt
  sqlite3 country.db "SELECT kind, count(*) FROM element GROUP BY kind; SELECT count(*) FROM tag; SELECT count(*) FROM link" > counts.txt
  # as counted by a program over libosmium (bench/peers/store_tables.cpp)
  printf '%s\n' "0|65733" "1|7121" "2|113" 19393 82787 > want.txt
  same "sqlite3 counts its nodes, ways, relations, tags and links" counts.txt want.txt
  sqlite3 country.db "SELECT id, lat, lon, val FROM element JOIN tag USING (off, pos) WHERE kind = 0 AND id = 14690 AND key = 'name'" > node.txt
  echo "14690|47108300100|9525306100|Cafe Frommelt" > want.txt
  same "sqlite3 reads a node and its tag" node.txt want.txt
  sqlite3 country.db "SELECT k, link.kind, ref, role FROM element JOIN link USING (off, pos) WHERE element.kind = 1 AND id = 1367 ORDER BY k LIMIT 3" > way.txt
  printf '%s\n' "0|0|15721|" "1|0|15718|" "2|0|15720|" > want.txt
  same "sqlite3 reads the nodes of a way" way.txt want.txt

  # a database to one of whose tables somebody has added an index shows the same rows
  rm -f indexed.db
  "$pbfrow" import /dev/null indexed.db > got.txt
  sqlite3 indexed.db "CREATE INDEX mine ON tag (key)"
  "$pbfrow" import "$country" indexed.db > got.txt
  same "an import beside an index of one's own" got.txt imported.txt
  sqlite3 indexed.db "DROP INDEX mine"
  sqlite3 indexed.db .dump > got.sql
  sqlite3 country.db .dump > want.sql
  same "its rows" got.sql want.sql

  # what sqlite3 leaves of a database that holds nothing, before an import
  # imports_after NAME STATEMENTS STATUS TEXT: an import of the two-node file behind these statements.
  imports_after() {
    rm -f changed.db*
    "$pbfrow" import /dev/null changed.db > got.txt
    sqlite3 changed.db "$2" > got.txt
    expect "an import after $1" "$3" "$4" import "$top/data/two-nodes.osm.pbf" changed.db
    sound "which is found whole after $1" changed.db
  }
  stored=$'0 stored 0\n47 stored 2\nblobs stored 2 held 0 bad 0 refused 0\n'
  imports_after "VACUUM" "VACUUM" 0 "$stored"
  imports_after "another page size" "PRAGMA journal_mode = DELETE; PRAGMA page_size = 512; VACUUM" 0 "$stored"
  imports_after "a rollback journal" "PRAGMA journal_mode = DELETE; CREATE TABLE gone (a); DROP TABLE gone" 0 "$stored"
  imports_after "a log of its own" "PRAGMA journal_mode = WAL; CREATE TABLE gone (a); DROP TABLE gone" 0 "$stored"
  imports_after "ANALYZE" "ANALYZE" 0 "$stored"
  imports_after "a column of one's own" "ALTER TABLE element ADD COLUMN more INTEGER" 1 $'fault 65 Disk\n'
  imports_after "a column of one's own that is gone again" "ALTER TABLE element ADD COLUMN more INTEGER; ALTER TABLE element DROP COLUMN more" 0 "$stored"
  imports_after "an index of one's own" "CREATE INDEX element_by_place ON element (lat, lon)" 0 "$stored"
  imports_after "an index that is gone" "DROP INDEX element_by_id" 1 $'fault 65 Disk\n'
  imports_after "a view and a table of one's own" "CREATE VIEW node AS SELECT * FROM element WHERE kind = 0; CREATE TABLE mine (name TEXT PRIMARY KEY) WITHOUT ROWID" 0 "$stored"
  imports_after "a trigger" "CREATE TABLE mine (name TEXT); CREATE TRIGGER told AFTER INSERT ON element BEGIN DELETE FROM mine; END" 1 $'fault 65 Disk\n'
  imports_after "a row in the place of one of the file" "INSERT INTO element (off, pos, kind, id) VALUES (47, 0, 0, 1)" 1 $'0 stored 0\nfault 65 Disk at 47\n'

  # what somebody else puts into the database, between two imports
  rm -f own.db
  "$pbfrow" import "$country" own.db --from 1259691 > imported.txt
  sqlite3 own.db "CREATE INDEX tag_by_key ON tag (key, val); CREATE TABLE mine (name TEXT); INSERT INTO mine VALUES ('a'); \
    CREATE VIEW node AS SELECT off, pos, id, lat / 1e9 AS lat, lon / 1e9 AS lon FROM element WHERE kind = 0"
  "$pbfrow" import "$country" own.db | tail -n 1 > last.txt
  echo "blobs stored 11 held 1 bad 0 refused 0" > want.txt
  same "an import beside indexes, views and tables of one's own" last.txt want.txt
  "$pbfrow" export country.db > export.txt
  "$pbfrow" export own.db > got.txt
  same "its export" got.txt export.txt
  sqlite3 own.db "PRAGMA integrity_check; SELECT name FROM mine; SELECT id FROM node JOIN tag USING (off, pos) WHERE key = 'amenity' AND val = 'pub' ORDER BY id" > got.txt
  printf '%s\n' ok a 14688 15197 > want.txt
  same "in which one's own is still there, and complete" got.txt want.txt
  sqlite3 own.db "CREATE TRIGGER told AFTER INSERT ON element BEGIN DELETE FROM mine; END"
  "$pbfrow" export own.db > got.txt
  same "an export beside a trigger on a table of the database" got.txt export.txt
  expect "which takes no import" 1 $'fault 65 Disk\n' import "$country" own.db
  sqlite3 own.db "DROP TRIGGER told"
  expect "until it is dropped" 0 "$("$pbfrow" import "$country" country.db)"$'\n' import "$country" own.db
else
  skip "the database under sqlite3" "sqlite3 isn't installed"
fi

if has osmium; then
  "$pbfrow" export country.db --form pbf > country-out.osm.pbf
  osmium cat -f opl "$country" -o want.opl --overwrite
  osmium cat -f opl country-out.osm.pbf -o got.opl --overwrite
  same "osmium reads the exported file to the same elements" got.opl want.opl
  osmium fileinfo -e -g data.count.nodes country-out.osm.pbf > nodes.txt
  echo 65733 > want.txt
  same "osmium counts the nodes of the exported file" nodes.txt want.txt
else
  skip "the exported file under osmium" "osmium isn't installed"
fi
counted
