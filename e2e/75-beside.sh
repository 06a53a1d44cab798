#!/usr/bin/env bash
# Views and tables of one's own, with their indexes, and what ANALYZE writes, beside pbfrow's tables: whenever they are made,
# they stay as they are, and the database is still read and written below SQL. So it is with indexes of one's own on pbfrow's
# tables, which get an entry for each row that is written.
. "$(dirname -- "${BASH_SOURCE[0]}")/begin.sh"
country=$top/data/liechtenstein-raw.osm.pbf
whole="blobs stored 12 held 0 bad 0 refused 0"

# own DATABASE: puts objects of one's own into it.
own() {
  sqlite3 "$1" "CREATE VIEW node AS SELECT off, pos, id, lat / 1e9 AS lat, lon / 1e9 AS lon FROM element WHERE kind = 0;
    CREATE TABLE mine (name TEXT, price REAL); INSERT INTO mine VALUES ('a', 1.5), ('b', 2.5), ('c', NULL);
    CREATE INDEX mine_by_name ON mine (name); CREATE UNIQUE INDEX mine_by_price ON mine (price) WHERE price > 2;
    CREATE TABLE strange (a TEXT PRIMARY KEY, b) WITHOUT ROWID; INSERT INTO strange VALUES ('x', 1), ('y', 2); ANALYZE"
}

# told_own DATABASE: what one's own objects are and hold.
told_own() {
  sqlite3 "$1" "SELECT type, name, tbl_name, sql FROM sqlite_schema ORDER BY rowid; SELECT rowid, * FROM mine; SELECT * FROM mine INDEXED BY mine_by_name WHERE name > 'a';
    SELECT * FROM mine INDEXED BY mine_by_price WHERE price > 2; SELECT * FROM strange; SELECT * FROM sqlite_stat1 ORDER BY tbl, idx"
}

# kept NAME DATABASE: one's own objects are as own.txt tells, sqlite3 finds the database whole, and it holds the extract.
kept() {
  told_own "$2" > got.txt
  same "$1: one's own objects are as they were" got.txt own.txt
  sound "$1: sqlite3 finds the database whole" "$2"
  "$pbfrow" export "$2" > got.txt
  same "$1: the export is that of the extract" got.txt export.txt
  expect "$1: verify --elements" 0 "blobs 12 missing 0 differs 0 extra 0${nl}" verify "$country" "$2" --elements
  echo "14690" > want.txt
  sqlite3 "$2" "SELECT id FROM node WHERE id = 14690" > got.txt
  same "$1: the view shows the rows" got.txt want.txt
}

# filled_beside NAME DATABASE COUNTS: makes objects of one's own in a database, and imports the extract, which ends with these counts.
filled_beside() {
  own "$2"
  told_own "$2" > own.txt
  "$pbfrow" import "$country" "$2" | tail -n 1 > got.txt
  lines "$3" > want.txt
  same "$1: an import ends with the counts" got.txt want.txt
  kept "$1" "$2"
}

# indexed DATABASE: makes indexes of one's own on pbfrow's tables.
indexed() {
  sqlite3 "$1" "CREATE INDEX tag_by_key ON tag (key, val); CREATE INDEX Tag_by_value ON TAG (val COLLATE NOCASE DESC);
    CREATE INDEX link_by_ref ON link (ref DESC, kind); CREATE INDEX element_by_place ON element (lat, lon DESC, off)"
}

# asked DATABASE WAY: what a query answers of each of them, by the index (INDEXED BY) or without it (NOT INDEXED).
asked() {
  local database=$1 index table test
  while read -r index table test; do
    if [ "$2" = by ]; then index="INDEXED BY $index"; else index="NOT INDEXED"; fi
    sqlite3 "$database" "SELECT rowid, * FROM $table $index WHERE $test ORDER BY rowid; SELECT count(*) FROM $table $index WHERE $test"
  done << 'EOF'
tag_by_key tag key > 'm' AND val > ''
Tag_by_value tag val COLLATE NOCASE >= 'm'
link_by_ref link ref > 10000
element_by_place element lat BETWEEN 47100000000 AND 47200000000
EOF
}

# complete NAME DATABASE: sqlite3 finds the database whole, with an entry for each row in each index, and queries answer the same by
# them as without them; it holds the extract.
complete() {
  sound "$1: sqlite3 finds the database whole" "$2"
  asked "$2" by > got.txt
  asked "$2" without > want.txt
  if [ -s want.txt ] && [ "$(grep -c -x 0 want.txt)" = 0 ]; then
    same "$1: queries answer the same by the indexes" got.txt want.txt
  else
    fail "$1: queries answer the same by the indexes"
    echo "  a query answers nothing"
  fi
  "$pbfrow" export "$2" > got.txt
  same "$1: the export is that of the extract" got.txt export.txt
  expect "$1: verify --elements" 0 "blobs 12 missing 0 differs 0 extra 0${nl}" verify "$country" "$2" --elements
}

# what takes the last blob out of a database
without_the_last="DELETE FROM blob WHERE off = 1259691; DELETE FROM element WHERE off = 1259691; DELETE FROM tag WHERE off = 1259691; DELETE FROM link WHERE off = 1259691"

# past INDEX DATABASE STATEMENT: runs a statement that this index isn't told of, so it lacks the entries of the rows that are written.
past() {
  local list="type, name, tbl_name, rootpage, sql"
  sqlite3 "$2" "PRAGMA writable_schema = ON; CREATE TEMP TABLE kept AS SELECT rowid AS at, $list FROM sqlite_schema WHERE name = '$1';
    DELETE FROM sqlite_schema WHERE name = '$1'; PRAGMA writable_schema = RESET; $3;
    PRAGMA writable_schema = ON; INSERT INTO sqlite_schema (rowid, $list) SELECT * FROM kept" > sqlite.txt
}

# memory WORD..: the most memory that the program takes, in kB.
memory() {
  /usr/bin/time -f %M -o time.txt "$pbfrow" "$@" > got.txt
  tail -n 1 time.txt
}

nl=$'\n'
if has sqlite3; then
  "$pbfrow" import "$country" plain.db > got.txt
  "$pbfrow" export plain.db > export.txt
  "$pbfrow" import "$country" part.db --to 1259691 > got.txt

  "$pbfrow" import /dev/null before.db > got.txt
  filled_beside "made before the first blob" before.db "$whole"
  "$pbfrow" import "$country" between.db --from 1259691 > got.txt
  filled_beside "made between two blobs" between.db "blobs stored 11 held 1 bad 0 refused 0"
  cp plain.db after.db
  filled_beside "made after the last blob" after.db "blobs stored 0 held 12 bad 0 refused 0"
  expect "find, beside one's own" 0 "$("$pbfrow" find plain.db n14690)${nl}" find after.db n14690
  expect "status, beside one's own" 0 "$("$pbfrow" status plain.db)${nl}" status after.db

  # parts are merged into a database that has them
  "$pbfrow" import /dev/null merged.db > got.txt
  own merged.db
  told_own merged.db > own.txt
  "$pbfrow" merge merged.db plain.db > got.txt
  kept "a merge beside one's own" merged.db

  # no row is looked at before the import begins, so that an index which lacks an entry doesn't matter
  cp before.db below.db
  past element_by_id below.db "UPDATE element SET id = id + 1 WHERE off = 98 AND pos = 0"
  "$pbfrow" import "$country" below.db 2> stderr.txt | tail -n 1 > got.txt
  lines "blobs stored 0 held 12 bad 0 refused 0" > want.txt
  same "an import beside one's own doesn't look through the database" got.txt want.txt
  indexed below.db
  "$pbfrow" import "$country" below.db 2> stderr.txt | tail -n 1 > got.txt
  lines "blobs stored 0 held 12 bad 0 refused 0" > want.txt
  same "nor beside indexes of one's own on pbfrow's tables" got.txt want.txt
  # an index that a put doesn't keep stops what writes and verify, and is named; other commands read past it
  while IFS='|' read -r index made; do
    cp plain.db other.db
    sqlite3 other.db "$without_the_last; $made"
    echo "pbfrow: other.db: its index $index is UNIQUE, of an expression, with WHERE, of a collation of your own, or on blob or meta, which pbfrow doesn't keep up to date: DROP INDEX \"$index\", and make it again behind the import" > reason.txt
    sha256sum other.db > sums.txt
    for words in "import $country other.db" "merge other.db plain.db" "verify $country other.db" "verify $country other.db --elements"; do
      # shellcheck disable=SC2086
      expect "$made: ${words%% *} is refused" 1 "fault 65 Disk${nl}" $words
      same "$made: it is named" stderr.txt reason.txt
    done
    expect "$made: commands that ask read past it" 0 "$("$pbfrow" find plain.db n14690)${nl}" find other.db n14690
    [ ! -s stderr.txt ] && pass "$made: and nothing is told by them" || fail "$made: and nothing is told by them"
    expect "$made: status" 0 "blobs 11 end 1259691 gaps 0${nl}" status other.db
    "$pbfrow" export other.db > got.txt
    "$pbfrow" export part.db > want.txt
    same "$made: the export is that of the part" got.txt want.txt
    sha256sum -c --status sums.txt && pass "$made: nothing is written" || fail "$made: nothing is written"
    sqlite3 other.db "DROP INDEX \"$index\""
    "$pbfrow" import "$country" other.db 2> stderr.txt | tail -n 1 > got.txt
    lines "blobs stored 1 held 11 bad 0 refused 0" > want.txt
    same "$made: an import of the rest once it is dropped" got.txt want.txt
    sqlite3 other.db "$made"
    sound "$made: and once it is made again sqlite3 finds the database whole" other.db
  done << 'END'
other|CREATE UNIQUE INDEX other ON tag (off, pos, k)
other|CREATE UNIQUE INDEX other ON tag (val DESC, off, pos, k)
other|CREATE INDEX other ON blob (kind)
other|CREATE INDEX other ON meta (version)
an other|CREATE INDEX "an other" ON tag (lower(key))
other|CREATE INDEX other ON Tag (key) WHERE val = 'x'
END
  if has python3; then
    cp plain.db other.db
    # its entries are in an order that only that program knows
    python3 - << 'END'
import sqlite3
base = sqlite3.connect("other.db")
base.create_collation("mine", lambda a, b: (b > a) - (b < a))
base.execute("CREATE INDEX other ON tag (val COLLATE mine)")
base.commit()
END
    expect "an index of a program's own collation: import is refused" 1 "fault 65 Disk${nl}" import "$country" other.db
    grep -q "^pbfrow: other.db: its index other is UNIQUE, .*of a collation of your own" stderr.txt && pass "and it is named" || fail "and it is named"
    expect "an index of a program's own collation: verify is refused" 1 "fault 65 Disk${nl}" verify "$country" other.db
    grep -q "^pbfrow: other.db: its index other is UNIQUE, .*of a collation of your own" stderr.txt && pass "and it is named by that" || fail "and it is named by that"
    "$pbfrow" export other.db > got.txt
    same "an index of a program's own collation: export" got.txt export.txt
  else
    skip "an index of a program's own collation" "python3 isn't installed"
  fi

  # indexes that are made before the first blob, between two and after the last
  "$pbfrow" import /dev/null indexed.db > got.txt
  indexed indexed.db
  "$pbfrow" import "$country" indexed.db | tail -n 1 > got.txt
  lines "$whole" > want.txt
  same "an import of all, with indexes that were made before it" got.txt want.txt
  complete "indexes made before the first blob" indexed.db
  rm indexed.db
  "$pbfrow" import "$country" indexed.db --from 1259691 > got.txt
  indexed indexed.db
  own indexed.db
  told_own indexed.db > own.txt
  "$pbfrow" import "$country" indexed.db | tail -n 1 > got.txt
  lines "blobs stored 11 held 1 bad 0 refused 0" > want.txt
  same "an import of the rest, with indexes that were made between two" got.txt want.txt
  kept "with indexes, one's own objects" indexed.db
  complete "indexes made between two blobs" indexed.db
  cp plain.db indexed.db
  indexed indexed.db
  "$pbfrow" import "$country" indexed.db | tail -n 1 > got.txt
  lines "blobs stored 0 held 12 bad 0 refused 0" > want.txt
  same "an import of what is held, with indexes that were made after it" got.txt want.txt
  complete "indexes made after the last blob" indexed.db

  # verify looks at them below SQL, and names one that lacks the entry of a row
  while read -r index statement; do
    cp indexed.db damaged.db
    past "$index" damaged.db "$statement"
    expect "verify of a database whose index $index lacks an entry" 1 "fault 65 Disk${nl}" verify "$country" damaged.db
    echo "pbfrow: damaged.db: damaged: its index $index has not one entry for each row" > want.txt
    same "it is named: $index" stderr.txt want.txt
  done << 'EOF'
tag_by_key UPDATE tag SET val = val || 'x' WHERE rowid = 1000
Tag_by_value UPDATE tag SET val = val || 'x' WHERE rowid = 1000
link_by_ref UPDATE link SET ref = ref + 1 WHERE rowid = 1000
element_by_place UPDATE element SET lat = lat + 1 WHERE rowid = 1000
EOF
  # and one that has an entry of no row: a row is deleted past it
  cp indexed.db damaged.db
  sqlite3 damaged.db "INSERT INTO tag (off, pos, k, key, val) SELECT off, pos, 9999, 'a', 'b' FROM tag WHERE rowid = 1000"
  past tag_by_key damaged.db "DELETE FROM tag WHERE k = 9999"
  expect "verify of a database whose index has an entry of no row" 1 "fault 65 Disk${nl}" verify "$country" damaged.db --elements
  echo "pbfrow: damaged.db: damaged: its index tag_by_key has not one entry for each row" > want.txt
  same "which is named" stderr.txt want.txt
  # and one whose text tells of its columns in another order
  cp indexed.db damaged.db
  sqlite3 damaged.db "PRAGMA writable_schema = ON; UPDATE sqlite_schema SET sql = 'CREATE INDEX tag_by_key ON tag (val, key)' WHERE name = 'tag_by_key'"
  expect "verify of a database whose index has another text" 1 "fault 65 Disk${nl}" verify "$country" damaged.db --elements
  # the indexes and views that come with the program
  "$pbfrow" import "$country" taken.db --from 1259691 > got.txt
  sqlite3 taken.db < "$top/examples/views.sql" > got.txt 2>&1
  lines > want.txt
  same "the example's indexes and views are made" got.txt want.txt
  "$pbfrow" import "$country" taken.db | tail -n 1 > got.txt
  lines "blobs stored 11 held 1 bad 0 refused 0" > want.txt
  same "an import of the rest, beside the example's" got.txt want.txt
  sound "sqlite3 finds the database whole, beside the example's" taken.db
  sqlite3 taken.db "SELECT count(*) FROM node; SELECT count(*) FROM way_node; SELECT count(*) FROM member; SELECT count(*), count(lat), count(lon), count(name) FROM place; SELECT count(*) FROM tag INDEXED BY tag_by_key WHERE key >= ''; SELECT count(*) FROM link INDEXED BY link_by_ref WHERE kind >= 0" > got.txt
  sqlite3 plain.db "SELECT count(*) FROM element WHERE kind = 0; SELECT count(*) FROM link JOIN element USING (off, pos) WHERE element.kind = 1 AND ref IN (SELECT id FROM element WHERE kind = 0);
    SELECT count(*) FROM link JOIN element USING (off, pos) WHERE element.kind = 2;
    SELECT total, placed, placed, (SELECT count(*) FROM tag JOIN element USING (off, pos) WHERE kind < 2 AND key = 'name') FROM (SELECT count(*) AS total FROM element WHERE kind < 2),
      (SELECT count(*) AS placed FROM (SELECT off, pos FROM element WHERE kind = 0 UNION SELECT off, pos FROM element JOIN link USING (off, pos) WHERE element.kind = 1 AND ref IN (SELECT id FROM element WHERE kind = 0)));
    SELECT count(*) FROM tag; SELECT count(*) FROM link" > want.txt
  same "the example's views and indexes show all rows" got.txt want.txt

  if [ -x /usr/bin/time ]; then
    without=$(memory import "$country" plain.db)
    beside=$(memory import "$country" after.db)
    if [ "$beside" -le $((without * 5 / 4)) ]; then
      pass "an import of what is held takes the memory that it takes without them"
    else
      fail "an import of what is held takes the memory that it takes without them"
      echo "  it takes $beside kB, and $without without them"
    fi
    without=$(memory verify "$country" plain.db --elements)
    beside=$(memory verify "$country" indexed.db --elements)
    if [ "$beside" -le $((without * 5 / 4)) ]; then
      pass "verify of a database with indexes of one's own takes the memory that it takes without them"
    else
      fail "verify of a database with indexes of one's own takes the memory that it takes without them"
      echo "  it takes $beside kB, and $without without them"
    fi
  else
    skip "the memory that an import and verify take beside one's own" "/usr/bin/time isn't there"
  fi

  # kills
  went_on=yes
  for moment in 0.02 0.04 0.07 0.1 0.14 0.18 0.25 0.4; do
    rm -f killed.db*
    "$pbfrow" import /dev/null killed.db > got.txt
    own killed.db
    indexed killed.db
    told_own killed.db > own.txt
    "$pbfrow" import "$country" killed.db > got.txt 2> stderr.txt &
    pid=$!
    sleep "$moment"
    kill -9 "$pid" 2> /dev/null
    wait "$pid" 2> /dev/null
    "$pbfrow" import "$country" killed.db > got.txt
    told_own killed.db > got.txt
    cmp -s got.txt own.txt || went_on="one's own objects changed"
    [ "$(sqlite3 killed.db "PRAGMA integrity_check" 2>&1)" = ok ] || went_on="sqlite3 finds a fault"
    asked killed.db by > got.txt
    asked killed.db without > want.txt
    cmp -s got.txt want.txt || went_on="a query answers otherwise by an index"
    "$pbfrow" export killed.db > got.txt
    cmp -s got.txt export.txt || went_on="the export is another"
  done
  if [ "$went_on" = yes ]; then
    pass "imports that were killed beside one's own go on"
  else
    fail "imports that were killed beside one's own go on"
    echo "  $went_on"
  fi
else
  skip "a database with views and tables of one's own" "sqlite3 isn't installed"
fi
counted
