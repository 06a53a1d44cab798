#!/usr/bin/env bash
# Whatever else stands in a database, and in whatever order its list has it: virtual tables, triggers, statistics, as VACUUM or a
# dump leave them. It is read and written below SQL, and nothing of it changes. A trigger on one of pbfrow's own tables stops
# what writes, and is named.
. "$(dirname -- "${BASH_SOURCE[0]}")/begin.sh"
country=$top/data/liechtenstein-raw.osm.pbf
sound_whole="blobs 12 missing 0 differs 0 extra 0"

# what takes the last blob out of a database
without_the_last="DELETE FROM blob WHERE off = 1259691; DELETE FROM element WHERE off = 1259691; DELETE FROM tag WHERE off = 1259691; DELETE FROM link WHERE off = 1259691"

# own DATABASE: puts objects of one's own into it: a table and a trigger on that, two kinds of virtual tables with what they
# hold, a view with a trigger, a table without rowids, an index on a table of pbfrow's, and statistics.
own() {
  sqlite3 "$1" "CREATE TABLE mine (name TEXT, price REAL); CREATE TABLE log (at TEXT);
    CREATE TRIGGER logged AFTER INSERT ON mine BEGIN INSERT INTO log VALUES (new.name); END;
    INSERT INTO mine VALUES ('a', 1.5), ('b', NULL); CREATE INDEX mine_by_name ON mine (name);
    CREATE VIRTUAL TABLE words USING fts5 (word); INSERT INTO words VALUES ('Vaduz'), ('Schaan und Vaduz');
    CREATE VIRTUAL TABLE boxes USING rtree (id, west, east, south, north); INSERT INTO boxes VALUES (1, 9, 10, 47, 48), (2, 1, 2, 3, 4);
    CREATE TABLE strange (a TEXT PRIMARY KEY, b) WITHOUT ROWID; INSERT INTO strange VALUES ('x', 1), ('y', 2);
    CREATE VIEW node AS SELECT off, pos, id, lat / 1e9 AS lat, lon / 1e9 AS lon FROM element WHERE kind = 0;
    CREATE TRIGGER noted INSTEAD OF INSERT ON node BEGIN INSERT INTO log VALUES (new.id); END;
    CREATE INDEX tag_by_key ON tag (key, val); ANALYZE"
}

# told_own DATABASE: each row of its list that isn't one of pbfrow's, with its rowid and root page, and what one's own tables,
# those that virtual tables keep, and the statistics hold.
told_own() {
  local table
  sqlite3 "$1" "SELECT rowid, * FROM sqlite_schema WHERE name NOT IN ('meta', 'blob', 'element', 'tag', 'link', 'element_by_id',
    'sqlite_autoindex_element_1', 'sqlite_autoindex_tag_1', 'sqlite_autoindex_link_1') ORDER BY rowid"
  for table in $(sqlite3 "$1" "SELECT name FROM sqlite_schema WHERE type = 'table' AND rootpage > 0
    AND name NOT IN ('meta', 'blob', 'element', 'tag', 'link') ORDER BY name"); do
    echo "$table"
    sqlite3 "$1" ".mode insert" "SELECT * FROM $table"
  done
  sqlite3 "$1" "SELECT rowid, word FROM words WHERE words MATCH 'vaduz'; SELECT id FROM boxes WHERE west > 5; SELECT name FROM mine INDEXED BY mine_by_name WHERE name > 'a'"
}

# own_rows DATABASE: pbfrow's own rows of the list.
own_rows() {
  sqlite3 "$1" "SELECT rowid, * FROM sqlite_schema WHERE name IN ('meta', 'blob', 'element', 'tag', 'link', 'element_by_id',
    'sqlite_autoindex_element_1', 'sqlite_autoindex_tag_1', 'sqlite_autoindex_link_1') ORDER BY rowid"
}

# ordered DATABASE: puts tables of one's own into it whose keys and indexes are in other orders than that of bytes, with rows that
# these orders put elsewhere: in other letters, with spaces behind, numbers, texts and NULL.
ordered() {
  sqlite3 "$1" "CREATE TABLE down (a TEXT PRIMARY KEY DESC, b) WITHOUT ROWID;
    CREATE TABLE both (a TEXT COLLATE NOCASE, b TEXT COLLATE RTRIM, c, PRIMARY KEY (a DESC, b)) WITHOUT ROWID;
    CREATE INDEX both_by_c ON both (c DESC); CREATE INDEX both_by_b ON both (b COLLATE BINARY DESC, c); CREATE UNIQUE INDEX both_by_all ON both (c, b, a);
    CREATE TABLE counted (id INTEGER PRIMARY KEY, name TEXT COLLATE NOCASE UNIQUE, note TEXT) WITHOUT ROWID, STRICT;
    CREATE INDEX counted_by_note ON counted (note DESC);
    CREATE TABLE loose (x TEXT, y TEXT COLLATE NOCASE UNIQUE, z VARCHAR(9) COLLATE RTRIM DEFAULT ' ', CHECK (x <> '~'), UNIQUE (z DESC, x));
    CREATE INDEX loose_down ON loose (x DESC); CREATE INDEX loose_by_both ON loose (y DESC, x COLLATE RTRIM);
    CREATE INDEX loose_by_any ON loose (x COLLATE NOCASE); CREATE UNIQUE INDEX loose_by_bytes ON loose (y COLLATE BINARY DESC);
    CREATE INDEX loose_in_part ON loose (z COLLATE NOCASE DESC) WHERE (z > 'A') OR z IS NULL;
    CREATE INDEX loose_small ON loose (lower(x)); WITH RECURSIVE n (i) AS (VALUES (0) UNION ALL SELECT i + 1 FROM n WHERE i < 900),
    t (i, s) AS (SELECT i, char(65 + (i * 7) % 26 + 32 * (i % 2)) || substr('        ', 1, i % 5) || char(90 + 17 * (i % 3)) || (i % 37) || substr('  ', 1, i % 3) FROM n)
    INSERT INTO loose SELECT s, CASE WHEN i % 9 THEN i || s END, s || i FROM t;
    INSERT OR IGNORE INTO down SELECT x, rowid FROM loose; INSERT OR IGNORE INTO both SELECT y, x, z FROM loose WHERE y IS NOT NULL;
    INSERT OR IGNORE INTO both SELECT upper(y), x || '  ', rowid % 3 FROM loose WHERE y IS NOT NULL; INSERT INTO both VALUES ('', 'q', 1.5), ('', 'Q', NULL), ('', '', x'00');
    INSERT OR IGNORE INTO both SELECT lower(x), lower(z), c FROM loose JOIN (SELECT 7 AS c);
    INSERT INTO counted SELECT rowid, y, x FROM loose WHERE y IS NOT NULL"
}

# silent NAME: the last command wrote nothing on standard error.
silent() { [ ! -s stderr.txt ] && pass "$1" || { fail "$1"; head -n 3 stderr.txt | sed 's/^/    /'; }; }

# imported NAME DATABASE COUNTS: an import of the extract ends with these counts, and says nothing else.
imported() {
  "$pbfrow" import "$country" "$2" 2> stderr.txt | tail -n 1 > got.txt
  lines "$3" > want.txt
  same "$1: an import" got.txt want.txt
  silent "$1: and nothing is told"
}

# whole NAME DATABASE: one's own objects are as own.txt tells, byte for byte, and pbfrow's rows of the list as rows.txt; sqlite3
# finds the database whole; and each command answers what it does of plain.db.
whole() {
  told_own "$2" > got.txt
  same "$1: one's own is as it was" got.txt own.txt
  own_rows "$2" > got.txt
  same "$1: and so are pbfrow's rows of the list" got.txt rows.txt
  sound "$1: sqlite3 finds the database whole" "$2"
  sqlite3 "$2" "SELECT count(*) FROM tag INDEXED BY tag_by_key WHERE key >= ''" > got.txt
  sqlite3 plain.db "SELECT count(*) FROM tag" > want.txt
  same "$1: an index of one's own on pbfrow's table has all rows" got.txt want.txt
  expect "$1: status" 0 "$("$pbfrow" status plain.db)${nl}" status "$2"
  silent "$1: and nothing is told by it"
  expect "$1: find" 0 "$("$pbfrow" find plain.db n14690)${nl}" find "$2" n14690
  "$pbfrow" export "$2" > got.txt
  same "$1: the export is that of the extract" got.txt export.txt
  expect "$1: verify --elements" 0 "$sound_whole${nl}" verify "$country" "$2" --elements
  silent "$1: and nothing is told by that"
}

# kept DATABASE: what is to stay as it is.
kept() {
  told_own "$1" > own.txt
  own_rows "$1" > rows.txt
}

# reordered NAME: pbfrow's rows of the list don't stand at the first nine rowids.
reordered() {
  cut -d '|' -f 1 rows.txt > got.txt
  lines 1 2 3 4 5 6 7 8 9 > want.txt
  if cmp -s got.txt want.txt; then fail "$1"; else pass "$1"; fi
}

nl=$'\n'
if has sqlite3 && sqlite3 :memory: "CREATE VIRTUAL TABLE words USING fts5 (word); CREATE VIRTUAL TABLE boxes USING rtree (id, a, b)" 2> got.txt; then
  "$pbfrow" import "$country" plain.db > got.txt
  "$pbfrow" export plain.db > export.txt

  # made before the first blob, between two, and after the last
  "$pbfrow" import /dev/null before.db > got.txt
  own before.db
  kept before.db
  imported "made before the first blob" before.db "blobs stored 12 held 0 bad 0 refused 0"
  whole "made before the first blob" before.db
  "$pbfrow" import "$country" between.db --from 1259691 > got.txt
  own between.db
  kept between.db
  imported "made between two blobs" between.db "blobs stored 11 held 1 bad 0 refused 0"
  whole "made between two blobs" between.db
  cp plain.db after.db
  own after.db
  kept after.db
  imported "made after the last blob" after.db "blobs stored 0 held 12 bad 0 refused 0"
  whole "made after the last blob" after.db

  # VACUUM puts all tables before the indexes
  cp plain.db vacuumed.db
  sqlite3 vacuumed.db "$without_the_last; ANALYZE"
  own vacuumed.db
  sqlite3 vacuumed.db "VACUUM"
  kept vacuumed.db
  reordered "VACUUM gives the list another order"
  imported "after VACUUM" vacuumed.db "blobs stored 1 held 11 bad 0 refused 0"
  whole "after VACUUM" vacuumed.db

  # a dump does so too, and has virtual tables by statements on the list
  cp plain.db dumped.db
  sqlite3 dumped.db "$without_the_last"
  own dumped.db
  sqlite3 dumped.db .dump > dump.sql
  rm dumped.db
  sqlite3 dumped.db < dump.sql
  kept dumped.db
  reordered "a dump gives the list another order"
  imported "from a dump" dumped.db "blobs stored 1 held 11 bad 0 refused 0"
  whole "from a dump" dumped.db

  # parts are merged into such a database, and from one
  "$pbfrow" import /dev/null merged.db > got.txt
  own merged.db
  sqlite3 merged.db "VACUUM"
  kept merged.db
  expect "a merge into it" 0 "$("$pbfrow" merge other.db dumped.db)${nl}" merge merged.db dumped.db
  whole "a merge into it and from one" merged.db

  # a trigger on one of pbfrow's tables
  bound="it has a trigger on one of pbfrow's tables, told: drop it with sqlite3 to go on"
  for event in "AFTER INSERT ON element" "BEFORE INSERT ON tag" "AFTER DELETE ON Blob" "AFTER UPDATE OF version ON meta"; do
    cp dumped.db bound.db
    sqlite3 bound.db "$without_the_last; CREATE TRIGGER told $event BEGIN DELETE FROM log; END"
    sqlite3 bound.db .dump > want.sql
    sha256sum bound.db > sums.txt
    for words in "import $country bound.db" "merge bound.db plain.db" "verify $country bound.db"; do
      # shellcheck disable=SC2086
      expect "a trigger $event: ${words%% *} is refused" 1 "fault 65 Disk${nl}" $words
      lines "pbfrow: bound.db: $bound" > want.txt
      same "a trigger $event: it is named by ${words%% *}" stderr.txt want.txt
    done
    sha256sum -c --status sums.txt && pass "a trigger $event: nothing is written" || fail "a trigger $event: nothing is written"
    sqlite3 bound.db .dump > got.sql
    same "a trigger $event: sqlite3 sees what it saw" got.sql want.sql
    expect "a trigger $event: find" 0 "$("$pbfrow" find plain.db n14690)${nl}" find bound.db n14690
    silent "a trigger $event: and nothing is told by it"
    kept bound.db
    sqlite3 bound.db "DROP TRIGGER told"
    grep -v '|trigger|told|' own.txt > left.txt
    mv left.txt own.txt
    imported "once it is dropped ($event)" bound.db "blobs stored 1 held 11 bad 0 refused 0"
    whole "once it is dropped ($event)" bound.db
  done

  # the searches that come with the program, before an import and again behind it
  "$pbfrow" import "$country" searched.db --from 861586 > got.txt
  sqlite3 searched.db < "$top/examples/search.sql" > got.txt 2>&1
  "$pbfrow" import "$country" searched.db 2>&1 | tail -n 1 >> got.txt
  sqlite3 searched.db "DELETE FROM way_box"
  for _ in 1 2; do sqlite3 searched.db < "$top/examples/search.sql" >> got.txt 2>&1; done
  lines "blobs stored 10 held 2 bad 0 refused 0" > want.txt
  same "an import beside the example's searches" got.txt want.txt
  sound "sqlite3 finds the database whole, beside the example's searches" searched.db
  sqlite3 searched.db "SELECT off, pos FROM name_text WHERE name_text MATCH 'schloss' ORDER BY off, pos; SELECT count(*) FROM name_text" > got.txt
  sqlite3 plain.db "SELECT off, pos FROM tag WHERE key = 'name' AND ' ' || replace(lower(val), '-', ' ') || ' ' LIKE '% schloss %' ORDER BY off, pos;
    SELECT count(*) FROM tag WHERE key = 'name'" > want.txt
  same "names are found by a word" got.txt want.txt
  sqlite3 searched.db "SELECT off, pos FROM way_box WHERE east >= 9.50 AND west <= 9.51 AND north >= 47.16 AND south <= 47.17 ORDER BY off, pos; SELECT count(*) FROM way_box" > got.txt
  sqlite3 plain.db "SELECT way.off, way.pos FROM element AS way JOIN link USING (off, pos) JOIN element AS node ON node.kind = 0 AND node.id = link.ref
    WHERE way.kind = 1 GROUP BY way.off, way.pos
    HAVING max(node.lon) >= 9.50e9 AND min(node.lon) <= 9.51e9 AND max(node.lat) >= 47.16e9 AND min(node.lat) <= 47.17e9 ORDER BY way.off, way.pos;
    SELECT count(*) FROM element WHERE kind = 1" > want.txt
  same "ways are found by a box" got.txt want.txt
  expect "verify --elements beside the example's searches" 0 "$sound_whole${nl}" verify "$country" searched.db --elements

  # keys and indexes of one's own that descend, or that don't compare texts by their bytes, are looked at in their own order
  cp plain.db ordered.db
  ordered ordered.db
  kept_ordered() { for table in down both counted loose; do sqlite3 "$1" ".mode insert" "SELECT * FROM $table"; done; }
  kept_ordered ordered.db > own.txt
  sound "own orders: sqlite3 finds the database whole" ordered.db
  expect "verify --elements beside own orders" 0 "$sound_whole${nl}" verify "$country" ordered.db --elements
  silent "verify beside own orders: nothing is told"
  sqlite3 ordered.db "VACUUM"
  expect "verify --elements beside own orders, after VACUUM" 0 "$sound_whole${nl}" verify "$country" ordered.db --elements
  silent "verify beside own orders, after VACUUM: nothing is told"
  cp ordered.db other.db
  expect "verify of two databases beside own orders" 0 "$("$pbfrow" verify "$country" plain.db plain.db)${nl}" verify "$country" ordered.db other.db
  sqlite3 ordered.db .dump > dump.sql
  rm -f other.db
  sqlite3 other.db < dump.sql
  expect "verify --elements beside own orders, from a dump" 0 "$sound_whole${nl}" verify "$country" other.db --elements
  kept_ordered other.db > got.txt
  same "own orders: one's own is as it was" got.txt own.txt

  # an index whose entries aren't in the order that its text asks is damaged
  wrong() {
    cp ordered.db wrong.db
    sqlite3 wrong.db "PRAGMA writable_schema = ON; UPDATE sqlite_schema SET sql = '$2' WHERE name = '$1'"
    expect "an index in another order than its text asks ($1)" 1 "fault 65 Disk${nl}" verify "$country" wrong.db
  }
  wrong loose_down "CREATE INDEX loose_down ON loose (x)"
  wrong loose_by_both "CREATE INDEX loose_by_both ON loose (y, x DESC)"
  wrong loose_by_any "CREATE INDEX loose_by_any ON loose (x)"
  wrong both_by_c "CREATE INDEX both_by_c ON both (c)"
  wrong down "CREATE TABLE down (a TEXT PRIMARY KEY, b) WITHOUT ROWID"
  wrong both "CREATE TABLE both (a TEXT COLLATE NOCASE, b TEXT COLLATE RTRIM, c, PRIMARY KEY (a, b)) WITHOUT ROWID"

  # kills
  went_on=yes
  for moment in 0.02 0.05 0.1 0.18 0.3; do
    rm -f killed.db*
    "$pbfrow" import /dev/null killed.db > got.txt
    own killed.db
    sqlite3 killed.db "VACUUM"
    kept killed.db
    "$pbfrow" import "$country" killed.db > got.txt 2> stderr.txt &
    pid=$!
    sleep "$moment"
    kill -9 "$pid" 2> /dev/null
    wait "$pid" 2> /dev/null
    "$pbfrow" import "$country" killed.db > got.txt
    told_own killed.db > got.txt
    cmp -s got.txt own.txt || went_on="one's own objects changed"
    [ "$(sqlite3 killed.db "PRAGMA integrity_check" 2>&1)" = ok ] || went_on="sqlite3 finds a fault"
    "$pbfrow" export killed.db > got.txt
    cmp -s got.txt export.txt || went_on="the export is another"
  done
  if [ "$went_on" = yes ]; then
    pass "imports that were killed beside all that go on"
  else
    fail "imports that were killed beside all that go on"
    echo "  $went_on"
  fi
else
  skip "a database with anything beside" "sqlite3 isn't installed, or has no FTS5 and R*Tree"
fi
counted
