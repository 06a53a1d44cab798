#!/usr/bin/env bash
# Files that are opened as a database and aren't a sound one of ours: status and find answer one line of a fault, or what
# is right, and leave all files as they are. What stands in the way is told on standard error.
. "$(dirname -- "${BASH_SOURCE[0]}")/begin.sh"
. "$top/e2e/locks.sh"
two=$top/data/two-nodes.osm.pbf
country=$top/data/liechtenstein-raw.osm.pbf
nl='
'
held="blobs 2 end 84 gaps 0${nl}"
node="47 0 n 1 1000 -100 [] {}${nl}"
page=4096

rm -f sound.db* damaged.db* mine.db*
"$pbfrow" import "$two" sound.db > got.txt
expect "status of a sound database" 0 "$held" status sound.db
expect "find in it" 0 "$node" find sound.db n1

# answers NAME WORD..: the program with these words ends with one of the answers that the file `may` has: a status and a text.
answers() {
  local name=$1 got
  shift
  got=$("$pbfrow" "$@" 2>/dev/null; echo "status $?")
  if grep -qxF "$(printf '%s' "$got" | tr '\n' ' ')" may; then
    pass "$name"
  else
    fail "$name"; echo "  got $got"
  fi
}

# faulty NAME DATABASE: both commands end with 1 and one line of fault 65 or 66.
faulty() {
  printf '%s\n' "fault 65 Disk status 1" "fault 66 NotThisStore status 1" > may
  answers "$1: status" status "$2"
  answers "$1: find" find "$2" n1
}

# right NAME DATABASE: both commands answer what the sound database holds.
right() {
  expect "$1: status" 0 "$held" status "$2"
  expect "$1: find" 0 "$node" find "$2" n1
}

# asked NAME DATABASE: both commands end with a fault or with what the sound database holds, since they read no more of it
# than they need; verify, which looks at all of it, finds what is wrong; and none of them has changed a file.
asked() {
  sha256sum "$2"* > sums.txt
  printf '%s\n' "fault 65 Disk status 1" "fault 66 NotThisStore status 1" "blobs 2 end 84 gaps 0 status 0" > may
  answers "$1: status" status "$2"
  printf '%s\n' "fault 65 Disk status 1" "fault 66 NotThisStore status 1" "47 0 n 1 1000 -100 [] {} status 0" > may
  answers "$1: find" find "$2" n1
  "$pbfrow" verify "$two" "$2" --elements > got.txt 2> /dev/null
  [ $? = 1 ] && pass "$1: verify" || fail "$1: verify"
  sha256sum "$2"* | cmp -s - sums.txt && pass "$1: nothing is written" || fail "$1: nothing is written"
}

# told NAME TEXT: the last command with `expect` wrote this line alone on standard error.
told() {
  echo "pbfrow: $2" > want.txt
  same "$1" stderr.txt want.txt
}

# overwritten BYTES NUMBER: a copy of the sound database, of which one page, counted from 0, has other bytes.
overwritten() {
  cp sound.db damaged.db
  dd if="$1" of=damaged.db bs=$page seek="$2" count=1 conv=notrunc 2>/dev/null
}

pages=$(($(stat -c %s sound.db) / page))
[ "$pages" -ge 10 ] && pass "a database has a page for each of its trees" || fail "a database has a page for each of its trees ($pages)"
for number in $(seq 0 $((pages - 1))); do
  overwritten /dev/zero "$number"
  asked "page $number of zeros" damaged.db
  # the same bytes in each run
  awk -v seed="$number" 'BEGIN { srand(seed); for (i = 0; i < 4096; i++) printf "%c", 1 + int(rand() * 126) }' > noise
  overwritten noise "$number"
  asked "page $number of noise" damaged.db
  overwritten sound.db "$number"
  [ "$number" = 0 ] || asked "page $number like page 0" damaged.db
done

for bytes in 2 100 $page $((page + 1)) $(((pages - 1) * page)) $((pages * page - 1)); do
  rm -f damaged.db*
  head -c "$bytes" sound.db > damaged.db
  faulty "a database cut to $bytes bytes" damaged.db
done
{ cat sound.db; head -c $page /dev/zero; } > damaged.db
faulty "a database with a page more in its file" damaged.db
{ cat sound.db sound.db; } > damaged.db
faulty "a database twice in one file" damaged.db
cp sound.db damaged.db
printf 'X' | dd of=damaged.db conv=notrunc 2>/dev/null
faulty "another first byte" damaged.db
rm -f damaged.db*

mkdir -p folder.db
faulty "a folder" folder.db
ln -sf nowhere.db dangling.db
printf '%s\n' "fault 65 Disk status 1" "fault 66 NotThisStore status 1" > may
answers "a link that leads nowhere" status dangling.db
[ ! -e nowhere.db ] && pass "and no database is made" || fail "and no database is made"
ln -sf sound.db linked.db
right "a link to a sound database" linked.db
ln sound.db second.db
faulty "a file of two names" second.db
rm -rf second.db dangling.db linked.db folder.db
head -c 5000 "$top/README.md" > damaged.db
faulty "a text" damaged.db
head -c 100000 "$country" > damaged.db
faulty "an extract" damaged.db
rm -f damaged.db*

# an import that is killed leaves a log: what was stored is there, and nothing that isn't whole
rm -f broken.db* whole.db*
"$top/crates/pbfrow/out/pbfrow" import "$country" broken.db > broken.txt 2>/dev/null &
pid=$!
for _ in $(seq 600); do
  [ "$(grep -c stored broken.txt)" -ge 3 ] && break
  sleep 0.05
done
kill -9 "$pid" 2>/dev/null
wait "$pid" 2>/dev/null
if [ -s broken.db-wal ]; then
  cp broken.db again.db
  cp broken.db-wal again.db-wal
  "$pbfrow" status broken.db > status.txt && pass "status beside a log that a kill left" || fail "status beside a log that a kill left"
  stored=$(grep -c 'stored' broken.txt)
  seen=$(sed -n 's/^blobs \([0-9]*\) .*/\1/p' status.txt)
  { [ "${seen:-0}" = "$stored" ] || [ "${seen:-0}" = $((stored + 1)) ]; } && pass "it counts the blobs of the log" \
    || fail "it counts the blobs of the log ($seen of $stored)"
  "$pbfrow" status again.db > again.txt
  same "a copy of both files is answered alike" status.txt again.txt
  "$pbfrow" import "$country" broken.db > /dev/null && pass "the import goes on" || fail "the import goes on"
  "$pbfrow" import "$country" whole.db > /dev/null
  "$pbfrow" export broken.db > got.txt
  "$pbfrow" export whole.db > want.txt
  same "to the export of an unbroken one" got.txt want.txt
  sound "sqlite3 finds it whole" broken.db
else
  skip "a log that a kill left" "the import ended before it"
fi
rm -f broken.db* again.db* whole.db*
cp sound.db damaged.db
head -c 1000 /dev/urandom > damaged.db-wal
right "a log of noise, which is none" damaged.db
rm -f damaged.db*

if has python3; then
  lock_database sound.db
  expect "a database that another program has locked: status" 1 "fault 65 Disk${nl}" status sound.db
  told "and why" "sound.db: in use by another program"
  expect "a database that another program has locked: find" 1 "fault 65 Disk${nl}" find sound.db n1
  expect "a database that another program has locked: import" 1 "fault 65 Disk${nl}" import "$two" sound.db
  told "and why" "sound.db: in use by another program"
  unlock_database
  right "the same when it is free again" sound.db
else
  skip "a database that is locked" "python3 isn't installed"
fi

if [ "$(id -u)" = 0 ] && has setpriv; then
  chmod 755 "$work"
  rm -rf kept
  mkdir kept
  cp sound.db kept/sound.db
  chmod 755 kept
  as_nobody() { setpriv --reuid 65534 --regid 65534 --clear-groups "$top/crates/pbfrow/out/pbfrow" "$@"; }
  if as_nobody --version > version.txt 2>&1; then
    # asked_by_nobody NAME: another user, who may read the database and write nothing, gets what it holds, and no file is made
    asked_by_nobody() {
      as_nobody status kept/sound.db > got.txt 2> stderr.txt
      printf '%s' "$held" > want.txt
      same "$1: status" got.txt want.txt
      as_nobody find kept/sound.db n1 > got.txt 2>> stderr.txt
      printf '%s' "$node" > want.txt
      same "$1: find" got.txt want.txt
      as_nobody export kept/sound.db > got.txt 2>> stderr.txt
      "$pbfrow" export sound.db > want.txt
      same "$1: export" got.txt want.txt
      as_nobody verify "$two" kept/sound.db --elements > got.txt 2>> stderr.txt
      printf '%s' "blobs 2 missing 0 differs 0 extra 0$nl" > want.txt
      same "$1: verify" got.txt want.txt
      { [ ! -s stderr.txt ] && [ "$(ls kept)" = "$2" ]; } && pass "$1: no file is made" || fail "$1: no file is made ($(ls kept))"
    }
    chmod 444 kept/sound.db
    asked_by_nobody "a database that may only be read" sound.db
    chmod 666 kept/sound.db
    asked_by_nobody "a database in a folder that may not be written" sound.db
    : > kept/sound.db-wal
    asked_by_nobody "the same beside an empty log" "sound.db${nl}sound.db-wal"
    rm kept/sound.db-wal
    echo "fault 65 Disk" > fault.txt
    as_nobody import "$two" kept/sound.db > got.txt 2> stderr.txt
    same "an import into it" got.txt fault.txt
    told "and why" "kept/sound.db: permission denied"
    chmod 000 kept/sound.db
    as_nobody status kept/sound.db > got.txt 2> stderr.txt
    same "a database that may not be read" got.txt fault.txt
    told "and why" "kept/sound.db: permission denied"
    chmod 644 kept/sound.db
    right "the same, with the rights to it" kept/sound.db
  else
    skip "databases without permission" "the program can't be run as another user here"
  fi
else
  skip "databases without permission" "this shell isn't root, or setpriv isn't installed"
fi

if has sqlite3; then
  cp sound.db mine.db
  sqlite3 mine.db "CREATE TABLE mine (name TEXT, price REAL); INSERT INTO mine VALUES ('a', 1.5); CREATE INDEX mine_by_name ON mine (name DESC);
    CREATE INDEX tag_by_key ON tag (key, val); CREATE VIEW node AS SELECT * FROM element WHERE kind = 0"
  right "a table, indexes and a view of one's own" mine.db
  sqlite3 mine.db "DROP INDEX tag_by_key; CREATE INDEX link_by_ref ON link (ref)"
  right "an index dropped, and another made" mine.db
  sqlite3 mine.db "DROP INDEX element_by_id; CREATE TABLE before (name TEXT); CREATE INDEX element_by_id ON element (kind, id)"
  right "the index by kind and id behind a table of one's own" mine.db
  sqlite3 mine.db "VACUUM"
  right "the same after VACUUM" mine.db
  sqlite3 mine.db "PRAGMA journal_mode = DELETE" > got.txt
  right "the same with a rollback journal" mine.db
  sqlite3 mine.db "CREATE TABLE strange (a TEXT PRIMARY KEY, b) WITHOUT ROWID; INSERT INTO strange VALUES ('x', 1)"
  right "a table of one's own that has no rowid" mine.db
  sqlite3 mine.db "CREATE TRIGGER told AFTER INSERT ON element BEGIN DELETE FROM mine; END"
  right "a trigger on the table of elements" mine.db
  expect "a trigger on the table of elements: import of what is held" 1 "fault 65 Disk${nl}" import "$two" mine.db
  told "and why" "mine.db: it has a trigger on one of pbfrow's tables, told: drop it with sqlite3 to go on"
  sqlite3 mine.db "DROP TRIGGER told; CREATE TRIGGER told AFTER INSERT ON strange BEGIN DELETE FROM mine; END"
  right "a trigger on a table of one's own" mine.db
  sqlite3 mine.db "DROP TRIGGER told; CREATE VIEW places AS SELECT id FROM element; CREATE TABLE parent (id INTEGER PRIMARY KEY); CREATE TABLE child (of INTEGER REFERENCES parent (id) ON DELETE CASCADE);
    CREATE TRIGGER told INSTEAD OF INSERT ON places BEGIN DELETE FROM mine; END; CREATE TRIGGER kept BEFORE DELETE ON child BEGIN INSERT INTO mine VALUES (old.of, 1); END"
  right "an INSTEAD OF trigger, and one on a table with REFERENCES" mine.db
  expect "an import beside them" 0 "0 held${nl}47 held${nl}blobs stored 0 held 2 bad 0 refused 0${nl}" import "$two" mine.db
  sqlite3 mine.db "DROP INDEX mine_by_name; DELETE FROM strange"
  expect "verify beside them" 0 "blobs 2 missing 0 differs 0 extra 0${nl}" verify "$two" mine.db --elements
  [ ! -s stderr.txt ] && pass "and nothing is told" || fail "and nothing is told"
  if sqlite3 mine.db "CREATE VIRTUAL TABLE words USING fts5 (word)" 2> got.txt; then
    right "a virtual table" mine.db
    printf '%b' 'CREATE VIRTUAL TABLE others USING fts5 (wor\xff)' | sqlite3 mine.db
    right "a virtual table whose text isn't in UTF-8" mine.db
  fi

  # stopped NAME REASON: each command ends with the line of fault 65, tells this reason of mine.db, and writes nothing to it
  stopped() {
    local name=$1 words wrong=""
    sha256sum mine.db > sums.txt
    echo "fault 65 Disk" > fault.txt
    echo "pbfrow: mine.db: $2" > want.txt
    for words in "status mine.db" "find mine.db n1" "export mine.db" "import $two mine.db" "verify $two mine.db" "verify $two mine.db --elements" \
      "status mine.db sound.db" "verify $two mine.db sound.db" "merge mine.db sound.db" "merge new.db mine.db" "migrate mine.db new.db"; do
      rm -f new.db*
      # shellcheck disable=SC2086
      "$pbfrow" $words > got.txt 2> stderr.txt
      { [ $? = 1 ] && cmp -s got.txt fault.txt && cmp -s stderr.txt want.txt; } || { wrong="$words"; cat got.txt stderr.txt; }
    done
    sha256sum -c --status sums.txt || wrong="$wrong (it is written to)"
    rm -f new.db*
    [ -z "$wrong" ] && pass "$name: each command names it, and nothing is written" || fail "$name: each command names it, and nothing is written: not $wrong"
  }
  # changed NAME STATEMENTS REASON STATEMENTS: behind the first each command is stopped, and behind the others none is
  changed() {
    rm -f mine.db*
    cp sound.db mine.db
    printf '%b' "$2" | sqlite3 mine.db
    stopped "$1" "$3"
    printf '%b' "$4" | sqlite3 mine.db
    right "$1: once that is mended" mine.db
    sound "$1: sqlite3 finds it whole" mine.db
  }
  of_index="its index element_by_id is missing, or isn't as pbfrow makes it: DROP INDEX IF EXISTS element_by_id; CREATE INDEX element_by_id ON element (kind, id)"
  of_table() { echo "its table $1 isn't as pbfrow makes it: take out what was added to it, by ALTER TABLE $1 DROP COLUMN .., or copy what it holds into a new database"; }
  of_name() { echo "it has two objects named $1: DROP TRIGGER \"$1\", and make it again by another name"; }
  of_text() { echo "its object $1 has a name or a text that isn't in UTF-8: drop it with sqlite3 to go on"; }
  changed "a column that was added" "ALTER TABLE element ADD COLUMN more INTEGER" "$(of_table element)" "ALTER TABLE element DROP COLUMN more"
  changed "a column that was added to blob" "ALTER TABLE blob ADD COLUMN more INTEGER" "$(of_table blob)" "ALTER TABLE blob DROP COLUMN more"
  changed "a column with another name" "ALTER TABLE tag RENAME COLUMN val TO value" "$(of_table tag)" "ALTER TABLE tag RENAME COLUMN value TO val"
  changed "without its index" "DROP INDEX element_by_id" "$of_index" "${of_index##*: }"
  changed "with another index by that name" "DROP INDEX element_by_id; CREATE INDEX element_by_id ON element (id)" "$of_index" "${of_index##*: }"
  changed "a trigger with a table's name" "CREATE TABLE mine (a); CREATE TRIGGER Tag AFTER INSERT ON mine BEGIN SELECT 1; END" "$(of_name Tag)" 'DROP TRIGGER "Tag"'
  changed "a trigger with an index's name" "CREATE TABLE mine (a); CREATE INDEX of_a ON mine (a); CREATE TRIGGER of_a AFTER INSERT ON mine BEGIN SELECT 1; END" \
    "$(of_name of_a)" 'DROP TRIGGER "of_a"'
  changed "a text that isn't in UTF-8" 'CREATE VIEW odd AS SELECT "\xff"' "$(of_text odd)" "DROP VIEW odd"
  changed "a name that isn't in UTF-8" 'CREATE TABLE "o\xffd" (a)' "$(of_text o�d)" 'DROP TABLE "o\xffd"'
  rm -f mine.db*
  cp sound.db mine.db
  sqlite3 mine.db "DROP TABLE link; CREATE TABLE Link (off INTEGER PRIMARY KEY) STRICT"
  for words in "status mine.db" "verify $two mine.db"; do
    # shellcheck disable=SC2086
    expect "another table with the name of one, in other letters: ${words%% *}" 1 "fault 65 Disk${nl}" $words
    grep -qi "^pbfrow: mine.db: its table link isn't as pbfrow makes it" stderr.txt && pass "and it is named" || fail "and it is named"
  done
  # what a copy mends
  copied="make a copy by sqlite3's .dump"
  sqlite3 sound.db .dump > dump.sql
  while IFS='|' read -r first reason; do
    rm -f mine.db* copy.db*
    sqlite3 mine.db "$first" "$(cat dump.sql)" VACUUM > got.txt
    stopped "$first" "$reason: $copied"
    sqlite3 mine.db .dump | sqlite3 copy.db
    right "$first: a copy" copy.db
  done << END
PRAGMA encoding = 'UTF-16le'|its texts are in UTF-16
PRAGMA encoding = 'UTF-16be'|its texts are in UTF-16
.filectrl reserve_bytes 8|its pages end in checksums
END
  rm -f copy.db* dump.sql
  rm -f mine.db*
  cp sound.db mine.db
  sqlite3 mine.db "PRAGMA journal_mode = DELETE; PRAGMA auto_vacuum = 1; VACUUM" > got.txt
  expect "auto_vacuum: status" 1 "fault 65 Disk${nl}" status mine.db
  told "and why" "mine.db: auto_vacuum is on: turn it off and run VACUUM, with sqlite3"
  sqlite3 mine.db "PRAGMA auto_vacuum = 0; VACUUM"
  right "the same, turned off" mine.db
  printf 'x' > mine.db-journal
  expect "a rollback journal: status" 1 "fault 65 Disk${nl}" status mine.db
  told "and why" "mine.db: a rollback journal stands beside it: open it with sqlite3 first"
  rm mine.db-journal
  rm -f mine.db*
  printf 'Some text, which is longer than the part of a header that names the size of a page.' > mine.db
  expect "a text: status" 1 "fault 65 Disk${nl}" status mine.db
  told "and why" "mine.db: not a database of SQLite"
  for text in S 'SQLite format 3\0'; do
    printf '%b' "$text" > mine.db
    expect "a file of the text '$text': status" 1 "fault 65 Disk${nl}" status mine.db
    told "and why" "mine.db: not a database of SQLite"
  done

  rm -f other.db*
  sqlite3 other.db "CREATE TABLE place (name TEXT); INSERT INTO place VALUES ('Vaduz')"
  expect "a database of another program: status" 1 "fault 66 NotThisStore${nl}" status other.db
  told "and why" "other.db: not a database of pbfrow"
  expect "a database of another program: find" 1 "fault 66 NotThisStore${nl}" find other.db n1
  sqlite3 other.db "SELECT name FROM place" > got.txt
  echo Vaduz > want.txt
  same "whose row is still there" got.txt want.txt
  rm -f other.db*
  sqlite3 other.db "$(sqlite3 sound.db .schema | tr '\n' ' ')"
  expect "our tables without a version: status" 1 "fault 66 NotThisStore${nl}" status other.db
  expect "our tables without a version: verify" 1 "fault 66 NotThisStore${nl}" verify "$two" other.db
  version=$(schema_version)
  sqlite3 other.db "INSERT INTO meta VALUES ($((version + 1)))"
  expect "our tables under another version: status" 1 "fault 66 NotThisStore${nl}" status other.db
  expect "our tables under another version: verify" 1 "fault 66 NotThisStore${nl}" verify "$two" other.db
  sqlite3 other.db "INSERT INTO meta VALUES ($version)"
  expect "our tables under two versions: status" 1 "fault 66 NotThisStore${nl}" status other.db
  expect "our tables under two versions: verify" 1 "fault 66 NotThisStore${nl}" verify "$two" other.db
  sqlite3 other.db "DELETE FROM meta WHERE version > $version"
  expect "our tables, made by sqlite3, with no blob: status" 0 "blobs 0 end 0 gaps 0${nl}" status other.db
  # a table that is gone, or has another name
  for change in "DROP TABLE link" "DROP TABLE tag" "ALTER TABLE link RENAME TO links"; do
    rm -f other.db*
    cp sound.db other.db
    sqlite3 other.db "$change"
    sqlite3 other.db .dump > want.txt
    expect "$change: status" 1 "fault 66 NotThisStore${nl}" status other.db
    expect "$change: find" 1 "fault 66 NotThisStore${nl}" find other.db n1
    expect "$change: export" 1 "fault 66 NotThisStore${nl}" export other.db
    expect "$change: import" 1 "fault 66 NotThisStore${nl}" import "$two" other.db
    expect "$change: verify" 1 "fault 66 NotThisStore${nl}" verify "$two" other.db
    expect "$change: merge into it" 1 "fault 66 NotThisStore${nl}" merge other.db sound.db
    sqlite3 other.db .dump > got.txt
    same "$change: nothing is written" got.txt want.txt
  done
  rm -f other.db*
  sqlite3 other.db "CREATE TABLE meta (version INTEGER PRIMARY KEY) STRICT; INSERT INTO meta VALUES (1);
    CREATE TABLE blob (off INTEGER PRIMARY KEY, fin INTEGER NOT NULL, digest BLOB NOT NULL, kind INTEGER NOT NULL, n INTEGER NOT NULL) STRICT;
    CREATE TABLE body (off INTEGER NOT NULL, pos INTEGER NOT NULL, kind INTEGER NOT NULL, id INTEGER NOT NULL, data BLOB NOT NULL, PRIMARY KEY (off, pos)) STRICT;
    CREATE INDEX body_element ON body (kind, id)"
  expect "a database of an earlier pbfrow: status" 1 "fault 66 NotThisStore${nl}" status other.db
  expect "a database of an earlier pbfrow: find" 1 "fault 66 NotThisStore${nl}" find other.db n1
  rm -f other.db* mine.db*
else
  skip "databases that sqlite3 changed" "sqlite3 isn't installed"
fi

rm -f blank.db*
: > blank.db
expect "an empty file: status" 1 "fault 66 NotThisStore${nl}" status blank.db
told "and why" "blank.db: not a database of pbfrow"
expect "an empty file: find" 1 "fault 66 NotThisStore${nl}" find blank.db n1
{ [ -e blank.db ] && [ ! -s blank.db ] && [ ! -e blank.db-wal ]; } && pass "it stays empty" || fail "it stays empty"
mkfifo pipe.db
for words in "status pipe.db" "find pipe.db n1" "export pipe.db" "import $two pipe.db" "merge new.db pipe.db" "merge pipe.db sound.db" "verify $two pipe.db"; do
  # shellcheck disable=SC2086
  timeout 20 "$pbfrow" $words > got.txt 2> stderr.txt
  ended=$?
  { [ "$ended" = 1 ] && grep -q '^pbfrow: pipe.db: not a regular file$' stderr.txt; } && pass "a pipe in the place of a database: $words" \
    || fail "a pipe in the place of a database: $words (status $ended, $(cat stderr.txt))"
done
rm -f pipe.db new.db*
expect "a folder in the place of a database" 1 "fault 65 Disk${nl}" status .
told "and why" ".: not a regular file"
expect "of several databases the one that fails is named" 1 "fault 66 NotThisStore${nl}" status sound.db nowhere.db
told "and why" "nowhere.db: no such file"
expect "no file: status" 1 "fault 66 NotThisStore${nl}" status nowhere.db
expect "no file: find" 1 "fault 66 NotThisStore${nl}" find nowhere.db n1
[ ! -e nowhere.db ] && [ ! -e nowhere.db-wal ] && pass "and no file is made" || fail "and no file is made"

# readers side by side, and none beside a writer
rm -f busy.db* feed
mkfifo feed
"$pbfrow" import feed busy.db > busy.txt 2> stderr.txt &
importing=$!
exec 8> feed
cat "$two" >&8
for _ in $(seq 200); do [ "$(grep -c stored busy.txt)" = 2 ] && break; sleep 0.05; done
expect "a reader beside an import" 1 "fault 65 Disk${nl}" status busy.db
told "and why" "busy.db: in use by another program"
expect "a second import beside it" 1 "fault 65 Disk${nl}" import "$two" busy.db
exec 8>&-
wait "$importing" && pass "the import goes on to its end" || fail "the import goes on to its end"
right "a reader behind it" busy.db
"$pbfrow" import "$country" whole.db > got.txt
mkfifo slow
"$pbfrow" export whole.db > slow &
exporting=$!
exec 9< slow
IFS= read -r _ <&9
right "a reader beside a reader of another database" busy.db
expect "a reader beside a reader" 0 "$("$pbfrow" status whole.db)$nl" status whole.db
expect "an import beside a reader" 1 "fault 65 Disk${nl}" import "$country" whole.db
told "and why" "whole.db: in use by another program"
cat <&9 > /dev/null
exec 9<&-
wait "$exporting" && pass "the reader comes to its end" || fail "the reader comes to its end"
rm -f blank.db* sound.db* busy.db* whole.db* feed slow noise may
counted
