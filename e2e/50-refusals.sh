#!/usr/bin/env bash
# What a user may get wrong, and disks that fill up: each run ends with a status and one line, and a later run completes the import.
. "$(dirname -- "${BASH_SOURCE[0]}")/begin.sh"
two=$top/data/two-nodes.osm.pbf
country=$top/data/liechtenstein-raw.osm.pbf
nl='
'

rm -f any.db
expect "an input that isn't there" 1 "fault 68 ReadFailed at 0${nl}" import nowhere.osm.pbf any.db
expect "an input that isn't there, from a place" 1 "fault 68 ReadFailed at 47${nl}" import nowhere.osm.pbf any.db --from 47
[ ! -e any.db ] && pass "then no database is made" || fail "then no database is made"
expect "a folder as input" 1 "fault 68 ReadFailed at 0${nl}" import . any.db
expect "a database in a folder that isn't there" 1 "fault 65 Disk${nl}" import "$two" nowhere/any.db
for command in status export; do
  expect "$command of a database that isn't there" 1 "fault 66 NotThisStore${nl}" "$command" nowhere.db
  rm -f nowhere.db
done
expect "find in a database that isn't there" 1 "fault 66 NotThisStore${nl}" find nowhere.db n1
rm -f blank.db
for command in status export; do
  : > blank.db
  expect "$command of an empty file" 1 "fault 66 NotThisStore${nl}" "$command" blank.db
done
: > blank.db
expect "find in an empty file" 1 "fault 66 NotThisStore${nl}" find blank.db n1
: > blank.db
expect "an import into an empty file" 0 "0 stored 0${nl}47 stored 2${nl}blobs stored 2 held 0 bad 0 refused 0${nl}" import "$two" blank.db
sound "which sqlite3 finds whole" blank.db
rm -f nowhere.db

# one_fault NAME WORD..: the program with these words ends with 1 and one line of fault 65 or 66.
one_fault() {
  local name=$1 got ended
  shift
  got=$("$pbfrow" "$@" 2>/dev/null)
  ended=$?
  case "$ended $got" in
    "1 fault 65 "*|"1 fault 66 "*) pass "$name" ;;
    *) fail "$name"; echo "  got status $ended and: $got" ;;
  esac
}

head -c 5000 "$top/README.md" > text.db
cp text.db text-before.db
one_fault "a text file as database" import "$two" text.db
same "which stays as it was" text-before.db text.db
one_fault "its status" status text.db

if has sqlite3; then
  rm -f other.db
  sqlite3 other.db "CREATE TABLE blob (name TEXT); INSERT INTO blob VALUES ('mine')"
  one_fault "a database of another program: status" status other.db
  one_fault "a database of another program: import" import "$two" other.db
  sqlite3 other.db "SELECT name FROM blob" > other.txt
  echo mine > want.txt
  same "whose row is still there" other.txt want.txt
  rm -f first.db
  sqlite3 first.db "CREATE TABLE meta (version INTEGER PRIMARY KEY) STRICT; INSERT INTO meta VALUES (1)"
  expect "a database of version 1: status" 1 "fault 66 NotThisStore${nl}" status first.db
  expect "a database of version 1: import" 1 "fault 66 NotThisStore${nl}" import "$two" first.db
  sqlite3 first.db "SELECT * FROM meta; SELECT count(*) FROM sqlite_schema" > first.txt
  printf '1\n1\n' > want.txt
  same "which is as it was" first.txt want.txt
else
  skip "a database of another program" "sqlite3 isn't installed"
fi

if [ "$(id -u)" = 0 ] && has setpriv; then
  cp "$two" unreadable.osm.pbf
  chmod 000 unreadable.osm.pbf
  mkdir -p locked
  chmod 755 locked "$work"
  as_nobody() { setpriv --reuid 65534 --regid 65534 --clear-groups "$pbfrow" "$@"; }
  nobodys=$(mktemp -u -p /dev/shm)
  if as_nobody --version > version.txt 2>&1; then
    as_nobody import unreadable.osm.pbf "$nobodys" > got.txt
    echo "fault 68 ReadFailed at 0" > want.txt
    same "an input that may not be read" got.txt want.txt
    as_nobody import "$two" locked/any.db > got.txt
    echo "fault 65 Disk" > want.txt
    same "a database that may not be written" got.txt want.txt
    rm -f "$nobodys"
  else
    skip "inputs and databases without permission" "the program can't be run as another user here"
  fi
else
  skip "inputs and databases without permission" "this shell isn't root, or setpriv isn't installed"
fi

# fills_up NAME WORD..: where no file may grow past 600 kB, so that writes fail as on a full disk, the program with these words
# ends with 1, and its last line is that of fault 65.
fills_up() {
  local name=$1 ended
  shift
  (ulimit -f 600; trap '' XFSZ; "$pbfrow" "$@" > full.txt 2>/dev/null)
  ended=$?
  case "$ended $(tail -n 1 full.txt)" in
    "1 fault 65 "*) pass "$name" ;;
    *) fail "$name"; echo "  got status $ended and: $(tail -n 1 full.txt)" ;;
  esac
}

# as_whole NAME DATABASE: the database exports what an unbroken import of the extract gives, and sqlite3 finds it whole.
as_whole() {
  "$pbfrow" export "$2" > full-export.txt
  same "$1" full-export.txt whole-export.txt
  sound "sqlite3 finds it whole" "$2"
}

rm -f full.db* whole.db*
"$pbfrow" import "$country" whole.db > whole.txt
"$pbfrow" export whole.db > whole-export.txt
fills_up "a full disk" import "$country" full.db
"$pbfrow" import "$country" full.db > again.txt && pass "the import after it" || fail "the import after it"
as_whole "its export is that of an unbroken run" full.db

# what is copied is as it was, byte for byte
blobs=$(grep -c '^[0-9][0-9]* stored ' whole.txt)
"$pbfrow" ranges "$country" 2 > plan.txt
while read -r from to; do
  tail -c +$((from + 1)) "$country" | head -c $((to - from)) | "$pbfrow" import /dev/stdin "part-$from.db" --at "$from" > got.txt
done < plan.txt
rm -f full.db*
sha256sum part-*.db > sums.txt
fills_up "a merge on a full disk" merge full.db part-*.db
sha256sum -c --quiet sums.txt && pass "which leaves what it copies" || fail "which leaves what it copies"
"$pbfrow" merge full.db part-*.db > again.txt && pass "the merge after it" || fail "the merge after it"
as_whole "its export is that of one import" full.db
expect "the parts are still whole" 0 "blobs $blobs end $(stat -c %s "$country") gaps 0${nl}" status part-*.db

if has python3; then
  python3 "$top/bench/older.py" whole.db older.db
  rm -f full.db*
  sha256sum older.db > sums.txt
  fills_up "a copy of an older database on a full disk" migrate older.db full.db
  sha256sum -c --quiet sums.txt && pass "which leaves the older one" || fail "which leaves the older one"
  "$pbfrow" migrate older.db full.db > again.txt && pass "the copy after it" || fail "the copy after it"
  as_whole "its export is that of an import" full.db
  rm -f older.db
else
  skip "a copy of an older database on a full disk" "python3 isn't installed"
fi

"$pbfrow" export whole.db | head -n 1 > one.txt
head -n 1 whole-export.txt > want.txt
same "an export whose reader goes away" one.txt want.txt
"$pbfrow" export whole.db > /dev/full 2>/dev/null
[ $? = 1 ] && pass "an export to a full disk ends with 1" || fail "an export to a full disk ends with 1"
counted
