#!/usr/bin/env bash
# A database of an earlier pbfrow, in which each element is a block, is copied into one of rows.
. "$(dirname -- "${BASH_SOURCE[0]}")/begin.sh"
two=$top/data/two-nodes.osm.pbf
nl='
'
nodes="n 1 1000 -100 [] {}${nl}n 2 900 -100 [] {}${nl}"

if has sqlite3; then
  rm -f old.db new.db none.db other.db
  . "$top/e2e/older.sh"
  older_two_nodes old.db
  sqlite3 old.db .dump > old.sql

  expect "an older database is answered by its version" 1 "fault 66 NotThisStore${nl}" status old.db
  expect "it is copied into a new one" 0 "copied 2 held 0${nl}" migrate old.db new.db
  expect "whose export is that of the file" 0 "$nodes" export new.db --size 84
  expect "a second time all of it is held" 0 "copied 0 held 2${nl}" migrate old.db new.db
  sound "sqlite3 finds it whole" new.db
  expect "so is what an import of the file finds" 0 "0 held${nl}47 held${nl}blobs stored 0 held 2 bad 0 refused 0${nl}" import "$two" new.db
  sqlite3 old.db .dump > after.sql
  same "the older one is as it was" old.sql after.sql

  cp old.db empty-old.db
  sqlite3 empty-old.db "DELETE FROM body; DELETE FROM blob"
  expect "an older database that holds nothing" 0 "copied 0 held 0${nl}" migrate empty-old.db empty-new.db

  expect "an older database that isn't there" 1 "fault 66 NotThisStore${nl}" migrate nowhere.db none.db
  : > blank.db
  expect "an empty file as the older one" 1 "fault 66 NotThisStore${nl}" migrate blank.db none.db
  expect "one that isn't older" 1 "fault 66 NotThisStore${nl}" migrate new.db none.db
  sqlite3 stranger.db "CREATE TABLE place (name TEXT); INSERT INTO place VALUES ('Vaduz')"
  expect "one of another program" 1 "fault 66 NotThisStore${nl}" migrate stranger.db none.db
  echo "This text is no database, and longer than 18 bytes." > text.db
  expect "a text as the older one" 1 "fault 65 Disk${nl}" migrate text.db none.db
  [ ! -e none.db ] && pass "then no database is made" || fail "then no database is made"
  expect "a database in a folder that isn't there" 1 "fault 65 Disk${nl}" migrate old.db nowhere/new.db
  ended=$("$pbfrow" migrate old.db old.db 2>/dev/null; echo "status $?")
  case "$ended" in
    "fault 6"[56]" "*"status 1") pass "a database into itself" ;;
    *) fail "a database into itself"; echo "  got $ended" ;;
  esac
  sqlite3 old.db .dump > after.sql
  same "which is as it was" old.sql after.sql
  rm -f blank.db*
  : > blank.db
  expect "a copy into an empty file" 0 "copied 2 held 0${nl}" migrate old.db blank.db
  expect "whose export is that of the file, too" 0 "$nodes" export blank.db --size 84
  sound "which sqlite3 finds whole" blank.db

  # the second node a little further east, which is another blob at the same place
  { head -c 83 "$two"; printf '\002'; } > moved.osm.pbf
  "$pbfrow" import moved.osm.pbf other.db --from 47 > got.txt
  expect "another blob in its place" 1 "fault 63 Differs at 47${nl}" migrate old.db other.db
  expect "the blob before it was copied" 0 "blobs 2 end 84 gaps 0${nl}" status other.db
  rm -f other.db
  { head -c 60 "$two"; tail -c 37 "$two"; } > shifted.osm.pbf
  "$pbfrow" import shifted.osm.pbf other.db --from 60 > got.txt
  expect "a blob across its place" 1 "fault 64 Overlap at 47${nl}" migrate old.db other.db
  expect "which stays" 0 "gap 47 60${nl}blobs 2 end 97 gaps 1${nl}" status other.db

  if has python3; then
    country=$top/data/liechtenstein-raw.osm.pbf
    rm -f country.db older.db new.db
    "$pbfrow" import "$country" country.db > got.txt
    "$pbfrow" export country.db > want.txt
    python3 "$top/bench/older.py" country.db older.db
    blobs=$(grep -c stored got.txt)
    expect "an older database of a real extract is copied" 0 "copied $((blobs - 1)) held 0${nl}" migrate older.db new.db
    "$pbfrow" export new.db > got.txt
    same "its export is that of an import" want.txt got.txt
    sound "sqlite3 finds the copy whole" new.db
    rm -f country.db older.db
  else
    skip "an older database of a real extract is copied" "python3 isn't installed"
  fi
else
  skip "a database of an earlier pbfrow is copied" "sqlite3 isn't installed"
fi
counted
