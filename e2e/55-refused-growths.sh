#!/usr/bin/env bash
# Growths of memory refused, one in each run: a command ends with the line of the fault behind a front of its output, with 2
# where its arguments weren't read, or as with memory; and the same import, copy or merge again completes one that ended so.
# alone: it takes all processors itself
. "$(dirname -- "${BASH_SOURCE[0]}")/begin.sh"
. "$top/e2e/older.sh"
two=$top/data/two-nodes.osm.pbf

# refused NAME EVERY WORD..: so it is with the command's first growth, and with each that stands EVERY behind such a one.
refused() {
  local name=$1 every=$2
  shift 2
  if python3 "$top/e2e/refused_growths.py" "$every" "$pbfrow" "$@" > told.txt 2>&1; then pass "$name"; else fail "$name"; fi
  sed 's/^/  /' told.txt
}

if ! has cc python3; then
  skip "refused growths" "cc or python3 isn't installed"
elif ! cc -shared -fPIC -O2 -o refuse.so "$top/e2e/refuse.c" -ldl; then
  fail "a library that refuses growths is compiled"
else
  # in memory, where there is such a folder: on a disk most of the time would be spent waiting for it
  folder=$(mktemp -d -p /dev/shm 2>/dev/null || mktemp -d)
  database=$folder/refused.db
  refused "list with each growth refused" 1 list "$two"
  refused "check with each growth refused" 1 check "$two"
  refused "show with each growth refused" 1 show "$two"
  refused "ranges with each growth refused" 1 ranges "$two" 2
  refused "import into a new database with every seventh growth refused" 7 import "$two" "$database"
  refused "import of what is held with every seventh growth refused" 7 import "$two" "$database"
  "$pbfrow" export "$database" > want.txt
  refused "status with every seventh growth refused" 7 status "$database"
  refused "export with every seventh growth refused" 7 export "$database"
  refused "export as PBF with every seventh growth refused" 7 export "$database" --form pbf
  refused "find with every seventh growth refused" 7 find "$database" n2
  refused "verify with every seventh growth refused" 7 verify "$two" "$database"
  refused "verify --elements with every seventh growth refused" 7 verify "$two" "$database" --elements
  "$pbfrow" export "$database" > got.txt
  same "the database that was asked so stays as it was" got.txt want.txt

  head -c 47 "$two" | "$pbfrow" import /dev/stdin "$folder/first.db" > got.txt
  tail -c 37 "$two" | "$pbfrow" import /dev/stdin "$folder/second.db" --at 47 > got.txt
  merged=$folder/merged.db
  refused "merge into a new database with every seventh growth refused" 7 merge "$merged" "$folder/first.db" "$folder/second.db"
  refused "merge into what holds all with every seventh growth refused" 7 merge "$merged" "$folder/first.db" "$folder/second.db"
  "$pbfrow" export "$merged" > got.txt
  same "the merged database is that of an import" got.txt want.txt
  if has sqlite3; then
    older_two_nodes "$folder/older.db"
    migrated=$folder/migrated.db
    refused "migrate into a new database with every seventh growth refused" 7 migrate "$folder/older.db" "$migrated"
    refused "migrate into what holds all with every seventh growth refused" 7 migrate "$folder/older.db" "$migrated"
    "$pbfrow" export "$migrated" > got.txt
    same "the migrated database is that of an import" got.txt want.txt
  else
    skip "migrate with growths refused" "sqlite3 isn't installed"
  fi
  rm -rf "$folder"
fi
counted
