#!/usr/bin/env bash
# Databases with damage of every kind: each command ends by itself, with a right answer or a fault or with what verify finds,
# and writes nothing to what it only asks. A row that somebody has put at the greatest rowid stops an import, which goes on
# once the row has another one.
. "$(dirname -- "${BASH_SOURCE[0]}")/begin.sh"
two=$top/data/two-nodes.osm.pbf
country=$top/data/liechtenstein-raw.osm.pbf

# damaged NAME FILE DATABASE COUNT
damaged() {
  python3 "$top/e2e/damage.py" "$pbfrow" "$2" "$3" "$4" > told.txt 2>&1 && pass "$1" || fail "$1"
  sed 's/^/  /' told.txt
}

if has python3; then
  "$pbfrow" import "$two" two.db > got.txt
  damaged "a small database damaged at random" "$two" two.db 420
  # one whose tables have several levels of pages: the first blobs of a real extract
  read -r _ to < <("$pbfrow" ranges "$country" 8)
  head -c "$to" "$country" > some.osm.pbf
  "$pbfrow" import some.osm.pbf some.db > got.txt
  damaged "a larger one" some.osm.pbf some.db 110
else
  skip "damaged databases" "python3 isn't installed"
fi

# stopped TABLE: in a database that lacks the last blob, a row of this table has the greatest rowid.
stopped() {
  cp front.db "$1.db"
  sqlite3 "$1.db" "UPDATE $1 SET rowid = $greatest WHERE rowid = (SELECT max(rowid) / 2 FROM $1); SELECT max(rowid) FROM $1" > got.txt
  lines "$greatest" > want.txt
  same "$1: a row has the greatest rowid" got.txt want.txt
  expect "$1: an import of the last blob" 1 "fault 65 Full at $last${nl}" import "$country" "$1.db" --from "$last"
  expect "$1: a merge of it" 1 "fault 65 Full at $last${nl}" merge "$1.db" whole.db
  sound "$1: sqlite3 finds the database whole" "$1.db"
  expect "$1: verify --elements lacks that blob alone" 1 "missing $last${nl}blobs 12 missing 1 differs 0 extra 0${nl}" verify "$country" "$1.db" --elements
  "$pbfrow" export "$1.db" > got.txt
  same "$1: nothing is lost" got.txt front.txt
  sqlite3 "$1.db" "${move//element/$1}"
  "$pbfrow" import "$country" "$1.db" | tail -n 1 > got.txt
  lines "blobs stored 1 held 11 bad 0 refused 0" > want.txt
  same "$1: an import once the row has the next rowid, as the guide says" got.txt want.txt
  expect "$1: verify --elements then" 0 "blobs 12 missing 0 differs 0 extra 0${nl}" verify "$country" "$1.db" --elements
  sound "$1: sqlite3 finds that whole" "$1.db"
}

if has sqlite3; then
  nl=$'\n'
  greatest=9223372036854775807
  # all blobs but that of the relations, so that each table has rows
  last=1259691
  "$pbfrow" import "$country" whole.db > got.txt
  "$pbfrow" import "$country" front.db --to "$last" > got.txt
  "$pbfrow" export front.db > front.txt
  # the statement of docs/REPAIR.md for the table of elements
  move=$(sed -n '/^    sqlite3 country.db "UPDATE element SET rowid/,/"$/p' "$top/docs/REPAIR.md" | sed -e 's/^ *sqlite3 country.db "//' -e 's/"$//')
  for table in element tag link; do stopped "$table"; done
else
  skip "a row at the greatest rowid" "sqlite3 isn't installed"
fi
counted
