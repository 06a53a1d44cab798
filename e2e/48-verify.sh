#!/usr/bin/env bash
# Whether a database is exactly what an import of a file makes, and where they differ.
. "$(dirname -- "${BASH_SOURCE[0]}")/begin.sh"
two=$top/data/two-nodes.osm.pbf
country=$top/data/liechtenstein-raw.osm.pbf
nl='
'
alike="blobs 2 missing 0 differs 0 extra 0${nl}"
whole="blobs 12 missing 0 differs 0 extra 0${nl}"

rm -f two.db header.db other.db nowhere.db
"$pbfrow" import "$two" two.db > got.txt
head -c 47 "$two" > header.osm.pbf
head -c 83 "$two" > cut.osm.pbf
{ head -c 83 "$two"; printf '\002'; } > moved.osm.pbf
for depth in "" --elements; do
  expect "verify${depth:+ $depth} of an import" 0 "$alike" verify "$two" two.db $depth
  expect "verify${depth:+ $depth} of a pipe" 0 "$alike" verify /dev/stdin two.db $depth < <(cat "$two")
  expect "verify${depth:+ $depth} of a blob that differs in its last byte" 1 "differs 47${nl}blobs 2 missing 0 differs 1 extra 0${nl}" verify moved.osm.pbf two.db $depth
  expect "verify${depth:+ $depth} of a blob behind the file" 1 "extra 47${nl}blobs 1 missing 0 differs 0 extra 1${nl}" verify header.osm.pbf two.db $depth
  expect "verify${depth:+ $depth} of a file that ends inside a frame" 1 "fault 18 BlobCut at 47${nl}blobs 1 missing 0 differs 0 extra 0${nl}" verify cut.osm.pbf two.db $depth
done
if has python3; then
  python3 "$top/e2e/every_byte.py" "$pbfrow" "$two" two.db > got.txt && pass "verify of a file of which one byte is another" || fail "verify of a file of which one byte is another"
  sed 's/^/  /' got.txt
else
  skip "verify of a file of which one byte is another" "python3 isn't installed"
fi
expect "verify of an empty input" 1 "fault 61 NoHeaderFirst at 0${nl}extra 0${nl}extra 47${nl}blobs 0 missing 0 differs 0 extra 2${nl}" verify /dev/null two.db
cat header.osm.pbf header.osm.pbf > headers.osm.pbf
expect "verify of a bad blob in the place of a good one" 1 "fault 62 HeaderNotFirst at 47${nl}extra 47${nl}blobs 2 missing 0 differs 0 extra 1${nl}" verify headers.osm.pbf two.db
tail -c 37 "$two" >> headers.osm.pbf
"$pbfrow" import /dev/null none.db > got.txt
for depth in "" --elements; do
  expect "verify${depth:+ $depth} of a good blob behind the bad one" 1 "fault 62 HeaderNotFirst at 47${nl}extra 47${nl}missing 94${nl}blobs 3 missing 1 differs 0 extra 1${nl}" verify headers.osm.pbf two.db $depth
  expect "verify${depth:+ $depth} of a database that holds nothing" 1 "missing 0${nl}missing 47${nl}blobs 2 missing 2 differs 0 extra 0${nl}" verify "$two" none.db $depth
  expect "verify${depth:+ $depth} of that and an empty input" 1 "fault 61 NoHeaderFirst at 0${nl}blobs 0 missing 0 differs 0 extra 0${nl}" verify /dev/null none.db $depth
done
"$pbfrow" import header.osm.pbf header.db > got.txt
expect "verify of a blob that isn't held" 1 "missing 47${nl}blobs 2 missing 1 differs 0 extra 0${nl}" verify "$two" header.db
# the blob of the nodes 13 bytes further, so that it begins inside a frame of the file
{ head -c 60 "$two"; tail -c 37 "$two"; } > shifted.osm.pbf
"$pbfrow" import shifted.osm.pbf header.db --from 60 > got.txt
expect "verify of a blob that begins inside a frame" 1 "missing 47${nl}extra 60${nl}blobs 2 missing 1 differs 0 extra 1${nl}" verify "$two" header.db

expect "verify of a file that isn't there" 1 "fault 68 ReadFailed at 0${nl}" verify nowhere.osm.pbf two.db
expect "verify of a folder" 1 "fault 68 ReadFailed at 0${nl}" verify . two.db
expect "verify of a database that isn't there" 1 "fault 66 NotThisStore${nl}" verify "$two" nowhere.db
[ ! -e nowhere.db ] && pass "which isn't made" || fail "which isn't made"
: > blank.db
expect "verify of an empty database file" 1 "fault 66 NotThisStore${nl}" verify "$two" blank.db
"$pbfrow" verify "$two" two.db > /dev/full
[ $? = 1 ] && pass "verify to a full disk ends with 1" || fail "verify to a full disk ends with 1"

# counts BLOBS: the last line behind those of standard input.
counts() {
  awk -v blobs="$1" '{ many[$1]++ } END { print "blobs", blobs, "missing", many["missing"] + 0, "differs", many["differs"] + 0, "extra", many["extra"] + 0 }'
}

# the real extract
rm -f whole.db other.db
"$pbfrow" import "$country" whole.db > got.txt
expect "verify of a real extract" 0 "$whole" verify "$country" whole.db
expect "verify --elements of a real extract" 0 "$whole" verify "$country" whole.db --elements
# the same elements in other blobs: as `list` has them, those of the file alone are missing, and those of the other one extra
"$pbfrow" export whole.db --form pbf > other.osm.pbf
"$pbfrow" import other.osm.pbf other.db > got.txt
"$pbfrow" list "$country" | cut -d ' ' -f 1 | sort > of-file.txt
"$pbfrow" list other.osm.pbf | cut -d ' ' -f 1 | sort > of-other.txt
{
  comm -23 of-file.txt of-other.txt | sed 's/^/missing /'
  comm -12 of-file.txt of-other.txt | sed 's/^/differs /'
  comm -13 of-file.txt of-other.txt | sed 's/^/extra /'
} | sort -n -k 2 > want.txt
counts 12 < want.txt > last.txt
cat last.txt >> want.txt
"$pbfrow" verify "$country" other.db > got.txt
[ $? = 1 ] && pass "verify of a file with the same elements in other blobs" || fail "verify of a file with the same elements in other blobs"
same "its lines" got.txt want.txt

# changes NAME SQL LINE.. - LINE..: after this change of few.db verify writes the lines before the `-`, and with --elements those behind it;
# and last the counts, unless a line is that of a fault. It ends with 0 where there are no lines.
changes() {
  local name=$1 sql=$2 depth="" text="" line
  shift 2
  cp few.db changed.db
  sqlite3 changed.db "$sql" > sqlite.txt
  for line in "$@" -; do
    if [ "$line" != - ]; then
      text+=$line$nl
      continue
    fi
    case $text in
      "") expect "verify${depth:+ $depth} of $name" 0 "$few" verify few.osm.pbf changed.db $depth ;;
      fault*) expect "verify${depth:+ $depth} of $name" 1 "$text" verify few.osm.pbf changed.db $depth ;;
      *) expect "verify${depth:+ $depth} of $name" 1 "$text$(printf '%s' "$text" | counts 3)$nl" verify few.osm.pbf changed.db $depth ;;
    esac
    depth=--elements
    text=""
  done
}

# told LINE..: and standard error has these lines alone.
told() {
  if [ $# = 0 ]; then : > want.txt; else printf '%s\n' "$@" > want.txt; fi
  same "and what is told of it on standard error" stderr.txt want.txt
}

if has sqlite3; then
  cp two.db inside.db
  sqlite3 inside.db "DELETE FROM element; UPDATE blob SET off = 5, fin = 50, kind = 2, n = 0 WHERE off = 0; UPDATE blob SET off = 50, fin = 51, kind = 2, n = 0 WHERE off = 47"
  for depth in "" --elements; do
    expect "verify${depth:+ $depth} of blobs that begin inside both frames" 1 "missing 0${nl}extra 5${nl}missing 47${nl}extra 50${nl}blobs 2 missing 2 differs 0 extra 2${nl}" verify "$two" inside.db $depth
  done
  # the header, 8,000 nodes and all relations
  { head -c 98 "$country"; tail -c +115674 "$country" | head -c 111478; tail -c 52279 "$country"; } > few.osm.pbf
  few="blobs 3 missing 0 differs 0 extra 0${nl}"
  rm -f few.db changed.db
  "$pbfrow" import few.osm.pbf few.db > got.txt
  of="WHERE off = 98"
  changes "what was only opened" "SELECT count(*) FROM blob" -
  changes "a blob that was deleted with its rows" "DELETE FROM link $of; DELETE FROM tag $of; DELETE FROM element $of; DELETE FROM blob $of" "missing 98" - "missing 98"
  "$pbfrow" import few.osm.pbf changed.db > got.txt
  expect "verify --elements after it was imported again" 0 "$few" verify few.osm.pbf changed.db --elements
  sound "sqlite3 finds it whole" changed.db
  changes "another digest" "UPDATE blob SET digest = zeroblob(32) $of" "differs 98" - "differs 98"
  changes "another type" "UPDATE blob SET kind = 2 $of" "differs 98" - "differs 98"
  changes "another count of elements" "UPDATE blob SET n = n + 1 $of" "differs 98" - "differs 98"
  changes "another end" "UPDATE blob SET fin = fin - 1 $of" "differs 98" - "differs 98"
  changes "another place" "UPDATE blob SET off = 99 $of" "missing 98" "extra 99" - "missing 98" "extra 99"
  told "pbfrow: changed.db: a row of element at offset 98 belongs to no blob"
  changes "one more blob behind the file" "INSERT INTO blob VALUES (163855, 163900, zeroblob(32), 2, 0)" "extra 163855" - "extra 163855"
  node="WHERE off = 98 AND pos = 6689"
  changes "a node that was moved" "UPDATE element SET lat = lat + 100 $node" - "differs 98"
  changes "a tag with another value" "UPDATE tag SET val = 'Cafe' $node AND key = 'name'" - "differs 98"
  changes "a last tag that is gone" "DELETE FROM tag $node AND k = (SELECT max(k) FROM tag $node)" - "differs 98"
  changes "another user" "UPDATE element SET user = 'nobody' $node" - "differs 98"
  changes "a time that is gone" "UPDATE element SET time = NULL $node" - "differs 98"
  changes "a last element that is gone" "DELETE FROM tag $of AND pos = 7999; DELETE FROM element $of AND pos = 7999" - "differs 98"
  changes "a member with another role" "UPDATE link SET role = 'none' WHERE off = 111576 AND pos = 0 AND k = 0" - "differs 111576"
  changes "a row that no element has" "UPDATE element SET version = -2 $node" - "differs 98"
  changes "one more tag" "INSERT INTO tag (off, pos, k, key, val) VALUES (98, 6689, 99, 'a', 'b')" - "differs 98"
  told
  # rows at no offset of the file: the counts at its end tell these
  behind="fault 66 NotThisStore at 163855"
  changes "a tag in no blob" "INSERT INTO tag (off, pos, k, key, val) VALUES (99, 0, 0, 'a', 'b')" - "$behind"
  told "pbfrow: changed.db: a row of tag at offset 99 belongs to no blob"
  changes "a member in no blob" "INSERT INTO link (off, pos, k, kind, ref, role) VALUES (99, 0, 0, 0, 1, '')" - "$behind"
  told "pbfrow: changed.db: a row of link at offset 99 belongs to no blob"
  changes "an element in no blob" "INSERT INTO element (off, pos, kind, id, lat, lon) VALUES (99, 0, 0, 1, 2, 3)" - "$behind"
  told "pbfrow: changed.db: a row of element at offset 99 belongs to no blob"
  # the extents that share a byte with the first blob are looked for downward, and this row is none
  changes "a blob at a negative offset" "INSERT INTO blob VALUES (-5, 0, zeroblob(32), 2, 0)" "fault 66 NotThisStore at 0" - "fault 66 NotThisStore at 0"
  # a row that changes while an index isn't in the list of trees, so that its entry stays
  cp few.db changed.db
  list="type, name, tbl_name, rootpage, sql"
  sqlite3 changed.db "PRAGMA writable_schema = ON; CREATE TEMP TABLE kept AS SELECT rowid AS at, $list FROM sqlite_schema WHERE name = 'element_by_id';
    DELETE FROM sqlite_schema WHERE name = 'element_by_id'; PRAGMA writable_schema = RESET; UPDATE element SET id = id + 1 $node;
    PRAGMA writable_schema = ON; INSERT INTO sqlite_schema (rowid, $list) SELECT * FROM kept" > sqlite.txt
  echo "pbfrow: changed.db: damaged: its index element_by_id has not one entry for each row" > want.txt
  for depth in "" --elements; do
    expect "verify${depth:+ $depth} of a row that an index lacks" 1 "fault 65 Disk${nl}" verify few.osm.pbf changed.db $depth
    same "and it says which" stderr.txt want.txt
  done
else
  skip "verify of databases that were changed" "sqlite3 isn't installed"
fi

# four parts, merged in reverse
rm -f merged.db merged.db-wal part-*.db part-*.db-wal
to=$(stat -c %s "$country")
parts=()
for from in $("$pbfrow" list "$country" | awk 'NR % 3 == 1 { print $1 }' | tac); do
  head -c "$to" "$country" | "$pbfrow" import /dev/stdin "part-$from.db" --from "$from" > got.txt
  parts+=("part-$from.db")
  to=$from
done
[ ${#parts[@]} = 4 ] && pass "four parts" || fail "four parts"
"$pbfrow" list "$country" | awk 'NR > 3 { print "missing", $1 } END { print "blobs", NR, "missing", NR - 3, "differs 0 extra 0" }' > want.txt
"$pbfrow" verify "$country" part-0.db > got.txt
same "verify of the first part" got.txt want.txt
"$pbfrow" merge merged.db "${parts[@]}" > got.txt
expect "verify of a merge of four parts" 0 "$whole" verify "$country" merged.db
expect "verify --elements of a merge of four parts" 0 "$whole" verify "$country" merged.db --elements

# an import that is killed inside the fourth frame, and done again
rm -f killed.db killed.db-wal slow.fifo
mkfifo slow.fifo
"$pbfrow" import slow.fifo killed.db > killed.txt 2> /dev/null &
killed=$!
exec 7> slow.fifo
head -c 300000 "$country" >&7
for _ in $(seq 300); do
  [ "$(grep -c . killed.txt)" -ge 3 ] && break
  sleep 0.1
done
kill -9 "$killed"
exec 7>&-
wait "$killed" 2> /dev/null
"$pbfrow" verify "$country" killed.db > got.txt
[ $? = 1 ] && pass "verify after an import that was killed ends with 1" || fail "verify after an import that was killed ends with 1"
same "and has a line for each blob that is missing" got.txt want.txt
"$pbfrow" import "$country" killed.db > got.txt
expect "verify after it was imported again" 0 "$whole" verify "$country" killed.db
expect "verify --elements after it was imported again" 0 "$whole" verify "$country" killed.db --elements
sound "sqlite3 finds it whole" killed.db
counted
