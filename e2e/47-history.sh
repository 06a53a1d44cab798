#!/usr/bin/env bash
# Files with history: elements keep their flags of visibility, from the file to the database and back.
. "$(dirname -- "${BASH_SOURCE[0]}")/begin.sh"
two=$top/data/two-nodes.osm.pbf
nl='
'

# a header that requires HistoricalInformation, as it is written
printf '\0\0\0\x0d\x0a\x09OSMHeader\x18\x3e\x0a\x3c\x22\x0eOsmSchema-V0.6\x22\x0aDenseNodes\x22\x15HistoricalInformation\x82\x01\x06pbfrow' > historic-header.osm.pbf
expect "check of a header with history" 0 "blobs 1 nodes 0 ways 0 relations 0 faults 0${nl}" check historic-header.osm.pbf

# a plain node with a flag behind a header that says nothing of flags, and what is written for it: a dense node
{
  head -c 47 "$two"
  printf '\0\0\0\x0b\x0a\x07OSMData\x18\x14\x0a\x12\x0a\x02\x0a\x00\x12\x0c\x0a\x0a\x08\x02\x22\x02\x30\x01\x40\x02\x48\x02'
} > flagged.osm.pbf
{
  cat historic-header.osm.pbf
  printf '\0\0\0\x0b\x0a\x07OSMData\x18\x18\x0a\x16\x0a\x02\x0a\x00\x12\x10\x12\x0e\x0a\x01\x02\x2a\x03\x32\x01\x01\x42\x01\x02\x4a\x01\x02'
} > want.osm.pbf
rm -f flagged.db
expect "import of a node with a flag" 0 "0 stored 0${nl}47 stored 1${nl}blobs stored 2 held 0 bad 0 refused 0${nl}" import flagged.osm.pbf flagged.db
expect "its line" 0 "n 1 100 100 [x=1] {}${nl}" export flagged.db
expect "finding it" 0 "47 0 n 1 100 100 [x=1] {}${nl}" find flagged.db n1
"$pbfrow" export flagged.db --form pbf > got.osm.pbf
same "its export requires HistoricalInformation" got.osm.pbf want.osm.pbf

# one flag for two dense nodes
{
  head -c 47 "$two"
  printf '\0\0\0\x0b\x0a\x07OSMData\x18\x1b\x0a\x19\x0a\x02\x0a\x00\x12\x13\x12\x11\x0a\x02\x02\x02\x2a\x03\x32\x01\x01\x42\x02\x00\x00\x4a\x02\x00\x00'
} > uneven.osm.pbf
expect "one flag for two nodes" 1 "fault 47 LengthsDiffer at 47${nl}blobs 2 nodes 0 ways 0 relations 0 faults 1${nl}" check uneven.osm.pbf

if has osmium python3 sqlite3; then
  lines \
    "n1 v1 dV c10 t2020-01-01T00:00:00Z i5 uann Tamenity=cafe x1.5 y2.5" \
    "n1 v2 dV c11 t2020-02-01T00:00:00Z i6 ubob Tamenity=bar x1.5 y2.6" \
    "n1 v3 dD c12 t2020-03-01T00:00:00Z i5 uann T x y" \
    "n2 v1 dV c10 t2020-01-01T00:00:00Z i5 uann T x3 y4" \
    "w7 v1 dV c10 t2020-01-02T00:00:00Z i5 uann Thighway=path Nn1,n2" \
    "w7 v2 dD c13 t2020-04-01T00:00:00Z i5 uann T N" \
    "r9 v1 dV c10 t2020-01-03T00:00:00Z i5 uann Ttype=route Mw7@forward,n2@" \
    "r9 v2 dD c14 t2020-05-01T00:00:00Z i5 uann T M" > history.opl
  python3 "$top/e2e/opl_lines.py" history < history.opl > want.txt
  for nodes in true false; do
    osmium cat --no-progress -F opl history.opl -f "osh.pbf,pbf_compression=none,pbf_dense_nodes=$nodes" -o history.osh.pbf --overwrite
    osmium cat --no-progress -f opl history.osh.pbf -o want.opl --overwrite
    same "osmium keeps what it is given, dense nodes $nodes" want.opl history.opl
    "$pbfrow" show history.osh.pbf | grep -E '^[nwr] ' > got.txt
    same "show of a file with history, dense nodes $nodes" got.txt want.txt
    rm -f history.db
    "$pbfrow" import history.osh.pbf history.db | tail -n 1 > got.txt
    echo "blobs stored 4 held 0 bad 0 refused 0" > last.txt
    same "its import, dense nodes $nodes" got.txt last.txt
    "$pbfrow" export history.db > got.txt
    same "its export as lines, dense nodes $nodes" got.txt want.txt
    "$pbfrow" export history.db --form pbf > history-out.osh.pbf
    osmium cat --no-progress -f opl history-out.osh.pbf -o got.opl --overwrite
    same "osmium reads its export as PBF to the same versions and flags, dense nodes $nodes" got.opl want.opl
  done
  osmium fileinfo -g header.with_history history-out.osh.pbf > got.txt
  echo yes > want.txt
  same "osmium takes the export for a file with history" got.txt want.txt
  sqlite3 history.db "SELECT version, date(time / 1000, 'unixepoch'), visible, user FROM element WHERE kind = 0 AND id = 1 ORDER BY version" > got.txt
  lines "1|2020-01-01|1|ann" "2|2020-02-01|1|bob" "3|2020-03-01|0|ann" > want.txt
  same "the versions of one node by SQL" got.txt want.txt
  sqlite3 history.db "SELECT kind, id, max(version) FROM element WHERE time <= unixepoch('2020-02-15') * 1000
    GROUP BY kind, id HAVING visible ORDER BY kind, id" > got.txt
  lines "0|1|2" "0|2|1" "1|7|1" "2|9|1" > want.txt
  same "the state at a time by SQL" got.txt want.txt
  osmium time-filter history.osh.pbf 2020-04-15T00:00:00Z -f opl -o - | cut -d ' ' -f 1,2 > want.txt
  sqlite3 history.db "SELECT substr('nwr', kind + 1, 1) || id || ' v' || max(version) FROM element
    WHERE time <= unixepoch('2020-04-15') * 1000 GROUP BY kind, id HAVING visible ORDER BY kind, id" > got.txt
  same "which is what osmium has as the state at that time" got.txt want.txt
else
  skip "files with history as osmium writes them" "osmium, python3 or sqlite3 isn't installed"
fi
counted
