#!/usr/bin/env bash
# The commands check and show: a real extract, and what osmium reads from it.
. "$(dirname -- "${BASH_SOURCE[0]}")/begin.sh"
two=$top/data/two-nodes.osm.pbf
country=$top/data/liechtenstein-raw.osm.pbf
nl='
'

head -c 47 "$two" > header.osm.pbf
expect "check of a header alone" 0 "blobs 1 nodes 0 ways 0 relations 0 faults 0${nl}" check header.osm.pbf
expect "check of an empty input" 1 "fault 61 NoHeaderFirst at 0${nl}blobs 0 nodes 0 ways 0 relations 0 faults 1${nl}" check < /dev/null
head -c 83 "$two" > cut.osm.pbf
expect "check of a last blob that is cut" 1 "fault 18 BlobCut at 47${nl}blobs 1 nodes 0 ways 0 relations 0 faults 1${nl}" check cut.osm.pbf
expect "check of a file that isn't there" 1 "fault 68 ReadFailed at 0${nl}" check nowhere.osm.pbf
expect "show of a header alone" 0 "blob 0 OSMHeader 47${nl}required OsmSchema-V0.6${nl}required DenseNodes${nl}" show header.osm.pbf
expect "show of an empty input" 0 "" show < /dev/null

# blobs that are bad, and one of another type, which is none
other() { printf '\0\0\0\x09\x0a\x05Extra\x18\x03\xff\xff\xff'; }
expect "check of a blob of another type alone" 1 "fault 61 NoHeaderFirst at 0${nl}blobs 1 nodes 0 ways 0 relations 0 faults 1${nl}" check < <(other)
{
  cat header.osm.pbf header.osm.pbf
  printf '\0\0\0\x0b\x0a\x07OSMData\x18\x05\x1a\x01\x00\x0a\x00'
  printf '\0\0\0\x0b\x0a\x07OSMData\x18\x00'
  printf '\0\0\0\x0b\x0a\x07OSMData\x18\x02\x0a\x00'
  other
} > bad.osm.pbf
lines "fault 62 HeaderNotFirst at 47" "fault 21 CompressedZlib at 94" "fault 22 NoData at 114" "fault 41 NoStringTable at 129" "blobs 6 nodes 0 ways 0 relations 0 faults 4" > want.txt
"$pbfrow" check bad.osm.pbf > got.txt
[ $? = 1 ] && pass "check of bad blobs ends with 1" || fail "check of bad blobs ends with 1"
same "and goes on behind each" got.txt want.txt
header="blob 0 OSMHeader 47${nl}required OsmSchema-V0.6${nl}required DenseNodes${nl}"
{ cat header.osm.pbf; other; head -c 46 "$two"; } > other.osm.pbf
expect "show of a blob of another type and of a last one that is cut" 1 "${header}blob 47 Extra 16${nl}fault 18 BlobCut at 63${nl}" show other.osm.pbf
{
  printf '\0\0\0\x0d\x0a\x09OSMHeader\x18\x23\x0a\x21\x0a\x08\x08\x01\x10\x02\x18\x04\x20\x03'
  printf '\x2a\x03a b\x82\x01\x01p\x8a\x01\x01s\x80\x02\x05\x88\x02\x06\x92\x02\x01u'
} > full.osm.pbf
lines "blob 0 OSMHeader 52" "bbox -1 1 2 -2" "optional a%20b" "program p" "source s" "replication-timestamp 5" "replication-sequence 6" "replication-url u" > want.txt
"$pbfrow" show full.osm.pbf > got.txt
same "show of all that a header can say" got.txt want.txt

expect "check of two nodes" 0 "blobs 2 nodes 2 ways 0 relations 0 faults 0${nl}" check "$two"
expect "show of two nodes" 0 "blob 0 OSMHeader 47${nl}required OsmSchema-V0.6${nl}required DenseNodes${nl}blob 47 OSMData 37${nl}n 1 1000 -100 [] {}${nl}n 2 900 -100 [] {}${nl}" show "$two"
expect "check of a real extract" 0 "blobs 12 nodes 65733 ways 7121 relations 113 faults 0${nl}" check "$country"

if has python3; then
  python3 "$top/e2e/changed_bytes.py" "$pbfrow" "$two" > got.txt && pass "check of a file of which one byte is another" || fail "check of a file of which one byte is another"
  sed 's/^/  /' got.txt
else
  skip "check of a file of which one byte is another" "python3 isn't installed"
fi

if has osmium python3; then
  osmium cat --no-progress -f opl "$country" | python3 "$top/e2e/opl_lines.py" > want.txt
  "$pbfrow" show "$country" | grep -E '^[nwr] ' > got.txt
  same "show of a real extract, element by element what osmium reads" got.txt want.txt
  osmium cat --no-progress -f pbf "$country" -o compressed.osm.pbf
  "$pbfrow" check compressed.osm.pbf | head -n 1 > got.txt
  echo "fault 21 CompressedZlib at 0" > want.txt
  same "a compressed file is refused by name" got.txt want.txt
else
  skip "show of a real extract, element by element" "osmium or python3 isn't there"
fi
counted
