#!/usr/bin/env bash
# The commands import, status, export and find on the two-node file and on broken copies of it.
. "$(dirname -- "${BASH_SOURCE[0]}")/begin.sh"
two=$top/data/two-nodes.osm.pbf
nl='
'
stored="0 stored 0${nl}47 stored 2${nl}blobs stored 2 held 0 bad 0 refused 0${nl}"
held="0 held${nl}47 held${nl}blobs stored 0 held 2 bad 0 refused 0${nl}"
nodes="n 1 1000 -100 [] {}${nl}n 2 900 -100 [] {}${nl}"

rm -f two.db
expect "an import" 0 "$stored" import "$two" two.db
expect "the same import again" 0 "$held" import "$two" two.db
sound "which sqlite3 finds whole" two.db
expect "its status" 0 "blobs 2 end 84 gaps 0${nl}" status two.db
expect "its status against a longer file" 0 "gap 84 85${nl}blobs 2 end 84 gaps 1${nl}" status two.db --size 85
expect "its counts" 0 "blobs 2 end 84 gaps 0${nl}nodes 2 ways 0 relations 0${nl}tags 0 links 0${nl}oldest - newest -${nl}" status two.db --counts
expect "its status against a shorter file" 0 "blobs 2 end 84 gaps 0${nl}" status two.db --size 83
expect "its export" 0 "$nodes" export two.db
expect "its export at the file's size" 0 "$nodes" export two.db --size 84
expect "its export at a smaller size" 1 "fault 70 PastEnd${nl}" export two.db --size 83
expect "its export at a larger size" 1 "fault 67 Incomplete${nl}" export two.db --size 85
expect "its partial export at a smaller size" 0 "$nodes" export two.db --size 83 --partial
expect "an element that is held" 0 "47 1 n 2 900 -100 [] {}${nl}" find two.db n2
expect "an element that isn't held" 0 "" find two.db w2
expect "the same with zeros before its id" 0 "47 1 n 2 900 -100 [] {}${nl}" find two.db n002
expect "the greatest id" 0 "" find two.db n4611686018427387903
expect "the least id" 0 "" find two.db r-4611686018427387903
expect "what is no element" 2 "" find two.db x2

# the header frame that pbfrow writes
printf '\0\0\0\x0d\x0a\x09OSMHeader\x18\x27\x0a\x25\x22\x0eOsmSchema-V0.6\x22\x0aDenseNodes\x82\x01\x06pbfrow' > header-frame
tail -c 37 "$two" > data-frame
"$pbfrow" export two.db --form pbf > two-out.osm.pbf
stat -c %s two-out.osm.pbf > size.txt
echo 93 > want.txt
same "an exported file has 93 bytes" size.txt want.txt
cat header-frame data-frame > want.osm.pbf
same "its frames are the header that pbfrow writes and the data frame of the input" two-out.osm.pbf want.osm.pbf
expect "an exported file is listed" 0 "0 OSMHeader 39${nl}56 OSMData 22${nl}" list two-out.osm.pbf

rm -f cut.db
head -c 83 "$two" > cut.osm.pbf
expect "an import of a file that is cut" 1 "0 stored 0${nl}fault 18 BlobCut at 47${nl}" import cut.osm.pbf cut.db
expect "the whole file after it" 0 "0 held${nl}47 stored 2${nl}blobs stored 1 held 1 bad 0 refused 0${nl}" import "$two" cut.db
expect "and its export" 0 "$nodes" export cut.db
sound "an import that went on is found whole" cut.db

rm -f quiet.db
expect "an import with --quiet" 0 "blobs stored 2 held 0 bad 0 refused 0${nl}" import "$two" quiet.db --quiet
expect "the same with --quiet again" 0 "blobs stored 0 held 2 bad 0 refused 0${nl}" import --quiet "$two" quiet.db
expect "what it has stored" 0 "$nodes" export quiet.db --size 84
head -c 47 "$two" | cat "$two" - > again.osm.pbf
expect "with --quiet a bad blob has its line" 1 "fault 62 HeaderNotFirst at 84${nl}blobs stored 0 held 2 bad 1 refused 0${nl}" import again.osm.pbf quiet.db --quiet
{ head -c 83 "$two"; printf '\002'; } > differing.osm.pbf
expect "and a refused one" 1 "fault 63 Differs at 47${nl}blobs stored 0 held 1 bad 0 refused 1${nl}" import differing.osm.pbf quiet.db --quiet
expect "and a cut" 1 "fault 18 BlobCut at 47${nl}" import cut.osm.pbf quiet.db --quiet
expect "and an early end" 1 "fault 68 ReadFailed at 84${nl}" import "$two" quiet.db --to 85 --quiet
rm -f quiet-part.db
expect "an import of a part with --quiet" 0 "blobs stored 1 held 0 bad 0 refused 0${nl}" import data-frame quiet-part.db --at 47 --to 84 --quiet
expect "the same part of the whole file" 0 "blobs stored 0 held 1 bad 0 refused 0${nl}" import "$two" quiet-part.db --from 47 --quiet

# what isn't of the file that is held, and what is bad
expect "another blob in the place of one that is held" 1 "0 held${nl}fault 63 Differs at 47${nl}blobs stored 0 held 1 bad 0 refused 1${nl}" import differing.osm.pbf two.db
expect "a blob across one that is held" 1 "fault 64 Overlap at 60${nl}blobs stored 0 held 0 bad 0 refused 1${nl}" import data-frame two.db --at 60
rm -f again.db
expect "a second header" 1 "0 stored 0${nl}47 stored 2${nl}fault 62 HeaderNotFirst at 84${nl}blobs stored 2 held 0 bad 1 refused 0${nl}" import again.osm.pbf again.db
rm -f again.db
expect "a file without a header" 1 "fault 61 NoHeaderFirst at 0${nl}blobs stored 0 held 0 bad 1 refused 0${nl}" import data-frame again.db

# a blob of another type, and behind it the same nodes again
{ cat "$two"; printf '\0\0\0\x09\x0a\x05Extra\x18\x03\xff\xff\xff'; cat data-frame; } > four.osm.pbf
rm -f four.db
expect "four blobs" 0 "0 stored 0${nl}47 stored 2${nl}84 stored 0${nl}100 stored 2${nl}blobs stored 4 held 0 bad 0 refused 0${nl}" import four.osm.pbf four.db
expect "their status" 0 "blobs 4 end 137 gaps 0${nl}" status four.db
expect "their export" 0 "$nodes$nodes" export four.db
cat header-frame data-frame data-frame > want.osm.pbf
"$pbfrow" export four.db --form pbf > four-out.osm.pbf
same "their export as PBF, without that of another type" four-out.osm.pbf want.osm.pbf
expect "an element in two of them" 0 "47 0 n 1 1000 -100 [] {}${nl}100 0 n 1 1000 -100 [] {}${nl}" find four.db n1

# the same two nodes with the ids -1 and 0
{ head -c 74 "$two"; printf '\001'; tail -c 9 "$two"; } > below.osm.pbf
rm -f below.db
expect "ids below 1" 0 "$stored" import below.osm.pbf below.db
expect "an element with an id below 0" 0 "47 0 n -1 1000 -100 [] {}${nl}" find below.db n-1

rm -f from.db
expect "an import from the second frame" 0 "47 stored 2${nl}blobs stored 1 held 0 bad 0 refused 0${nl}" import "$two" from.db --from 47
expect "the gap before it" 0 "gap 0 47${nl}blobs 1 end 84 gaps 1${nl}" status from.db
expect "its export is refused" 1 "fault 67 Incomplete${nl}" export from.db
expect "its partial export" 0 "$nodes" export from.db --partial
expect "an import from the end" 0 "blobs stored 0 held 0 bad 0 refused 0${nl}" import "$two" from.db --from 84
rm -f past.db
expect "an import from behind the end" 1 "fault 68 ReadFailed at 85${nl}" import "$two" past.db --from 85
expect "an import from 2^62" 1 "fault 68 ReadFailed at 4611686018427387904${nl}" import "$two" past.db --from 4611686018427387904
expect "an import at 2^62" 1 "fault 60 OffsetTooLarge at 4611686018427387904${nl}" import "$two" past.db --at 4611686018427387904
expect "a number above 2^62" 2 "" import "$two" past.db --from 4611686018427387905
rm -f empty.db
expect "an import of nothing" 1 "fault 61 NoHeaderFirst at 0${nl}" import /dev/null empty.db
sound "a database that holds nothing is found whole" empty.db
expect "the status of nothing" 0 "blobs 0 end 0 gaps 0${nl}" status empty.db
expect "the status of nothing against a file" 0 "gap 0 10${nl}blobs 0 end 0 gaps 1${nl}" status empty.db --size 10
expect "the counts of nothing" 0 "blobs 0 end 0 gaps 0${nl}nodes 0 ways 0 relations 0${nl}tags 0 links 0${nl}oldest - newest -${nl}" status empty.db --counts
expect "an export of nothing" 1 "fault 67 Incomplete${nl}" export empty.db
expect "a partial export of nothing" 0 "" export empty.db --partial
"$pbfrow" export empty.db --partial --form pbf > header-only.osm.pbf
same "a partial file of nothing is a header frame of 56 bytes" header-only.osm.pbf header-frame
counted
