#!/usr/bin/env bash
# The command list on files, on standard input and on what can't be read.
. "$(dirname -- "${BASH_SOURCE[0]}")/begin.sh"
two=$top/data/two-nodes.osm.pbf
country=$top/data/liechtenstein-raw.osm.pbf

nl='
'
expect "two nodes" 0 "0 OSMHeader 30${nl}47 OSMData 22${nl}" list "$two"
expect "two nodes on standard input" 0 "0 OSMHeader 30${nl}47 OSMData 22${nl}" list < "$two"
expect "an empty input" 0 "" list < /dev/null
head -c 83 "$two" > cut.osm.pbf
expect "a last blob that is cut" 1 "0 OSMHeader 30${nl}fault 18 BlobCut at 47${nl}" list cut.osm.pbf
printf '\0\1\0\0' > long-header.osm.pbf
expect "a header length above 65535" 1 "fault 11 HeaderTooLong at 0${nl}" list long-header.osm.pbf
expect "a header length of 65535" 1 "fault 12 HeaderCut at 0${nl}" list < <(printf '\0\0\xff\xff')
expect "a header length that is cut" 1 "fault 10 LengthCut at 0${nl}" list < <(printf '\0\0\0')
expect "an empty header" 1 "fault 14 NoType at 0${nl}" list < <(printf '\0\0\0\0')
expect "a type with a space, a percent sign and a byte above 126" 0 "0 a%20%25~%7F 0${nl}" list < <(printf '\0\0\0\x09\x0a\x05a %%~\x7f\x18\0')
expect "a type that isn't UTF-8" 0 "0 !%FF 0${nl}" list < <(printf '\0\0\0\x06\x0a\x02!\xff\x18\0')
expect "a file that isn't there" 1 "fault 68 ReadFailed at 0${nl}" list nowhere.osm.pbf
expect "a folder" 1 "fault 68 ReadFailed at 0${nl}" list .
expect "no command" 2 ""
expect "a word that is no command" 2 "" lists "$two"
expect "a word too many" 2 "" list "$two" "$two"

"$pbfrow" list "$country" > country.txt
head -n 3 country.txt > first.txt
printf '%s\n' "0 OSMHeader 81" "98 OSMData 115558" "115673 OSMData 111461" > want.txt
same "the first lines of a real extract" first.txt want.txt
tail -n 1 country.txt | { read -r at _ size; echo $((at + 17 + size)); } > end.txt
stat -c %s "$country" > size.txt
same "the frames of a real extract reach its end" end.txt size.txt

(cd / && "$top/pbfrow" list "$two") > elsewhere.txt
"$top/pbfrow" list "$two" > here.txt
same "the launcher runs from any folder" elsewhere.txt here.txt

"$pbfrow" list "$country" > /dev/full
[ $? = 1 ] && pass "a full disk ends with 1" || fail "a full disk ends with 1"
"$pbfrow" list "$country" | head -n 1 > one.txt
head -n 1 country.txt > want.txt
same "standard output closed early" one.txt want.txt
counted
