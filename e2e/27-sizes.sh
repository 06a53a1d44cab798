#!/usr/bin/env bash
# The greatest sizes that the format allows, a frame of 33,685,507 bytes, and one byte more in each of its three lengths.
. "$(dirname -- "${BASH_SOURCE[0]}")/begin.sh"
nl='
'

if has python3; then
  python3 "$top/e2e/sizes.py" . > sizes.txt
  expect "check of a frame of the greatest size" 0 "blobs 2 nodes 16 ways 0 relations 0 faults 0${nl}" check greatest.osm.pbf
  # shellcheck disable=SC2002
  cat greatest.osm.pbf | "$pbfrow" show | grep '^n ' > got.txt
  same "show of it from a pipe" got.txt greatest.txt
  expect "import of it" 0 "0 stored 0${nl}47 stored 16${nl}blobs stored 2 held 0 bad 0 refused 0${nl}" import greatest.osm.pbf greatest.db
  "$pbfrow" export greatest.db > got.txt
  same "export of it as lines" got.txt greatest.txt
  "$pbfrow" export greatest.db --form pbf > out.osm.pbf
  "$pbfrow" show out.osm.pbf | grep '^n ' > got.txt
  same "export of it as a file, and show of that" got.txt greatest.txt
  expect "a header of one byte more" 1 "fault 11 HeaderTooLong at 47${nl}blobs 1 nodes 0 ways 0 relations 0 faults 1${nl}" check header.osm.pbf
  expect "a Blob of one byte more" 1 "fault 17 SizeOutOfRange at 47${nl}blobs 1 nodes 0 ways 0 relations 0 faults 1${nl}" check blob.osm.pbf
  expect "raw data of one byte more" 1 "fault 23 RawTooLarge at 47${nl}blobs 2 nodes 0 ways 0 relations 0 faults 1${nl}" check raw.osm.pbf
else
  skip "the greatest sizes" "python3 isn't installed"
fi
counted
