#!/usr/bin/env bash
# Input that comes in pieces: pipes, a slow writer, and files larger than the memory that is used.
. "$(dirname -- "${BASH_SOURCE[0]}")/begin.sh"
two=$top/data/two-nodes.osm.pbf
country=$top/data/liechtenstein-raw.osm.pbf

for command in list check show; do
  "$pbfrow" "$command" "$country" > of-file.txt
  of_file=$?
  cat "$country" | "$pbfrow" "$command" > of-pipe.txt
  [ "${PIPESTATUS[1]}" = "$of_file" ] && cmp -s of-file.txt of-pipe.txt && pass "$command of a pipe" || fail "$command of a pipe"
done

# after_first_frame FILE BYTES COMMAND WORD..: starts the command on a writer that has written the first frame of the file alone,
# which has so many bytes, keeps in early.txt what is out by then, and in late.txt what is out after the rest was written. The
# other words stand behind the input.
after_first_frame() {
  local file=$1 bytes=$2 command=$3 reader
  shift 3
  rm -f slow.fifo late.txt
  mkfifo slow.fifo
  "$pbfrow" "$command" slow.fifo "$@" > late.txt &
  reader=$!
  exec 7> slow.fifo
  head -c "$bytes" "$file" >&7
  for _ in $(seq 100); do
    [ -s late.txt ] && break
    sleep 0.1
  done
  cp late.txt early.txt
  tail -c +$((bytes + 1)) "$file" >&7
  exec 7>&-
  wait "$reader"
}

after_first_frame "$two" 47 list
lines "0 OSMHeader 30" > want.txt
same "list prints a frame's line before it reads on" early.txt want.txt
lines "0 OSMHeader 30" "47 OSMData 22" > want.txt
same "list of a slow writer" late.txt want.txt
after_first_frame "$two" 47 show
lines "blob 0 OSMHeader 47" "required OsmSchema-V0.6" "required DenseNodes" > want.txt
same "show prints a blob's lines before it reads on" early.txt want.txt
"$pbfrow" show "$two" > want.txt
same "show of a slow writer" late.txt want.txt

# the data frame in the place of the header frame, and behind it the header frame
{ tail -c 37 "$two"; head -c 47 "$two"; } > turned.osm.pbf
after_first_frame turned.osm.pbf 37 check
lines "fault 61 NoHeaderFirst at 0" > want.txt
same "check prints a bad blob's line before it reads on" early.txt want.txt
lines "fault 61 NoHeaderFirst at 0" "fault 62 HeaderNotFirst at 37" "blobs 2 nodes 0 ways 0 relations 0 faults 2" > want.txt
same "check of a slow writer" late.txt want.txt

rm -f slow.db*
after_first_frame "$two" 47 import slow.db
lines "0 stored 0" > want.txt
same "import prints a blob's line before it reads on" early.txt want.txt
lines "0 stored 0" "47 stored 2" "blobs stored 2 held 0 bad 0 refused 0" > want.txt
same "import of a slow writer" late.txt want.txt

# a database without the first blob
rm -f slow.db*
"$pbfrow" import "$two" slow.db --from 47 > got.txt
after_first_frame "$two" 47 verify slow.db
lines "missing 0" > want.txt
same "verify prints a blob's line before it reads on" early.txt want.txt
lines "missing 0" "blobs 2 missing 1 differs 0 extra 0" > want.txt
same "verify of a slow writer" late.txt want.txt

# import reads a pipe as it reads a file, and says of a blob what became of it before it reads on
rm -f pipe.db
cat "$two" | "$pbfrow" import /dev/stdin pipe.db > of-pipe.txt
lines "0 stored 0" "47 stored 2" "blobs stored 2 held 0 bad 0 refused 0" > want.txt
same "import of a pipe" of-pipe.txt want.txt

# peak NAME KILOBYTES LAST WORD..: the program takes at most so much memory, and ends its output with the line LAST.
peak() {
  local name=$1 allowed=$2 last=$3 most
  shift 3
  /usr/bin/time -v -o time.txt "$pbfrow" "$@" > large.txt
  most=$(sed -n 's/.*Maximum resident set size (kbytes): //p' time.txt)
  if [ -n "$most" ] && [ "$most" -le "$allowed" ] && [ "$(tail -n 1 large.txt)" = "$last" ]; then
    pass "$name"
  else
    fail "$name"
    echo "  it took $most kB and may take $allowed; its last line is: $(tail -n 1 large.txt)"
  fi
}

if has python3 && [ -x /usr/bin/time ] && /usr/bin/time -v true 2>/dev/null; then
  # 160 times the data of the real extract: 98 bytes of header, and 160 times 1,311,872 bytes.
  { head -c 98 "$country"; for _ in $(seq 160); do tail -c +99 "$country"; done; } > large.osm.pbf
  peak "list takes at most 40 MB for a file of 209 MB" 40000 "209847339 OSMData 52262" list large.osm.pbf
  counted="blobs 1761 nodes 10517280 ways 1139360 relations 18080 faults 0"
  peak "check takes at most 40 MB for a file of 209 MB" 40000 "$counted" check large.osm.pbf
  peak "check takes at most 40 MB for 209 MB from a pipe" 40000 "$counted" check < <(cat large.osm.pbf)
  python3 "$top/bench/frames.py" 209 1000000 large.osm.pbf Extra
  peak "import takes at most 40 MB for a file of 209 MB" 40000 "blobs stored 210 held 0 bad 0 refused 0" import large.osm.pbf large.db
  rm -f large.osm.pbf large.db large.txt
else
  skip "the memory that list, check and import take" "python3 or /usr/bin/time isn't there"
fi
counted
