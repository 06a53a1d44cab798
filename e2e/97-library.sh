#!/usr/bin/env bash
# The library for C and C++: it is built, the examples say what the program says, each call keeps to its arrays, whatever it is given,
# and what is installed is found by pkg-config and CMake.
. "$(dirname -- "${BASH_SOURCE[0]}")/begin.sh"
two=$top/data/two-nodes.osm.pbf
country=$top/data/liechtenstein-raw.osm.pbf
archive=${PBFROW_ARCHIVE:-$top/crates/pbfrow_c/out/libpbfrow_c.a}
library=$work/library

has cc c++ ld objcopy ar || { skip "the library" "cc, c++ or binutils isn't installed"; counted; exit; }
[ -s "$archive" ] || { skip "the library" "it isn't proved and compiled: make library"; counted; exit; }

# passes NAME COMMAND..: the command ends with 0.
passes() {
  local name=$1
  shift
  if "$@" > said.txt 2>&1; then pass "$name"; else fail "$name"; head -n 10 said.txt | sed 's/^/    /'; fi
}

# ends NAME STATUS TEXT COMMAND..: the command ends with this status and writes this to standard output and standard error.
ends() {
  local name=$1 status=$2 ended
  printf '%s\n' "$3" > want.txt
  shift 3
  "$@" > got.txt 2>&1
  ended=$?
  [ "$ended" = "$status" ] || echo "status $ended, not $status" >> got.txt
  same "$name" got.txt want.txt
}

# files_below FOLDER: each file and link with its mode, the links with where they lead.
files_below() { (cd "$1" && find . ! -type d -printf '%m %P %l\n' | sed 's/ $//' | LC_ALL=C sort); }

# ---- building

passes "library/build" "$top/library/build" "$library"
printf '%s\n' include/pbfrow.h include/pbfrow.hpp lib/cmake/pbfrow/pbfrowConfig.cmake lib/cmake/pbfrow/pbfrowConfigVersion.cmake lib/libpbfrow.a \
  lib/libpbfrow.so.0.1.0 lib/pkgconfig/pbfrow.pc lib/pkgconfig/pbfrow-static.pc | sed 's/^/644 /; s/^644 \(.*so.0.1.0\)/755 \1/' > files.txt
printf '%s\n' "777 lib/libpbfrow.so libpbfrow.so.0" "777 lib/libpbfrow.so.0 libpbfrow.so.0.1.0" >> files.txt
LC_ALL=C sort files.txt > want.txt
files_below "$library" > got.txt
same "what it makes" got.txt want.txt
"$top/library/build" "$work/again" > said.txt 2>&1
passes "the same archives give the same bytes" diff -r "$library" "$work/again"
for name in blob_at block_columns block_counts fault_name header_block; do echo "pbfrow_$name"; done > want.txt
nm --defined-only -g "$library/lib/libpbfrow.a" | awk 'NF == 3 { print $3 }' | LC_ALL=C sort > got.txt
same "the static library defines the interface alone" got.txt want.txt
nm --defined-only -D "$library/lib/libpbfrow.so" | awk '{ print $3 }' | LC_ALL=C sort > got.txt
same "so does the shared one" got.txt want.txt
PBFROW_ARCHIVE=$work/nowhere.a "$top/library/build" "$work/none" > said.txt 2>&1
grep -q "run make library" said.txt && [ ! -e none ] && pass "without the archive it says what to run" || fail "without the archive it says what to run"

# ---- the examples

strict="-Wall -Wextra -Wpedantic -Werror -O2 -I$library/include"
static=$library/lib/libpbfrow.a
# shellcheck disable=SC2086 # words
compiled() { passes "$1 is compiled $2" "${@:3}"; }
for example in count nodes_of_box; do
  compiled $example.cpp "with the static library" c++ -std=c++17 $strict -o $example "$top/examples/$example.cpp" "$static"
done
compiled count.cpp "with the shared library" c++ -std=c++17 $strict -o count_shared "$top/examples/count.cpp" -L"$library/lib" -lpbfrow "-Wl,-rpath,$library/lib"
compiled count.c "with the static library" cc -std=c11 $strict -o count_in_c "$top/examples/count.c" "$static"
compiled count.c "with the shared library" cc -std=c11 $strict -o count_in_c_shared "$top/examples/count.c" -L"$library/lib" -lpbfrow "-Wl,-rpath,$library/lib"
compiled "the peer of bench/" "with the static library" c++ -std=c++17 $strict -o count_pbfrow "$top/bench/peers/count_pbfrow.cpp" "$static"
probe() { compiled "$1" "$2" c++ -std=c++17 $strict -o "$3" "$top/e2e/library_probe.cpp" "${@:4}" "$static" -pthread; }
probe "library_probe.cpp" "with the static library" probe -DWRAPPED -Wl,--wrap=malloc,--wrap=realloc,--wrap=free
if has clang++ clang; then
  compiled count.cpp "by clang" clang++ -std=c++17 $strict -fsyntax-only "$top/examples/count.cpp"
  compiled count.c "by clang" clang -std=c11 $strict -fsyntax-only "$top/examples/count.c"
else
  skip "the examples by clang" "clang isn't installed"
fi

# shown FILE: what `pbfrow show` prints, with a type that the library doesn't tell apart as `other`.
shown() { "$pbfrow" show "$1" | awk '$1 == "blob" && $3 != "OSMHeader" && $3 != "OSMData" { $3 = "other" } { print }'; }

# agrees NAME FILE..: the examples print of these files what the program prints.
agrees() {
  local name=$1 file
  shift
  for file in "$@"; do "$pbfrow" check "$file"; done > checked.txt
  for file in "$@"; do shown "$file"; done > shown.txt
  for file in "$@"; do ./count "$file"; done > got.txt
  same "count: $name" got.txt checked.txt
  for file in "$@"; do ./count_in_c "$file"; done > got.txt
  same "count in C: $name" got.txt checked.txt
  for file in "$@"; do ./count "$file" lines; done > got.txt
  same "count lines: $name" got.txt shown.txt
}

agrees "two nodes" "$two"
agrees "a real extract" "$country"
{ head -c 47 "$two"; printf '\0\0\0\x09\x0a\x05Extra\x18\x03\xff\xff\xff'; head -c 47 "$two"; tail -c 37 "$two"; } > joined.osm.pbf
agrees "a blob of another type, and a second header" joined.osm.pbf
if has osmium python3; then
  lines "n1 v1 dV c10 t2020-01-01T00:00:00Z i5 uann Tamenity=cafe,name=%20%%2c%%3d%%e9% x1.5 y2.5" "n1 v2 dD c12 t2020-03-01T00:00:00Z i5 uann T x y" \
    "w7 v1 dV c10 t2020-01-02T00:00:00Z i5 uann Thighway=path Nn1,n2" "w7 v2 dD c13 t2020-04-01T00:00:00Z i5 uann T N" \
    "r9 v1 dV c10 t2020-01-03T00:00:00Z i5 uann Ttype=route Mw7@forward,n2@,r3@x" > history.opl
  for nodes in true false; do
    osmium cat --no-progress -F opl history.opl -f "osh.pbf,pbf_compression=none,pbf_dense_nodes=$nodes" -o history-$nodes.osh.pbf --overwrite \
      --output-header="osmosis_replication_timestamp=2020-05-01T00:00:00Z" --output-header="osmosis_replication_sequence_number=7" \
      --output-header="osmosis_replication_base_url=https://example.org/ (a)"
  done
  agrees "files with history and a full header" history-true.osh.pbf history-false.osh.pbf
  osmium cat --no-progress "$country" -f pbf,add_metadata=false,pbf_compression=none -o bare.osm.pbf
  agrees "elements without metadata" bare.osm.pbf
  osmium cat --no-progress "$country" -o packed.osm.pbf
  agrees "compressed blobs, each refused by name" packed.osm.pbf
else
  skip "the examples on files with history, without metadata, and compressed" "osmium or python3 isn't installed"
fi

for file in "$two" "$country"; do ./count "$file"; done > want.txt
for file in "$two" "$country"; do ./count_shared "$file"; done > got.txt
same "the shared library reads the same" got.txt want.txt
for file in "$two" "$country"; do ./count_in_c_shared "$file"; done > got.txt
same "and in C" got.txt want.txt

"$pbfrow" show "$country" | awk '$1 == "n" && 47139000000 <= $3 && $3 <= 47140000000 && 9520000000 <= $4 && $4 <= 9522000000 {
  printf "%d %.7f %.7f\n", $2, $3 / 1e9, $4 / 1e9 }' > want.txt
./nodes_of_box "$country" 9.520 47.139 9.522 47.140 | cut -d ' ' -f 1-3 > got.txt
[ -s want.txt ] && same "the nodes of a box are those of the lines of show" got.txt want.txt
./nodes_of_box "$country" -180 -90 180 90 | wc -l > got.txt
"$pbfrow" show "$country" | grep -c '^n ' > want.txt
same "the nodes of the whole world" got.txt want.txt

if [ -e packed.osm.pbf ] && echo '#include <zlib.h>' | c++ -E -x c++ - > said.txt 2>&1; then
  compiled ways_with_places.cpp "with the static library" c++ -std=c++17 $strict -o ways_with_places "$top/examples/ways_with_places.cpp" "$static" -lz
  "$pbfrow" show "$country" | awk '
    $1 == "n" { place[$2] = sprintf("%.7f %.7f", $4 / 1e9, $3 / 1e9) }
    $1 == "w" && match($NF, /[{,]highway=[^,}]*/) {
      value = substr($NF, RSTART + 9, RLENGTH - 9); sub(/^=/, "", value)
      refs = substr($3, 2, length($3) - 2); count = split(refs, all, ","); line = ""
      for (at = 1; at <= count; at++) if (all[at] in place) line = line (line == "" ? "(" : ", ") place[all[at]]
      print "w " $2 " " value " LINESTRING " (line == "" ? "EMPTY" : line ")")
    }' > want.txt
  ./ways_with_places packed.osm.pbf highway > got.txt
  [ -s want.txt ] && same "the ways of a compressed extract with their places" got.txt want.txt
  ./ways_with_places "$country" highway > got.txt
  same "and of the same one stored raw" got.txt want.txt
else
  skip "ways_with_places.cpp" "osmium or zlib.h isn't installed"
fi

# ---- files that can't be read

ends "a file that isn't there" 2 "count: nowhere.osm.pbf: No such file or directory" ./count nowhere.osm.pbf
ends "a folder" 2 "count: .: Is a directory" ./count .
: > empty.osm.pbf
ends "an empty file" 1 "fault 61 NoHeaderFirst at 0
blobs 0 nodes 0 ways 0 relations 0 faults 1" ./count empty.osm.pbf
ends "an empty file in C" 1 "fault 61 NoHeaderFirst at 0
blobs 0 nodes 0 ways 0 relations 0 faults 1" ./count_in_c empty.osm.pbf
./count empty.osm.pbf lines > got.txt && [ ! -s got.txt ] && pass "an empty file has no lines" || fail "an empty file has no lines"
if has mkfifo; then
  mkfifo pipe
  ends "a pipe that nobody writes to" 2 "count: pipe: not a file, but a pipe or a device: Illegal seek" timeout 10 ./count pipe
fi
ends "a device" 2 "count: /dev/null: not a file, but a pipe or a device: Illegal seek" ./count /dev/null

# ---- whatever the library is given

if has python3; then
  python3 "$top/e2e/library_files.py" "$top" bad > made.txt && pass "bad files: $(cat made.txt)" || fail "bad files: $(cat made.txt)"
  {
    "$pbfrow" check bad/blobs.osm.pbf
    for file in bad/alone/*; do "$pbfrow" check "$file"; done
  } > want.txt
  cp want.txt faults.txt
  ./probe exact bad/blobs.osm.pbf bad/alone/* > got.txt 2> said.txt || { fail "each call keeps to its arrays"; sed 's/^/    /' said.txt; }
  same "each has the program's number, name and offset, in arrays that end where they may" got.txt want.txt
  { ./count_shared bad/blobs.osm.pbf; ./probe pieces 1000 bad/alone/*; } > got.txt
  same "so by the shared library, and in pieces" got.txt want.txt
  sed -n 's/^fault \([0-9]*\) .*/\1/p' faults.txt | sort -nu | tr '\n' ' ' > got.txt
  printf '%s ' 10 11 12 13 14 16 17 18 20 21 22 23 30 31 32 33 40 41 42 43 44 45 46 47 48 49 50 51 52 61 62 > want.txt
  same "every fault of a file is among them" got.txt want.txt
  shown bad/blobs.osm.pbf > want.txt
  ./count bad/blobs.osm.pbf lines > got.txt
  same "count lines of bad blobs" got.txt want.txt
  agrees "a header that says all it can" bad/header.osm.pbf
  # shellcheck disable=SC2046
  agrees "some of the other bad files" $(ls bad/alone/* | awk 'NR % 16 == 0')
  if echo 'int main() {}' | c++ -x c++ -fsanitize=address -o sanitized - 2> said.txt && ./sanitized; then
    probe "library_probe.cpp" "with AddressSanitizer" probe_sanitized -fsanitize=address -DFROM_MALLOC
    ./probe_sanitized exact bad/blobs.osm.pbf bad/alone/* > got.txt 2> said.txt || { fail "AddressSanitizer finds nothing"; head -n 10 said.txt | sed 's/^/    /'; }
    same "so in memory of malloc, under AddressSanitizer" got.txt faults.txt
  else
    skip "the same under AddressSanitizer" "libasan isn't installed"
  fi
  if has valgrind; then
    compiled library_probe.cpp "for valgrind" c++ -std=c++17 $strict -DFROM_MALLOC -o probe_of_malloc "$top/e2e/library_probe.cpp" "$static" -pthread
    # shellcheck disable=SC2046
    passes "valgrind finds nothing either" valgrind -q --leak-check=full --error-exitcode=9 ./probe_of_malloc exact $(ls bad/alone/* | awk 'NR % 20 == 0') "$two"
  else
    skip "the same under valgrind" "it isn't installed"
  fi
else
  skip "bad files" "python3 isn't installed"
fi
for size in 1 7 4096 1000000; do ./probe pieces $size "$two"; done > got.txt
for size in 1 7 4096 1000000; do "$pbfrow" check "$two"; done > want.txt
same "an input in pieces of any size" got.txt want.txt
./probe pieces 100000 "$country" > got.txt
"$pbfrow" check "$country" > want.txt
same "a real extract in pieces" got.txt want.txt
passes "each growth of memory refused: 65, nothing written, all given back" ./probe refused "$two" "$country"
passes "four threads" ./probe threads 4 "$country"
./probe small > small.txt 2>&1 || fail "the calls that need no file"
# bytes behind a frame are a fault of what gets one frame, which no call of the library does
grep -v '^19 ' small.txt > got.txt
{
  printf '%s\n' "10 LengthCut" "11 HeaderTooLong" "12 HeaderCut" "13 HeaderWire" "14 NoType" "16 NoSize" "17 SizeOutOfRange" "18 BlobCut" \
    "20 BlobWire" "21 Compressed" "22 NoData" "23 RawTooLarge" "30 HeaderBlockWire" "31 BBoxIncomplete" "32 HeaderTextNotUtf8" "33 UnknownFeature" \
    "40 BlockWire" "41 NoStringTable" "42 TextNotUtf8" "43 TextHasNul" "44 BadGranularity" "45 MixedGroup" "46 Missing" "47 LengthsDiffer" \
    "48 BadIndex" "49 SumTooLarge" "50 OutOfRange" "51 TagsUneven" "52 BadMemberType" "60 OffsetTooLarge" "61 NoHeaderFirst" "62 HeaderNotFirst" "65 Memory" "72 NoRoom"
  for codec in Zlib Lzma Bzip2 Lz4 Zstd; do echo "21 Compressed$codec"; done
  for blobs in 0 0 1; do printf '%s\n' "fault 61 NoHeaderFirst at 0" "blobs $blobs nodes 0 ways 0 relations 0 faults 1"; done
  for blobs in 1 0; do echo "blobs $blobs nodes 0 ways 0 relations 0 faults 0"; done
} > want.txt
same "names, offsets at 2^62, and files that are empty or parts of others" got.txt want.txt

# A blob whose lzma field has the block from back to front, and says how long it is.
block='\x0a\x02\x0a\x00\x12\x0e\x12\x0c\x0a\x02\x02\x02\x42\x02\x14\x01\x4a\x02\x01\x00'
turned='\x00\x01\x02\x4a\x01\x14\x02\x42\x02\x02\x02\x0a\x0c\x12\x0e\x12\x00\x0a\x02\x0a'
{ head -c 47 "$two"; printf '\0\0\0\x0b\x0a\x07OSMData\x18\x18\x10\x14\x22\x14'; printf "$turned"; tail -c 37 "$two"; } > turned.osm.pbf
[ "$(tail -c 20 "$two" | od -An -tx1)" = "$(printf "$block" | od -An -tx1)" ] || fail "the block of two nodes is another"
ends "a decompressor's block is read" 0 "blobs 3 nodes 4 ways 0 relations 0 faults 0" ./probe packed right turned.osm.pbf
for way in short long empty none; do
  ends "a decompressor's answer of another length, or no decompressor, is fault 21: $way" 0 "fault 21 CompressedLzma at 47
blobs 3 nodes 2 ways 0 relations 0 faults 1" ./probe packed $way turned.osm.pbf
done

# The same blob, which doesn't say how long it is.
{ head -c 47 "$two"; printf '\0\0\0\x0b\x0a\x07OSMData\x18\x16\x22\x14'; printf "$turned"; tail -c 37 "$two"; } > unsaid.osm.pbf
for way in right empty none; do
  ends "a compressed blob that doesn't say how long it is, is fault 21: $way" 0 "fault 21 CompressedLzma at 47
blobs 3 nodes 2 ways 0 relations 0 faults 1" ./probe packed $way unsaid.osm.pbf
done

# ---- installing

if has make install; then
  BUILT_LIBRARY=$library passes "make install-library" make -s -C "$top" install-library PREFIX=/usr DESTDIR="$PWD/image"
  sed -n 's,^\([0-9]*\) lib/,\1 usr/lib/,p; s,^\([0-9]*\) include/,\1 usr/include/,p' files.txt | sed 's/^755/644/' > want.txt
  for example in "$top"/examples/count.c "$top"/examples/*.cpp "$top"/examples/{count,nodes_of_box,ways_with_places}.py; do
    [ ! -e "$example" ] || echo "$([ -x "$example" ] && echo 755 || echo 644) usr/share/doc/pbfrow/examples/$(basename "$example")"
  done >> want.txt
  [ ! -e "$top/docs/LIBRARY.md" ] || echo "644 usr/share/doc/pbfrow/LIBRARY.md" >> want.txt
  LC_ALL=C sort -o want.txt want.txt
  files_below image > got.txt
  same "make install-library puts the library in place" got.txt want.txt
  ./count "$country" > counted.txt
  if has pkg-config; then
    export PKG_CONFIG_PATH=$PWD/image/usr/lib/pkgconfig
    # shellcheck disable=SC2046
    compiled count.cpp "by pkg-config" c++ -std=c++17 -o by_pkg_config image/usr/share/doc/pbfrow/examples/count.cpp $(pkg-config --cflags --libs pbfrow)
    LD_LIBRARY_PATH=$PWD/image/usr/lib ./by_pkg_config "$country" > got.txt
    same "and runs" got.txt counted.txt
    # shellcheck disable=SC2046
    compiled count.c "by pkg-config" cc -std=c11 -o by_pkg_config_in_c image/usr/share/doc/pbfrow/examples/count.c $(pkg-config --cflags --libs pbfrow)
    LD_LIBRARY_PATH=$PWD/image/usr/lib ./by_pkg_config_in_c "$country" > got.txt
    same "and runs too" got.txt counted.txt
    # shellcheck disable=SC2046
    compiled count.cpp "with the static library, by pkg-config" c++ -std=c++17 -o by_static image/usr/share/doc/pbfrow/examples/count.cpp $(pkg-config --cflags --libs pbfrow-static)
    ./by_static "$country" > got.txt
    same "and runs by itself" got.txt counted.txt
    pkg-config --modversion pbfrow > got.txt
    "$pbfrow" --version | cut -d ' ' -f 2 > want.txt
    same "the version is the program's" got.txt want.txt
  else
    skip "pkg-config" "it isn't installed"
  fi
  if has cmake; then
    mkdir -p project
    printf '%s\n' "cmake_minimum_required(VERSION 3.16)" "project(count C CXX)" "set(CMAKE_CXX_STANDARD 17)" 'find_package(pbfrow ${wanted} REQUIRED)' \
      'set(examples "${CMAKE_SOURCE_DIR}/../image/usr/share/doc/pbfrow/examples")' 'add_executable(shared "${examples}/count.cpp")' \
      "target_link_libraries(shared pbfrow::pbfrow)" 'add_executable(linked "${examples}/count.c")' "target_link_libraries(linked pbfrow::static)" > project/CMakeLists.txt
    passes "CMake finds the library" cmake -S project -B by_cmake -DCMAKE_PREFIX_PATH="$PWD/image/usr" -Dwanted=0.1
    passes "CMake compiles an example with each" cmake --build by_cmake
    for example in shared linked; do by_cmake/$example "$country"; done > got.txt 2>&1
    cat counted.txt counted.txt > want.txt
    same "and they run" got.txt want.txt
    cmake -S project -B later -DCMAKE_PREFIX_PATH="$PWD/image/usr" -Dwanted=0.2 > said.txt 2>&1 && fail "CMake finds no later version" || pass "CMake finds no later version"
  else
    skip "CMake" "it isn't installed"
  fi
  make -s -C "$top" uninstall PREFIX=/usr DESTDIR="$PWD/image" > said.txt 2>&1
  files_below image > got.txt
  : > want.txt
  same "make uninstall takes all of it back" got.txt want.txt
else
  skip "make install" "make isn't installed"
fi

if has make install gzip xz dpkg-deb; then
  if BUILT_LIBRARY=$library "$top/package/dist" "$work/dist" > made.txt 2>&1; then
    dpkg-deb -x dist/pbfrow_*_amd64.deb root
    dpkg-deb -e dist/pbfrow_*_amd64.deb control
    { files_below root | grep -E 'usr/(lib|include)/'; cat control/shlibs control/triggers; } > got.txt
    {
      sed -n 's,^\([0-9]*\) lib/,\1 usr/lib/x86_64-linux-gnu/,p; s,^\([0-9]*\) include/,\1 usr/include/,p' files.txt | sed 's/^755/644/' | LC_ALL=C sort
      printf '%s\n' "libpbfrow 0 pbfrow (>= $("$top/library/version"))" "activate-noawait ldconfig"
    } > want.txt
    same "the Debian package has the library" got.txt want.txt
    if has pkg-config; then
      export PKG_CONFIG_PATH=$PWD/root/usr/lib/x86_64-linux-gnu/pkgconfig
      # shellcheck disable=SC2046
      compiled count.cpp "with the package's library" c++ -std=c++17 -o by_package "$top/examples/count.cpp" $(pkg-config --cflags --libs pbfrow)
      LD_LIBRARY_PATH=$PWD/root/usr/lib/x86_64-linux-gnu ./by_package "$two" > got.txt
      "$pbfrow" check "$two" > want.txt
      same "and runs as well" got.txt want.txt
    fi
    tar -tJf dist/pbfrow-*-linux-x86_64.tar.xz | grep -E '/(include|lib)/.*[^/]$' | sed 's,^[^/]*/,,' | LC_ALL=C sort > got.txt
    awk '{ print $2 }' files.txt | LC_ALL=C sort > want.txt
    same "so has the archive" got.txt want.txt
    if [ -x "$top/package/wheel" ] && has python3; then
      ls dist/pbfrow-*.whl > said.txt 2>&1 && grep -q whl dist/SHA256SUMS && pass "there is a wheel for Python" || fail "there is a wheel for Python"
    fi
  else
    fail "the packages with the library"
    head -n 10 made.txt | sed 's/^/    /'
  fi
else
  skip "the packages with the library" "dpkg-deb, make or xz isn't installed"
fi
counted
