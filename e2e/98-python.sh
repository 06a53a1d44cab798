#!/usr/bin/env bash
# The Python package, as its wheel installs it into an environment of its own: its arrays and tables have what `show` says, and
# its faults are those of `check`. PBFROW_LIBRARY names another shared library than the one that is made here.
. "$(dirname -- "${BASH_SOURCE[0]}")/begin.sh"
country=$top/data/liechtenstein-raw.osm.pbf
export two=$top/data/two-nodes.osm.pbf
export PYTHONDONTWRITEBYTECODE=1

# a Python that has numpy and can make environments; the first one of PATH need not
host=
for candidate in python3 /usr/bin/python3; do
  [ -n "$host" ] || ! "$candidate" -c 'import ensurepip, numpy, venv' 2> /dev/null || host=$candidate
done

# helped NAME SCRIPT WORD..: this script of e2e ends well with these words; it says what is wrong.
helped() {
  local name=$1 script=$2
  shift 2
  "$python" "$top/e2e/python_$script.py" "$@" > helped.txt 2>&1 && pass "$name" || fail "$name"
  tail -n 12 helped.txt | sed 's/^/  /'
}

# elements FILE: the lines of `show` that are elements.
elements() { "$pbfrow" show "$1" | grep -E '^[nwr] '; }

# shown NAME FILE WAY..: the lines that are made from arrays, which are read in these ways, are those of `show`. Memory that malloc
# gives has other bytes than zeros there, so that nothing relies on zeros.
shown() {
  local name=$1 file=$2 way
  shift 2
  elements "$file" > want.txt
  for way in "$@"; do
    [ "$way" = kinds ] && { grep '^n' want.txt; grep '^w' want.txt; grep '^r' want.txt; } > want-kinds.txt
    MALLOC_PERTURB_=165 "$python" "$top/e2e/python_lines.py" "$file" "$way" > got.txt 2> said.txt
    head -n 5 said.txt
    same "$name, by $way" got.txt "want$([ "$way" = kinds ] && echo -kinds).txt"
  done
}

# tables NAME FILE: the tables of pandas and of Arrow.
tables() {
  elements "$2" > want.txt
  helped "$1" tables "$2" want.txt ./consumer.so
}

library=${PBFROW_LIBRARY:-}
unset PBFROW_LIBRARY PYTHONPATH
if [ -z "$host" ]; then
  skip "the Python package" "no python3 with numpy and venv is there"
  counted
  exit
elif ! has cc readelf rt; then
  skip "the Python package" "cc, readelf or rt isn't there"
  counted
  exit
fi

if [ -z "$library" ]; then
  "$top/library/build" "$PWD/library" > made.txt 2>&1 || { fail "the shared library"; sed 's/^/    /' made.txt; counted; exit; }
  library=$(ls "$PWD"/library/lib/libpbfrow.so.*.*.*)
fi
"$top/package/wheel" "$library" "$PWD/dist" > made.txt 2>&1 || { fail "the wheel"; sed 's/^/    /' made.txt; }
"$host" -m venv --system-site-packages environment > made.txt 2>&1
python=$PWD/environment/bin/python
"$python" -m pip install --quiet --no-index --no-deps --disable-pip-version-check dist/*.whl > made.txt 2>&1 || sed 's/^/    /' made.txt
package=$("$python" -c 'import os, pbfrow; print(os.path.dirname(pbfrow.__file__))' 2>&1)
[ -s "$package/libpbfrow.so" ] && [ -e "$package/py.typed" ] && pass "the wheel is installed" || { fail "the wheel is installed"; echo "$package"; counted; exit; }
"$top/package/wheel" "$library" "$PWD/again" > made.txt
same "the same sources make the same wheel" dist/*.whl again/*.whl
"$python" -c 'import importlib.metadata, pbfrow; print(pbfrow.__version__, importlib.metadata.version("pbfrow"))' > got.txt
version=$(sed -n 's/^\.TH .*"pbfrow \([0-9.]*\)".*/\1/p' "$top/docs/pbfrow.1.in")
lines "$version $version" > want.txt
same "the package has the version of the program" got.txt want.txt
"$python" -m pip check 2>&1 | grep -i pbfrow > got.txt
: > want.txt
same "pip finds nothing missing" got.txt want.txt
PYTHONDONTWRITEBYTECODE= "$python" -W error -m compileall -q "$package" > said.txt 2>&1 && pass "each file of it is compiled" || { fail "each file of it is compiled"; cat said.txt; }
for wrong in /nowhere/libpbfrow.so "$package/librelease.so"; do
  PBFROW_LIBRARY=$wrong "$python" -c 'import pbfrow' 2>&1 | tail -n 1 | grep -q "^ImportError: .*$(basename "$wrong")" && pass "a library that can't be used, $(basename "$wrong")" || fail "a library that can't be used, $(basename "$wrong")"
done
if "$python" -m mypy --version > said.txt 2>&1; then
  "$python" -m mypy --strict --config-file "$top/python/pyproject.toml" "$package" > said.txt 2>&1 && pass "mypy finds its types right" || { fail "mypy finds its types right"; head -n 10 said.txt; }
else
  skip "mypy finds its types right" "mypy isn't installed"
fi

shown "the extract" "$country" blocks ahead map whole growing together kinds
shown "two nodes" "$two" blocks whole
"$python" "$top/e2e/python_files.py" .
shown "kinds that stand mixed" mixed.osm.pbf blocks ahead whole together kinds

# the files of 47-history.sh: what it writes by printf, and, where osmium is there, its lines
eval "$(sed -n '/^printf /p; /^{$/,/^}/p; /^} > flagged/q' "$top/e2e/47-history.sh")"
shown "one node with a flag" flagged.osm.pbf blocks whole
if has osmium; then
  eval "$(sed -n '/^  lines \\$/,/> history.opl$/p' "$top/e2e/47-history.sh")"
  for nodes in true false; do
    osmium cat --no-progress -F opl history.opl -f "osh.pbf,pbf_compression=none,pbf_dense_nodes=$nodes" -o "history-$nodes.osh.pbf" --overwrite
    shown "a file with history, dense nodes $nodes" "history-$nodes.osh.pbf" blocks whole
  done
  osmium cat --no-progress -f opl "$country" | "$python" "$top/e2e/opl_lines.py" > want.txt
  "$python" "$top/e2e/python_lines.py" "$country" blocks > got.txt
  same "the extract, element by element what osmium reads" got.txt want.txt
  osmium cat --no-progress "$country" -o packed.osm.pbf
  "$python" "$top/e2e/python_lines.py" packed.osm.pbf zlib > got.txt
  same "a compressed file whose blobs zlib inflates" got.txt want.txt
  helped "files that can't be read, codecs, threads and texts" opening "$country" packed.osm.pbf
  ln -s "$country" liechtenstein-raw.osm.pbf && ln -s packed.osm.pbf country.osm.pbf
  helped "the code in the package's README" readme "$top/python/README.md"
else
  skip "files with history and compressed files" "osmium isn't installed"
fi

cc -std=c11 -O1 -g -Wall -Wextra -shared -fPIC -o consumer.so "$top/e2e/python_arrow.c" -lpthread
# of the extract, the header, some nodes, the ways and the relations, so that each table has rows
{ head -c 98 "$country"; tail -c +839701 "$country"; } > some.osm.pbf
tables "tables of the extract" some.osm.pbf
tables "tables of kinds that stand mixed" mixed.osm.pbf
has osmium && tables "tables of a file with history" history-true.osh.pbf
# once more where each byte that is read beside what was allocated, or behind its end, stops the run
sanitizer=$(cc -print-file-name=libasan.so)
if [ -e "$sanitizer" ]; then
  cp -r "$package" sanitized-pbfrow && mkdir sanitized && mv sanitized-pbfrow sanitized/pbfrow
  cc -std=c11 -O1 -g -fsanitize=address -shared -fPIC -o sanitized/consumer.so "$top/e2e/python_arrow.c" -lpthread
  cc -std=c11 -O1 -g -fsanitize=address -shared -fPIC -o sanitized/pbfrow/librelease.so "$top/python/src/pbfrow/release.c"
  elements mixed.osm.pbf > want.txt
  LD_PRELOAD=$sanitizer ASAN_OPTIONS=detect_leaks=0 PYTHONMALLOC=malloc PYTHONPATH=$PWD/sanitized \
    helped "tables under AddressSanitizer" tables mixed.osm.pbf want.txt sanitized/consumer.so
else
  skip "tables under AddressSanitizer" "libasan isn't installed"
fi
helped "faults are those of check" faults "$pbfrow" 3000 "$two"

for example in count nodes_of_box ways_with_places; do
  words=("$country")
  [ "$example" = nodes_of_box ] && words+=(9.51 47.13 9.53 47.15)
  "$python" "$top/examples/$example.py" "${words[@]}" > "$example.txt" 2> said.txt || { fail "examples/$example.py"; head -n 5 said.txt; }
done
"$pbfrow" check "$country" | sed 's/.*nodes \([0-9]*\) ways \([0-9]*\) relations \([0-9]*\) .*/\1 nodes, \2 ways, \3 relations/' > want.txt
head -n 1 count.txt > got.txt
same "examples/count.py counts what check counts" got.txt want.txt
elements "$country" | awk '$1 == "n" && $3 >= 47130000000 && $3 <= 47150000000 && $4 >= 9510000000 && $4 <= 9530000000 { print $2 }' | sort -n > want.txt
cut -d ' ' -f 1 nodes_of_box.txt | sort -n > got.txt
same "examples/nodes_of_box.py finds the nodes of the lines" got.txt want.txt
elements "$country" | grep -c '^w ' > want.txt
wc -l < ways_with_places.txt > got.txt
same "examples/ways_with_places.py has a line for each way" got.txt want.txt
counted
