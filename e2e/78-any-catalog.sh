#!/usr/bin/env bash
# Random objects of one's own beside pbfrow's tables, in catalogs of any order: PBFROW_CATALOGS says how many databases, by
# default 1,000, and PBFROW_SEED which (any_catalog.py).
. "$(dirname -- "${BASH_SOURCE[0]}")/begin.sh"

name="databases with random objects beside pbfrow's"
if ! has sqlite3 python3; then
  skip "$name" "sqlite3 or python3 isn't installed"
elif ! python3 -c "import sqlite3; sqlite3.connect(':memory:').execute('CREATE VIRTUAL TABLE a USING fts5 (b)')" 2> stderr.txt; then
  skip "$name" "Python's SQLite has no FTS5"
elif python3 "$top/e2e/any_catalog.py" "$pbfrow" "$top/data/liechtenstein-raw.osm.pbf" "${PBFROW_CATALOGS:-1000}" "${PBFROW_SEED:-1}" > got.txt; then
  pass "$name: $(tail -n 1 got.txt)"
else
  fail "$name"
  tail -n 40 got.txt
fi
counted
