#!/usr/bin/env bash
# What the pages show is what comes out: each of their commands and queries is run on the extract, in a fresh folder, in the order of
# its page, and each option of pbfrow that they name is there (pages.py). Words are the pages, by default all: docs/GUIDE.md.
. "$(dirname -- "${BASH_SOURCE[0]}")/begin.sh"
if has osmium sqlite3 python3; then
  python3 "$top/e2e/pages.py" "$top" "$pbfrow" "$@" > said.txt 2>&1
  if [[ $(tail -n 1 said.txt) =~ ^([0-9]+)\ passed,\ ([0-9]+)\ failed$ ]]; then
    passed=${BASH_REMATCH[1]}
    failed=${BASH_REMATCH[2]}
    head -n -1 said.txt
  else
    fail "the pages: pages.py ended before its last check"
    tail -n 20 said.txt | sed 's/^/    /'
  fi
else
  skip "what the pages show" "osmium, sqlite3 or python3 isn't installed"
fi
counted
