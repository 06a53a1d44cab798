#!/usr/bin/env bash
# The definitions: each that a clause of a public function cites has a comment above it, which docs/definitions prints.
. "$(dirname -- "${BASH_SOURCE[0]}")/begin.sh"
if has python3; then
  if "$top/docs/definitions" --check > missing.txt; then
    pass "each cited definition has a comment"
  else
    fail "each cited definition has a comment"
    sed 's/^/    /' missing.txt
  fi
else
  skip "each cited definition has a comment" "python3 isn't installed"
fi
counted
