#!/usr/bin/env bash
# Links and tags whose numbers or keys are long: ids around 2^31, 2^32, 2^40 and 2^62 and below 0, more than 2^16 members of one
# relation, relations in one blob and tags of one node, keys of 255 bytes and more, and an offset behind 2^40.
. "$(dirname -- "${BASH_SOURCE[0]}")/begin.sh"

# alike NAME FILE FILE: both have the same bytes. Their lines are too long to be shown.
alike() { if cmp -s "$2" "$3"; then pass "$1"; else fail "$1"; cmp "$2" "$3"; fi; }

if has python3; then
  second=$(python3 "$top/e2e/links.py" .)
  size=$(stat -c %s links.osm.pbf)
  "$pbfrow" show links.osm.pbf | grep '^[nwr] ' > got.txt
  alike "show of long links" got.txt links.txt
  "$pbfrow" import links.osm.pbf links.db > got.txt || fail "an import of long links"
  "$pbfrow" export links.db --size "$size" > got.txt
  alike "export of them as lines" got.txt links.txt
  "$pbfrow" export links.db --form pbf > out.osm.pbf
  "$pbfrow" show out.osm.pbf | grep '^[nwr] ' > got.txt
  alike "export of them as a file, and show of that" got.txt links.txt
  "$pbfrow" verify links.osm.pbf links.db --elements > got.txt && pass "verify of them" || fail "verify of them"
  "$pbfrow" find links.db r1 | cut -d ' ' -f 3- > got.txt
  grep '^r 1 ' links.txt > want.txt
  alike "find of one of them" got.txt want.txt
  sound "sqlite3 finds their database whole" links.db

  "$pbfrow" merge merged.db links.db > got.txt || fail "a merge of them"
  "$pbfrow" export merged.db --size "$size" > got.txt
  alike "export of what a merge made of them" got.txt links.txt

  # the same frames, but for the header, as a part that begins behind 2^40
  tail -c +$((second + 1)) links.osm.pbf | "$pbfrow" import /dev/stdin behind.db --at 1099511627776 > got.txt || fail "an import behind 2^40"
  "$pbfrow" export behind.db --partial > got.txt
  alike "export of a part behind 2^40" got.txt links.txt
  "$pbfrow" merge behind-merged.db behind.db > got.txt || fail "a merge of a part behind 2^40"
  "$pbfrow" export behind-merged.db --partial > got.txt
  alike "export of what a merge made of it" got.txt links.txt
else
  skip "long links" "python3 isn't installed"
fi
counted
