#!/usr/bin/env bash
# Words that the program can't read, help, and the version.
. "$(dirname -- "${BASH_SOURCE[0]}")/begin.sh"
two=$top/data/two-nodes.osm.pbf
nl='
'
expect "the version" 0 "pbfrow 0.1.0${nl}" --version
"$pbfrow" --help | sed -n '/^Commands:/,/^$/s/^  \([a-z]*\) .*/\1/p' | grep -vx help > got.txt
commands > want.txt
same "the help names the commands of README's table" got.txt want.txt
for command in $(commands); do
  "$pbfrow" "$command" --help > help.txt
  if [ $? = 0 ] && grep -q "^Exit status: 0" help.txt && grep -q "^  pbfrow $command " help.txt; then
    pass "help of $command"
  else
    fail "help of $command"
  fi
done
expect "an offset above 2^62" 2 "" import "$two" words.db --from 4611686018427387905
expect "an element that can't be read" 2 "" find words.db x2
expect "a database to migrate, and none to fill" 2 "" migrate words.db
expect "a database to merge into, and none to merge" 2 "" merge words.db
expect "a file to verify, and no database" 2 "" verify "$two"
expect "the same with an option" 2 "" verify "$two" --elements
expect "a form that isn't there" 2 "" export words.db --form xml
expect "a size, and no database" 2 "" status --size 85
expect "an element in two databases" 2 "" find words.db other.db n2
expect "two files to show" 2 "" show "$two" "$two"
for element in "" n n- n+1 n4611686018427387904 r-4611686018427387904 N2; do
  expect "what is no element: '$element'" 2 "" find words.db "$element"
done
expect "words of two commands" 2 "" status words.db --partial
[ -e words.db ] && fail "words that can't be read touch no file" || pass "words that can't be read touch no file"
expect "a word that isn't UTF-8" 2 "" list "$(printf 'x\xff')"
lines "pbfrow: an argument isn't valid UTF-8" > want.txt
same "standard error says that a word isn't UTF-8" stderr.txt want.txt

# words that can't be read end with 2 also where nobody can be told why
"$pbfrow" list --no-such-word > heard.txt 2>&-
[ $? = 2 ] && [ ! -s heard.txt ] && pass "unknown words, and standard error closed" || fail "unknown words, and standard error closed"
"$pbfrow" list "$(printf 'x\xff')" > heard.txt 2>&-
[ $? = 2 ] && [ ! -s heard.txt ] && pass "a word that isn't UTF-8, and standard error closed" || fail "a word that isn't UTF-8, and standard error closed"
"$pbfrow" list --no-such-word 2> /dev/full
[ $? = 2 ] && pass "unknown words, and standard error full" || fail "unknown words, and standard error full"
"$pbfrow" --help > /dev/full
[ $? = 1 ] && pass "help to a full disk" || fail "help to a full disk"
counted
