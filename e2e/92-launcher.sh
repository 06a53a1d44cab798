#!/usr/bin/env bash
# How the launcher builds: along the graph, once at a time, and only what has changed; and for a command that only reads a file
# the small program alone. It runs in a copy of its scripts, over seven small crates, with a command `rt` that proves nothing: it
# waits, and writes what the real one would.
set -u
top=$(cd "$(dirname -- "${BASH_SOURCE[0]}")/.." && pwd)
. "$top/e2e/checks.sh"
work=$(mktemp -d)
trap 'cd / && rm -rf "$work"' EXIT
cd "$work" || exit 2

if ! has python3 flock; then
  skip "the launcher" "python3 or flock isn't installed"
  counted
  exit
fi

mkdir -p bin repository/gate repository/edits repository/.git
cp "$top/pbfrow" repository
cp "$top/gate/build" "$top/gate/graph.py" "$top/gate/run" "$top/gate/sources" repository/gate
cat > repository/crates.txt <<'CRATES'
# Two crates on one, one beside them, the program on all three, its tests, and the small program
low:
left: low std
right: low
beside:
pbfrow: left right beside clap
vectors: low left
pbfrow_reader: low
CRATES
for crate in low left right beside pbfrow vectors pbfrow_reader; do
  mkdir -p "repository/crates/$crate/src"
  echo "// $crate" > "repository/crates/$crate/src/lib.rt"
done

cat > bin/rt <<'RT'
#!/usr/bin/env bash
# Stands for `rt`: `rt lib` and `rt run` lock the folders of a crate and of those below it, build what has changed in a time
# that is set, and refuse a source with the word "wrong". A line of $STUB_STEPS tells each begin and end. `rt ci` leaves both
# programs.
set -u
case $1 in
version) cat "$STUB_KIT"; exit ;;
ci)
  echo "begin gate" >> "$STUB_STEPS"
  echo "tasks ${RT_JOBS:-as rt plans}" >> "$STUB_STEPS"
  sleep "$STUB_SECONDS"
  for it in pbfrow pbfrow_reader; do
    rm -rf "crates/$it/out" && mkdir "crates/$it/out"
    printf '#!/bin/sh\necho "%s of the gate: $*"\n' "$it" > "crates/$it/out/$it"
    chmod 755 "crates/$it/out/$it"
  done
  echo "1 passed, 0 failed"
  exit
  ;;
esac

with_below() {
  local it
  for it in $(sed -n "s/^$1:\(.*\)/\1/p" ../../crates.txt); do
    [ ! -d "../../crates/$it" ] || with_below "$it"
  done
  echo "$1"
}
stamp() { with_below "$1" | awk '!seen[$0]++' | sed 's,.*,../../crates/&/src/lib.rt,' | xargs cat | cksum; }

name=$(basename "$PWD")
for it in $(with_below "$name" | sort -u); do
  exec {folder}< "../../crates/$it"
  flock -n "$folder" || { echo "waits $name" >> "$STUB_STEPS"; flock "$folder"; }
done
for it in $(with_below "$name" | sort -u); do
  [ "$it" = "$name" ] || [ "$(cat "../../crates/$it/out/rlib/stamp" 2> /dev/null)" = "$(stamp "$it")" ] ||
    echo "again $it" >> "$STUB_STEPS"
done
if [ "$(cat out/rlib/stamp 2> /dev/null)" != "$(stamp "$name")" ]; then
  echo "begin $name" >> "$STUB_STEPS"
  [ ! -e out/incremental ] || echo "kept $name" >> "$STUB_STEPS"
  rm -rf out/rlib
  mkdir -p out/incremental out/rlib
  built_of=$(stamp "$name")
  sleep "$STUB_SECONDS"
  if grep -q wrong src/lib.rt; then echo "fn $name::f: not proved"; exit 1; fi
  [ "$1" = lib ] || { printf '#!/bin/sh\necho "%s: $*"\n' "$name" > "out/$name" && chmod 755 "out/$name"; }
  echo "$built_of" > out/rlib/stamp
  echo "end $name" >> "$STUB_STEPS"
fi
echo "$name: rt $*"
[ "$1" = lib ] || "out/$name" list /dev/null
RT
printf '#!/bin/sh\n' | tee bin/rattle repository/gate/unused > repository/edits/check
chmod 755 bin/rt bin/rattle repository/edits/check repository/gate/unused
path_without_stub=$PATH
export STUB_KIT=$work/kit.txt STUB_STEPS=$work/steps.txt STUB_SECONDS=0.3 RT_JOBS=4 PATH="$work/bin:$PATH"
echo "a kit" > kit.txt

# builds NAME STATUS: the launcher builds, with this status; steps.txt has what was built, said.txt what it said.
builds() {
  : > steps.txt
  repository/pbfrow --build-only > out.txt 2> said.txt
  local status=$?
  if [ "$status" = "$2" ]; then pass "$1"; else fail "$1"; echo "  status $status"; sed 's/^/    /' said.txt; fi
}

# are_built NAME CRATE..: these crates were built, each once, and no others.
are_built() {
  sed -n 's/^begin //p' steps.txt | sort > got.txt
  lines "${@:2}" | sort > want.txt
  same "$1" got.txt want.txt
}

# line STEP: the number of its line in steps.txt.
line() { grep -nx "$1" steps.txt | head -n 1 | cut -d : -f 1; }

# in_order STEP..: whether these steps come in this order.
in_order() {
  local last=0 it at
  for it in "$@"; do
    at=$(line "$it")
    [ -n "$at" ] && [ "$at" -gt "$last" ] || return
    last=$at
  done
}

# runs NAME STDOUT WORD..: the launcher, called with these words, writes this line; steps.txt has what was built, said.txt what it
# said.
runs() {
  : > steps.txt
  repository/pbfrow "${@:3}" > got.txt 2> said.txt
  echo "$2" > want.txt
  same "$1" got.txt want.txt
}

runs "in a fresh clone a command that only reads a file is run by the small program" "pbfrow_reader: list a.pbf" list a.pbf
are_built "for which the whole program isn't built" low pbfrow_reader
grep -q '^pbfrow: proving and building the part of the program that only reads files first' said.txt && pass "and which is said to be a part" || fail "and which is said to be a part"
repository/pbfrow --is-current && fail "the program isn't there by that" || pass "the program isn't there by that"
for words in "check a.pbf" "show a.pbf" "ranges a.pbf" "help import" --help --version ""; do
  # shellcheck disable=SC2086
  runs "so are the words '$words'" "pbfrow_reader: $words" $words
  are_built "without building more"
done
echo "// more" >> repository/crates/pbfrow_reader/src/lib.rt
runs "a changed source of the small program is built" "pbfrow_reader: check b.pbf" check b.pbf
are_built "and no other" pbfrow_reader
rm -rf repository/crates/*/out
STUB_SECONDS=1 builds "a fresh clone is built" 0
are_built "each crate that the program stands on is built once, and no other" low left right beside pbfrow
in_order "end low" "begin left" "end left" "begin pbfrow" && in_order "end low" "begin right" "end right" "begin pbfrow" &&
  in_order "end beside" "begin pbfrow" && pass "a crate begins when those that it stands on are there" ||
  { fail "a crate begins when those that it stands on are there"; sed 's/^/    /' steps.txt; }
in_order "begin left" "end right" && in_order "begin right" "end left" && in_order "begin low" "end beside" &&
  in_order "begin beside" "end low" && pass "crates that don't stand on each other are built side by side" ||
  { fail "crates that don't stand on each other are built side by side"; sed 's/^/    /' steps.txt; }
grep -q -e '^waits' -e '^again' steps.txt && { fail "none waits for another, nor builds one again"; sed 's/^/    /' steps.txt; } ||
  pass "none waits for another, nor builds one again"
grep -c '^pbfrow: [1-5] of 5 crates, [a-z]*, [0-9]* s$' said.txt > got.txt
echo 5 > want.txt
same "standard error has a line for each crate" got.txt want.txt
grep -q '^low: rt lib --jobs [12]$' repository/crates/low/out/build.log && pass "each crate has its log" || fail "each crate has its log"
find repository/.git repository/out -type f | sort > got.txt
echo repository/out/build.lock > want.txt
same "nothing is left of where crates were built" got.txt want.txt

: > steps.txt
repository/pbfrow show a.pbf > got.txt 2> said.txt
echo "pbfrow: show a.pbf" > want.txt
same "the program runs with the launcher's words, also those of the small one" got.txt want.txt
are_built "which isn't built then"
touch repository/crates.txt repository/crates/*/src/lib.rt
repository/pbfrow --is-current && pass "touched sources are the same sources" || fail "touched sources are the same sources"
touch -d '1 hour ago' repository/crates/pbfrow/out/pbfrow
repository/pbfrow --is-current && fail "of another program than the noted one the time decides" || pass "of another program than the noted one the time decides"
repository/gate/sources pbfrow note "$(repository/gate/sources pbfrow)"
repository/pbfrow --is-current && pass "what a program is made of can be noted" || fail "what a program is made of can be noted"
echo "// more tests" >> repository/crates/vectors/src/lib.rt
repository/pbfrow --is-current && pass "the program isn't made of the tests" || fail "the program isn't made of the tests"

echo "// more" >> repository/crates/left/src/lib.rt
repository/pbfrow --is-current && fail "a changed source is noticed" || pass "a changed source is noticed"
builds "a changed source is built" 0
are_built "and what stands on it, and no more" left pbfrow
grep -qx "kept left" steps.txt && pass "over what was kept of it" || fail "over what was kept of it"
sed -i 's/^left: low/& right/' repository/crates.txt
repository/pbfrow --is-current && fail "a changed line of crates.txt is noticed" || pass "a changed line of crates.txt is noticed"
sed -i 's/^left: low right/left: low/' repository/crates.txt
repository/pbfrow --is-current && pass "and that it is as before" || fail "and that it is as before"
echo "another kit" > kit.txt
repository/pbfrow --is-current && fail "another kit is noticed" || pass "another kit is noticed"
echo "a kit" > kit.txt
rm repository/crates/pbfrow/out/pbfrow.sources
touch repository/crates/pbfrow/out/pbfrow
repository/pbfrow --is-current && pass "a newer program of which nothing is noted is taken" || fail "a newer program of which nothing is noted is taken"
sleep 0.01
touch repository/crates/low/src/lib.rt
repository/pbfrow --is-current && fail "and one older than a source isn't" || pass "and one older than a source isn't"
builds "it is built again" 0
are_built "which proves nothing anew"

# began CRATE: waits until it has begun.
began() { for _ in {1..600}; do grep -qx "begin $1" steps.txt && return; sleep 0.05; done; }

echo "// more" >> repository/crates/low/src/lib.rt
: > steps.txt
repository/pbfrow import first > first.txt 2> said.txt &
began low
repository/pbfrow list second > second.txt 2> waited.txt
wait $!
cat first.txt second.txt > got.txt
lines "pbfrow: import first" "pbfrow: list second" > want.txt
same "of two starts at once both run the program, also where the small one would do for the second" got.txt want.txt
are_built "which is built once" low left right pbfrow
grep -q '^pbfrow: another process builds it already ([0-9]*); waiting' waited.txt && pass "the second says that it waits" || fail "the second says that it waits"
grep -q 'crates, ' waited.txt && fail "and builds nothing" || pass "and builds nothing"

echo "// more" >> repository/crates/low/src/lib.rt
: > steps.txt
STUB_SECONDS=30 repository/pbfrow --build-only 2> said.txt &
began low
kill -9 "$(cat repository/out/build.lock)"
wait $! 2> /dev/null
builds "after a build that was killed the next one begins" 0
are_built "with what the killed one had begun" low left right pbfrow
grep -qx "kept low" steps.txt && pass "over what was kept of that" || fail "over what was kept of that"
grep -q '^waits' steps.txt && fail "which has ended with its build" || pass "which has ended with its build"

echo "// more" >> repository/crates/low/src/lib.rt
: > steps.txt
repository/pbfrow --build-only 2> said.txt &
began low
echo "// meanwhile" >> repository/crates/right/src/lib.rt
wait $!
repository/pbfrow --is-current && grep -q '^pbfrow: sources have changed meanwhile' said.txt && [ "$(grep -cx 'begin right' steps.txt)" = 2 ] &&
  pass "a source that changes during the build is built again" || { fail "a source that changes during the build is built again"; sed 's/^/    /' said.txt steps.txt; }

echo "// more" >> repository/crates/left/src/lib.rt
# held until the build says that it waits, or for ten seconds
flock repository/crates/low bash -c 'for _ in {1..100}; do sleep 0.1; grep -q "waiting for a command" said.txt && break; done' &
until ! flock -n repository/crates/low true; do sleep 0.05; done
builds "while a command of rt works in a crate the build waits" 0
grep -q '^pbfrow: waiting for a command of rt that works in .*/crates/low$' said.txt && pass "and says so" || fail "and says so"

echo "// wrong" >> repository/crates/right/src/lib.rt
builds "a crate that isn't proved ends with 2" 2
grep -qx "fn right::f: not proved" said.txt && grep -q "^pbfrow: right isn't proved or built; the whole log is .*/crates/right/out/build.log$" said.txt &&
  pass "it is named, with the end of its log" || { fail "it is named, with the end of its log"; sed 's/^/    /' said.txt; }
grep -q "^begin pbfrow" steps.txt && fail "and what stands on it isn't begun" || pass "and what stands on it isn't begun"
repository/pbfrow import a > got.txt 2> said.txt
[ $? = 2 ] && [ ! -s got.txt ] && pass "no program runs that isn't of its sources" || fail "no program runs that isn't of its sources"
sed -i '/wrong/d' repository/crates/right/src/lib.rt
builds "once that is mended it is built" 0

: > steps.txt
repository/gate/run > got.txt 2> said.txt
echo "1 passed, 0 failed" > want.txt
same "the gate passes" got.txt want.txt
touch repository/crates/*/src/lib.rt
repository/pbfrow list a > got.txt 2> said.txt
echo "pbfrow of the gate: list a" > want.txt
same "the program that it leaves is taken, whatever the time of the sources" got.txt want.txt
repository/gate/sources pbfrow_reader match && pass "and so is the small one" || fail "and so is the small one"
: > steps.txt
repository/gate/run > got.txt 2> said.txt &
began gate
echo "// meanwhile" >> repository/crates/right/src/lib.rt
wait $!
repository/pbfrow --is-current && fail "unless a source has changed since it began" || pass "unless a source has changed since it began"

# where the machine holds more than two, the gate says how many tasks run at a time, unless that is said already
: > steps.txt
repository/gate/run > got.txt 2> said.txt
grep -qx "tasks 4" steps.txt && pass "the gate has as many tasks at a time as RT_JOBS says" || fail "the gate has as many tasks at a time as RT_JOBS says"
: > steps.txt
env -u RT_JOBS repository/gate/run > got.txt 2> said.txt
tasks=$(sed -n 's/^tasks //p' steps.txt)
if [ "$tasks" = "as rt plans" ] || { [ "$tasks" -gt 2 ] && [ "$tasks" -le "$(nproc)" ]; }; then
  pass "or three or more, up to one for each processor, or as rt plans"
else
  fail "or three or more, up to one for each processor, or as rt plans"
  echo "  tasks $tasks"
fi

# the two real programs, of which the gate leaves the small one, too
PATH=$path_without_stub
if "$top/gate/sources" pbfrow match && "$top/gate/sources" pbfrow_reader match; then
  whole=$top/crates/pbfrow/out/pbfrow
  pbfrow=$top/crates/pbfrow_reader/out/pbfrow_reader
  large=$top/data/liechtenstein-raw.osm.pbf
  tail -c +50 "$large" > damaged.osm.pbf
  for words in "list $large" "check $large" "show $large" "ranges $large 3" "list damaged.osm.pbf" "check damaged.osm.pbf" "show missing.osm.pbf"; do
    # shellcheck disable=SC2086
    { "$whole" $words > want.txt; echo "status $?" >> want.txt; "$pbfrow" $words > got.txt; echo "status $?" >> got.txt; } 2> /dev/null
    same "the small program does as the whole one: ${words//"$top/"/}" got.txt want.txt
  done
  expect "it has no import" 2 "" import "$top/data/two-nodes.osm.pbf" made.db
  grep -q '^pbfrow_reader: this program has no databases' stderr.txt && [ ! -e made.db ] && pass "says so, and makes no database" || fail "says so, and makes no database"
else
  skip "the small program beside the whole one" "they aren't both built of these sources"
fi
counted
