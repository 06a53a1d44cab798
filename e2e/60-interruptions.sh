#!/usr/bin/env bash
# An import, a merge and a copy of a real extract that are killed at any moment: what is held is whole blobs, and the next run
# completes it.
# alone: it takes all processors itself, and kills at moments
. "$(dirname -- "${BASH_SOURCE[0]}")/begin.sh"
country=$top/data/liechtenstein-raw.osm.pbf
workers=$(nproc)
rm -f ./*.db ./*.db-wal killed-* unbroken-*
"$pbfrow" import "$country" whole.db > got.txt
"$pbfrow" export whole.db > whole.txt

# words_of COMMAND NAME: the words with which the command fills the database NAME.db with the extract, in `words`. What it
# copies is a copy of its own, since each command has its databases to itself.
words_of() {
  local part
  case $1 in
    import) words=(import "$country" "$2.db") ;;
    merge)
      words=(merge "$2.db")
      for part in part-*.db; do
        cp "$part" "$2-$part"
        words+=("$2-$part")
      done
      ;;
    migrate)
      cp older.db "$2-older.db"
      words=(migrate "$2-older.db" "$2.db")
      ;;
  esac
}

# Kills a command after so many microseconds, completes it by a second run, and writes how that went: whether the kill
# came before the end, and whether the export is that of the unbroken import and sqlite3, where it is installed, finds the
# database whole.
killed() {
  local command=$1 name=killed-$1-$2 wait_us=$3 pid end=late came=equal words
  words_of "$command" "$name"
  "$pbfrow" "${words[@]}" > "$name.txt" 2>/dev/null &
  pid=$!
  sleep "$(printf '%d.%06d' $((wait_us / 1000000)) $((wait_us % 1000000)))"
  kill -9 "$pid" 2>/dev/null
  wait "$pid" 2>/dev/null
  cmp -s "$name.txt" "unbroken-$command.txt" || end=broken
  "$pbfrow" "${words[@]}" > "$name-resumed.txt" || came=different
  "$pbfrow" export "$name.db" > "$name-export.txt"
  cmp -s whole.txt "$name-export.txt" || came=different
  if has sqlite3 && [ "$(sqlite3 "$name.db" "PRAGMA integrity_check" 2>&1)" != ok ]; then came=different; fi
  echo "$end $came" > "$name.verdict"
  rm -f "$name.db"* "$name"-*
}

# all_killed COMMAND TIMES LEAST: the command is killed so many times, and is completed by a second run each time. At least so
# many of them were killed before their end.
all_killed() {
  local command=$1 times=$2 least=$3 started taken broken equal words
  words_of "$command" "unbroken-$command"
  started=$(date +%s%N)
  "$pbfrow" "${words[@]}" > "unbroken-$command.txt"
  taken=$((($(date +%s%N) - started) / 1000))
  # the moments are the same in each run of these checks
  RANDOM=20260101
  (
    for number in $(seq "$times"); do
      killed "$command" "$number" $(((RANDOM * 32768 + RANDOM) % taken)) 2>/dev/null &
      while [ "$(jobs -rp | wc -l)" -ge "$workers" ]; do wait -n; done
    done
    wait
  )
  broken=$(cat "killed-$command"-*.verdict | grep -c '^broken')
  equal=$(cat "killed-$command"-*.verdict | grep -c ' equal$')
  echo "  $broken of $times were killed before their end"
  [ "$equal" = "$times" ] && pass "$times killed runs of $command, each completed by a second run" \
    || fail "$times killed runs of $command, each completed by a second run ($((times - equal)) differ)"
  [ "$broken" -ge "$least" ] && pass "at least $least of them were killed before their end" \
    || fail "at least $least of them were killed before their end ($broken)"
  rm -f "unbroken-$command"*
}

all_killed import 50 10

# The making of a database is the first hundredths of a second of an import: one of a small file is killed at a hundred moments
# from its start to its end, so that some leave a database that wasn't made to its end. The next run makes it anew.
small=$top/data/two-nodes.osm.pbf
"$pbfrow" import "$small" small.db > got.txt
"$pbfrow" export small.db > small.txt
started=$(date +%s%N)
"$pbfrow" import "$small" timed.db > got.txt
taken=$((($(date +%s%N) - started) / 1000))
killed_early() {
  local name=early-$1 wait_us=$2 pid left=made came=equal
  "$pbfrow" import "$small" "$name.db" > "$name.txt" 2>/dev/null &
  pid=$!
  sleep "$(printf '%d.%06d' $((wait_us / 1000000)) $((wait_us % 1000000)))"
  kill -9 "$pid" 2>/dev/null
  wait "$pid" 2>/dev/null
  if [ -s "$name.db" ] && [ "$(head -c 6 "$name.db" | tr '\0' .)" != SQLite ]; then left=unfinished; fi
  "$pbfrow" import "$small" "$name.db" > "$name.txt" || came=different
  "$pbfrow" export "$name.db" | cmp -s small.txt || came=different
  if has sqlite3 && [ "$(sqlite3 "$name.db" "PRAGMA integrity_check" 2>&1)" != ok ]; then came=different; fi
  echo "$left $came" > "$name.verdict"
  rm -f "$name.db"* "$name.txt"
}
(
  for number in $(seq 100); do
    killed_early "$number" $((number * taken / 100)) 2>/dev/null &
    while [ "$(jobs -rp | wc -l)" -ge "$workers" ]; do wait -n; done
  done
  wait
)
echo "  $(cat early-*.verdict | grep -c '^unfinished') of them left a database that wasn't made to its end"
[ "$(cat early-*.verdict | grep -c ' equal$')" = 100 ] && pass "100 imports killed as they begin, each completed by a second run" \
  || fail "100 imports killed as they begin, each completed by a second run ($(cat early-*.verdict | grep -c different) differ)"

# What such a making leaves first is one byte. Nothing can be asked of it, and an import makes the database; a file that begins so
# but isn't left by one stays as it is.
printf '\0' > byte.db
expect "status of a database that wasn't made to its end" 1 $'fault 66 NotThisStore\n' status byte.db
"$pbfrow" import "$small" byte.db > got.txt
"$pbfrow" export byte.db > got.txt
same "an import makes it anew" small.txt got.txt
head -c 100 /dev/zero > zeros.txt
cp zeros.txt zeros.db
expect "import into a hundred zeros" 1 $'fault 65 Disk\n' import "$small" zeros.db
same "they stay" zeros.txt zeros.db

"$pbfrow" ranges "$country" 3 > plan.txt
while read -r from to; do
  tail -c +$((from + 1)) "$country" | head -c $((to - from)) | "$pbfrow" import /dev/stdin "part-$from.db" --at "$from" > got.txt
done < plan.txt
all_killed merge 20 5

if has python3; then
  python3 "$top/bench/older.py" whole.db older.db
  all_killed migrate 20 5
else
  skip "killed runs of migrate" "python3 isn't installed"
fi
counted
