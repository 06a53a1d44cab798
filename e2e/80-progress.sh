#!/usr/bin/env bash
# The progress line: on a terminal at standard error while a command works for more than a second, and nowhere else.
# alone: what a terminal is sent depends on how long a command works
. "$(dirname -- "${BASH_SOURCE[0]}")/begin.sh"
country=$top/data/liechtenstein-raw.osm.pbf
terminal=$top/e2e/on_terminal.py
rate='[0-9]+\.[0-9] MB/s'

# slowly FILE: half of the file, and the rest more than a second after nearly all of that half was read.
slowly() {
  head -c 700000 "$1"
  sleep 1.6
  tail -c +700001 "$1"
}

# late: standard input, and more than a second between its first byte and the rest.
late() {
  dd bs=1 count=1 2>/dev/null
  sleep 1.6
  cat
}

# told NAME PATTERN: the terminal was sent such a line.
told() {
  if tr '\r' '\n' < sent.txt | sed 's/\x1b\[K$//' | grep -Eqx "$2"; then
    pass "$1"
  else
    fail "$1"
    od -c sent.txt | head -n 20 | sed 's/^/    /'
  fi
}

# ends_well NAME STATUS: the status of a command is 0.
ends_well() { [ "$2" = 0 ] && pass "$1" || fail "$1 ($2)"; }

# shows FILE COMMAND WORD..: over a slow pipe, with a terminal at standard error, this command ends with 0, tells how far it is, erases
# that line, and writes what the file has.
shows() {
  local wanted=$1 command=$2
  shift 2
  slowly "$country" | python3 "$terminal" "$pbfrow" "$command" "$@" > got.txt
  ends_well "$command of a slow pipe on a terminal ends with 0" "${PIPESTATUS[1]}"
  told "$command tells how far it is" "[0-9]+\.[0-9] MB, [0-9]+ blobs, $rate"
  same "the line of $command is erased at the end" shown.txt nothing.txt
  same "$command writes the same as without a terminal" got.txt "$wanted"
}

# copies FILE DATABASE COMMAND WORD..: this command, which copies all of the extract into a new database and is held up for more
# than a second where it begins, with a terminal at standard error, ends with 0, tells how far it is, erases that line, and writes
# what the file has.
copies() {
  local wanted=$1 database=$2 command=$3
  shift 2
  rm -f "$database"*
  python3 "$terminal" --paused "$database-wal" "$pbfrow" "$@" > got.txt
  ends_well "$command on a terminal ends with 0" $?
  told "$command tells how far it is" "[0-9]+\.[0-9] MB of 1\.3 MB, [0-9]+ blobs, $rate(, [0-9]+ s left)?"
  same "the line of $command is erased at the end" shown.txt nothing.txt
  same "$command writes the same as without a terminal" got.txt "$wanted"
}

if has python3 && python3 -c 'import pty; pty.openpty()' 2>/dev/null; then
  : > nothing.txt
  "$pbfrow" check "$country" > want.txt
  shows want.txt check

  slowly "$country" | "$pbfrow" check 2> sent.txt > got.txt
  same "nothing is told where standard error is no terminal" sent.txt nothing.txt
  python3 "$terminal" "$pbfrow" check "$top/data/two-nodes.osm.pbf" > got.txt
  same "nothing is told of what takes less than a second" sent.txt nothing.txt
  slowly "$country" | python3 "$terminal" "$pbfrow" list > got.txt
  same "list tells nothing" sent.txt nothing.txt

  rm -f plain.db slow.db
  "$pbfrow" import "$country" plain.db > want.txt
  shows want.txt import /dev/stdin slow.db

  rm -f slow.db
  tail -n 1 want.txt > last.txt
  shows last.txt import /dev/stdin slow.db --quiet
  told "import --quiet counts the blobs that it doesn't print" "[0-9]+\.[0-9] MB, [1-9][0-9]* blobs, $rate"

  "$pbfrow" verify "$country" plain.db > verified.txt
  shows verified.txt verify /dev/stdin plain.db

  "$pbfrow" ranges "$country" 4 > ranges.txt
  shows ranges.txt ranges /dev/stdin 4

  lines "copied 12 held 0" "blobs copied 12 held 0" > copied.txt
  copies copied.txt merged.db merge merged.db plain.db
  python3 "$top/bench/older.py" plain.db older.db
  lines "copied 12 held 0" > copied.txt
  copies copied.txt migrated.db migrate older.db migrated.db

  rm -f slow.db
  slowly "$country" | python3 "$terminal" --all "$pbfrow" import /dev/stdin slow.db
  told "import tells how far it is on the terminal that has its output" "[0-9]+\.[0-9] MB, [0-9]+ blobs, $rate"
  same "that terminal shows the lines of the import alone" shown.txt want.txt

  rm -f slow.db
  slowly "$country" | python3 "$terminal" --gone "$pbfrow" import /dev/stdin slow.db > got.txt
  ends_well "import ends with 0 though its terminal has gone" "${PIPESTATUS[1]}"
  same "it writes the same then" got.txt want.txt

  for form in lines pbf; do
    "$pbfrow" export plain.db --form "$form" > want.txt
    python3 "$terminal" "$pbfrow" export plain.db --form "$form" | late > got.txt
    ends_well "export of $form to a slow reader on a terminal ends with 0" "${PIPESTATUS[0]}"
    told "export of $form tells how far it is, and the time left" "[0-9]+\.[0-9] MB of 1\.3 MB, [0-9]+ blobs, $rate, [0-9]+ s left"
    same "the line of export of $form is erased at the end" shown.txt nothing.txt
    same "export of $form writes the same as without a terminal" got.txt want.txt
  done
else
  skip "the progress line" "python3 or a pseudo terminal isn't there"
fi
counted
