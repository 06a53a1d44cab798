# What the end-to-end checks share: each check has a name, and either passes, fails or is skipped with a reason.
passed=0
failed=0

pass() { passed=$((passed + 1)); echo "ok      $1"; }
fail() { failed=$((failed + 1)); echo "FAILED  $1"; }
skip() { echo "skipped $1: $2"; }

# counted: the counts, as the last line, and whether none failed.
counted() {
  echo "$passed passed, $failed failed"
  [ "$failed" = 0 ]
}

# expect NAME STATUS TEXT WORD..: the program with these words ends with this status and writes exactly this text.
# Its standard input is this shell's.
expect() {
  local name=$1 status=$2 text=$3 got ended
  shift 3
  got=$("$pbfrow" "$@" 2>stderr.txt; echo "status $?")
  ended=${got##*status }
  got=${got%status *}
  if [ "$ended" = "$status" ] && [ "$got" = "$text" ]; then
    pass "$name"
  else
    fail "$name"
    echo "  wanted status $status and:"; printf '%s' "$text" | head -n 20 | sed 's/^/    /'
    echo "  got status $ended and:"; printf '%s' "$got" | head -n 20 | sed 's/^/    /'
    head -n 5 stderr.txt | sed 's/^/    standard error: /'
  fi
}

# lines LINE..: the text of these lines.
lines() { [ $# = 0 ] || printf '%s\n' "$@"; }

# same NAME FILE FILE: both files have the same bytes.
same() {
  if cmp -s "$2" "$3"; then
    pass "$1"
  else
    fail "$1"
    diff "$2" "$3" | head -n 10 | sed 's/^/    /'
  fi
}

# sound NAME DATABASE: sqlite3 finds the database whole, and each index complete.
sound() {
  local said
  has sqlite3 || { skip "$1" "sqlite3 isn't installed"; return; }
  said=$(sqlite3 "$2" "PRAGMA integrity_check" 2>&1)
  if [ "$said" = ok ]; then pass "$1"; else fail "$1"; printf '%s\n' "$said" | head -n 5 | sed 's/^/    /'; fi
}

# commands: the commands of the program, as README's table has them.
commands() { sed -n '/^## Commands/,/^## What/s/^| `\([a-z]*\) .*/\1/p' "$top/README.md"; }

# schema_version: the version of the tables, as docs/SCHEMA.md has it.
schema_version() { sed -n 's/.*| the version of these tables: \([0-9]*\) |$/\1/p' "$top/docs/SCHEMA.md"; }

# has COMMAND..: whether all of these commands are there.
has() {
  local command
  for command in "$@"; do
    command -v "$command" >/dev/null || return 1
  done
}
