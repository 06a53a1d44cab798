# What the scripts that measure the program share. Inputs and databases are made in $PBFROW_BENCH, by default
# /tmp/pbfrow-bench. The scripts that read this have set $top, this repository.

work=${PBFROW_BENCH:-/tmp/pbfrow-bench}
runs=${PBFROW_RUNS:-5}
mkdir -p "$work" && cd "$work" || exit 2
"$top/pbfrow" --build-only || exit 1
pbfrow=$top/crates/pbfrow/out/pbfrow
export pbfrow
[ -x /usr/bin/time ] || { echo "bench: /usr/bin/time isn't there (Debian's package time)" >&2; exit 2; }

# skipped NAME: whether PBFROW_SKIP, a pattern of names, leaves it out.
skipped() { [ -n "${PBFROW_SKIP:-}" ] && [[ $1 =~ $PBFROW_SKIP ]]; }

# took FILE COMMAND..: runs the command with the file as standard input, and prints its seconds and its memory.
took() {
  local file=$1
  shift
  /usr/bin/time -f '%e %U %S %M' "$@" 2>&1 >/dev/null <"$file" | tail -n 1
}

# row NAME FILE: the row of the best of the runs that are given line by line.
row() {
  sort -n | head -n 1 | awk -v name="$1" -v b="$(stat -c %s "$2")" \
    '{ printf "| %s | %.2f | %.2f | %.0f | %.0f |\n", name, $1, $2 + $3, ($1 > 0 ? b / 1e6 / $1 : 0), $4 / 1024 }'
}

# spread NAME FILE [RATIOS]: the row of runs that are given line by line, where each figure is the median, with the least and the
# greatest behind it; and of further figures of each line, ratios, too.
spread() {
  awk -v name="$1" -v bytes="$(stat -c %s "$2")" -v ratios="${3:-0}" '
    { figure[1, NR] = $1; figure[2, NR] = $2 + $3; figure[3, NR] = bytes / 1e6 / ($1 > 0 ? $1 : 0.01); figure[4, NR] = $4 / 1024
      for (i = 1; i <= ratios; i++) figure[4 + i, NR] = $(4 + i) }
    function told(which, form,   i, j, x) {
      for (i = 2; i <= NR; i++) {
        x = figure[which, i]
        for (j = i - 1; j > 0 && figure[which, j] > x; j--) figure[which, j + 1] = figure[which, j]
        figure[which, j + 1] = x
      }
      x = (figure[which, int((NR + 1) / 2)] + figure[which, int(NR / 2) + 1]) / 2
      return NR == 1 ? sprintf(form, x) : sprintf(form " (" form " to " form ")", x, figure[which, 1], figure[which, NR])
    }
    END {
      row = "| " name " | " told(1, "%.2f") " | " told(2, "%.2f") " | " told(3, "%.0f") " | " told(4, "%.0f") " |"
      for (i = 1; i <= ratios; i++) row = row " " told(4 + i, "%.2f") " |"
      print row
    }'
}

# measure NAME FILE COMMAND..: runs the command with the file as standard input, and prints the row of its best run.
measure() {
  local name=$1 file=$2
  shift 2
  skipped "$name" || for _ in $(seq "$runs"); do took "$file" "$@"; done | row "$name" "$file"
}

# in_turn ROUNDS FILE SCRIPT NAME..: measures a shell script with each name as its only word, all of them in turn, round after
# round: a machine that is slower for a minute is so for all, so that how they compare is told better than by `measure`. A row has
# the medians, with the least and the greatest.
in_turn() {
  local rounds=$1 file=$2 script=$3 at
  shift 3
  rm -f turn-*.txt
  for _ in $(seq "$rounds"); do
    for at in $(seq $#); do skipped "${!at}" || took "$file" sh -c "$script" sh "${!at}" >> "turn-$at.txt"; done
  done
  for at in $(seq $#); do skipped "${!at}" || spread "${!at}" "$file" < "turn-$at.txt"; done
  rm -f turn-*.txt
}

# both ROUND FILE: runs the commands in `one` and `other` at the same time, each with a processor to itself, and notes what they took
# in one.txt and other.txt. In each second round they change places. What a host takes meanwhile, it takes of both. It needs two
# processors.
both() {
  local processors=($(($(nproc) / 2 - 1)) $(($(nproc) - 1))) turn=$(($1 % 2))
  took "$2" taskset -c "${processors[turn]}" "${one[@]}" >> one.txt &
  took "$2" taskset -c "${processors[1 - turn]}" "${other[@]}" >> other.txt
  wait
}

# median: of the numbers that are given line by line the median, the least and the greatest.
median() {
  sort -n | awk '{ all[NR] = $1 } END { if (NR) printf "%.3f %.3f %.3f", (all[int((NR + 1) / 2)] + all[int(NR / 2) + 1]) / 2, all[1], all[NR] }'
}

# ratio OVER UNDER [DIGITS]: the processor times of one file of `took` divided by those of the other, round by round, as the median,
# the least and the greatest, in cells of a table.
ratio() {
  local middle least greatest digits=${3:-2}
  read -r middle least greatest < <(paste "$1" "$2" | awk '$6 + $7 > 0 { print ($2 + $3) / ($6 + $7) }' | median)
  printf "%.${digits}f | %.${digits}f | %.${digits}f" "$middle" "$least" "$greatest"
}

# swapped OVER UNDER: the same of commands that `both` has run in an even number of rounds. Two rounds, in which each command has had
# either processor, give one ratio, the root of the product of both: a processor that is slower than the other is so for both commands.
swapped() {
  local middle least greatest
  read -r middle least greatest < <(paste "$1" "$2" | awk '
    { now = ($2 + $3) / ($6 + $7); if (NR % 2) first = now; else print sqrt(first * now) }' | median)
  printf '%.3f | %.3f | %.3f' "$middle" "$least" "$greatest"
}

# mean NAME FILE COMMAND..: the mean processor time of fifteen runs with the file as standard input. One of a fifth of a second
# is told too coarsely.
mean() {
  local name=$1 file=$2
  shift 2
  /usr/bin/time -f '%U %S' -o mean.txt sh -c 'for _ in 1 2 3 4 5 6 7 8 9 10 11 12 13 14 15; do "$@" < "$0" > /dev/null; done' "$file" "$@"
  awk -v name="$name" '{ printf "| %s | %.3f |\n", name, ($1 + $2) / 15 }' mean.txt
}

table() {
  printf '\n%s\n\n| Program | wall s | processor s | MB/s | peak MiB |\n|---|---|---|---|---|\n' "$1"
}

country=$top/data/liechtenstein-raw.osm.pbf
copies=${PBFROW_COPIES:-16}
extract=mosaic-$copies.osm.pbf

# mosaic COPIES: makes the file of so many shifted copies of the extract.
mosaic() {
  [ -e "mosaic-$1.osm.pbf" ] || osmium cat --no-progress -f opl "$country" | python3 "$top/bench/mosaic.py" "$1" \
    | osmium cat --no-progress -F opl - -f pbf,pbf_compression=none -o "mosaic-$1.osm.pbf"
}

# built NAME FLAG..: whether the peer of this name is there, compiled from bench/peers; what it needs may not be installed.
built() {
  local name=$1
  shift
  [ "$name" -nt "$top/bench/peers/$name.cpp" ] || g++ -O2 -std=c++17 -o "$name" "$top/bench/peers/$name.cpp" "$@" 2>/dev/null || { echo "not measured: $name doesn't compile here" >&2; return 1; }
}

# there NAME: whether this program is installed.
there() {
  command -v "$1" >/dev/null || { echo "not measured: $1 isn't installed" >&2; return 1; }
}

# PBFROW_INSTRUCTIONS=1 has instructions counted and nothing measured by the clock, PBFROW_INSTRUCTIONS=0 the other way round.
counts_alone() { [ "${PBFROW_INSTRUCTIONS:-}" = 1 ]; }
counts_none() { [ "${PBFROW_INSTRUCTIONS:-}" = 0 ] || ! there valgrind; }

# instructions_of COMMAND..: how many instructions it takes, by valgrind.
instructions_of() {
  valgrind --tool=callgrind --callgrind-out-file=/dev/null "$@" 2>&1 > got.txt < /dev/null | awk '/Collected/ { print $NF }'
}
