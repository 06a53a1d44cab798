# What the programs share that the gate doesn't see (bench/store, bench/hash, e2e/calls): their sources end in .in, and a scratch
# repository has such a program beside copies of crates of this one, where rt proves and builds it. What is built of those
# crates already is taken over. The scripts that read this have set $top, this repository, and $work, the scratch one.

# copied LIBRARY: puts the sources of a library into the scratch repository, and what is built of it.
copied() {
  local from=$top/crates/$1 to=$work/crates/$1
  rm -rf "$to/src" "$to/specs" "$to/proofs"
  mkdir -p "$to/out" && cp -aL "$from/src" "$from/specs" "$from/proofs" "$to/" || return
  [ -e "$from/out/rlib/stamp" ] || return 0
  cmp -s "$from/out/rlib/stamp" "$to/out/rlib/stamp" && return
  rm -rf "$to/out/rlib" && cp -aL "$from/out/rlib" "$to/out/"
}

# placed PROGRAM FOLDER FILE: puts a file of a program's folder where rt looks for it.
placed() {
  local to=$work/crates/$1/${3%.in}
  mkdir -p "$(dirname "$to")" && cp "$2/$3" "$to"
}

# prepared PROGRAM FOLDER LIBRARIES OTHERS: makes the scratch repository, with a program whose sources stand in a folder,
# over these libraries of this repository and these others of the kit.
prepared() {
  local program=$1 folder=$2 libraries=$3 it
  mkdir -p "$work/crates/$program" && cp "$top/HANDLES" "$work/" || return
  grep -E "^(${libraries// /|}):" "$top/crates.txt" >"$work/crates.txt" || [ -z "$libraries" ] || return
  echo "$program: $libraries $4" >>"$work/crates.txt"
  for it in $libraries; do copied "$it" || return; done
  rm -rf "$work/crates/$program/src" "$work/crates/$program/proofs"
  for it in $(cd "$folder" && find . -name '*.in'); do placed "$program" "$folder" "${it#./}" || return; done
}

# built PROGRAM: proves and builds it, and runs it without words.
built() {
  (cd "$work/crates/$1" && rt run </dev/null) >"$work/build.log" 2>&1 && [ -x "$work/crates/$1/out/$1" ] && return
  tail -n 20 "$work/build.log" >&2
  return 1
}
