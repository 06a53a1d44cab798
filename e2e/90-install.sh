#!/usr/bin/env bash
# make install and make uninstall, the packages of make dist, README's commands by what a package installs, and the guide's
# one line from a compressed extract to a database.
. "$(dirname -- "${BASH_SOURCE[0]}")/begin.sh"

# installed_files ROOT: what stands below it, each file with its mode.
installed_files() {
  (cd "$1" && find . -type f -printf '%m %P\n' | sort)
}

# completes SHELL FILE: whether the shell takes its completions, where it is there, and they name each command.
completes() {
  if has "$1"; then
    "$1" -n "$2" 2> said.txt && pass "$1 reads its completions" || fail "$1 reads its completions"
  fi
  commands | while read -r command; do grep -qw -- "$command" "$2" || echo "$command"; done > got.txt
  : > want.txt
  same "the completions of $1 name each command" got.txt want.txt
}

# completed WORD..: what bash makes of the last of these words.
completed() {
  bash -c '. "$1"; shift; COMP_WORDS=("$@"); COMP_CWORD=$(($# - 1)); _pbfrow; echo "${COMPREPLY[*]}"' - \
    image/usr/share/bash-completion/completions/pbfrow "$@"
}

if has make install gzip; then
  # without the library, which 97-library installs
  if make -s -C "$top" install BUILT_LIBRARY=/nowhere PREFIX=/usr DESTDIR="$PWD/image" > made.txt 2>&1; then
    installed_files image > installed.txt
    printf '%s\n' "644 usr/share/bash-completion/completions/pbfrow" "644 usr/share/doc/pbfrow/GUIDE.md" \
      "644 usr/share/doc/pbfrow/LICENSE-APACHE" "644 usr/share/doc/pbfrow/LICENSE-MIT" "644 usr/share/doc/pbfrow/NOTICES" \
      "644 usr/share/doc/pbfrow/REPAIR.md" "644 usr/share/doc/pbfrow/SCALE.md" "644 usr/share/doc/pbfrow/SCHEMA.md" \
      "644 usr/share/doc/pbfrow/examples/parts.mk" "644 usr/share/doc/pbfrow/examples/search.sql" "644 usr/share/doc/pbfrow/examples/views.sql" "644 usr/share/fish/vendor_completions.d/pbfrow.fish" \
      "644 usr/share/man/man1/pbfrow.1.gz" "644 usr/share/zsh/site-functions/_pbfrow" "755 usr/bin/pbfrow" \
      "755 usr/share/doc/pbfrow/examples/dask_import.py" "755 usr/share/doc/pbfrow/examples/import_part" > want.txt
    same "make install puts the program and what belongs to it in place" installed.txt want.txt
    env -i PATH=/nowhere "$PWD/image/usr/bin/pbfrow" list "$top/data/two-nodes.osm.pbf" > listed.txt 2>&1
    printf '%s\n' "0 OSMHeader 30" "47 OSMData 22" > want.txt
    same "the installed program runs by itself" listed.txt want.txt
    gzip -dc image/usr/share/man/man1/pbfrow.1.gz | grep '^Usage: ' | cut -d ' ' -f 3 > described.txt
    commands > want.txt
    same "the manual page describes each command" described.txt want.txt
    completes bash image/usr/share/bash-completion/completions/pbfrow
    completes zsh image/usr/share/zsh/site-functions/_pbfrow
    completes fish image/usr/share/fish/vendor_completions.d/pbfrow.fish
    { completed pbfrow exp; completed pbfrow export --fo; completed pbfrow export db --form p; } > got.txt
    printf '%s\n' export --form pbf > want.txt
    same "a command, an option and its value are completed" got.txt want.txt
    make -s -C "$top" uninstall PREFIX=/usr DESTDIR="$PWD/image" > made.txt 2>&1
    installed_files image > got.txt
    : > want.txt
    same "make uninstall takes all of it back" got.txt want.txt
  else
    fail "make install"
    head -n 10 made.txt | sed 's/^/    /'
  fi
  mkdir unbuilt
  cp "$top/Makefile" "$top/pbfrow" "$top/crates.txt" unbuilt
  make -s -C unbuilt install DESTDIR="$PWD/image" > made.txt 2>&1
  grep -q "run make first" made.txt && [ -z "$(installed_files image)" ] &&
    pass "make install proves nothing: where the program isn't built it says so" || fail "make install where nothing is built"
else
  skip "make install" "make isn't installed"
fi

if has make install gzip xz dpkg-deb gcc; then
  if make -s -C "$top" dist > made.txt 2>&1; then
    # a gate leaves the program without the object file that the static one is linked from
    linked=$(ls "$top"/out/dist/pbfrow-*-static.tar.xz 2>/dev/null)
    (cd "$top/out/dist" && sha256sum --check SHA256SUMS) > got.txt 2>&1
    wheel=$(ls "$top"/out/dist/pbfrow-*.whl 2>/dev/null)
    [ "$(grep -c ': OK$' got.txt)" = "$((2 + $([ -n "$linked" ] && echo 1 || echo 0) + $([ -n "$wheel" ] && echo 1 || echo 0)))" ] && pass "each package, with its sum" || fail "each package, with its sum"
    mkdir -p static root/var/lib/dpkg/info root/var/lib/dpkg/updates
    touch root/var/lib/dpkg/status
    if [ -n "$linked" ]; then
      tar -xJf "$linked" -C static --strip-components 1
      cp "$top/data/two-nodes.osm.pbf" static
      printf '%s\n' "0 OSMHeader 30" "47 OSMData 22" > want.txt
      if [ "$(id -u)" = 0 ]; then
        chroot static /bin/pbfrow list /two-nodes.osm.pbf > got.txt 2>&1
        same "the static program runs where there is nothing else" got.txt want.txt
      else
        static/bin/pbfrow list static/two-nodes.osm.pbf > got.txt 2>&1
        same "the static program runs" got.txt want.txt
      fi
    else
      skip "the static program" "the object file that it is linked from isn't there, as after a gate"
    fi
    dpkg --root="$PWD/root" --force-depends --force-not-root --force-script-chrootless --log=/dev/null \
      --install "$top"/out/dist/pbfrow_*_amd64.deb > made.txt 2>&1 ||
      { fail "the Debian package goes into an empty root"; sed 's/^/    /' made.txt; }
    grep -q "^commit: " root/usr/share/doc/pbfrow/ORIGIN && pass "a package says of which commit it is" ||
      fail "a package says of which commit it is"
    if has osmium sqlite3; then
      osmium cat --no-progress "$top/data/liechtenstein-raw.osm.pbf" -o country.osm.pbf
      sed -n '/^    osmium cat country/,/^    sqlite3 /s/^    //p' "$top/README.md" > readme.sh
      [ "$(wc -l < readme.sh)" = 4 ] || fail "README has four commands"
      PATH=$PWD/root/usr/bin:$PATH bash -e readme.sh > said.txt 2>&1
      tail -n 3 said.txt > got.txt
      sed -n 's/^    \([a-z]*|[0-9]*\)$/\1/p' "$top/README.md" > want.txt
      same "README's four commands, by the installed package, give README's answer" got.txt want.txt
    else
      skip "README's commands" "osmium or sqlite3 isn't installed"
    fi
  else
    fail "make dist"
    head -n 10 made.txt | sed 's/^/    /'
  fi
else
  skip "make dist" "dpkg-deb, gcc, make or xz isn't installed"
fi

if has osmium; then
  # `show` reads the file that is stored raw, so the same lines have to come out whatever blobs osmium makes of it.
  "$pbfrow" show "$top/data/liechtenstein-raw.osm.pbf" | grep '^[nwr] ' > want.txt
  osmium cat --no-progress "$top/data/liechtenstein-raw.osm.pbf" -o packed.osm.pbf --overwrite
  rm -f packed.db
  osmium cat --no-progress packed.osm.pbf -f pbf,pbf_compression=none -o - | "$pbfrow" import /dev/stdin packed.db > imported.txt
  "$pbfrow" export packed.db > got.txt
  same "a compressed extract is imported through osmium and a pipe" got.txt want.txt
  osmium cat --no-progress packed.osm.pbf -f pbf,pbf_compression=none -o - | "$pbfrow" import /dev/stdin packed.db > again.txt
  grep -c ' held$' again.txt > got.txt
  grep -c ' stored [0-9]*$' imported.txt > want.txt
  same "and through the same pipe again, where all of it is held" got.txt want.txt
else
  skip "a compressed extract through a pipe" "osmium isn't installed"
fi
counted
