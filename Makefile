# make: proves and builds the program. make test: all that CI runs. make quick: what one runs while working. make gate-time:
# what the last run of the gate here took, by crate, and what passes the budget. make e2e: the built program on files. make
# edits: says which goal refuses each must-fail edit; make edits-sample: of a random tenth. make refused-growths: public calls
# with each growth of memory refused in turn. make bench: measures the program, and draws the tables as bars (out/bars-*.svg).
# make install: the built program, its manual page, documents and completions under PREFIX, and the library where that is built;
# make uninstall takes them back. make library: proves and builds the library for C and C++, in out/library. make python: a
# wheel around that library, in out/dist. make bench-python: measures it. make dist: packages of the built program, with the
# library where that is built, in out/dist.
.PHONY: all test gate gate-time quick e2e edits edits-sample refused-growths bench built library python bench-python install install-library uninstall dist clean

PREFIX ?= /usr/local
bindir ?= $(PREFIX)/bin
mandir ?= $(PREFIX)/share/man
docdir ?= $(PREFIX)/share/doc/pbfrow
bashdir ?= $(PREFIX)/share/bash-completion/completions
zshdir ?= $(PREFIX)/share/zsh/site-functions
fishdir ?= $(PREFIX)/share/fish/vendor_completions.d
libdir ?= $(PREFIX)/lib
includedir ?= $(PREFIX)/include
# where the library was built; make install leaves it out if it isn't there
BUILT_LIBRARY ?= out/library
EXAMPLES_OF_LIBRARY := $(wildcard examples/*.c examples/*.cpp)
SCRIPTS_OF_LIBRARY := $(wildcard examples/count.py examples/nodes_of_box.py examples/ways_with_places.py)
SHELL := bash

all:
	./pbfrow --build-only

test: gate gate-time library e2e

gate:
	gate/run

gate-time:
	@gate/time

quick:
	gate/quick

e2e: all
	e2e/run

edits:
	edits/single

edits-sample:
	edits/single $$(edits/sample)

refused-growths:
	e2e/calls/run

bench: all
	mkdir -p out
	set -o pipefail; bench/run | tee out/bench.md
	bench/bars.py out/bench.md out

# The proofs take long and run what they build, so they aren't for root: the program has to be there.
built:
	@./pbfrow --is-current || { echo "the program isn't built, or a source has changed: run make first, and not as root" >&2; exit 1; }

library:
	library/archive
	library/build "$(BUILT_LIBRARY)"

python: library
	package/wheel

bench-python: all
	bench/python

install: built
	install -d $(addprefix "$(DESTDIR)",$(bindir) $(mandir)/man1 $(docdir)/examples $(bashdir) $(zshdir) $(fishdir))
	install -m 755 crates/pbfrow/out/pbfrow "$(DESTDIR)$(bindir)/pbfrow"
	docs/manual | gzip -9n > "$(DESTDIR)$(mandir)/man1/pbfrow.1.gz"
	package/completions bash > "$(DESTDIR)$(bashdir)/pbfrow"
	package/completions zsh > "$(DESTDIR)$(zshdir)/_pbfrow"
	package/completions fish > "$(DESTDIR)$(fishdir)/pbfrow.fish"
	install -m 644 LICENSE-MIT LICENSE-APACHE docs/GUIDE.md docs/REPAIR.md docs/SCHEMA.md docs/SCALE.md "$(DESTDIR)$(docdir)"
	package/notices > "$(DESTDIR)$(docdir)/NOTICES"
	install -m 755 examples/import_part examples/dask_import.py "$(DESTDIR)$(docdir)/examples"
	install -m 644 examples/parts.mk examples/search.sql examples/views.sql "$(DESTDIR)$(docdir)/examples"
	@[ ! -e "$(BUILT_LIBRARY)/lib/libpbfrow.a" ] || $(MAKE) -s install-library

# The library by itself, as it was built; this proves and compiles nothing. A linked program finds the shared one once ldconfig has
# run.
install-library:
	install -d $(addprefix "$(DESTDIR)",$(includedir) $(libdir) $(docdir)/examples)
	install -m 644 "$(BUILT_LIBRARY)/include/pbfrow.h" "$(BUILT_LIBRARY)/include/pbfrow.hpp" "$(DESTDIR)$(includedir)"
	install -m 644 "$(BUILT_LIBRARY)/lib/libpbfrow.a" "$(BUILT_LIBRARY)"/lib/libpbfrow.so.*.* "$(DESTDIR)$(libdir)"
	cp -P "$(BUILT_LIBRARY)/lib/libpbfrow.so" "$(BUILT_LIBRARY)/lib/libpbfrow.so.0" "$(DESTDIR)$(libdir)"
	library/describe "$(libdir)" "$(includedir)" "$(DESTDIR)"
	install -m 644 $(EXAMPLES_OF_LIBRARY) "$(DESTDIR)$(docdir)/examples"
	for each in $(SCRIPTS_OF_LIBRARY); do install -m 755 "$$each" "$(DESTDIR)$(docdir)/examples"; done
	for each in $(wildcard docs/LIBRARY.md); do install -m 644 "$$each" "$(DESTDIR)$(docdir)"; done
	@[ -n "$(DESTDIR)" ] || echo "programs find libpbfrow.so.0 once ldconfig has run, or where LD_LIBRARY_PATH names $(libdir)"

uninstall:
	rm -f $(addprefix "$(DESTDIR)",$(bindir)/pbfrow $(mandir)/man1/pbfrow.1.gz $(bashdir)/pbfrow $(zshdir)/_pbfrow $(fishdir)/pbfrow.fish)
	rm -f $(addprefix "$(DESTDIR)",$(includedir)/pbfrow.h $(includedir)/pbfrow.hpp)
	rm -f $(addprefix "$(DESTDIR)",$(libdir)/pkgconfig/pbfrow.pc $(libdir)/pkgconfig/pbfrow-static.pc)
	rm -f "$(DESTDIR)$(libdir)"/libpbfrow.a "$(DESTDIR)$(libdir)"/libpbfrow.so*
	rm -rf $(addprefix "$(DESTDIR)",$(libdir)/cmake/pbfrow $(docdir))

dist: built
	package/dist

clean:
	rm -rf out crates/*/out .git/pbfrow-build
