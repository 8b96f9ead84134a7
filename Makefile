# pnmpipe: `make` proves and builds, `make check` is the whole gate.

PROGRAM := crates/pnmpipe

.PHONY: all bench bench-files bench-library bench-sweep bench-waits built check deb dist gate help install install-library
.PHONY: lanes library lint long-stream model near pass pictures recipes refused scripts soak soak-library tables test toolchain uninstall wheel

# where `make install` puts things, below DESTDIR
PREFIX ?= /usr/local
BINDIR ?= $(PREFIX)/bin
MANDIR ?= $(PREFIX)/share/man
LIBEXECDIR ?= $(PREFIX)/libexec
LIBDIR ?= $(PREFIX)/lib
INCLUDEDIR ?= $(PREFIX)/include
install_library = $(if $(wildcard bin/libpnmpipe.so.1),install-library)
COMPLETIONDIR ?= $(PREFIX)/share/bash-completion/completions
ZSHDIR ?= $(PREFIX)/share/zsh/site-functions
FISHDIR ?= $(PREFIX)/share/fish/vendor_completions.d
SHIMDIR = $(LIBEXECDIR)/pnmpipe/netpbm
# helpers that stand beside the modules they use, with a link in BINDIR
HELPERS := pnmpipe-explain pnmpipe-files pnmpipe-split pnmpipe-translate
MODULES := chain_text.py end_signals.py file_machines.py file_parts.py file_tasks.py file_workers.py image_stream.py
MODULES += input_faults.py netpbm_words.py shell_reader.py slow_heads.py slow_reader.py tool_table.py translation.py
SHIMS = $(shell python3 helpers/tool_table.py)

# crates whose tests of want of memory are refused each allocation
REFUSED := pnm_unit_tests pnm_flow_tests pnmpipe

# how long `make soak` starts runs
SECONDS ?= 60

## make                 proves the crates that the program stands on, builds it and leaves it as bin/pnmpipe
all: toolchain
	python3 scripts/build.py

## make library         does what make does, and beside it the same for the C library, as bin/libpnmpipe.a and
##                      bin/libpnmpipe.so.1, with bin/pnmpipe.h
library: toolchain
	python3 scripts/build.py library

## make near CRATES=..  tries changed crates in minutes: layout, proof, edits that must fail and their controls, tests
##                      as they stand, and the crates above
## make pass CRATES=..  proves changed crates, their tests and edits from nothing, as the gate does, with what they
##                      stand on
near pass: toolchain
	python3 scripts/change.py $@ $(CRATES)

## make check           the whole gate: every proof, the edits that must fail and their controls, the tests, the
##                      stored runs and commands, refused allocations, silent inputs, small stacks, the C library,
##                      scripts and pages, the model
# (sh has no `time`)
check: SHELL := bash
check: toolchain
	TIMEFORMAT='gate: %lR, and %lU + %lS of all processors'; { time $(MAKE) --no-print-directory gate; } 2>&1
	grep -E '^[0-9]+ passed, [0-9]+ failed$$|^edits: ' bin/gate

# one check a processor, each of at most 4 GB: `rt ci`, the edits and their controls, the C library over what was proved
# (ALONE=1: each edit in a check of its own); then each allocation and each start of a thread is refused in turn, of the
# program and the tests that the gate has left, the program's input is silent, its stack is small, the scripts, pages and
# documents are checked, and the model of how threads wait is searched
gate:
	mkdir -p bin
	rm -f bin/gate-failed
	(python3 scripts/gate_crates.py $(if $(ALONE),--alone) || touch bin/gate-failed) | tee bin/gate
	test ! -e bin/gate-failed
	python3 scripts/refused.py growth start silent tests --program $(PROGRAM)/out/pnmpipe
	python3 scripts/idle.py --program $(PROGRAM)/out/pnmpipe
	python3 scripts/waits.py --program $(PROGRAM)/out/pnmpipe
	python3 scripts/room.py --program $(PROGRAM)/out/pnmpipe
	$(MAKE) --no-print-directory scripts BUILT=$(PROGRAM)/out/pnmpipe
	python3 scripts/tests/test_kit.py
	python3 scripts/tests/test_packages.py --program $(PROGRAM)/out/pnmpipe
	python3 scripts/cases.py
	python3 model/check.py --where-installed

## make tables          writes what completions, stand-ins and the C library have of the table of tools, the programs'
##                      options and the faults' numbers
tables:
	python3 scripts/tables.py

## make lint            checks what is written: the layout, lengths, what documents, pages and completions claim, and
##                      whether scripts can be read
lint:
	python3 scripts/lint.py

BUILT ?= bin/pnmpipe
## make scripts         does what make lint does, and tries the stored cases and commands, rows of all sizes, the
##                      helpers, the pages' examples and pictures, with the program that make has left, and whether
##                      functions have changed that the model restates
scripts: lint
	python3 scripts/tests/test_lint.py
	python3 scripts/tests/test_cases.py
	python3 scripts/tests/test_commands.py --program $(BUILT)
	python3 scripts/tests/test_rows.py --program $(BUILT)
	python3 scripts/tests/test_translate.py --program $(BUILT)
	python3 scripts/tests/test_helpers.py --program $(BUILT)
	python3 scripts/tests/test_files.py --program $(BUILT)
	python3 scripts/tests/test_parts.py --program $(BUILT)
	python3 scripts/tests/test_machines.py --program $(BUILT)
	python3 scripts/tests/test_pages.py --program $(BUILT)
	python3 scripts/tests/test_explain.py --program $(BUILT)
	python3 scripts/tests/test_build.py
	python3 scripts/tests/test_edits.py
	python3 scripts/tests/test_definitions_of.py
	python3 scripts/tests/test_library.py --header
	python3 scripts/tests/test_charts.py
	python3 scripts/pictures.py --check --program $(BUILT)
	python3 model/functions.py
	python3 model/test_functions.py

## make model           searches the model of how threads wait, for small sizes, with spin and gcc; ALL=1: for bigger
##                      ones too
model:
	python3 model/check.py $(if $(ALL),--all)

built:
	@test -x $(BUILT) || { echo "there is no $(BUILT): run make first" >&2; exit 1; }

## make install         installs the program that make has left, and the C library that make library has left, below
##                      PREFIX=/usr/local; make uninstall takes it away
install: built
	install -d "$(DESTDIR)$(BINDIR)" "$(DESTDIR)$(MANDIR)/man1" "$(DESTDIR)$(SHIMDIR)"
	install -d "$(DESTDIR)$(COMPLETIONDIR)" "$(DESTDIR)$(ZSHDIR)" "$(DESTDIR)$(FISHDIR)"
	install -m 755 $(BUILT) "$(DESTDIR)$(BINDIR)/pnmpipe"
	umask 022; for page in man/*.1; do sed "s/@VERSION@/$$(cat VERSION)/" $$page > "$(DESTDIR)$(MANDIR)/man1/$${page#man/}" || exit 1; done
	install -m 644 completions/pnmpipe.bash "$(DESTDIR)$(COMPLETIONDIR)/pnmpipe"
	install -m 644 completions/_pnmpipe "$(DESTDIR)$(ZSHDIR)/_pnmpipe"
	install -m 644 completions/pnmpipe.fish "$(DESTDIR)$(FISHDIR)/pnmpipe.fish"
	for helper in $(HELPERS); do ln -sf pnmpipe "$(DESTDIR)$(COMPLETIONDIR)/$$helper" || exit 1; done
	for helper in $(HELPERS); do ln -sf pnmpipe.fish "$(DESTDIR)$(FISHDIR)/$$helper.fish" || exit 1; done
	for file in $(HELPERS) netpbm-shim; do install -m 755 helpers/$$file "$(DESTDIR)$(LIBEXECDIR)/pnmpipe" || exit 1; done
	for file in $(MODULES); do install -m 644 helpers/$$file "$(DESTDIR)$(LIBEXECDIR)/pnmpipe" || exit 1; done
	install -d "$(DESTDIR)$(LIBEXECDIR)/pnmpipe/pnmpipe"
	install -m 644 library/python/pnmpipe/__init__.py "$(DESTDIR)$(LIBEXECDIR)/pnmpipe/pnmpipe"
	for file in $(HELPERS); do ln -srf "$(DESTDIR)$(LIBEXECDIR)/pnmpipe/$$file" "$(DESTDIR)$(BINDIR)/$$file" || exit 1; done
	for name in $(SHIMS); do ln -sf ../netpbm-shim "$(DESTDIR)$(SHIMDIR)/$$name" || exit 1; done
	if test -n "$(install_library)"; then $(MAKE) --no-print-directory $(install_library); fi

# the C library, its header, its page, and what pkg-config(1) reads
install-library:
	@test -e bin/libpnmpipe.so.1 || { echo "there is no bin/libpnmpipe.so.1: run make library first" >&2; exit 1; }
	install -d "$(DESTDIR)$(LIBDIR)/pkgconfig" "$(DESTDIR)$(INCLUDEDIR)" "$(DESTDIR)$(MANDIR)/man3"
	install -m 644 bin/libpnmpipe.a bin/libpnmpipe.so.1 "$(DESTDIR)$(LIBDIR)"
	ln -sf libpnmpipe.so.1 "$(DESTDIR)$(LIBDIR)/libpnmpipe.so"
	install -m 644 bin/pnmpipe.h "$(DESTDIR)$(INCLUDEDIR)"
	install -m 644 man/pnmpipe.3 "$(DESTDIR)$(MANDIR)/man3"
	umask 022; sed -e 's|@PREFIX@|$(PREFIX)|' -e 's|@LIBDIR@|$(LIBDIR)|' -e "s|@VERSION@|$$(cat VERSION)|" \
		library/pnmpipe.pc.in > "$(DESTDIR)$(LIBDIR)/pkgconfig/pnmpipe.pc"

## make wheel           leaves a wheel of the Python module, with the C library that make library has left, in dist/
wheel:
	python3 scripts/wheel.py

uninstall:
	for name in libpnmpipe.a libpnmpipe.so libpnmpipe.so.1 pkgconfig/pnmpipe.pc; do rm -f "$(DESTDIR)$(LIBDIR)/$$name"; done
	rm -f "$(DESTDIR)$(INCLUDEDIR)/pnmpipe.h" "$(DESTDIR)$(MANDIR)/man3/pnmpipe.3"
	rm -f "$(DESTDIR)$(BINDIR)/pnmpipe" "$(DESTDIR)$(ZSHDIR)/_pnmpipe"
	for name in pnmpipe $(HELPERS); do rm -f "$(DESTDIR)$(COMPLETIONDIR)/$$name" "$(DESTDIR)$(FISHDIR)/$$name.fish"; done
	for file in $(HELPERS) $(MODULES) netpbm-shim pnmpipe/__init__.py; do rm -f "$(DESTDIR)$(LIBEXECDIR)/pnmpipe/$$file"; done
	for helper in $(HELPERS); do rm -f "$(DESTDIR)$(BINDIR)/$$helper"; done
	for page in man/*.1; do rm -f "$(DESTDIR)$(MANDIR)/man1/$${page#man/}"; done
	for name in $(SHIMS); do rm -f "$(DESTDIR)$(SHIMDIR)/$$name"; done
	for folder in /netpbm /pnmpipe ''; do folder="$(DESTDIR)$(LIBEXECDIR)/pnmpipe$$folder"; test ! -d "$$folder" || rmdir "$$folder"; done

## make dist, make deb  archives, and Debian packages (by debhelper), of what make and make library have left, in
##                      dist/
dist deb: built
	sh scripts/package.sh $@

## make pictures        makes the pictures of the documents anew
pictures: built
	python3 scripts/pictures.py

## make recipes         runs each block of docs/RECIPES.md, with the programs that are installed
recipes: built
	python3 scripts/recipes.py

## make test            whether the program that make has left works: the stored commands, rows of all sizes, the
##                      pages' examples; no proof
test: built
	python3 scripts/tests/test_commands.py --program $(BUILT)
	python3 scripts/tests/test_rows.py --program $(BUILT)
	python3 scripts/tests/test_pages.py --program $(BUILT)

## make bench           times the program that make has left beside Netpbm's own tools, on large images, narrow rows
##                      and small images, and writes docs/figures.tsv
bench:
	for table in tools turns plain narrow curves; do python3 bench/bench.py $$table --figures docs/figures.tsv || exit 1; done

## make bench-sweep     all tools by kinds of images and by options, and which take more processor time than Netpbm's
bench-sweep:
	python3 bench/bench.py sweep

## make bench-files     times many files in each way, beside Netpbm's own tools
bench-files:
	python3 bench/bench.py files

## make bench-waits     times the program that make has left beside busy processes on its processors, and Netpbm's own
##                      tools
bench-waits:
	python3 bench/bench.py waits

## make bench-library   times calls of the C library beside a process a file, Pillow, numpy and libvips, and its
##                      streams
bench-library:
	python3 bench/bench.py library
	python3 bench/bench.py streams

## make lanes           times the program that make has left with 1, 2, 4 and 8 lanes
lanes:
	python3 bench/bench.py lanes

## make long-stream     passes a stream of 4 GiB through the program that make has left, and wants less than 32 MB of
##                      memory
long-stream:
	sh scripts/long_stream.sh

## make refused         refuses each allocation and each start of a thread in turn, of the program that make has left
##                      and of tests
refused: toolchain
	for crate in $(REFUSED); do (cd crates/$$crate && rt test) || exit 1; done
	python3 scripts/refused.py growth start silent tests

## make soak-library    runs 100,000 random cases by the C library and by the program, and compares
soak-library: built
	python3 scripts/soak_library.py

## make soak SECONDS=n  runs random chains over random streams for n seconds, between slow neighbours and signals that
##                      stop the program, beside the C library if make library has left one
soak: built
	python3 scripts/soak.py --program $(BUILT) --seconds $(SECONDS)

toolchain:
	@$(if $(shell command -v rt),:,$(error the command rt of the Rattle toolchain is not on the PATH))

## make help            this list
help:
	@sed -n 's/^## //p' Makefile
