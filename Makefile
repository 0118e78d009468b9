# make run        proves and builds the program, and then shows it at work on examples/
# make try        shows the same without proofs, in a few minutes
# make build      leaves the program at crates/flatc/out/flatc; crates are proved side by side
# make lib        leaves the library for C at lib/libflatc.a and lib/libflatc.so
# make install    copies the program, as NAME, the library, its headers and its pkg-config file below PREFIX (/usr/local)
# make uninstall  removes them there
# make dist       packs the program and the library into dist/: a tarball, Debian packages, and their sums
# make examples   proves and builds the library, and runs the programs in examples/ and bindings/ that use it
# make valgrind   runs the C example under valgrind, outside the gate
# make test       the gate: every proof from nothing, the must-fail edits, the tests, the program
# make check CRATE=NAME  proves one crate over the libraries below it
# make quick      tries rows, command, explanations and some damaged buffers over what is built, in a few minutes
# make rows       tries the rows of crates/test_rows, with nothing proved
# make fmt        formats all crates
# make mutations  tries the edits that the prover has to refuse, outside the gate: those that read something else when
#                 they were last tried; CRATE=NAME those of one crate, ALL=1 all of them
# make costs      prints what a check of CRATE=NAME spends its time on
# make soak       a million damaged buffers of schemas made from SEED, and files of gigabytes, outside the gate
# make bench      times the program on generated documents, beside Google's flatc where that is installed
# make bench-library  counts the instructions of one call of the library, beside libflatbuffers where it is installed

PREFIX = /usr/local
NAME = flatc
PROGRAM = crates/flatc/out/flatc
SEED = 1
# The files of rows, by subject.
ROWS = $(shell cat crates/test_rows/args)
# --over-gate: over the libraries that the gate proved
BUILD =
LIBDIR = lib
# The toolchain's own files, of which a static library wants the heap.
KIT = $(patsubst %/,%,$(dir $(shell rt doc)))
VERSION = $(shell sed -n 's/^.define FLATC_VERSION_STRING "\(.*\)"/\1/p' include/flatc.h)
SONAME = libflatc.so.0
INCLUDES = $(DESTDIR)$(PREFIX)/include
LIBRARIES = $(DESTDIR)$(PREFIX)/$(LIBDIR)

.PHONY: help run try build check quick rows fmt lib install uninstall dist examples valgrind test mutations costs soak bench \
	bench-library

# The lines at the top of this file.
help:
	@sed -n '/^# /!q; s/^# //p' $(MAKEFILE_LIST)

run:
	@echo 'make run: proves all crates first; make try shows the same without proofs, in a minute or three' >&2
	@$(MAKE) --silent build
	@tests/example.sh $(PROGRAM)

try:
	@echo 'make try: nothing is proved here; make run proves all of it first' >&2
	@cd crates/flatc && rt try --cases ../../tests/try --data monster.fbs=../../examples/monster.fbs \
		--data monster.json=../../examples/monster.json --data monster.bin=../../examples/monster.bin

build:
	@python3 tools/build.py flatc

lib:
	@python3 tools/build.py flatc_c $(BUILD)
	@mkdir -p lib
	@cp crates/flatc_c/out/libflatc_c.a lib/libflatc.a
	@cd lib && ar x $(KIT)/c/liblibc_c.a heap.pic.o && ar rs libflatc.a heap.pic.o && rm heap.pic.o
	@$(CC) -shared -Wl,-soname,$(SONAME) -Wl,--version-script=flatc.map -Wl,-z,defs -Wl,--gc-sections \
		-Wl,--whole-archive lib/libflatc.a -Wl,--no-whole-archive -o lib/libflatc.so.$(VERSION)
	@ln -sf libflatc.so.$(VERSION) lib/$(SONAME)
	@ln -sf $(SONAME) lib/libflatc.so

install: build lib
	install -d $(DESTDIR)$(PREFIX)/bin $(INCLUDES) $(LIBRARIES)/pkgconfig
	install $(PROGRAM) $(DESTDIR)$(PREFIX)/bin/$(NAME)
	install -m 644 include/flatc.h include/flatc.hpp $(INCLUDES)
	install -m 644 lib/libflatc.a $(LIBRARIES)
	install lib/libflatc.so.$(VERSION) $(LIBRARIES)
	ln -sf libflatc.so.$(VERSION) $(LIBRARIES)/$(SONAME)
	ln -sf $(SONAME) $(LIBRARIES)/libflatc.so
	sed 's#@PREFIX@#$(PREFIX)#; s#@LIBDIR@#$(LIBDIR)#; s#@VERSION@#$(VERSION)#' flatc.pc.in \
		> $(LIBRARIES)/pkgconfig/flatc.pc

uninstall:
	rm -f $(DESTDIR)$(PREFIX)/bin/$(NAME) $(INCLUDES)/flatc.h $(INCLUDES)/flatc.hpp $(LIBRARIES)/libflatc.a \
		$(LIBRARIES)/libflatc.so $(LIBRARIES)/$(SONAME) $(LIBRARIES)/libflatc.so.$(VERSION) \
		$(LIBRARIES)/pkgconfig/flatc.pc

dist: build lib
	@python3 tools/dist.py

examples: build lib
	@python3 tests/library.py lib $(PROGRAM)
	@python3 tests/python_package.py lib
	@python3 tests/rust_crates.py lib

valgrind: lib
	@python3 tests/library.py lib --valgrind

test:
	@tests/gate.sh

check:
	@cd crates/$(CRATE) && rt check

quick:
	@tests/quick.sh

rows:
	@cd crates/test_rows && rt try --steps 1 --seconds 900 $(foreach it,$(ROWS),--data $(it)=data/$(it)) -- $(ROWS) | head -n 1

fmt:
	@for crate in crates/*/; do (cd $$crate && rt fmt) || exit 1; done

mutations:
	@python3 tools/mutations.py $(if $(ALL),,--stale) $(CRATE)

costs:
	@python3 tools/costs.py $(CRATE)

soak: build
	@python3 tools/build.py test_hostile
	@python3 tests/soak.py crates/test_hostile/out/test_hostile --seed $(SEED) --schemas 2000 --damages 500 --size $(PROGRAM)

bench: build
	@python3 tools/build.py bench_json_parse
	@python3 bench/bench.py $(PROGRAM)

bench-library: lib
	@python3 bench/library.py lib
