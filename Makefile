# make               proves every crate, builds the programs and runs them; quick when nothing changed
# make test          every test: the gate `rt ci` (the layout of the sources, proofs, must-fail edits, tests, programs), the C side (the
#                    targets below), and last the gate's verdict again
# make command       builds the command, target/vaultgarlic
# make install       installs the command, the library, the header and vaultgarlic.pc under PREFIX (/usr/local), in DESTDIR if that is set
# make uninstall     removes what install installed
# make bench         the time of each service, beside two Rust implementations; BENCH='--ms 1000' for more repeats (docs/BENCH.md)
# make soak          the comparison with the oracle on 1,000,000 inputs, with a word at a place and a word packed for each that is random
# make stack         the bytes of stack that a call of each service takes, measured on the examples
# make gate-times    what the last gate's log tells: its seconds, and of each crate whether it was proved anew and its edits; of another log
#                    with LOG=FILE; beside those of an earlier log with BEFORE=FILE
# make clean         removes what was built, and what rt keeps of each crate
#
# Parts of `make test`, in its order:
# make documents     what the documents name (theorems, files, edits, crates, targets), held to the sources; the table of the gate's log
# make gate          rt ci, which refuses sources that are not laid out; it fails also where an edit is bad, which rt ci only notes
# make library       the static library, proved
# make trials        the functions below the services that tests call, proved, as an archive of their own; nothing installs it
# make client-test   the header as C++, and the examples in C, compiled and run
# make command-test  the command and the program, the packages and formulas of examples/, the sessions in the documents
# make install-test  installs to a temporary folder, builds a client there, uninstalls
# make guard         the library and the trial archive on buffers of exact length, under the sanitizers
# make differential  the oracle's own tests, and the comparison with it on 50,000 inputs, with a word at a place and a word packed for each
#                    that is random

SHELL = /bin/bash

.PHONY: all test gate command install uninstall bench soak stack gate-times clean documents library trials client-test command-test install-test guard differential
.NOTPARALLEL:

PREFIX ?= /usr/local
BINDIR ?= $(PREFIX)/bin
LIBDIR ?= $(PREFIX)/lib
INCLUDEDIR ?= $(PREFIX)/include
VERSION := $(shell cat VERSION)

CC = gcc
CFLAGS = -std=c11 -O2 -Wall -Wextra -Wpedantic -Werror
LIBRARY = target/staticlib/libvaultgarlic.a
TRIALS = target/staticlib/libtrials.a
HEADER = include/vaultgarlic.h
PROGRAM = target/bin/overlap_list
# Not those that rt copies into the folders out/.
SOURCES := crates.txt $(shell find crates -name out -prune -o \( -name '*.rt' -o -name '*.antt' \) -print)
CARGO_OPTIONS = --quiet --offline --release --manifest-path tests/oracle/Cargo.toml
ORACLE = VG_LIB_DIR=../../target/staticlib cargo run $(CARGO_OPTIONS) --bin differential --

# The programs run too, and print what their files stdout have. rt builds a program where it runs it; there `vectors` finds no cases, so it runs
# once more where they are.
all:
	@rt all check
	@$(MAKE) --no-print-directory $(PROGRAM)
	@$(PROGRAM) <crates/overlap_list/stdin | cmp - crates/overlap_list/stdout
	@rm -f crates/vectors/out/vectors; (cd crates/vectors && rt run) >target/vectors.log 2>&1 || true
	@(cd crates/vectors/data && ../out/vectors) | cmp - crates/vectors/stdout

test: documents gate library trials client-test command-test install-test guard differential
	@tail -n 1 target/gate.log

# The log of a gate that passed begins with its seconds.
gate:
	@echo '== rt ci'
	@mkdir -p target
	@set -o pipefail; SECONDS=0; rt ci 2>&1 | tee target/gate.log && sed -i "1i rt ci took $$SECONDS s" target/gate.log
	@! grep -E '^rt: ok.*, [1-9][0-9]* (bad|of them only by a limit)' target/gate.log || { echo 'must-fail edits are bad, or told nothing' >&2; exit 1; }

documents:
	@echo '== documents'
	@python3 -B -m unittest discover -q -s tests/documents

# The archive of crate NAME_c, under the name NAME. It is made of what rt has proved in the crates' folders, by the files' contents: where
# that is out of date, or the gate alone has proved a crate, rt proves it first.
archive = mkdir -p target/staticlib; (cd crates/$(1)_c && rt lib) >target/$(1).log 2>&1 || { cat target/$(1).log; exit 1; }; \
    cp crates/$(1)_c/out/lib$(1)_c.a target/staticlib/lib$(1).a

library $(LIBRARY): $(SOURCES)
	@echo '== static library'
	@$(call archive,vaultgarlic)

trials $(TRIALS): $(SOURCES)
	@echo '== trial archive'
	@$(call archive,trials)

# rt builds a program where it runs it.
$(PROGRAM): $(SOURCES)
	@mkdir -p $(@D)
	@(cd crates/overlap_list && rt run <stdin) >/dev/null 2>target/program.log || { cat target/program.log; exit 1; }
	@cp crates/overlap_list/out/overlap_list $@

command: target/vaultgarlic

target/vaultgarlic: $(wildcard tools/vaultgarlic/*.[ch]) $(HEADER) $(LIBRARY) VERSION
	@$(CC) $(CFLAGS) -DVAULTGARLIC_VERSION='"$(VERSION)"' -Iinclude tools/vaultgarlic/*.c $(LIBRARY) -o $@

client-test: $(LIBRARY)
	@echo '== C client'
	@CC='$(CC)' tests/c/client.sh

command-test: target/vaultgarlic $(PROGRAM)
	@echo '== command'
	@python3 -B -m unittest discover -q -s tests/command

install-test: target/vaultgarlic
	@echo '== install'
	@CC='$(CC)' tests/command/install.sh

guard: $(LIBRARY) $(TRIALS)
	@echo '== buffers of exact length'
	@mkdir -p target/guard
	@$(CC) -std=c11 -Wall -Wextra -O1 -g -fsanitize=address,undefined -Iinclude tests/c/guard.c $(LIBRARY) $(TRIALS) -o target/guard/guard
	@$(ORACLE) --inputs 35000 --write-cases target/guard/cases >target/guard/log || { cat target/guard/log; exit 1; }
	@target/guard/guard target/guard/cases

differential: $(LIBRARY) $(TRIALS)
	@echo '== the oracle, and the comparison with it'
	@cargo test $(CARGO_OPTIONS) >target/differential.log || { cat target/differential.log; exit 1; }
	@$(ORACLE) >target/differential.log || { cat target/differential.log; exit 1; }
	@tail -n 3 target/differential.log

soak: $(LIBRARY) $(TRIALS)
	@echo '== comparison with the oracle, 1,000,000 inputs'
	@$(ORACLE) --inputs 1000000

stack: $(LIBRARY)
	@$(CC) $(CFLAGS) -Iinclude -Itools/vaultgarlic bench/stack.c tools/vaultgarlic/input.c tools/vaultgarlic/show.c $(LIBRARY) -o target/stack
	@target/stack examples/*.pkg examples/refused/*.pkg -- examples/*.formula examples/formulas/*.formula

LOG ?= target/gate.log

gate-times:
	@python3 -B tools/gate_times.py $(BEFORE) $(LOG)

define PC
prefix=$(PREFIX)
libdir=$(LIBDIR)
includedir=$(INCLUDEDIR)

Name: vaultgarlic
Description: Proved checker of noncommutative Groebner basis packages over GF(p) and GF(256)
Version: $(VERSION)
Libs: -L$${libdir} -lvaultgarlic
Cflags: -I$${includedir}
endef
export PC

install: target/vaultgarlic
	@install -d '$(DESTDIR)$(BINDIR)' '$(DESTDIR)$(LIBDIR)/pkgconfig' '$(DESTDIR)$(INCLUDEDIR)'
	@install -m 755 target/vaultgarlic '$(DESTDIR)$(BINDIR)/vaultgarlic'
	@install -m 644 $(LIBRARY) '$(DESTDIR)$(LIBDIR)/libvaultgarlic.a'
	@install -m 644 $(HEADER) '$(DESTDIR)$(INCLUDEDIR)/vaultgarlic.h'
	@printf '%s\n' "$$PC" >'$(DESTDIR)$(LIBDIR)/pkgconfig/vaultgarlic.pc'
	@chmod 644 '$(DESTDIR)$(LIBDIR)/pkgconfig/vaultgarlic.pc'

uninstall:
	@rm -f '$(DESTDIR)$(BINDIR)/vaultgarlic' '$(DESTDIR)$(LIBDIR)/libvaultgarlic.a' \
	    '$(DESTDIR)$(INCLUDEDIR)/vaultgarlic.h' '$(DESTDIR)$(LIBDIR)/pkgconfig/vaultgarlic.pc'

bench: $(LIBRARY)
	@cargo run --release --quiet --offline --target-dir target/benchmark --manifest-path bench/Cargo.toml -- $(BENCH)

clean:
	@rm -rf target tests/oracle/target crates/*/out
