# `make` alone prints what there is to make.
.PHONY: help test demo archive command examples portable portable-all stated fuzz install uninstall stack size axioms compare load faults limits bench before clean
# Two runs of rt would share the crates' out/.
.NOTPARALLEL:

# Where `make install` puts things; a folder that stands for / while a package is put together.
PREFIX = /usr/local
DESTDIR =
export PREFIX DESTDIR
STRICT = -O2 -Wall -Wextra -Werror -pedantic -Iinclude
# What the crates are made of; out/ is rt's.
SOURCES = crates.txt $(shell find crates -name out -prune -o -type f -print)

help:
	@echo "make demo        the main job, on samples"
	@echo "make test        the gate: every proof, wrong edit, test and example; 40 minutes on two cores"
	@echo "make archive     target/staticlib/libj8.a, for C and Rust"
	@echo "make portable    target/portable/j8.c, the library as one C99 file for any processor"
	@echo "make command     the command j8, target/bin/j8"
	@echo "make install     command, man page, completion, archive, header, j8.pc and j8.c to PREFIX ($(PREFIX)), below DESTDIR;"
	@echo "                 make uninstall takes them away"
	@echo "make examples    the programs of examples/c"
	@echo "make stack size  what the functions take"
	@echo "make bench       their speed beside others: docs/BENCHMARKS.md"
	@echo "make before BEFORE=FILE   their speed beside that of an earlier archive"
	@echo "make axioms      what the proofs rest on"
	@echo "make compare load faults fuzz limits stated portable-all   longer tests: docs/TESTING.md"
	@echo "make clean       removes all that was built"

test:
	bash .ci/run

archive: target/staticlib/libj8.a

target/staticlib/libj8.a: $(SOURCES) tools/archive.sh tools/prove.sh
	@bash tools/archive.sh j8 j8_c

# The library as one C file, made from the proved MIR.
portable: target/portable/j8.c

target/portable/j8.c: $(SOURCES) include/j8.h $(wildcard tools/portable/*)
	@bash tools/portable/make.sh

# Holds the MIR that the C file is made from to the MIR that the proofs are about.
stated: portable
	bash tools/portable/stated.sh

# The C file's tests, those of the gate and on rarer processors.
portable-all: portable archive stated
	bash tests/portable/install.sh
	bash tests/portable/check.sh stops warnings host checked sanitizers others stack rust rarer rarer_stack cortex

# libFuzzer over the C file, each answer compared with the archive's: J8_SECONDS for each function (600).
fuzz: portable archive
	bash tests/portable/install.sh
	bash tests/portable/fuzz.sh

command: target/bin/j8

target/bin/j8: $(SOURCES) command/main.c tools/link.sh tools/archive.sh tools/prove.sh
	@bash tools/archive.sh command command_c
	@bash tools/link.sh

demo: command
	@bash samples/demo.sh target/bin/j8

# The programs of examples/c, to target/examples.
examples: archive
	@mkdir -p target/examples
	@for program in upload restore; do \
	  gcc -std=c99 $(STRICT) examples/c/$$program.c target/staticlib/libj8.a -o target/examples/$$program || exit 1; \
	done
	@echo "built: target/examples/upload, target/examples/restore"

install: archive command portable
	@bash tools/install.sh

uninstall:
	@bash tools/install.sh remove

# What each function takes of the stack, held to what j8.h says. memcpy and memset are bound at the start, so that the dynamic linker isn't measured.
stack: archive
	@gcc -std=c99 $(STRICT) tests/c/stack.c target/staticlib/libj8.a -Wl,-z,now -o target/c_stack
	@target/c_stack

# The archive's size, the symbols that it needs, and what the groups of functions add to a program that drops what it doesn't call.
size: archive
	@size target/staticlib/libj8.a
	@nm -u target/staticlib/libj8.a
	@for group in NONE STRINGS UPLOADS JSON8 TSV8 ALL; do \
	  gcc -std=c99 $(STRICT) -D$$group -Wl,--gc-sections tests/c/size.c target/staticlib/libj8.a -o target/c_size || exit 1; \
	  bytes=$$(size target/c_size | awk 'NR == 2 { print $$1 }'); \
	  [ $$group = NONE ] && none=$$bytes || echo "$$group: $$((bytes - none)) bytes of code and constants"; \
	done

# Proves what has changed, and prints what the proofs of both static libraries rest on.
axioms:
	@bash tools/archive.sh j8 j8_c
	@bash tools/archive.sh command command_c
	@bash .ci/axioms

# Every function beside the reference, J8_SECONDS for each entry (20), from J8_SEED (1), J8_JOBS at once (the cores).
compare: archive
	@cd rust && cargo run --offline --release --quiet -p j8-compare --bin compare

# J8_UPLOADS uploads (10,000) through one process.
load: archive
	@cd rust && cargo run --offline --release --quiet -p j8-compare --bin load

# Faults put into a copy of the reference, of the layer over C or of a generator, which the comparison must find; and into a copy of the translator of the
# MIR, which the C file's tests must.
faults: archive portable
	@bash rust/compare/faults.sh
	@bash tests/portable/check.sh && python3 tests/portable/faults.py

# What the program limits must print for the rows of its stdin, by the reference.
limits:
	@cd rust && cargo run --offline --release --quiet -p j8-reference --bin limits <../crates/limits/stdin >../crates/limits/stdout

# Installs the peers from Debian's packages, measures, and writes docs/BENCHMARKS.md and docs/plots: some minutes.
bench: archive
	bash bench/install.sh
	bash bench/run.sh

before: archive
	bash bench/install.sh
	bash bench/before.sh "$(BEFORE)"

clean:
	rm -rf target rust/target bench/target crates/*/out
