# What make does here: `make` alone lists the targets.

RT ?= rt
PREFIX ?= /usr/local
PROGRAM := crates/lexint/out/lexint
FOR_SHELLS := crates/jad/out/jad
COUNTED := crates/calls/out/calls
SOURCES = $(shell find crates/$(1) crates/answer_lines crates/lexical_* -name out -prune -o -type f \( -name '*.rt' -o -name '*.antt' \) -print) crates.txt

.PHONY: help toolchain run check test devices answers lexint jad install uninstall install-programs uninstall-programs rows
.PHONY: docs check-dist dist test-dist tag vendor check-docs check-languages bench calls must-not-compile fuzz fuzz-edges fuzz-tables fuzz-fixed

# A target is listed by the words after its two number signs.
help:
	@echo "make TARGET, where TARGET is"
	@awk -F ':.*## ' '/^[a-z-]+:.*## / { printf "  %-18s %s\n", $$1, $$2 }' $(MAKEFILE_LIST)

# Without a toolchain, targets that need one fail at once, with a message.
toolchain:
	@RT="$(RT)" tools/build.sh

run: $(PROGRAM) ## proves and builds the program where needed, and gives it standard input
	@./$(PROGRAM)

lexint: $(PROGRAM) ## proves and builds the program, as crates/lexint/out/lexint

jad: $(FOR_SHELLS) ## proves and builds the program for shells, as crates/jad/out/jad

# Messages of the build go to standard error: standard output is the program's alone.
$(PROGRAM): $(call SOURCES,lexint)
$(FOR_SHELLS): $(call SOURCES,jad)
$(COUNTED): $(call SOURCES,calls)
$(PROGRAM) $(FOR_SHELLS) $(COUNTED):
	@RT="$(RT)" tools/build.sh $(@F)
	@touch $@

check: answers test-c ## proves and builds program and library, and runs the test vectors and the callers of the library

test: | toolchain ## the gate: proves everything from nothing, sees every must-fail edit refused, runs every test
	@RT="$(RT)" tools/gate.sh

devices: $(PROGRAM) ## runs the program on devices that fail; a part of the gate
	@tools/devices.py $(PROGRAM)

answers: $(PROGRAM) ## has the program answer every test vector and every stored input; a part of the gate
	@tools/run_rows.py $(PROGRAM)

install: install-programs install-lib ## installs the programs and the library: PREFIX, DESTDIR

uninstall: uninstall-programs uninstall-lib ## removes them

install-programs: paths $(PROGRAM) $(FOR_SHELLS) ## installs the programs only
	install -d "$(DESTDIR)$(PREFIX)/bin" "$(DESTDIR)$(MANDIR)/man1"
	install -m 755 $(PROGRAM) $(FOR_SHELLS) "$(DESTDIR)$(PREFIX)/bin"
	for program in lexint jad; do \
	    $(FILL) packaging/$$program.1.in > "$(DESTDIR)$(MANDIR)/man1/$$program.1" || exit 1; done

uninstall-programs: paths ## removes the programs
	for program in lexint jad; do \
	    rm -f "$(DESTDIR)$(PREFIX)/bin/$$program" "$(DESTDIR)$(MANDIR)/man1/$$program.1" || exit 1; done

vendor: ## copies the Rattle crates into your repository: DEST=../yours WITH="lexical_literals lexical_tables lexical_formats"
	@packaging/vendor.sh

check-dist:
	@packaging/dist.sh check

dist: check-dist lib lexint jad build/page ## writes dist/, the archives of a release, from a clean tree: docs/RELEASING.md
	@RT=$(RT) packaging/dist.sh

test-dist: ## tests these as users get them, in a root without the toolchain; not a part of the gate
	@packaging/test_dist.sh

tag: ## makes the version's tag, whose message is dist/SHA256SUMS
	@grep -qs "commit $$(git rev-parse HEAD)" dist/*.spdx.json || { echo "make tag: no dist of this commit" >&2; exit 1; }
	@cd dist && sha256sum --quiet -c SHA256SUMS && git tag -a v$(VERSION) -F SHA256SUMS

include tools/lib.mk

rows: | toolchain ## writes the theorems of the test vectors from tools/rows.txt and tools/languages.txt
	@python3 tools/rows.py
	@cd crates/rows && "$(RT)" fmt

docs: ## writes what pages and lists have from the source: docs/CONTRACTS.md, docs/FORMATS.md, code blocks, the page
	@python3 tools/documents.py
	@$(if $(NODE),node docs/try/src/join.mjs,echo "skipped: there is no node from 20 on to write docs/try/index.html")

check-docs: ## checks these, and every link, file name and word count; a part of the gate
	@$(if $(NODE),node docs/try/src/join.mjs --check,echo "skipped: there is no node from 20 on to check docs/try/index.html")
	@python3 tools/test_documents.py
	@python3 tools/documents.py --check

must-not-compile: | toolchain ## checks that wrong programs over the libraries are refused; a part of the gate
	@RT="$(RT)" tools/must_not_compile.py

check-languages: $(PROGRAM) build/libjadvolni.so ## compares the formats of languages with the compilers and interpreters that are there
	@python3 tools/check_languages.py $(LANGUAGES)
	@$(if $(LANGUAGES),,python3 tools/check_literals.py)

# How many lines the fuzz run tries. SEED repeats an earlier run, which printed it.
SEED ?=
LINES ?= 200000

fuzz: $(PROGRAM) ## compares the program with a reference implementation of the grammar: SEED=1 LINES=1000000
	@python3 tools/reference_lines.py --check
	@python3 tools/fuzz.py --lines $(LINES) $(if $(SEED),--seed $(SEED))

fuzz-edges: $(PROGRAM) ## the same for each length, limit of a type and place of a separator: 3 million lines
	@python3 tools/fuzz.py --edges

# Its options: make fuzz-tables TABLES="--tables 1000000 --seed 1", or TABLES="--all --longest 6".
TABLES ?=

fuzz-tables: $(LIBRARIES) ## compares tables read by the C call with a slow reader: random ones, or all short texts
	@CC=$(CC) tests/tables/compare.py $(TABLES)

# How many texts, and a seed: make fuzz-fixed FIXED="1000000 7".
FIXED ?=

fuzz-fixed: build/libjadvolni.so ## compares amounts read by the C calls with Python's decimal: random ones, and all short texts
	@python3 tests/fixed/fuzz.py build/libjadvolni.so $(FIXED)

# Options of bench/run.py: make bench BENCH="--rounds 50 --no-counts".
BENCH ?=

bench: | toolchain ## measures the parsers beside others, and writes bench/results.tsv and docs/SPEED.md
	@RT="$(RT)" bench/run.py $(BENCH)
	@RT="$(RT)" bench/columns.py
	@RT="$(RT)" bench/tables.py
	@RT="$(RT)" bench/tokens.py
	@RT="$(RT)" bench/program.py

calls: $(COUNTED) build/libjadvolni.a ## counts the instructions of each call of bench/calls.txt, and keeps the counts that the gate asks for
	@bench/calls --keep
