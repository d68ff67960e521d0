# The library for callers in other languages: built, installed and tested. The Makefile includes this file.

CC ?= cc
INCLUDEDIR ?= $(PREFIX)/include
LIBDIR ?= $(PREFIX)/lib
MANDIR ?= $(PREFIX)/share/man
DOCDIR := $(PREFIX)/share/doc/jadvolni
LICENCES := $(wildcard LICENSE-APACHE LICENSE-MIT NOTICE)
# Here the version is taken from the header. A program runs with every later library of its major version.
VERSION := $(shell sed -n 's/.*JADVOLNI_VERSION_STRING "\(.*\)"/\1/p' include/jadvolni.h)
SOVERSION := $(firstword $(subst ., ,$(VERSION)))
HEADERS := jadvolni.h jadvolni.hpp $(addprefix jadvolni_,blocks.hpp columns.hpp faults.hpp tables.hpp within.hpp)
LIBRARIES := build/libjadvolni.a build/libjadvolni.so
# The shared library, where there is a compiler that links it.
SHARED := $(if $(shell command -v $(CC) 2>/dev/null),build/libjadvolni.so)
LIBRARY_CRATES := jadvolni lexical_tables lexical_fields lexical_fixed lexical_laws lexical_literals lexical_parse_integer lexical_digits lexical_util
LIBRARY_SOURCES := $(shell find $(LIBRARY_CRATES:%=crates/%) -name out -prune -o -type f \( -name '*.rt' -o -name '*.antt' \) -print) crates.txt

.PHONY: lib symbols wasm serve paths install-lib uninstall-lib test-c check-c test-js test-page

lib: build/libjadvolni.a $(SHARED) ## proves and builds the library for C, as build/libjadvolni.a and build/libjadvolni.so
	$(if $(SHARED),,@echo "there is no $(CC): build/libjadvolni.so, the shared library, is left out")

build/libjadvolni.a: $(LIBRARY_SOURCES)
	@mkdir -p build
	@RT="$(RT)" tools/build.sh jadvolni
	@packaging/align.sh crates/jadvolni/out/libjadvolni.a $@

# What the archive exports: each call, with the version that introduced it.
EXPORTED = nm -g --defined-only $(1) | LC_ALL=C sort -k 3 | awk -v new=$(basename $(VERSION)) \
    'FILENAME != "-" { came[$$1] = $$2; next } $$2 == "T" { print $$3, $$3 in came ? came[$$3] : new }' packaging/symbols.txt -

symbols: build/libjadvolni.a ## writes packaging/symbols.txt, the calls that the library exports
	@$(call EXPORTED,$<) > build/symbols.txt
	@mv build/symbols.txt packaging/symbols.txt

# The calls' versions for the linker: a program that needs a later library doesn't start with an older one.
build/symbols.map: build/libjadvolni.a packaging/symbols.txt
	@$(call EXPORTED,$<) | diff packaging/symbols.txt - || \
	    { echo "packaging/symbols.txt isn't what the library exports: make symbols writes it anew" >&2; exit 1; }
	@sort -s -k 2V packaging/symbols.txt | awk '$$2 != last { if (last) { print "}" below ";"; below = " JADVOLNI_" last } \
	    last = $$2; print "JADVOLNI_" last " { global:" } { print $$1 ";" } END { print "local: *; }" below ";" }' > $@

# It needs no other library, not even that of C: -nostdlib leaves it out, and -z defs fails if anything is missing.
# The loader reads -z x86-64-v2, and refuses the library on an older processor.
build/libjadvolni.so: build/libjadvolni.a build/symbols.map
	@command -v $(CC) >/dev/null || { echo "there is no $(CC) to link build/libjadvolni.so with" >&2; exit 1; }
	@$(CC) $(CFLAGS) $(LDFLAGS) -shared -nostdlib -o $@ -Wl,-soname,libjadvolni.so.$(SOVERSION) \
	    -Wl,-z,x86-64-v2,-z,defs,-z,relro,-z,now,-z,noexecstack,--version-script,build/symbols.map \
	    -Wl,--whole-archive $< -Wl,--no-whole-archive

wasm: build/jadvolni.wasm ## proves and builds the library for JavaScript, and puts it into bindings/js
	@cp $< bindings/js

# crates.txt names a crate's target, so the library is built for WebAssembly in a copy of the tree, with another
# crates.txt. A new copy takes the proofs that are kept here. The module's memory can't grow.
build/jadvolni.wasm: $(LIBRARY_SOURCES)
	@mkdir -p build/wasm
	@find build/wasm -name out -prune -o -type f -exec rm {} +
	@cp --parents -t build/wasm tools/build.sh $(LIBRARY_SOURCES)
	@for crate in $(LIBRARY_CRATES); do grep "^$$crate[ :]" crates.txt; done | \
	    sed 's/^jadvolni staticlib:/jadvolni wasm64 memory=33554432:/' > build/wasm/crates.txt
	@for kept in $(LIBRARY_CRATES:%=crates/%/out/rlib) crates/jadvolni/out/incremental; do \
	    if [ -d $$kept ] && [ ! -d build/wasm/$$kept ]; then cp -a --parents -t build/wasm $$kept || exit 1; fi; done
	@RT="$(RT)" build/wasm/tools/build.sh jadvolni
	@cp build/wasm/crates/jadvolni/out/jadvolni.wasm $@

# Each call has a manual page that includes jadvolni(3), so that `man jadvolni_parse_u64` works: those that the library
# exports, and then those that only the header has.
EXPORTS := $(shell cut -d ' ' -f 1 packaging/symbols.txt)
CALLS := $(EXPORTS) $(addsuffix _part,$(filter jadvolni_parse_%_column,$(EXPORTS))) \
    $(addprefix jadvolni_,parse format_of_radix status_name status_text table_text)
PAGES = $(DESTDIR)$(MANDIR)/man3
TO = $(DESTDIR)$(LIBDIR)

# Refused are paths that are empty or relative, as `~/.local` where the shell doesn't expand it, and those with
# characters that have a meaning to sed, a shell or pkg-config.
STRANGE := " ' ` \ | & $$ \#
# Characters that a shell interprets within double quotes.
READ := " ` \ $$
# A line feed ends a line of make's, and so a command.
define LINE_FEED


endef
has = $(strip $(foreach character,$(1),$(findstring $(character),$(2)))$(if $(findstring $(LINE_FEED),$(2)),no))
path = $(if $(if $(filter /%,$(firstword $($(1)))),$(call has,$(STRANGE),$($(1))),no), \
    $(error $(1)=$($(1)): it has to begin with a slash, and to have no line feed and none of $(STRANGE)))
paths:
	@: $(foreach name,PREFIX LIBDIR INCLUDEDIR MANDIR,$(call path,$(name)))
	@: $(if $(call has,$(READ),$(DESTDIR)),$(error DESTDIR=$(DESTDIR): it has to have no line feed and none of $(READ)))

# Fills in the templates of pkg-config, CMake and man. Everyone may read the files.
FILL = umask 022; sed -e 's|@PREFIX@|$(PREFIX)|; s|@LIBDIR@|$(LIBDIR)|; s|@INCLUDEDIR@|$(INCLUDEDIR)|' \
    -e 's|@VERSION@|$(VERSION)|; s|@SOVERSION@|$(SOVERSION)|'

install-lib: paths $(LIBRARIES) ## installs the library: PREFIX, LIBDIR, DESTDIR
	install -d "$(DESTDIR)$(INCLUDEDIR)" "$(TO)/pkgconfig" "$(TO)/cmake/jadvolni" "$(PAGES)" "$(DESTDIR)$(DOCDIR)"
	install -m 644 $(HEADERS:%=include/%) "$(DESTDIR)$(INCLUDEDIR)"
	install -m 644 build/libjadvolni.a "$(TO)"
	install -m 755 build/libjadvolni.so "$(TO)/libjadvolni.so.$(VERSION)"
	ln -sf libjadvolni.so.$(VERSION) "$(TO)/libjadvolni.so.$(SOVERSION)"
	ln -sf libjadvolni.so.$(SOVERSION) "$(TO)/libjadvolni.so"
	$(FILL) packaging/jadvolni.pc.in > "$(TO)/pkgconfig/jadvolni.pc"
	$(FILL) packaging/jadvolniConfig.cmake.in > "$(TO)/cmake/jadvolni/jadvolniConfig.cmake"
	$(FILL) packaging/jadvolniConfigVersion.cmake.in > "$(TO)/cmake/jadvolni/jadvolniConfigVersion.cmake"
	$(FILL) packaging/jadvolni.3.in > "$(PAGES)/jadvolni.3"
	umask 022; for page in $(CALLS); do echo .so man3/jadvolni.3 > "$(PAGES)/$$page.3" || exit 1; done
	install -m 644 $(LICENCES) "$(DESTDIR)$(DOCDIR)"

uninstall-lib: paths ## removes the library
	for header in $(HEADERS); do rm -f "$(DESTDIR)$(INCLUDEDIR)/$$header" || exit 1; done
	rm -f "$(TO)/libjadvolni.a" "$(TO)/libjadvolni.so" "$(TO)/libjadvolni.so.$(SOVERSION)" "$(TO)/libjadvolni.so.$(VERSION)"
	rm -f "$(TO)/pkgconfig/jadvolni.pc"
	for page in jadvolni $(CALLS); do rm -f "$(PAGES)/$$page.3" || exit 1; done
	for end in .cmake Version.cmake; do rm -f "$(TO)/cmake/jadvolni/jadvolniConfig$$end" || exit 1; done
	for file in $(LICENCES); do rm -f "$(DESTDIR)$(DOCDIR)/$$file" || exit 1; done
	for folder in "$(TO)/cmake/jadvolni" "$(DESTDIR)$(DOCDIR)"; do \
	    [ ! -d "$$folder" ] || rmdir --ignore-fail-on-non-empty "$$folder" || exit 1; done

# Without a C compiler there is no shared library, and check_c.py reports what it skips.
test-c: build/libjadvolni.a $(SHARED) ## tests the callers in C, C++, Rust and Python; a part of the gate
	@python3 tools/check_c.py

# Node has 64-bit memories without a flag from 24 on.
NODE := $(shell node -p 'parseInt(process.versions.node) < 20 ? "" : process.execPath' 2>/dev/null)
NODE_FLAGS = $(shell node -p 'parseInt(process.versions.node) < 24 ? "--experimental-wasm-memory64" : ""')

test-js: $(if $(NODE),wasm) ## tests the calls of JavaScript; a part of the gate
	@$(if $(NODE),timeout 900 node $(NODE_FLAGS) --test --test-reporter=spec tests/js/*.test.js,echo "skipped: there is no node from 20 on")

# The page to try a format on, with all files that it needs, as it is served and released.
PORT ?= 8000
build/page: build/jadvolni.wasm docs/try/index.html docs/GRAMMAR.md packaging/grammar.awk $(LICENCES)
	@rm -rf $@
	@mkdir $@
	@cp docs/try/index.html build/jadvolni.wasm $(LICENCES) $@
	@awk -f packaging/grammar.awk docs/GRAMMAR.md > $@/GRAMMAR.html

serve: build/page ## serves the page to try a format on, to this machine alone: PORT=8000
	@python3 -u -m http.server --bind 127.0.0.1 --directory build/page $(PORT)

# The page's test needs a browser, and Node to drive it.
BROWSER := $(if $(NODE),$(shell command -v chromium 2>/dev/null))
test-page: $(if $(BROWSER),build/page) ## has Chromium show the page every test vector; a part of the gate
	@$(if $(BROWSER),node docs/try/src/join.mjs --check && node --test tests/page/*.test.mjs,echo "skipped: there is no chromium, or no node from 20 on to drive it")

# How many parses and formats the random run tries. SEED repeats an earlier run, which printed it.
PARSES ?= 1000000
FORMATS ?= 100000

check-c: $(LIBRARIES) ## compares random parses by the C calls with the reference: SEED, PARSES, FORMATS
	@python3 tools/fuzz_c.py --parses $(PARSES) --formats $(FORMATS) $(if $(SEED),--seed $(SEED))
