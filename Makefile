# The one door to all that can be made, installed, tested and tried here: `make` alone lists it. A release, where there is no `crates.txt`, has
# only what its users need.
VERSION := $(shell cat VERSION)
# (make knows no way of its own to make a script of a file in C beside it)
.SUFFIXES:
SONAME = liblaspidru.so.$(firstword $(subst ., ,$(VERSION)))

DESTDIR ?=
PREFIX ?= /usr/local
BINDIR = $(PREFIX)/bin
LIBDIR = $(PREFIX)/lib
INCLUDEDIR = $(PREFIX)/include
DATADIR = $(PREFIX)/share
DOCDIR = $(DATADIR)/doc/laspidru
INSTALL = install

# In the repository the programs lie where rt builds them, and a release has them at its top. HELP has man pages and completions, which are
# made of what the programs print as help.
ifneq ($(wildcard crates.txt),)
SYNC_PROGRAM = crates/lspsync/out/lspsync
SIMULATE_PROGRAM = crates/lsp_simulate/out/lsp_simulate
PAGE = $(BUILD)/wasm32/laspidru.html
RELEASE = $(RELEASES)/laspidru-$(VERSION).tar.gz
HELP = $(BUILD)/help
else
SYNC_PROGRAM = lspsync
SIMULATE_PROGRAM = lsp_simulate
PAGE = laspidru.html
RELEASE = .
HELP = help
endif
HEADER = crates/laspidru/include/laspidru.h
# The programs over logs, with what they import, and the pages that say what a log, a code and a note are
TOOLS = record front log-from lines-from-log log-from-lines
TOOL_FILES = bin/session_log.py bin/between.py bin/log_forms.py
PAGES = $(addprefix docs/,PROTOCOL.md LSPSYNC.md LOGS.md CLIENTS.md LIBRARY.md c.md) crates/laspidru/include/CODES.md
LICENCES = LICENSE-MIT LICENSE-APACHE
EXAMPLES = $(sort $(wildcard examples/*.log examples/*.events))
MAN_PAGES = lspsync lsp_simulate $(TOOLS:%=lspsync-%)
ARCHIVE = crates/laspidru/out/liblaspidru.a
BUILD = build
STATIC = $(BUILD)/liblaspidru.a
SHARED = $(BUILD)/liblaspidru.so.$(VERSION)
RELEASES = release
PACKAGES = packages
KINDS = wheel npm crate deb lua zip

# To try a binding soon: the library compiled without proofs, under a name of its own. Nothing is installed, packed or released of it. As it
# is loaded it says so on standard error, unless LASPIDRU_UNPROVED is `quiet`.
UNPROVED =
ifneq ($(UNPROVED),)
BUILD = build/unproved
ARCHIVE = $(BUILD)/code.a
SONAME = liblaspidru-unproved.so.0
ifneq ($(filter-out library,$(MAKECMDGOALS)),)
$(error make $(MAKECMDGOALS): UNPROVED is for `make library` alone, which isn't proved)
endif
endif
SUMS = $(wildcard $(RELEASES)/laspidru-$(VERSION).sha256 $(PACKAGES)/laspidru-$(VERSION)-packages.sha256)

define IN_A_RELEASE_TOO
Each line: what the target does, what it needs, and about how long that takes where nothing else runs.

To use Laspidru
  make library         both libraries for C, with their heap, in build/                    cc, the archive for C       seconds
  make install         programs, library, man pages and so on (PREFIX, DESTDIR)            it says what                seconds
  make uninstall       takes them away again (PREFIX, DESTDIR)                                                         seconds
  make packages        wheel, npm, crate, deb, lua, zip (KINDS) in packages/; no network   a release, their tools      a minute
  make check-packages  installs each in a root without compilers                           root, debootstrap or ROOT   some minutes
endef

define IN_THE_REPOSITORY
  make release         a tarball and its sums in release/, of a clone without changes      rt, git, cc                 about an hour
  make verify          builds it again in a new clone, and compares (SUMS="file ..")       rt, git, cc                 about an hour

To change it (docs/DEVELOPING.md)
  make quick           every test of every crate, before any proof (CRATE)                 rt                          some minutes
  make ready           what is to be mended before a push (CRATE="lsp_store ..")           rt                          under a minute
  make pages           its part on pages: links, versions, widths, words, and so on        python3                     seconds
  make gate            all proofs, tests and must-fail edits, then `make test`             rt                          1-3 hours, later less
  make minutes         the gate, and where its minutes and its memory go                   rt, python3                 as the gate
  make edits           must-fail edits, also those that the gate leaves out (CRATE)        rt, python3                 minutes a crate
  make refused         out of memory at each request that a test makes (CRATE)             rt, after the gate          seconds
  make definitions     what a clause speaks of (OF=Pair::step.history), or all such pages  python3                     seconds
  make c               the archive for C, and its test in C                                rt                          up to an hour
    (make library UNPROVED=1 is without proofs, in build/unproved/: try a binding by it    rt, cc                      5 minutes)
  make targets         for other systems, in build/ (TARGET="wasm32 ..", ARGS=--check)     rt, it says what else       minutes, once proved

To test what needs no proof, as the gate does at its end
  make test            each of these that this machine can run (PART="examples ..")        python3                     some minutes
  make conformance     the vectors, by a plain program and its mistakes                    python3                     half a minute
  make callers         the program on each crate's page (CRATE="lsp_text ..")              rt                          some minutes
  make examples        scripts, servers, and plugins of editors                            python3, most make library  a minute or more
  make bindings        C, Python, Rust, Node and Lua, and what their pages say             cc, make c                  some minutes
  make check-install   this Makefile, with stand-ins for what is built                     cc, git                     a minute

To measure (bench/README.md)
  make bench           layers, logs and bindings (BENCH), with logs so long (SCALE=0.1)    rt, bindings also make c    minutes, once built
endef

help:
	@: $(info $(IN_A_RELEASE_TOO))$(if $(wildcard crates.txt),$(info $(IN_THE_REPOSITORY)))

library: $(STATIC) $(SHARED)

# The archive takes its memory by three functions, which bindings/c/heap.c has over malloc.
$(BUILD)/heap.o: bindings/c/heap.c
	@mkdir -p "$(BUILD)"
	$(CC) -O2 -fPIC -c bindings/c/heap.c -o "$@"

$(STATIC): $(ARCHIVE) $(BUILD)/heap.o
	cp "$(ARCHIVE)" "$@.new"
	$(AR) rsD "$@.new" "$(BUILD)/heap.o"
	mv "$@.new" "$@"

$(SHARED): $(ARCHIVE) $(BUILD)/heap.o bindings/exports.map
	$(CC) -shared -fPIC -o "$@.new" -Wl,-soname,$(SONAME) -Wl,--version-script=bindings/exports.map -Wl,-z,relro,-z,now \
	    -Wl,--whole-archive "$(ARCHIVE)" -Wl,--no-whole-archive "$(BUILD)/heap.o"
	mv "$@.new" "$@"

ifneq ($(UNPROVED),)
$(ARCHIVE): tools/unproved tools/unproved.c crates.txt $(shell find crates/*/src crates/*/specs -type f)
	tools/unproved "$@"
else
$(ARCHIVE):
	@echo "$@ isn't built: tools/c proves and builds it ($$(cat install/kit); README.md, With the kit)" >&2; exit 1
endif

prefix:
	@case "$(PREFIX)" in /*) ;; *) echo "PREFIX has to begin with /, and it is $(PREFIX)" >&2; exit 1 ;; esac

needed: prefix
	@install/needed "$(SYNC_PROGRAM)" "$(SIMULATE_PROGRAM)" "$(ARCHIVE)" "$(STATIC)" "$(SHARED)"

install: needed
	@[ -e SHA256SUMS ] || install/made "$(HELP)" "$(SYNC_PROGRAM)" "$(SIMULATE_PROGRAM)"
	$(INSTALL) -d "$(DESTDIR)$(BINDIR)" "$(DESTDIR)$(LIBDIR)/pkgconfig" "$(DESTDIR)$(INCLUDEDIR)" "$(DESTDIR)$(DATADIR)/man/man1" \
	    "$(DESTDIR)$(DATADIR)/bash-completion/completions" "$(DESTDIR)$(DATADIR)/zsh/site-functions" \
	    "$(DESTDIR)$(DATADIR)/fish/vendor_completions.d" "$(DESTDIR)$(DATADIR)/laspidru" "$(DESTDIR)$(DOCDIR)/examples"
	$(INSTALL) -m 755 "$(SYNC_PROGRAM)" "$(DESTDIR)$(BINDIR)/lspsync"
	$(INSTALL) -m 755 "$(SIMULATE_PROGRAM)" "$(DESTDIR)$(BINDIR)/lsp_simulate"
	$(INSTALL) -m 644 "$(HEADER)" "$(DESTDIR)$(INCLUDEDIR)/laspidru.h"
	$(INSTALL) -m 644 "$(STATIC)" "$(DESTDIR)$(LIBDIR)/liblaspidru.a"
	$(INSTALL) -m 755 "$(SHARED)" "$(DESTDIR)$(LIBDIR)/liblaspidru.so.$(VERSION)"
	ln -sf liblaspidru.so.$(VERSION) "$(DESTDIR)$(LIBDIR)/$(SONAME)"
	ln -sf $(SONAME) "$(DESTDIR)$(LIBDIR)/liblaspidru.so"
	sed -e 's|@LIBDIR@|$(LIBDIR)|; s|@INCLUDEDIR@|$(INCLUDEDIR)|; s|=$(PREFIX)/|=$${prefix}/|' \
	    -e 's|@PREFIX@|$(PREFIX)|; s|@VERSION@|$(VERSION)|' install/laspidru.pc.in \
	    >"$(DESTDIR)$(LIBDIR)/pkgconfig/laspidru.pc"
	$(INSTALL) -m 644 $(MAN_PAGES:%="$(HELP)/%.1") "$(DESTDIR)$(DATADIR)/man/man1"
	chmod 644 "$(DESTDIR)$(LIBDIR)/pkgconfig/laspidru.pc"
	$(INSTALL) -m 755 $(TOOLS:%=bin/%) "$(DESTDIR)$(DATADIR)/laspidru"
	$(INSTALL) -m 644 $(TOOL_FILES) "$(DESTDIR)$(DATADIR)/laspidru"
	for name in $(TOOLS); do ln -sfr "$(DESTDIR)$(DATADIR)/laspidru/$$name" "$(DESTDIR)$(BINDIR)/lspsync-$$name" || exit 1; done
	for page in $(PAGES); do \
	    installed="$(DESTDIR)$(DOCDIR)/$${page##*/}"; \
	    install/plain "$$page" $(notdir $(PAGES)) >"$$installed" && chmod 644 "$$installed" || exit 1; \
	done
	$(INSTALL) -m 644 $(LICENCES) $(wildcard $(PAGE)) "$(DESTDIR)$(DOCDIR)"
	$(INSTALL) -m 644 $(EXAMPLES) "$(DESTDIR)$(DOCDIR)/examples"
	$(INSTALL) -m 644 "$(HELP)/lspsync.bash" "$(DESTDIR)$(DATADIR)/bash-completion/completions/lspsync"
	$(INSTALL) -m 644 "$(HELP)/_lspsync" "$(DESTDIR)$(DATADIR)/zsh/site-functions/_lspsync"
	$(INSTALL) -m 644 "$(HELP)/lspsync.fish" "$(DESTDIR)$(DATADIR)/fish/vendor_completions.d/lspsync.fish"
	@[ -n "$(DESTDIR)" ] || install/loader "$(LIBDIR)" "$(SONAME)"

uninstall: prefix
	rm -f "$(DESTDIR)$(BINDIR)/lspsync" "$(DESTDIR)$(BINDIR)/lsp_simulate" "$(DESTDIR)$(INCLUDEDIR)/laspidru.h" \
	    "$(DESTDIR)$(LIBDIR)/liblaspidru.a" "$(DESTDIR)$(LIBDIR)/liblaspidru.so.$(VERSION)" "$(DESTDIR)$(LIBDIR)/$(SONAME)" \
	    "$(DESTDIR)$(LIBDIR)/liblaspidru.so" "$(DESTDIR)$(LIBDIR)/pkgconfig/laspidru.pc" \
	    $(MAN_PAGES:%="$(DESTDIR)$(DATADIR)/man/man1/%.1") $(TOOLS:%="$(DESTDIR)$(BINDIR)/lspsync-%") \
	    $(addprefix "$(DESTDIR)$(DATADIR)/laspidru/",$(TOOLS) $(notdir $(TOOL_FILES))) \
	    $(addprefix "$(DESTDIR)$(DOCDIR)/",$(notdir $(PAGES) $(PAGE)) $(LICENCES) $(EXAMPLES)) \
	    "$(DESTDIR)$(DATADIR)/bash-completion/completions/lspsync" "$(DESTDIR)$(DATADIR)/zsh/site-functions/_lspsync" \
	    "$(DESTDIR)$(DATADIR)/fish/vendor_completions.d/lspsync.fish"
	@rmdir "$(DESTDIR)$(DATADIR)/laspidru" "$(DESTDIR)$(DOCDIR)/examples" "$(DESTDIR)$(DOCDIR)" 2>/dev/null || true

packages:
	@BUILT="$(BUILD)" install/packages "$(VERSION)" "$(RELEASE)" "$(PACKAGES)" $(KINDS)

check-packages:
	@install/test_packages "$(VERSION)" "$(PACKAGES)"

.PHONY: help library prefix needed install uninstall packages check-packages

ifneq ($(wildcard crates.txt),)
CRATE =
OF =
PART =
TARGET =
ARGS =
BENCH = layers logs bindings
SCALE = 0.1

release:
	@install/release "$(VERSION)" "$(RELEASES)"

verify:
	@install/verify "$(VERSION)" $(or $(SUMS),"$(RELEASES)/laspidru-$(VERSION).sha256")

gate:
	@.ci/run

quick ready edits refused callers:
	@tools/$@ $(CRATE)

minutes bindings c:
	@tools/$@

pages:
	@failed=0; for tool in "tools/links" "tools/definitions --check"; do $$tool || failed=$$((failed + 1)); done; \
	echo "$$((2 - failed)) passed, $$failed failed"; [ $$failed = 0 ]

definitions:
	@tools/definitions $(if $(OF),--of "$(OF)",--pages)

test:
	@tools/test $(PART)

conformance:
	@conformance/test

examples:
	@tools/test examples

targets:
	@tools/targets $(ARGS) $(TARGET)

check-install:
	@install/test

bench:
	$(if $(filter-out layers logs bindings,$(BENCH)),$(error BENCH names some of layers, logs and bindings))
	$(if $(filter layers,$(BENCH)),cd crates/lsp_bench && rt run)
	$(if $(filter logs,$(BENCH)),bench/end-to-end --scale $(SCALE))
	$(if $(filter bindings,$(BENCH)),bench/bindings)

.PHONY: release verify quick ready gate minutes edits refused pages definitions test conformance callers examples bindings c targets check-install bench
endif
