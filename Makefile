# What people type. `make help` lists it.
#
# The toolchain's command rt must be on the path. Proving has its own idea of what changed, so that these targets only call it.

PREFIX ?= /usr/local
LIBDIR ?= $(PREFIX)/lib
INCLUDEDIR ?= $(PREFIX)/include
DESTDIR ?=
# The archive that is installed; another one than the repository's must be of the same sources.
ARCHIVE ?= target/staticlib/libterminal.a
# The folder with the archives for all processors, as `make targets` writes it; what is there is installed too ('-': none).
LIBRARIES ?= target/lib
# The command that a release holds; the example terminal, of which it says what it is linked with ('-': of none). CARGOFLAGS: where cargo finds the crates; DEBFLAGS: for dpkg-deb.
TOOL ?= tool/target/release/tillerclover
TERMINAL ?= target/terminal
# The page that a release holds; it is released if it is there ('-': never).
PAGE ?= target/page/tillerclover.html
# Where the reference is installed, below DESTDIR.
DOCDIR ?= $(PREFIX)/share/doc/tillerclover
CARGOFLAGS ?=
DEBFLAGS ?=
INSTALL ?= install

HEADERS := include/tillerclover.h include/tillerclover_known.h include/tillerclover_records.h \
    include/tillerclover_self_test.h include/tillerclover_store.h include/tillerclover_words.h include/tillerclover_yards.h
SOURCES := crates.txt $(shell find crates \( -path '*/must-fail' -o -path 'crates/*/out' \) -prune -o \( -name '*.rt' -o -name '*.antt' \) -print)
MAJOR := $(shell sed -n 's/^.define TILLERCLOVER_INTERFACE_MAJOR //p' include/tillerclover.h)
MINOR := $(shell sed -n 's/^.define TILLERCLOVER_INTERFACE_MINOR //p' include/tillerclover.h)
LIB := $(DESTDIR)$(LIBDIR)
# what `make install` writes, but for the archives by target, which have a folder of their own
INSTALLED := $(HEADERS:include/%=$(DESTDIR)$(INCLUDEDIR)/%) $(LIB)/libtillerclover.a $(LIB)/pkgconfig/tillerclover.pc \
    $(LIB)/cmake/tillerclover/tillerclover-config.cmake $(LIB)/cmake/tillerclover/tillerclover-config-version.cmake
BY_TARGET = $(patsubst $(LIBRARIES)/%/libterminal.a,%,$(wildcard $(LIBRARIES)/*/*/libterminal.a))
# the WebAssembly modules beside them
MODULES = $(patsubst $(LIBRARIES)/%/terminal.wasm,%,$(wildcard $(LIBRARIES)/*/*/terminal.wasm))
# the processors of these, each of which has a pkg-config file of its own
TRIPLES = $(patsubst %/O3,%,$(filter %/O3,$(BY_TARGET)))
# the one among them that is the toolchain's own archive
OWN = $(LIBRARIES)/x86_64-unknown-linux-gnu/O3/libterminal.a
# what `make install-tool` writes
TOOL_INSTALLED = $(DESTDIR)$(PREFIX)/bin/tillerclover $(wildcard $(DESTDIR)$(PREFIX)/share/man/man1/tillerclover.1.gz \
    $(DESTDIR)$(PREFIX)/share/man/man1/tillerclover-*.1.gz) $(DESTDIR)$(PREFIX)/share/bash-completion/completions/tillerclover \
    $(DESTDIR)$(PREFIX)/share/zsh/vendor-completions/_tillerclover $(DESTDIR)$(PREFIX)/share/fish/vendor_completions.d/tillerclover.fish

# what `make docs` writes, with pages of section 3 of the manual in target/man3, and what it is made of
REFERENCE := target/docs/index.html
PAGES := $(wildcard *.md docs/*.md docs/*.txt docs/*.svg docs/*/*) $(wildcard packaging/docs/*)

# what `make dist` writes
NAME := tillerclover-$(MAJOR).$(MINOR)
DIST := target/dist/$(NAME)

# where `make deb` writes
DEBS := target/deb

.PHONY: sample test lib targets page docs sums install install-tool install-docs uninstall dist deb help

sample: ## proves the decision, builds the run program and tries it on a sample of five records (the default)
	@echo "Proving: every record, on any tables, gets exactly the outcome of the rules (crates/rules/specs)."
	@echo "It takes minutes; what was proved before and has not changed is not proved again."
	@packaging/prove.sh program
	@echo "The sample, by the program that was proved:"
	@target/bin/run <crates/run/stdin

test: ## the gate: proves everything from nothing, tries every must-fail edit, runs all tests
	.ci/run

lib: target/staticlib/libterminal.a ## proves the library and writes its archive, target/staticlib/libterminal.a

sums: lib ## writes the kit's identity and the sums of archive and page to packaging/KIT
	packaging/kit.sh --write

targets: target/staticlib/libterminal.a ## compiles the library for all processors of docs/TARGETS.md, into target/lib
	targets/build.sh

page: target/staticlib/libterminal.a ## builds the page, target/page/tillerclover.html, in which the library answers in a browser (docs/PAGE.md)
	page/build.sh

docs: $(REFERENCE) ## writes the reference, HTML of all pages and headers, to target/docs; needs pandoc

$(REFERENCE): $(PAGES) $(HEADERS) $(SOURCES)
	@rm -rf target/docs target/man3
	@packaging/docs/build.py target/docs
	@packaging/docs/build.py --man3 target/man3

# If both are asked for at once, archives and page come first.
ifneq ($(filter targets,$(MAKECMDGOALS)),)
install dist: | targets
page: | $(filter targets,$(MAKECMDGOALS))
endif
ifneq ($(filter page,$(MAKECMDGOALS)),)
dist deb sums: | page
endif

# only where it is missing or older than a source
target/staticlib/libterminal.a: $(SOURCES)
	@packaging/prove.sh library
	@touch $@

tool/target/release/tillerclover: $(ARCHIVE) $(wildcard tool/src/* answers/src/* bindings/rust/src/*)
	cd tool && TILLERCLOVER_LIB=$(abspath $(ARCHIVE)) cargo build --release $(CARGOFLAGS)

target/terminal: $(ARCHIVE) $(wildcard examples/terminal/*.[ch])
	$(MAKE) -C examples/terminal ARCHIVE=$(abspath $(ARCHIVE))

# fill TEMPLATE: the template with its values, to the standard output
fill = sed -e 's|@PREFIX@|$(PREFIX)|g' -e 's|@LIBDIR@|$(LIBDIR)|g' -e 's|@INCLUDEDIR@|$(INCLUDEDIR)|g' -e 's|@MAJOR@|$(MAJOR)|g' \
    -e 's|@VERSION@|$(MAJOR).$(MINOR)|g' -e 's|@INCLUDE_FROM_LIB@|$(shell realpath -m --relative-to=$(LIBDIR) $(INCLUDEDIR))|g' $(1)

install: $(ARCHIVE) ## installs headers, archives, pkg-config file and CMake package below DESTDIR/PREFIX (/usr/local)
	@[ -z "$(BY_TARGET)" ] || cmp -s $(OWN) $(ARCHIVE) || { echo "$(LIBRARIES) is of another archive than $(ARCHIVE): make targets renews it, LIBRARIES=- leaves it out"; exit 1; }
	$(INSTALL) -d $(sort $(dir $(INSTALLED)))
	$(INSTALL) -m 644 $(HEADERS) $(DESTDIR)$(INCLUDEDIR)/
	$(INSTALL) -m 644 $(ARCHIVE) $(LIB)/libtillerclover.a
	@for target in $(BY_TARGET); do $(INSTALL) -D -m 644 $(LIBRARIES)/$$target/libterminal.a $(LIB)/tillerclover/$$target/libtillerclover.a || exit 1; done
	@for module in $(MODULES); do $(INSTALL) -D -m 644 $(LIBRARIES)/$$module/terminal.wasm $(LIB)/tillerclover/$$module/tillerclover.wasm || exit 1; done
	$(call fill,packaging/tillerclover.pc.in) >$(LIB)/pkgconfig/tillerclover.pc
	@for target in $(TRIPLES); do sed -e "s|^Libs: .*|Libs: -L\$${libdir}/tillerclover/$$target/O3 -ltillerclover|" -e "s|^Name: .*|&, for $$target|" \
	    $(LIB)/pkgconfig/tillerclover.pc >$(LIB)/pkgconfig/tillerclover-$$target.pc && chmod 644 $(LIB)/pkgconfig/tillerclover-$$target.pc || exit 1; done
	$(call fill,packaging/tillerclover-config.cmake.in) >$(LIB)/cmake/tillerclover/tillerclover-config.cmake
	$(call fill,packaging/tillerclover-config-version.cmake.in) >$(LIB)/cmake/tillerclover/tillerclover-config-version.cmake
	@chmod 644 $(INSTALLED)

install-tool: $(TOOL) ## installs the command tillerclover, its pages of the manual and its completions below DESTDIR/PREFIX
	packaging/install-tool.sh $(TOOL) $(DESTDIR)$(PREFIX)

install-docs: $(REFERENCE) ## installs the reference and the functions' pages of the manual below DESTDIR/PREFIX
	$(INSTALL) -d $(DESTDIR)$(DOCDIR) $(DESTDIR)$(PREFIX)/share/man/man3
	@rm -rf $(DESTDIR)$(DOCDIR)/html && cp -R target/docs $(DESTDIR)$(DOCDIR)/html
	@for page in target/man3/*.3; do gzip -9nc $$page >$(DESTDIR)$(PREFIX)/share/man/man3/$$(basename $$page).gz || exit 1; done

uninstall: ## removes what `make install`, `install-tool` and `install-docs` with the same PREFIX and DESTDIR wrote
	rm -f $(INSTALLED) $(TOOL_INSTALLED) $(wildcard $(DESTDIR)$(PREFIX)/share/man/man3/tillerclover*.3.gz)
	rm -rf $(DESTDIR)$(DOCDIR)/html
	rm -rf $(LIB)/tillerclover $(wildcard $(LIB)/pkgconfig/tillerclover-*.pc)
	@rmdir $(LIB)/cmake/tillerclover 2>/dev/null || true

dist: $(ARCHIVE) $(TOOL) $(REFERENCE) $(filter-out -,$(TERMINAL)) ## writes target/dist/tillerclover-VERSION.tar.gz: libraries, headers, binding, tool, examples, documents, SBOM, SHA256SUMS
	rm -rf $(DIST)
	@$(MAKE) -s -o $(ARCHIVE) install DESTDIR=$(DIST) PREFIX= ARCHIVE=$(ARCHIVE) LIBRARIES=$(LIBRARIES)
	@[ -d $(DIST)/lib/tillerclover ] || echo "dist: for x86-64 alone; for all processors, make targets comes before"
	@packaging/install-tool.sh $(TOOL) $(DIST)
	@if [ -f $(PAGE) ]; then $(INSTALL) -m 644 $(PAGE) $(DIST)/tillerclover.html; else echo "dist: without the page; make page comes before"; fi
	@sed -i -e 's|^prefix=.*|prefix=$${pcfiledir}/../..|' -e 's|^libdir=.*|libdir=$${prefix}/lib|' \
	    -e 's|^includedir=.*|includedir=$${prefix}/include|' $(DIST)/lib/pkgconfig/*.pc
	@tar -ch --exclude=target bindings/rust | tar -x -C $(DIST)
	@cp -R SECURITY.md CHANGELOG.md CONTRIBUTING.md docs examples packaging/KIT $(DIST)/
	@$(MAKE) -s -o $(REFERENCE) install-docs DESTDIR=$(DIST) PREFIX= DOCDIR=/docs
	@cp packaging/README-release.md $(DIST)/README.md
	CARGOFLAGS="$(CARGOFLAGS)" packaging/sbom.py $(ARCHIVE) $(TOOL) $(filter-out -,$(TERMINAL)) >$(DIST)/sbom.json
	cd $(DIST) && find . -type f ! -name SHA256SUMS | LC_ALL=C sort | xargs sha256sum >SHA256SUMS
	cd target/dist && tar --sort=name --owner=0 --group=0 --numeric-owner --mode=go=rX,u+rw --mtime="@$$(git log -1 --format=%ct)" \
	    -c $(NAME) | gzip -n >$(NAME).tar.gz

deb: $(ARCHIVE) ## writes the Debian packages libtillerclover-dev and tillerclover for amd64 to target/deb, by debhelper
	rm -rf $(DEBS)
	mkdir -p $(DEBS)
	debian/rules clean
	debian/rules binary ARCHIVE=$(ARCHIVE) TOOL=$(TOOL) PAGE=$(PAGE) DEBS=$(DEBS) DEBFLAGS="$(DEBFLAGS)" $(if $(CARGOFLAGS),CARGOFLAGS="$(CARGOFLAGS)")
	debian/rules clean

help: ## lists the targets
	@sed -n 's/^\([a-z-]*\):[^#]*## /\1\t/p' $(MAKEFILE_LIST) | expand -t 14
