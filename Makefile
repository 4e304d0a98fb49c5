# Builds, installs, checks and measures. What builds or proves needs a Rattle kit (`rt` on the path); what is in dist/
# needs none.

VERSION := $(shell cat VERSION)
PREFIX = /usr/local
LIBDIR = lib
DESTDIR =

# The programs that are built, installed and packed. Each is the crate of its name, with the manual page of that name in
# share/man and the completion in share/completions. RUN_name has the arguments of the run that the kit makes to build
# it.
PROGRAMS = cborcat cbor_view
RUN_cborcat = --from=bytes
RUN_cbor_view = seq bytes
# The scripts that are installed beside them, with their manual pages: they are in share.
SCRIPTS = cboredit cbormerge

CC = cc
LD = ld
OBJCOPY = objcopy
# What packages are made with, and for: the machine in their names, and its names in Debian and for wheels.
STRIP = strip
OBJDUMP = objdump
MACHINE = x86_64
DEBIAN = amd64
PYTHON = python3
CARGO = cargo
PG_CONFIG = pg_config

# Says what a command of the kit is at.
PROGRESS = $(CURDIR)/checks/progress

# The C side of the kit's heap, which the static library takes in.
KIT = $(shell dirname "$$(rt doc)")
HEAP = $(KIT)/c/liblibc_c.a

DIST = dist
PROGRAM = $(DIST)/bin/cbor_view
ARCHIVE = $(DIST)/libcbor_diag_c.a
STATIC = $(DIST)/lib/libcbor_diag.a
SHARED = $(DIST)/lib/libcbor_diag.so.0
SQLITE = $(DIST)/lib/cbor_diag_sqlite.so
POSTGRESQL = $(DIST)/postgresql/cbor_diag.so
MODULES = $(DIST)/modules
WASM = $(DIST)/wasm/cbor_diag.wasm
CAT_WASM = $(DIST)/wasm/cborcat.wasm
PAGE = $(DIST)/semphluk.html
HEADER = $(DIST)/include/cbor_diag.h
PKGCONFIG = $(DIST)/lib/pkgconfig/cbor_diag.pc
PROGRAM_FILES = $(PROGRAMS:%=$(DIST)/bin/%)
SCRIPT_FILES = $(SCRIPTS:%=$(DIST)/bin/%)
MANUALS = $(patsubst share/man/%,$(DIST)/share/man/man1/%,$(wildcard share/man/*.1))
# The completions: _NAME is for zsh, NAME.fish for fish, and NAME for bash.
ZSH = $(wildcard share/completions/_*)
FISH = $(wildcard share/completions/*.fish)
BASH = $(filter-out $(ZSH) $(FISH),$(wildcard share/completions/*))
# The files of names that the programs have built in.
NAMES = $(wildcard share/names/*.cddl)

# The files that a proof of these crates reads. With AS_BUILT=1 what is in dist/ is taken as it is, whatever its age.
sources = $(if $(AS_BUILT),,crates.txt \
    $(shell find $(wildcard $(1:%=crates/%/src) $(1:%=crates/%/specs) $(1:%=crates/%/proofs)) -type f))
# The crates that a program or the library for C may stand on.
BELOW := $(filter-out cbor_diag_c $(PROGRAMS),$(shell sed -n 's/^\(cbor[a-z0-9_]*\).*:.*/\1/p' crates.txt))

.PHONY: all program library install try try-rt try-cargo try-nothing rust check-rust quick test gate planted check \
    check-pages check-commands check-docs check-cat check-editing check-allocations check-bindings check-packages tarball deb wheel vectors arm64 arm64-packages \
    check-arm64 page check-page npm check-npm windows windows-packages check-windows release compare bench api clean sqlite postgresql install-sqlite install-postgresql deb-sqlite deb-postgresql deb-sql

all: program library $(SCRIPT_FILES) $(MANUALS)

program: $(PROGRAM_FILES)

library: $(STATIC) $(SHARED) $(HEADER) $(PKGCONFIG)

# Without a gate that passed: the kit proves a program, builds it and runs it. A sequence of no items has no output.
.SECONDEXPANSION:
$(PROGRAM_FILES): $(DIST)/bin/%: $$(call sources,$$(BELOW) $$*)
	@echo "$*: the kit proves it and what it stands on, and then builds it; make gate does so with all processors"
	cd crates/$* && $(PROGRESS) rt run -- $(RUN_$*) < /dev/null
	install -D -m 755 crates/$*/out/$* $@

$(ARCHIVE): $(call sources,$(BELOW) cbor_diag_c)
	checks/archive $@

# One object, which exports the calls of the header alone.
$(STATIC): $(ARCHIVE)
	mkdir -p $(@D)
	rm -f $@
	$(LD) -r -o $(DIST)/cbor_diag.o --whole-archive $(ARCHIVE) $(HEAP)
	$(OBJCOPY) --wildcard --keep-global-symbol='cbor_diag_*' --strip-debug $(DIST)/cbor_diag.o
	$(AR) rcs $@ $(DIST)/cbor_diag.o
	rm $(DIST)/cbor_diag.o

# Its second name is a hard link, because the gate takes no symbolic link in the repository.
$(SHARED): $(STATIC) bindings/c/cbor_diag.map
	$(CC) -shared -o $@ -Wl,--whole-archive $(STATIC) -Wl,--no-whole-archive \
	    -Wl,--version-script=bindings/c/cbor_diag.map -Wl,-soname,$(@F) -Wl,--gc-sections -Wl,-z,defs -Wl,-z,now -Wl,-s
	ln -f $@ $(DIST)/lib/libcbor_diag.so

# The extensions for databases, which take the library in. They need the headers of SQLite and of PostgreSQL's server.
EXTENSION = $(CC) -shared -fPIC -O2 -Wall -Ibindings/c -Wl,--exclude-libs,ALL
sqlite: $(SQLITE)

postgresql: $(POSTGRESQL)

$(SQLITE): bindings/sqlite/cbor_diag_sqlite.c $(STATIC) bindings/sql/cbor_sql.h bindings/c/cbor_diag.h
	$(EXTENSION) -o $@ $< $(STATIC)

$(POSTGRESQL): bindings/postgresql/cbor_diag_pg.c $(STATIC) bindings/sql/cbor_sql.h bindings/c/cbor_diag.h
	mkdir -p $(@D)
	$(EXTENSION) -I"$$($(PG_CONFIG) --includedir-server)" -o $@ $< $(STATIC)

install-sqlite: sqlite
	install -D -m 755 -t $(DESTDIR)$(PREFIX)/$(LIBDIR) $(SQLITE)

install-postgresql: postgresql
	install -D -m 755 $(POSTGRESQL) "$(DESTDIR)$$($(PG_CONFIG) --pkglibdir)/cbor_diag.so"
	install -D -m 644 -t "$(DESTDIR)$$($(PG_CONFIG) --sharedir)/extension" bindings/postgresql/cbor_diag.control \
	    bindings/postgresql/cbor_diag--*.sql

$(HEADER): bindings/c/cbor_diag.h
	install -D -m 644 $< $@

$(PKGCONFIG): bindings/c/cbor_diag.pc.in VERSION Makefile
	mkdir -p $(@D)
	sed 's|@VERSION@|$(VERSION)|; s|@LIBDIR@|lib|; s|@UP@|../..|' $< > $@

$(SCRIPT_FILES): $(DIST)/bin/%: share/%
	install -D -m 755 $< $@

$(MANUALS): $(DIST)/share/man/man1/%: share/man/% VERSION
	mkdir -p $(@D)
	sed 's|@VERSION@|$(VERSION)|' $< > $@

# The pkg-config file finds the rest from where it is itself.
install: all
	install -D -m 755 -t $(DESTDIR)$(PREFIX)/bin $(PROGRAM_FILES) $(SCRIPT_FILES)
	install -D -m 644 -t $(DESTDIR)$(PREFIX)/$(LIBDIR) $(STATIC) $(SHARED)
	ln -sf libcbor_diag.so.0 $(DESTDIR)$(PREFIX)/$(LIBDIR)/libcbor_diag.so
	install -D -m 644 -t $(DESTDIR)$(PREFIX)/include $(HEADER)
	mkdir -p $(DESTDIR)$(PREFIX)/$(LIBDIR)/pkgconfig
	sed 's|@VERSION@|$(VERSION)|; s|@LIBDIR@|$(LIBDIR)|; s|@UP@|$(shell realpath -m \
	    --relative-to=/p/$(LIBDIR)/pkgconfig /p)|' bindings/c/cbor_diag.pc.in \
	    > $(DESTDIR)$(PREFIX)/$(LIBDIR)/pkgconfig/cbor_diag.pc
	install -D -m 644 -t $(DESTDIR)$(PREFIX)/share/man/man1 $(MANUALS)
	install -D -m 644 -t $(DESTDIR)$(PREFIX)/share/bash-completion/completions $(BASH)
	install -D -m 644 -t $(DESTDIR)$(PREFIX)/share/zsh/site-functions $(ZSH)
	install -D -m 644 -t $(DESTDIR)$(PREFIX)/share/fish/vendor_completions.d $(FISH)
	install -D -m 644 -t $(DESTDIR)$(PREFIX)/share/semphluk/names $(NAMES)

# The main job before any proof: cborcat, on these arguments, by the kit, or else by cargo. The kit gives it a copy of each
# file that they name.
ARGS = examples/log.cbor
try: try-$(if $(shell command -v rt),rt,$(if $(shell command -v $(CARGO)),cargo,nothing))

try-rt:
	@echo "Nothing is proved yet: the kit runs the code as it stands, and checks it only while it runs. make gate proves it."
	@files=; for word in $(ARGS); do \
	    if test -f "$$word"; then files="$$files --data $$word=$(CURDIR)/$$word"; fi; \
	done; cd crates/cborcat && rt try $$files -- $(ARGS)

try-cargo: rust
	@echo "There is no kit (rt), so cargo builds the code without its proofs."
	@cd $(RUST) && $(CARGO) build --quiet --bin cborcat
	@$(RUST)/target/debug/cborcat $(ARGS)

try-nothing:
	@echo "make try needs a Rattle kit (rt) or cargo"; exit 1

# Checks all crates, without the must-fail edits.
quick:
	$(PROGRESS) rt all check

# The same sources as a plain Rust crate, without what only proofs read: for this, Python is enough. With OFFLINE=1 cargo
# takes upstream's crates from Debian's packages, and with FORMAT=1 rustfmt formats the files.
RUST = $(DIST)/rust/semphluk
rust:
	@machines/rust/extract $(if $(OFFLINE),--offline) $(if $(FORMAT),--format) $(RUST)

# Where Debian's packages are, these take upstream's crates from there.
try-cargo check-rust: OFFLINE = $(wildcard /usr/share/cargo/registry/clap-4*)

# Its tests, and the same runs as the proved programs where they are in dist/.
check-rust: rust
	machines/rust/check --proved $(DIST)/bin $(RUST)

# The references of the libraries, from the header, docstrings and doc comments, as far as their tools are installed.
api:
	bindings/api $(DIST)/api

# All tests, without a proof: minutes.
test:
	@checks/tests

# The gate: all proofs, stored runs and must-fail edits. It leaves the programs in dist/, and the libraries that make
# builds the rest from; with LEFT= it leaves no program. One check for each processor runs at a time, and no more than
# there are 4 GB of free memory for; without the number rt counts on more memory for a large crate, and runs fewer.
JOBS = $(shell awk -v most="$$(nproc)" '/^MemAvailable/ { n = int($$2 / 4000000); print n < 1 ? 1 : n < most ? n : most }' \
    /proc/meminfo)
LEFT = $(PROGRAMS)
gate:
	@RT_JOBS=$${RT_JOBS:-$(JOBS)} checks/gate $(LEFT)

# The wrong bodies that the gate does not try.
planted:
	checks/planted

# All that needs no proof. It takes what is in dist/ as it is.
check: check-pages
	@for file in $(PROGRAM_FILES) $(ARCHIVE); do \
	    test -e $$file || { echo "$$file is not there: make builds it, after make gate in less time"; exit 1; }; \
	done
	@$(MAKE) --no-print-directory -q $(PROGRAM_FILES) $(ARCHIVE) || \
	    echo "note: files of the crates are newer than dist/: make builds it again"
	@$(MAKE) --no-print-directory AS_BUILT=1 check-commands check-cat check-editing check-allocations check-bindings \
	    check-packages

# The links, names and words of all pages; the second implementation, alone.
check-pages:
	checks/vectors
	checks/links
	checks/names
	checks/words
	checks/page_files
	checks/promises --self-test
	checks/promises --check
	packages/version
	machines/test
	machines/rust/test
	checks/budget --self-test
	checks/compare/run --self-test
	checks/compare/edn --self-test
	checks/compare/cddl --self-test --count 300

# The commands of all pages, and both.
check-commands: program
	checks/commands $(DIST)/bin

check-docs: check-pages check-commands

# The program for people, as they run it: in pipes and terminals, with closed outputs and full disks.
check-cat: $(DIST)/bin/cborcat
	checks/cborcat $<
	checks/pairs $<
	checks/completions $<
	checks/compare/edn --count 1000 $<
	checks/compare/inside --count 1000 $<
	checks/compare/cddl --count 300 $<

# The scripts that edit and merge files of CBOR, with editors that are scripts and in repositories.
check-editing: $(DIST)/bin/cborcat
	checks/editing $<

# Failing allocations in the programs, and in single calls.
check-allocations: $(PROGRAM_FILES)
	checks/allocations/faults $(DIST)/bin
	checks/allocations/failing_calls

check-bindings: library
	CC='$(CC)' PYTHON='$(PYTHON)' CARGO='$(CARGO)' bindings/check

# Packages, for whoever has no kit. Their files have the date of the last commit, so they are the same byte for byte.
PACKAGES = $(DIST)/packages
export STRIP OBJDUMP MACHINE DEBIAN PG_CONFIG
export SOURCE_DATE_EPOCH ?= $(shell git log -1 --format=%ct 2> /dev/null || date +%s)

tarball: all
	packages/tarball $(PACKAGES)

deb: all
	packages/deb $(PACKAGES)

deb-sqlite: sqlite
	packages/deb-sql sqlite $(PACKAGES)

deb-postgresql: postgresql
	packages/deb-sql postgresql $(PACKAGES)

# Those whose headers are installed.
deb-sql:
	@if printf '#include <sqlite3ext.h>\n' | $(CC) -E - > /dev/null 2>&1; then \
	    $(MAKE) --no-print-directory deb-sqlite; \
	else echo "no package for SQLite, because its header is not installed (apt install libsqlite3-dev)"; fi
	@if test -e "$$($(PG_CONFIG) --includedir-server 2> /dev/null)/postgres.h"; then \
	    $(MAKE) --no-print-directory deb-postgresql; \
	else echo "no package for PostgreSQL, because its headers are not installed (apt install postgresql-server-dev-all)"; fi

wheel: library
	mkdir -p $(PACKAGES)
	cd bindings/python && CBOR_DIAG_LIBRARY=$(abspath $(SHARED)) \
	    $(PYTHON) -B -c 'import backend; print(backend.build_wheel("$(abspath $(PACKAGES))"))'

# The vectors, for other implementations.
vectors:
	packages/vectors $(PACKAGES)

# Installs each package outside of the repository, runs the commands of its pages, and removes it again.
check-packages: tarball deb wheel deb-sql
	CC='$(CC)' CARGO='$(CARGO)' packages/check $(PACKAGES)

# The same for ARM64, built here by a cross compiler over the libraries that the gate proved.
CROSS = aarch64-linux-gnu-
ARM64 = $(MAKE) --no-print-directory AS_BUILT=1 DIST=$(DIST)/arm64 PACKAGES=$(abspath $(PACKAGES)) \
    HEAP=$(DIST)/arm64/heap.a MACHINE=aarch64 DEBIAN=arm64 CC=$(CROSS)gcc LD=$(CROSS)ld AR=$(CROSS)ar \
    OBJCOPY=$(CROSS)objcopy STRIP=$(CROSS)strip OBJDUMP=$(CROSS)objdump
arm64:
	machines/arm64 $(DIST)/arm64 $(PROGRAMS) cbor_diag_c
	$(ARM64) all

arm64-packages: arm64
	$(ARM64) tarball deb wheel

# What is in dist/arm64, under an emulator: the vectors, the checks of cborcat, the tests in C, the packages.
check-arm64:
	machines/check_arm64 $(DIST)/arm64 $(PACKAGES)

# The page for whoever has a browser and nothing else: the library for C as WebAssembly, in one file of HTML.
page: $(PAGE)

# The LLVM modules that the kit makes of what it proves: those of what is in dist/.
$(MODULES)/cbor_diag_c.bc: $(ARCHIVE) machines/keep.py
	machines/keep.py $(MODULES) cbor_diag_c

$(PROGRAMS:%=$(MODULES)/%.bc): $(MODULES)/%.bc: $(DIST)/bin/% machines/keep.py
	machines/keep.py $(MODULES) $*

$(WASM): $(MODULES)/cbor_diag_c.bc $(wildcard machines/*.py machines/*.h machines/wasm/*)
	machines/wasm/build $(@D) $<

# After the other, which leaves objects in the same folder.
$(CAT_WASM): $(MODULES)/cborcat.bc $(wildcard machines/*.py machines/*.h machines/wasm/*) | $(WASM)
	machines/wasm/build $(@D) $<

$(PAGE): $(WASM) VERSION $(wildcard page/* crates/cbor_page/page/* examples/*)
	page/make $(@D)/wasm/page.wasm $@

# Both pages in browsers, and the library in semphluk.html against the native one.
check-page: $(SHARED) $(DIST)/bin/cborcat
	checks/page $(DIST)/bin/cborcat
	page/check

# The package for JavaScript: cborcat and the library as WebAssembly, for node, Deno, Bun and browsers.
NPM = $(PACKAGES)/semphluk-$(VERSION).tgz
npm: $(WASM) $(CAT_WASM)
	packages/npm $(PACKAGES) $(DIST)/wasm

# It, installed by npm, against the library and the program for Linux; in Chromium, where that is installed.
check-npm: npm $(SHARED) $(DIST)/bin/cborcat
	machines/wasm/build $(DIST)/wasm machines/systest.c
	bindings/javascript/check $(NPM)

# The programs and the library for Windows, by Debian's mingw-w64.
WINDOWS = $(DIST)/windows
windows: $(WINDOWS)/bin/cborcat.exe

$(WINDOWS)/bin/cborcat.exe: $(MODULES)/cbor_diag_c.bc $(PROGRAMS:%=$(MODULES)/%.bc) \
    $(wildcard machines/*.py machines/*.h machines/*.c machines/windows/*)
	machines/windows/build $(WINDOWS) $(filter %.bc,$^) machines/systest.c

windows-packages: windows
	packages/windows $(PACKAGES) $(WINDOWS)
	cd bindings/python && CBOR_DIAG_LIBRARY=$(abspath $(WINDOWS)/bin/cbor_diag.dll) \
	    $(PYTHON) -B -c 'import backend; print(backend.build_wheel("$(abspath $(PACKAGES))"))'

# What is in dist/windows, under wine.
check-windows: windows-packages $(PROGRAM_FILES)
	machines/windows/check $(WINDOWS) $(PACKAGES)

# All of it, made and checked. The table says of each artefact what it needs and how it was tested.
release: check-packages vectors arm64-packages page
	@$(MAKE) --no-print-directory check-arm64 check-page check-npm check-windows
	install -D -m 644 $(PAGE) $(PACKAGES)/semphluk-$(VERSION).html
	packages/version
	cd $(PACKAGES) && sha256sum *$(VERSION)* > SHA256SUMS
	packages/artefacts $(PACKAGES)

compare: $(PROGRAM)
	checks/compare/run

bench: $(PROGRAM) library
	checks/benches/bench.py $(PROGRAM)
	checks/benches/calls $(DIST)

clean:
	rm -rf $(DIST)
