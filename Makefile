# make help prints the targets, from what stands after ## below.
PREFIX = /usr/local
BINDIR = $(PREFIX)/bin
LIBDIR = $(PREFIX)/lib
INCLUDEDIR = $(PREFIX)/include
VERSION := $(shell sed -n 's/^.define GF_VERSION "\(.*\)"/\1/p' include/gullyfork.h)
MAJOR := $(firstword $(subst ., ,$(VERSION)))

shared = target/lib/libgullyfork.so.$(MAJOR)
static = target/staticlib/libcapi.a
headers := $(wildcard include/*.h)
sources := crates.txt $(headers) bindings/library $(wildcard bindings/c/*) $(shell find crates -type d \( -name must-fail -o -name out \) -prune -o -type f -print)
edited = $(sort $(patsubst crates/%/must-fail/,%,$(wildcard crates/*/must-fail/)) $(patsubst edits/%/,%,$(wildcard edits/*/)))
# what a desk runs; the library is linked into them, so that they need neither it nor the kit nor a compiler
programs = target/bin/roll target/bin/verify
bin = $(DESTDIR)$(BINDIR)
lib = $(DESTDIR)$(LIBDIR)
include = $(DESTDIR)$(INCLUDEDIR)

all: $(shared) $(programs) ## proves and builds the library, static and shared, and the programs roll and verify (the default)

help: ## prints this table
	@awk -F ' *:.*## ' '/^[a-z]+:.*## / { printf "make %-11s%s\n", $$1, $$2 }' Makefile

# one command writes both
$(shared): $(sources)
	bindings/library
$(static): $(shared)

$(programs): $(shared) delivery/compile $(wildcard delivery/*.[ch])
	sh delivery/compile $(@F)

check: $(shared) ## runs the tests beside the gate: C, installation, deliveries, Rust (if there is a cargo), Python, the documents' examples
	tests/run
	if command -v cargo >/dev/null; then cd bindings/rust && cargo test --quiet --offline; fi
	bindings/python/test
	tests/documents/run

gate: ## runs the gate, which wants every crate proved and every wrong edit of crates/ refused, and writes target/gate.log
	tests/gate

fmt: ## formats the crates and, if there is a cargo, the Rust binding
	bindings/kit
	for crate in crates/*/; do (cd "$$crate" && rt fmt) || exit 1; done
	if command -v cargo >/dev/null; then cd bindings/rust && cargo fmt; fi

edits: ## tries every wrong edit beside the gate too, which takes hours; CRATE=NAME tries those of one crate
	python3 edits/texts
	for crate in $(or $(CRATE),$(edited)); do edits/try "$$crate" || exit 1; done

docs: ## writes the pages that are made from the sources
	python3 docs/promises
	python3 docs/python-api

dist: $(shared) ## writes target/dist, the release that is installed without the Rattle kit
	bindings/dist

install: $(shared) $(programs) ## puts library, headers, pkg-config file and programs under PREFIX (default /usr/local); DESTDIR is put before it
	install -d "$(bin)" "$(lib)/pkgconfig" "$(include)"
	install -m 755 $(programs) "$(bin)"
	install -m 644 $(headers) "$(include)"
	install -m 644 $(shared) "$(lib)/libgullyfork.so.$(VERSION)"
	ln -sf libgullyfork.so.$(VERSION) "$(lib)/libgullyfork.so.$(MAJOR)"
	ln -sf libgullyfork.so.$(MAJOR) "$(lib)/libgullyfork.so"
	install -m 644 $(static) "$(lib)/libgullyfork.a"
	sed -e 's|@PREFIX@|$(PREFIX)|' -e 's|@LIBDIR@|$(LIBDIR)|' -e 's|@INCLUDEDIR@|$(INCLUDEDIR)|' -e 's|@VERSION@|$(VERSION)|' \
	    bindings/c/gullyfork.pc.in > "$(lib)/pkgconfig/gullyfork.pc"
	chmod 644 "$(lib)/pkgconfig/gullyfork.pc"

uninstall: ## takes away what install put there
	rm -f $(patsubst target/bin/%,"$(bin)/%",$(programs)) $(patsubst include/%,"$(include)/%",$(headers)) "$(lib)/libgullyfork.so.$(VERSION)" "$(lib)/libgullyfork.so.$(MAJOR)" \
	    "$(lib)/libgullyfork.so" "$(lib)/libgullyfork.a" "$(lib)/pkgconfig/gullyfork.pc"

wheel: $(shared) ## writes the Python package, target/wheel/gullyfork-*.whl
	bindings/python/build

clean: ## removes target/ and the crates' out/, everything that was proved and built here
	rm -rf target crates/*/out

.PHONY: all help check gate fmt edits docs dist install uninstall wheel clean
