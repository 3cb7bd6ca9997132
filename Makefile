# The library for C and the bench tool. Targets: all, lib (the library alone), demo, install, uninstall, clean, test (all tests),
# bench (all measurements).
VERSION := 0.7.0

PREFIX ?= /usr/local
INCLUDEDIR = $(PREFIX)/include
LIBDIR = $(PREFIX)/lib
BINDIR = $(PREFIX)/bin
MANDIR = $(PREFIX)/share/man
INSTALL = install
CFLAGS = -O2 -g

BUILD := build
# An archive that is already built, if it is given: ARCHIVE=path.
ARCHIVE := $(BUILD)/libundalisho.a

.PHONY: all lib demo install uninstall clean test bench force
.DELETE_ON_ERROR:

all: lib $(BUILD)/undalisho

lib: $(ARCHIVE) $(BUILD)/undalisho.pc

# The crates whose functions C calls: capi, and those whose names begin with capi_. Each gives an archive with one object.
CAPI := $(shell sed -nE 's/^(capi(_\w+)?)( +staticlib)?:.*/\1/p' crates.txt)
PARTS := $(CAPI:%=$(BUILD)/parts/lib%.a)

# What a crate is made of: the files of its own, and of all that it uses. crates.txt has what a crate uses above it.
below = $(shell tac crates.txt | tr -d : | awk -v crate=$(1) 'BEGIN { used[crate] } $$1 in used { print "crates/" $$1; for (i = 2; i <= NF; i++) used[$$i] }')
sources_of = $(shell find $(call below,$(1)) \( -name out -o -name must-fail \) -prune -o -type f -print)

.SECONDEXPANSION:
$(PARTS): $(BUILD)/parts/lib%.a: $$(call sources_of,$$*) $(BUILD)/toolchain crates.txt | $(BUILD)/parts
	cd crates/$* && rt lib
	@cp crates/$*/out/lib$*.a $@

# The objects share no name: in each, all symbols but its functions for C are local. A file whose content stays the same is
# not touched, so that nothing is made anew from it.
$(BUILD)/libundalisho.a: $(PARTS)
	@rm -rf $(BUILD)/objects && mkdir $(BUILD)/objects
	@for part in $(PARTS); do (cd $(BUILD)/objects && ar x $(CURDIR)/$$part) || exit 1; done
	@cd $(BUILD)/objects && ar rcsD libundalisho.a $(CAPI:%=%.o)
	@cmp -s $(BUILD)/objects/libundalisho.a $@ || cp $(BUILD)/objects/libundalisho.a $@

# A newer toolchain builds all anew.
$(BUILD)/toolchain: force | $(BUILD)
	@rt version > $@.new
	@if cmp -s $@.new $@; then rm $@.new; else mv $@.new $@; fi

$(BUILD)/undalisho.pc: undalisho.pc.in force | $(BUILD)
	@sed -e 's|@VERSION@|$(VERSION)|' -e 's|@PREFIX@|$(PREFIX)|' -e 's|@INCLUDEDIR@|$(INCLUDEDIR)|' \
		-e 's|@LIBDIR@|$(LIBDIR)|' $< > $@.new
	@if cmp -s $@.new $@; then rm $@.new; else mv $@.new $@; fi

# POSIX, and its X/Open part for pseudo-terminals.
STRICT := -std=c99 -D_XOPEN_SOURCE=700 -Wall -Wextra -Wpedantic

TOOL := tool $(wildcard tool/*/)

$(BUILD)/undalisho: $(wildcard $(TOOL:%=%/*.[ch])) include/undalisho.h $(ARCHIVE) Makefile | $(BUILD)
	@command -v $(CC) >/dev/null || tests/need gcc libc6-dev
	$(CC) $(STRICT) $(CFLAGS) -DVERSION='"$(VERSION)"' -Iinclude $(TOOL:%=-I%) $(filter %.c,$^) $(ARCHIVE) $(LDFLAGS) -o $@

demo: all
	@$(BUILD)/undalisho demo

$(BUILD) $(BUILD)/parts:
	@mkdir -p $@

install: all
	$(INSTALL) -d $(DESTDIR)$(INCLUDEDIR) $(DESTDIR)$(LIBDIR)/pkgconfig $(DESTDIR)$(BINDIR) $(DESTDIR)$(MANDIR)/man1
	$(INSTALL) -m 644 include/undalisho.h $(DESTDIR)$(INCLUDEDIR)/undalisho.h
	$(INSTALL) -m 644 $(ARCHIVE) $(DESTDIR)$(LIBDIR)/libundalisho.a
	$(INSTALL) -m 644 $(BUILD)/undalisho.pc $(DESTDIR)$(LIBDIR)/pkgconfig/undalisho.pc
	$(INSTALL) -m 755 $(BUILD)/undalisho $(DESTDIR)$(BINDIR)/undalisho
	$(INSTALL) -m 644 tool/undalisho.1 $(DESTDIR)$(MANDIR)/man1/undalisho.1

uninstall:
	rm -f $(DESTDIR)$(INCLUDEDIR)/undalisho.h $(DESTDIR)$(LIBDIR)/libundalisho.a
	rm -f $(DESTDIR)$(LIBDIR)/pkgconfig/undalisho.pc
	rm -f $(DESTDIR)$(BINDIR)/undalisho $(DESTDIR)$(MANDIR)/man1/undalisho.1

clean:
	rm -rf $(BUILD)

test:
	.ci/run

bench:
	bench/run
