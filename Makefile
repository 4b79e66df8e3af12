# make                 the archive, the header, the pkg-config file, the command and its manual page, in build/
# make command         only the command, build/octalmure
# make install         to BINDIR, LIBDIR, INCLUDEDIR and MANDIR, which are folders of PREFIX (default /usr/local) where not given,
#                      all of it below DESTDIR if that is given; make uninstall removes the same files
# make clean           removes build/; the archive stays in target/, and what is proved in the folder out/ of each crate
#
# The archive is for x86-64. On another processor a cross compiler makes the command, and tools/x86-64 runs it.

SHELL = bash
.SHELLFLAGS = -o pipefail -c
PREFIX ?= /usr/local
BINDIR ?= $(PREFIX)/bin
LIBDIR ?= $(PREFIX)/lib
INCLUDEDIR ?= $(PREFIX)/include
MANDIR ?= $(PREFIX)/share/man
DESTDIR ?=
BUILD ?= build
CFLAGS ?= -O2
WARNINGS = -Wall -Wextra -Wpedantic -Wconversion -Wshadow -Werror
# the shell has these from its environment, and quotes them: in a list of make's a name with spaces would be several
export BINDIR LIBDIR INCLUDEDIR MANDIR DESTDIR

ARCHIVE = target/staticlib/liboctalmure.a
COMMAND = $(BUILD)/octalmure
FILES = $(BUILD)/liboctalmure.a $(BUILD)/octalmure.h $(BUILD)/octalmure.pc $(BUILD)/octalmure.1
# asked for when something is compiled: it says what is missing
COMPILER = $(if $(filter default,$(origin CC)),$$(tools/compiler cc),$(CC))
VERSION = $(shell sed -n 's/^.define OCTALMURE_VERSION "\([^"]*\)".*/\1/p' include/octalmure.h)

# A file is written under another name and moved once it is whole: two makes at once leave no half of one.
whole = new=$@.$$$$; trap 'rm -f "$$new"' EXIT; $(1) && mv -f "$$new" $@

.PHONY: all command install uninstall clean FORCE
.DELETE_ON_ERROR:

all: $(FILES) $(COMMAND)
command: $(COMMAND)

# tools/archive sees by contents whether the archive is that of the crates; if so, it stays as it is and so does its time.
$(ARCHIVE): FORCE
	@tools/alone tools/archive

$(BUILD):
	mkdir -p $@
$(FILES) $(COMMAND): Makefile | $(BUILD)
$(BUILD)/liboctalmure.a: $(ARCHIVE)
	$(call whole,cp $< "$$new")
$(BUILD)/octalmure.h: include/octalmure.h
	$(call whole,cp $< "$$new")
# this one finds what stands beside it in $(BUILD)
$(BUILD)/octalmure.pc: octalmure.pc.in include/octalmure.h
	$(call whole,tools/fill $< VERSION=$(VERSION) INCLUDEDIR=. LIBDIR=. >"$$new")
$(BUILD)/octalmure.1: docs/octalmure.1 include/octalmure.h
	$(call whole,tools/fill $< VERSION=$(VERSION) >"$$new")
$(COMMAND): $(wildcard host/*.c host/*.h host/page/*) $(BUILD)/octalmure.h $(BUILD)/liboctalmure.a
	cc="$(COMPILER)" || exit 2; $(call whole,$$cc -std=gnu11 $(CFLAGS) $(WARNINGS) -I$(BUILD) -static -o "$$new" $(filter %.c %.a,$^))

# The pkg-config file that is installed has the way from its own place to the header's, a space with a backslash before it.
install: all
	install -d "$$DESTDIR$$BINDIR" "$$DESTDIR$$MANDIR/man1" "$$DESTDIR$$INCLUDEDIR" "$$DESTDIR$$LIBDIR/pkgconfig"
	install -m 755 $(COMMAND) "$$DESTDIR$$BINDIR/octalmure"
	install -m 644 $(BUILD)/octalmure.1 "$$DESTDIR$$MANDIR/man1/octalmure.1"
	install -m 644 $(BUILD)/octalmure.h "$$DESTDIR$$INCLUDEDIR/octalmure.h"
	install -m 644 $(BUILD)/liboctalmure.a "$$DESTDIR$$LIBDIR/liboctalmure.a"
	way=$$(realpath --relative-to="$$DESTDIR$$LIBDIR/pkgconfig" "$$DESTDIR$$INCLUDEDIR" | sed 's/[^A-Za-z0-9_.\/+-]/\\&/g') && \
	    tools/fill octalmure.pc.in VERSION=$(VERSION) INCLUDEDIR="$$way" LIBDIR=.. >$(BUILD)/installed.pc && \
	    install -m 644 $(BUILD)/installed.pc "$$DESTDIR$$LIBDIR/pkgconfig/octalmure.pc"

uninstall:
	rm -f "$$DESTDIR$$BINDIR/octalmure" "$$DESTDIR$$MANDIR/man1/octalmure.1" "$$DESTDIR$$INCLUDEDIR/octalmure.h" \
	    "$$DESTDIR$$LIBDIR/liboctalmure.a" "$$DESTDIR$$LIBDIR/pkgconfig/octalmure.pc"

clean:
	rm -rf $(BUILD)
