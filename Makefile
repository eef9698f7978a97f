# make help says what there is to make.
PREFIX = /usr/local
DESTDIR =
# The version stands in the header alone.
VERSION := $(shell sed -n 's/^\#define FOX_VERSION "\(.*\)"$$/\1/p' include/fox.h)
# Programs linked with the shared library ask for it by this name. It changes when a program would have to be linked anew.
SONAME = libfox.so.1

# The machine's own processor; with another one named, what is made for it stands apart.
MACHINE := $(shell uname -m)
PROCESSOR ?= $(MACHINE)
OUT := $(if $(filter $(MACHINE),$(PROCESSOR)),build,build/$(PROCESSOR))
SHARED = $(OUT)/libfox.so.$(VERSION)
ROOT = $(DESTDIR)$(PREFIX)
BUILD = @PROCESSOR=$(PROCESSOR) sh tools/build.sh

# Folders too, so that a file taken away counts as a change. What rt makes of a crate is in its folder out.
SOURCES := $(shell find crates crates.txt -name out -prune -o -print)

# Only one rt at a time works in a crate and in those below it.
.NOTPARALLEL:
.PHONY: all help run bench vectors test host count speed fuzz fmt install uninstall clean

LIBRARIES = $(OUT)/libfox.a $(OUT)/libfox_card.a $(SHARED)

all: $(LIBRARIES) $(OUT)/stretch

help:
	@echo "make            the library for C programs, build/libfox.a and build/libfox.so, its part for a card alone,"
	@echo "                build/libfox_card.a, and the program build/stretch"
	@echo "make run        the main job, as a newcomer would first want to see it"
	@echo "make bench      the bench program on a sheet: make bench <sheet"
	@echo "make test       the whole gate: rt ci, which proves all, and the host tests"
	@echo "make host       the host tests alone, on what they link and run"
	@echo "make vectors    the compiled ciphers on the specification's vectors"
	@echo "make count      instructions, stack and size of the compiled code"
	@echo "make speed      the library's speed beside that of plain C code by every compiler here, with a picture in docs,"
	@echo "                and beside another build's card:"
	@echo "                make speed BEFORE=ARCHIVE"
	@echo "make fuzz       ten minutes of clang's fuzzer on the calls, sessions, run files and the bench sheet"
	@echo "make fmt        sets the Rattle code in its layout"
	@echo "make install    the libraries, fox.h, stretch with its man page, and files for pkg-config below PREFIX ($(PREFIX));"
	@echo "                DESTDIR goes before it"
	@echo "make uninstall  takes these files away again"
	@echo "make clean      takes away all that was made"

# What is proved: the calls of either engine, those that need none, and those on sessions and run files. The exports that the tests measure are no
# part of the library.
CALLS = $(OUT)/fox_station_card.o $(OUT)/fox_station_server.o $(OUT)/fox_station_counter.o $(OUT)/fox_station_session.o $(OUT)/fox_station_file.o
# What is not: the refusals' texts, and the wiping of the stack, as deep as the deepest call that the library has.
TEXTS = $(OUT)/fox_refusal_text.o
WIPE = $(OUT)/fox_wipe.o
WIPE_CARD = $(OUT)/fox_wipe_card.o

$(CALLS) $(OUT)/fox_check_probe.o: $(OUT)/%.o: $(SOURCES) tools/build.sh
	$(BUILD) crate $@ $*

$(TEXTS): c/fox_refusal_text.c include/fox.h tools/build.sh
	$(BUILD) object $@ $<

$(WIPE): deepest = FOX_SERVER_STACK
$(WIPE_CARD): deepest = FOX_CARD_STACK
$(WIPE) $(WIPE_CARD): c/fox_wipe.c include/fox.h tools/build.sh
	$(BUILD) object $@ $< -DDEEPEST=$(deepest) -fstack-clash-protection

$(OUT)/libfox.a: $(CALLS) $(TEXTS) $(WIPE)
$(OUT)/libfox_card.a: $(filter-out %_server.o %_session.o %_file.o,$(CALLS)) $(TEXTS) $(WIPE_CARD)
$(OUT)/libfox_probe.a: $(OUT)/fox_check_probe.o

$(OUT)/%.a:
	$(BUILD) archive $@ $^
	@echo "built $@"

$(SHARED): $(CALLS) $(TEXTS) $(WIPE)
	$(BUILD) shared $@ $(SONAME) $^
	@echo "built $(OUT)/libfox.so"

STRETCH = examples/stretch.c examples/stretch_job.c

$(OUT)/stretch: $(STRETCH) examples/stretch_job.h $(OUT)/libfox.a include/fox.h
	$(BUILD) program $@ $(STRETCH) $(OUT)/libfox.a
	@echo "built $@"

run:
	@sh tests/show.sh

bench:
	@sh tools/bench.sh

vectors:
	@sh tools/needs.sh
	@sh tools/prove.sh fox_check_vectors
	@echo "cipher, rounds, key bytes: sealed and opened by the card, by the server from key bytes, and from a prepared key"
	@cat target/log/fox_check_vectors.stdout

test:
	@sh tests/gate.sh

host:
	@sh tests/gate.sh host

count:
	@sh tests/instructions.sh
	@sh tests/measure.sh
	@sh tests/sizes.sh

speed:
	@sh tests/speed.sh

fuzz:
	@sh tests/fuzz.sh

fmt:
	@for crate in crates/*/; do (cd "$$crate" && rt fmt) || exit 1; done

install: all
	install -d "$(ROOT)/lib/pkgconfig" "$(ROOT)/include" "$(ROOT)/bin" "$(ROOT)/share/man/man1"
	install -m 644 $(OUT)/libfox.a $(OUT)/libfox_card.a $(SHARED) "$(ROOT)/lib"
	ln -sf libfox.so.$(VERSION) "$(ROOT)/lib/$(SONAME)"
	ln -sf $(SONAME) "$(ROOT)/lib/libfox.so"
	install -m 644 include/fox.h "$(ROOT)/include/fox.h"
	install -m 755 $(OUT)/stretch "$(ROOT)/bin"
	for name in fox.pc fox_card.pc examples/stretch.1; do \
	    sed -e 's|@PREFIX@|$(PREFIX)|' -e 's|@VERSION@|$(VERSION)|' $$name.in >$(OUT)/$${name##*/} || exit 1; \
	done
	install -m 644 $(OUT)/fox.pc $(OUT)/fox_card.pc "$(ROOT)/lib/pkgconfig"
	install -m 644 $(OUT)/stretch.1 "$(ROOT)/share/man/man1"

uninstall:
	for file in lib/libfox.a lib/libfox_card.a lib/libfox.so.$(VERSION) lib/$(SONAME) lib/libfox.so \
	    include/fox.h lib/pkgconfig/fox.pc lib/pkgconfig/fox_card.pc bin/stretch share/man/man1/stretch.1; do \
	    rm -f "$(ROOT)/$$file"; done

clean:
	rm -rf target build crates/*/out
