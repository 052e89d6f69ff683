# make: the C archive, with its proofs, and the examples, below target/.
# make sample: judges the sample sheets, shows and runs the flag sheet and opens the order desk.  make test: all tests and proofs.
# make archive: the C archive alone.  make runner: document 01's runner program, with its proofs, as target/runner.
# make install PREFIX=/where: header, archive, pkg-config file and the runner as beltuqash-runner.  make uninstall PREFIX=/where: takes them away.
# make bench: instructions, time and stack beside the same monitor in C.  make clean: takes away all that was made.
VERSION := $(shell sed -n 's/^.define BELTUQASH_VERSION "\(.*\)"$$/\1/p' include/beltuqash.h)
PREFIX = /usr/local
ARCHIVE = target/staticlib/libbeltuqash.a
RUNNER = target/bin/runner
EXAMPLES = target/judge target/show target/flag target/order_desk target/lesson
TESTS = target/damaged target/shop
CFLAGS = -std=c11 -O2 -Wall -Wextra -Wconversion

# What the proved programs are made of; out/ has what the prover makes.
SOURCES := crates.txt $(shell find crates -name out -prune -o \( -name '*.rt' -o -name '*.antt' \) -print)

# The archive is for x86-64: what compiles a program for it, and what the program is started under on this machine.
CC := $(shell . tests/platform && echo "$$CC")
RUN := $(shell . tests/platform && echo "$$RUN")

# Where things are installed; the pkg-config file names it in full.
prefix = $(abspath $(PREFIX))
root = $(DESTDIR)$(prefix)

.PHONY: all archive examples prepare runner sample install uninstall clean bench test

all: archive examples

archive: $(ARCHIVE)

# A file that is up to date is not looked at again; the date of one that is made anew is that of its making, also where nothing had to be proved.
$(ARCHIVE): $(SOURCES)
	@tests/proving archive
	@touch $@

$(RUNNER): $(SOURCES) | prepare
	@tests/proving runner
	@touch $@

examples: $(EXAMPLES)

vpath %.c examples tests

$(EXAMPLES) $(TESTS): target/%: %.c include/beltuqash.h examples/common.h $(ARCHIVE) | prepare
	@mkdir -p target/x86-64
	@$(CC) $(CFLAGS) -Iinclude $< $(ARCHIVE) -o target/x86-64/$*
	@$(call starter,x86-64/$*)

prepare:
	@tests/prepare

runner: target/runner

target/runner: $(RUNNER)
	@$(call starter,bin/runner)

# Makes target/NAME, a script that starts the program target/DIRECTORY/NAME.
starter = printf '%s\n' '\#!/bin/sh' 'exec $(RUN) "$${0%/*}/$(1)" "$$@"' > target/$(notdir $(1)) && chmod +x target/$(notdir $(1))

# Two of the sheets are refused, and judge says so: exit 1.
sample: examples
	@target/judge examples/*.sheet; test $$? -eq 1
	@target/show examples/flag.sheet
	@target/flag examples/flag.sheet
	@target/order_desk examples/flag.sheet
	@target/order_desk examples/sealed.sheet

install: $(ARCHIVE) $(RUNNER)
	@install -d "$(root)/include" "$(root)/lib/pkgconfig" "$(root)/bin"
	@install -m 644 include/beltuqash.h "$(root)/include/beltuqash.h"
	@install -m 644 $(ARCHIVE) "$(root)/lib/libbeltuqash.a"
	@install -m 755 $(RUNNER) "$(root)/bin/beltuqash-runner"
	@printf '%s\n' 'prefix=$(prefix)' 'includedir=$${prefix}/include' 'libdir=$${prefix}/lib' '' \
	    'Name: beltuqash' 'Description: runs calculation sheets so that closed fields stay closed' 'Version: $(VERSION)' \
	    'Cflags: -I$${includedir}' 'Libs: -L$${libdir} -lbeltuqash' > "$(root)/lib/pkgconfig/beltuqash.pc"

uninstall:
	@rm -f "$(root)/include/beltuqash.h" "$(root)/lib/libbeltuqash.a" "$(root)/bin/beltuqash-runner" "$(root)/lib/pkgconfig/beltuqash.pc"

clean:
	@rm -rf target tests/target crates/*/out

bench: $(ARCHIVE)
	@bench/run

test:
	@.ci/run
