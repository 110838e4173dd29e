# What can be done here; `make` alone lists it.

CARGO := cargo run --quiet --offline --manifest-path compare/Cargo.toml --target-dir target/compare --
BENCH := --quiet --release --offline --manifest-path bench/Cargo.toml --target-dir target/bench

# The crates that something is made of: libraries for users; libraries that the comparison and the benchmark
# link besides (proved/build.rs has both); and the program. A library has its crate's name, but for these two.
USERS := c2 dump hex radio
INSIDE := c2_wire_probe c2_run
PROGRAM := flash
hex_CRATE := hex_calls
c2_run_CRATE := c2_run_c
crate_of = $(or $($(1)_CRATE),$(1))

LIBRARY := $(USERS:%=target/staticlib/lib%.a)
LIBRARIES := $(LIBRARY) $(INSIDE:%=target/staticlib/lib%.a)
FLASH := target/bin/$(PROGRAM)
SOURCES := $(wildcard crates/*/src/*.rt crates/*/src/*/*.rt)

PREFIX ?= /usr/local
VERSION = $(shell sed -n 's/^.define C2_VERSION_[MP][A-Z]* //p' include/c2.h | paste -sd.)

EXAMPLES := $(patsubst %,target/examples/%,first driver limit pairs waves flash dumps hex radio)
OBJECTS := $(patsubst dist/%.c,target/c/%.o,$(wildcard dist/*.c))
WAVES := target/waves/page.vcd
SHORT := 200
FRAMES := RESET Data_Read_0x04 RESET Address_Write_0x02 Data_Write_0x02 Data_Write_0x04 Data_Write_0x01 PAUSE \
    Address_Write_0xB4 Data_Write_0x08 Address_Read_0x01
WARNINGS := -Wall -Wextra -Wpedantic -Iinclude
STRICT := $(WARNINGS) -Werror
HEADERS := $(wildcard include/*.h)

.PHONY: help library install flash test compare compare-long numbers devices statements examples headers installed waves dumps bench bench-count prove clean
.NOTPARALLEL:

help:
	@echo "make library       build the libraries, $(LIBRARY); the headers are in include/"
	@echo "make install       put headers, libraries and a pkg-config file below PREFIX, $(PREFIX) unless you say"
	@echo "make flash         program a modelled target: IMAGE=file, or the image on standard input"
	@echo "make examples      build and run the C examples: first, driver, limit, pairs, waves, hex, dumps and radio"
	@echo "make waves         write a session's strobes as a waveform, $(WAVES), for gtkwave or PulseView"
	@echo "make dumps         tell where two dumps of a flash differ: A=file B=file; P=1024 for its page size"
	@echo "make test          prove everything (rt ci), then compare, and run the examples"
	@echo "make compare       the comparison with a second implementation in Rust, half a minute"
	@echo "make compare-long  the comparison over many more cases"
	@echo "make numbers       compare every list of the numbers that come back with docs/NUMBERS.md"
	@echo "make devices       open a session with the pairs of each family in docs/DEVICES.md"
	@echo "make statements    compare the names in docs/STATEMENTS.md with the crates"
	@echo "make bench         time the library beside plain Rust, some minutes; ARGS=--quick for less"
	@echo "make bench-count   its instructions beside those stored, by valgrind; ARGS=--tables for all"
	@echo "make c             prove what has changed, then make dist/, the library as C99, anew"
	@echo "make cortex-m      code, stack and instructions of dist/ on a Cortex-M0+ and M4, under qemu"
	@echo "make prove         prove what has changed since the last time"
	@echo "make clean         remove everything that was built"

library: $(LIBRARY)
	@echo "$(LIBRARY): built, for the headers in include/"

install: $(LIBRARY)
	@install -d $(DESTDIR)$(PREFIX)/include $(DESTDIR)$(PREFIX)/lib/pkgconfig
	@install -m 644 $(HEADERS) $(DESTDIR)$(PREFIX)/include
	@install -m 644 $(LIBRARY) $(DESTDIR)$(PREFIX)/lib
	@sed 's|@PREFIX@|$(PREFIX)|;s|@VERSION@|$(VERSION)|;s|@LIBS@|$(USERS:%=-l%)|' include/c2.pc.in \
	    >$(DESTDIR)$(PREFIX)/lib/pkgconfig/c2.pc
	@echo "c2 $(VERSION) is in $(DESTDIR)$(PREFIX)"

# The program's three lines; unless its outcome is 32 this fails, and says in words why.
flash: target/examples/flash
	@lines=$$($< $(if $(IMAGE),<'$(IMAGE)')) && echo "$$lines" && number=$${lines##*outcome } && \
	    { test "$$number" = 32 || { sed -n "s/^| $$number | [^|]* | \(.*\) | \(.*\) |$$/\1: \2/p" docs/NUMBERS.md >&2; false; }; }

# First everything is proved by rt ci; the comparison and the examples then run on libraries and a program that
# are made anew from what it proved. The count comes last, and only if they pass.
test:
	@sh tools/gate.sh $(MIR) $(INSIDE:%=target/staticlib/lib%.a)
	@$(MAKE) --no-print-directory compare numbers statements headers installed examples dist-test
	@cat target/count

compare: $(FLASH) $(LIBRARIES)
	@$(CARGO) --program $(FLASH)

compare-long: $(FLASH) $(LIBRARIES)
	@$(CARGO) --long --program $(FLASH)

# The numbers that come back stand once, in docs/NUMBERS.md.
numbers:
	@sh tools/numbers.sh

# The pairs of docs/DEVICES.md as a reader pastes them: each passes 19, and programs a model that wants it.
devices: $(OBJECTS)
	@mkdir -p target/examples
	@sh tools/devices.sh docs/DEVICES.md >target/examples/devices.c
	@$(CC) -std=c11 $(STRICT) target/examples/devices.c $(OBJECTS) -o target/examples/devices
	@target/examples/devices

# Names in docs/STATEMENTS.md exist, and its map is whole.
statements:
	@sh tools/statements.sh

# The first one is the program of README.md, word for word below its first line. The waveform has a header,
# the session's first frames, and in so many steps a falling edge of C2CK for each but 5 and 6. The picture is
# README's.
examples: $(EXAMPLES)
	@sed -n '/^```c$$/,/^```$$/{/^```/!p;}' README.md >target/examples/readme.c
	@sed 1d examples/first.c | diff - target/examples/readme.c
	@target/examples/first
	@target/examples/driver
	@target/examples/limit
	@target/examples/pairs
	@$(MAKE) --no-print-directory devices
	@printf ':100200006761696E206B6E6F62732C20746869720F\n:00000001FF\n' >target/examples/good.hex
	@printf ':0102000041BD\n:00000001FF\n' >target/examples/bad.hex
	@target/examples/hex target/examples/good.hex
	@! target/examples/hex target/examples/bad.hex
	@target/examples/radio
	@target/examples/waves $(SHORT) >target/examples/short.vcd
	@sed '/^#/,$$d' target/examples/short.vcd | tr '\n' ' ' | \
	    grep -q '^$$version .*$$timescale 1 ns $$end .*$$enddefinitions $$end $$'
	@test $$(grep -c '^0k' target/examples/short.vcd) -eq \
	    $$(($(SHORT) - $$(grep -cE '^s[56] s$$' target/examples/short.vcd)))
	@test "$$(sed -n 's/^s\(.*\) n$$/\1/p' target/examples/short.vcd | head -n $(words $(FRAMES)) | xargs)" = "$(FRAMES)"
	@echo "ok     waves: $(SHORT) steps, one low pulse on C2CK for each but pauses and the end; the frames in order"
	@target/examples/waves --svg | diff docs/frames.svg -
	@echo "ok     waves: docs/frames.svg is what the library's steps draw"
	@yes | head -c 65536 >target/examples/old.bin
	@yes x | head -c 65536 >target/examples/new.bin
	@target/examples/dumps target/examples/old.bin target/examples/old.bin | grep -qx 'equal: 65536 bytes'
	@! target/examples/dumps target/examples/old.bin target/examples/new.bin >target/examples/ranges
	@test $$(grep -cE '^ +[0-9]+ +[0-9]*[02468] +1  79 +78$$' target/examples/ranges) -eq 32768
	@echo "ok     dumps: every second byte of 64 KiB differs, 32768 ranges in pieces of the list buffer"

# As C11 and C++20: each header alone, and all of them in one file, in either order and twice; the examples as C++20 too,
# since drivers are written in both.
headers:
	@mkdir -p target/examples
	@for header in $(HEADERS) $(HEADERS); do echo "#include \"$$header\""; done >target/examples/all.h
	@tac target/examples/all.h >target/examples/reversed.h
	@for file in $(HEADERS) target/examples/all.h target/examples/reversed.h; do \
	    echo "#include \"$$file\"" | $(CC) -std=c11 $(STRICT) -I. -fsyntax-only -x c - && \
	    echo "#include \"$$file\"" | $(CXX) -std=c++20 $(STRICT) -I. -fsyntax-only -x c++ - || exit 1; done
	@for file in $(wildcard examples/*.c examples/driver/*.c examples/waves/*.c); do \
	    $(CXX) -x c++ -std=c++20 $(STRICT) -fsyntax-only $$file || exit 1; done
	@echo "ok     headers: $(words $(HEADERS)), each alone and all together, as C11 and C++20"

# What `make install` puts somewhere is enough to build a program there.
installed: $(LIBRARY)
	@rm -rf target/examples/installed && mkdir -p target/examples/installed
	@$(MAKE) --no-print-directory install PREFIX=$(CURDIR)/target/examples/installed >/dev/null
	@cd target/examples/installed && $(CC) -std=c11 ../../../examples/first.c -o first \
	    $$(PKG_CONFIG_PATH=lib/pkgconfig pkg-config --cflags --libs c2) && ./first >/dev/null
	@test "$$(PKG_CONFIG_PATH=target/examples/installed/lib/pkgconfig pkg-config --modversion c2)" = $(VERSION)
	@echo "ok     installed: a program built by pkg-config, version $(VERSION)"

waves: $(WAVES)
	@echo "$(WAVES): the session of one page. PulseView imports it; for GTKWave:"
	@echo "gtkwave $(WAVES) examples/waves/page.gtkw"

$(WAVES): target/examples/waves
	@mkdir -p $(@D)
	@target/examples/waves >$@ || { rm -f $@; false; }

# The exit status is the program's, cmp's; that the dumps differ is no failure of make's.
dumps: target/examples/dumps
	@$< '$(A)' '$(B)' $(P) || test $$? -eq 1

# Never part of the tests: its figures are the machine's as much as the code's.
bench: $(LIBRARIES)
	@cargo run $(BENCH) -- $(ARGS)

# Nor this: it wants valgrind. Instructions are exact, and one that a change adds shows.
bench-count: $(LIBRARIES)
	@cargo build $(BENCH)
	@python3 -B bench/count.py target/bench/release/bench $(ARGS)

# An example is a file or a folder. A C compiler is enough: the calls come from dist/.
.SECONDEXPANSION:
target/examples/%: $$(wildcard examples/$$*.c examples/$$*/*.[ch]) $(HEADERS) $(OBJECTS)
	@mkdir -p target/examples
	@$(CC) -std=c11 -O2 $(WARNINGS) $(filter %.c,$^) $(OBJECTS) -o $@

$(OBJECTS): target/c/%.o: dist/%.c $(HEADERS)
	@mkdir -p target/c
	@$(CC) -std=c99 -O2 $(WARNINGS) -c $< -o $@

# What is proved goes to the error stream, so that only the program writes to standard output. OVER_CI is set where
# rt ci has just proved the crates below, and left their libraries.
target/staticlib/lib%.a: $(SOURCES)
	@mkdir -p $(@D)
ifdef OVER_CI
	@sh tools/build.sh staticlib $(call crate_of,$*) $@
else
	@sh tools/prove.sh lib $(call crate_of,$*) >&2
	@cp crates/$(call crate_of,$*)/out/lib$(call crate_of,$*).a $@
endif

$(FLASH): $(SOURCES)
	@mkdir -p $(@D)
	@sh tools/prove.sh run $(PROGRAM) >&2
	@cp crates/$(PROGRAM)/out/$(PROGRAM) $@

prove:
	@rt all check

clean:
	@rm -rf target crates/*/out

include translate/rules.mk
