# dist/, the proved code as C99: how it is made, and what holds it.

# The crates with a face in C are those that users get a library of; the headers of each, one file in dist/
# for each header.
FACES := $(USERS)
c2_HEADERS := include/c2.h include/c2_target.h
dump_HEADERS := include/c2_dump.h
hex_HEADERS := include/c2_hex.h
radio_HEADERS := include/radio.h

TRANSLATE := cargo run --quiet --offline --manifest-path translate/Cargo.toml --target-dir target/translate --
MIR := $(FACES:%=target/mir/%.mir)

DIST := $(foreach face,$(FACES),$(patsubst include/%.h,dist/%.c,$($(face)_HEADERS)))

.PHONY: c proved-faces dist-test dist-same dist-refusals dist-strict dist-symbols dist-cases dist-replay dist-compare \
    dist-examples

# The MIR of a face's exported functions and of what they reach: the crate's own, and that of the libraries below and
# of the toolchain's, as the library is linked of it.
target/mir/%.mir: target/staticlib/lib%.a
	@mkdir -p $(@D)
	@sh tools/build.sh mir $(call crate_of,$*) target/mir/$(call crate_of,$*).json
	@python3 -B translate/mir.py $(call crate_of,$*) $$(nm -g --defined-only $< | awk 'NF == 3 { print $$3 }') -- \
	    target/mir/$(call crate_of,$*).json $$(dirname $$(rt doc))/rlibs/core.rlib \
	    $$(sh tools/below.sh $(call crate_of,$*) | sed '$$d;s|.*|crates/&/out/rlib/&.rlib|') >$@.part
	@mv $@.part $@

# Not by the files' times: what is stated may have changed, and not the code.
proved-faces:
	@for face in $(foreach face,$(FACES),$(call crate_of,$(face))); do sh tools/prove.sh lib $$face >&2 || exit 1; done

# Makes the C files of every face in that folder.
translated = $(foreach face,$(FACES),$(TRANSLATE) $(call crate_of,$(face)) target/mir/$(face).mir $(1) $($(face)_HEADERS) &&) true

c: proved-faces $(MIR)
	@rm -rf target/dist/made
	@mkdir -p target/dist/made
	@$(call translated,target/dist/made)
	@rm -rf dist
	@cp -r target/dist/made dist
	@echo "$(DIST): made anew from the proved tree"

# ---- What holds it: some 90 s in `make test`

dist-test: dist-same dist-refusals dist-strict dist-cases dist-replay dist-symbols dist-examples dist-compare

dist-same: $(MIR)
	@rm -rf target/dist/made
	@mkdir -p target/dist/made
	@$(call translated,target/dist/made)
	@diff -rq target/dist/made dist || { echo "dist/ is not what the proved tree gives: make c"; exit 1; }
	@echo "ok     dist/: what the proved tree gives, byte for byte"

# What the translator must refuse.
dist-refusals:
	@mkdir -p target/dist
	@cargo test --quiet --offline --manifest-path translate/Cargo.toml --target-dir target/translate >target/dist/refusals
	@echo "ok     translator: refuses every edit of its tests"
	@python3 -B translate/mir_test.py

STRICTEST := -std=c99 -Wall -Wextra -Wpedantic -Wconversion -Wsign-conversion -Wshadow -Wcast-qual -Wcast-align \
    -Wmissing-prototypes -Wstrict-prototypes -Wundef -Werror -Iinclude

dist-strict:
	@mkdir -p target/dist
	@for cc in gcc clang; do \
	    command -v $$cc >target/dist/found || { echo "not run: strict compilation by $$cc (Debian package $$cc)"; continue; }; \
	    for file in $(DIST); do $$cc $(STRICTEST) -O2 -c $$file -o target/dist/strict.o || exit 1; done; \
	    echo "ok     $$cc: no warning"; done

# The machine's answers, function by function: for each file of a face, and for the zoo, which has constructs and
# forms that the translator knows and the faces use little or not at all.
cases = python3 -B translate/cases.py $(call crate_of,$(1)) target/mir/$(1).mir $(2) $($(1)_HEADERS) >target/dist/cases_$(notdir $(2)) && \
    $(CC) -std=c99 -O1 $(STRICT) -Wno-unused-function -Idist target/dist/cases_$(notdir $(2)) -o target/dist/cases_$(basename $(notdir $(2))) && \
    timeout 60 target/dist/cases_$(basename $(notdir $(2)))

ZOO := zoo forms

dist-cases: $(MIR)
	@mkdir -p target/dist
	@for name in $(ZOO); do \
	    from=translate/zoo/$$name; made=target/dist/$$name.c; cases=target/dist/cases_$$name; \
	    $(TRANSLATE) $$name $$from.mir target/dist $$from.h && $(CC) $(STRICTEST) -Itranslate/zoo -c $$made -o target/dist/zoo.o && \
	    python3 -B translate/cases.py $$name $$from.mir $$made $$from.h >$$cases.c && \
	    $(CC) -std=c99 -O1 $(STRICT) -Wno-unused-function -Itranslate/zoo $$cases.c -o $$cases && timeout 60 $$cases || exit 1; done
	@$(foreach face,$(FACES),$(foreach header,$($(face)_HEADERS),$(call cases,$(face),dist/$(notdir $(header:.h=.c))) &&)) true

# The same random calls over the library and over dist/.
REPLAYED := 3000000

dist-replay: target/staticlib/libc2.a
	@mkdir -p target/dist
	@$(CC) -std=c99 -O2 $(STRICT) translate/replay.c $< -o target/dist/replay_library
	@$(CC) -std=c99 -O2 $(STRICT) translate/replay.c dist/c2.c dist/c2_target.c -o target/dist/replay
	@target/dist/replay_library $(REPLAYED) >target/dist/replayed
	@timeout 60 target/dist/replay $(REPLAYED) | diff target/dist/replayed -
	@echo "ok     replay: $(REPLAYED) calls, as the library"

# The libraries with dist/ in place of the proved ones.
target/dist/lib/lib%.a: $(DIST) $(HEADERS)
	@mkdir -p $(@D)
	@rm -f $@
	@for file in $(notdir $(basename $($*_HEADERS))); do \
	    $(CC) -std=c99 -O2 $(STRICT) -c dist/$$file.c -o $(@D)/$$file.o && ar rcs $@ $(@D)/$$file.o || exit 1; done

# The same functions as the library's and no others; memcpy and memset at most from outside; no data but
# constants.
dist-symbols: $(FACES:%=target/dist/lib/lib%.a) $(LIBRARY)
	@for library in $(FACES:%=lib%.a); do \
	    for way in staticlib dist/lib; do \
	        nm -g --defined-only target/$$way/$$library | awk 'NF == 3 { print $$3 }' | sort >target/$$way/$$library.names; done; \
	    diff target/staticlib/$$library.names target/dist/lib/$$library.names || exit 1; \
	    nm target/dist/lib/$$library | awk 'NF == 2 && $$2 !~ /^(memcpy|memset)$$/ { print "wanted: " $$2; bad = 1 } \
	        NF == 3 && $$2 ~ /^[BbCDdGgSs]$$/ { print "data: " $$3; bad = 1 } END { exit bad }' || exit 1; done
	@echo "ok     symbols: the library's, no data"

# The examples over the library write what they write over dist/, byte for byte, and the C program what the
# proved one does.
WRITING := $(filter-out flash dumps hex,$(notdir $(EXAMPLES)))
LENGTHS := 0 1 511 512 513 1024 1536 16383 16384 16385 16896 1000000

dist-examples: $(EXAMPLES) $(FLASH) $(LIBRARY)
	@mkdir -p target/dist
	@for name in $(WRITING); do \
	    sources=$$(find examples/$$name* -name '*.c'); \
	    $(CC) -std=c11 -O2 $(STRICT) $$sources $(LIBRARY) -o target/dist/$$name || exit 1; \
	    target/dist/$$name >target/dist/$$name.library && target/examples/$$name >target/dist/$$name.dist || exit 1; \
	    cmp target/dist/$$name.library target/dist/$$name.dist || exit 1; done
	@for file in c2 c2_target; do head -c 65536 dist/$$file.c >target/dist/$$file.bin; done
	@$(CC) -std=c11 -O2 $(STRICT) examples/dumps.c $(LIBRARY) -o target/dist/dumps
	@! target/dist/dumps target/dist/c2.bin target/dist/c2_target.bin >target/dist/dumps.library
	@! target/examples/dumps target/dist/c2.bin target/dist/c2_target.bin >target/dist/dumps.dist
	@cmp target/dist/dumps.library target/dist/dumps.dist
	@printf ':0102000041BC\n:00000001FF\n' >target/dist/good.hex
	@printf ':0102000041BD\n:00000001FF\n' >target/dist/bad.hex
	@$(CC) -std=c11 -O2 $(STRICT) examples/hex.c $(LIBRARY) -o target/dist/hex
	@! target/dist/hex target/dist/good.hex target/dist/bad.hex >target/dist/hex.library
	@! target/examples/hex target/dist/good.hex target/dist/bad.hex >target/dist/hex.dist
	@cmp target/dist/hex.library target/dist/hex.dist
	@for length in $(LENGTHS); do \
	    cat $(DIST) $(DIST) $(DIST) $(DIST) $(DIST) | head -c $$length >target/dist/image; \
	    $(FLASH) <target/dist/image >target/dist/proved && target/examples/flash <target/dist/image | diff target/dist/proved - || exit 1; done
	@$(FLASH) <crates/flash/stdin >target/dist/proved && target/examples/flash <crates/flash/stdin | diff target/dist/proved -
	@echo "ok     examples: over dist/ as over the library; flash as the proved program"

# The whole comparison, with dist/ for the library.
dist-compare: $(FACES:%=target/dist/lib/lib%.a) target/examples/flash $(LIBRARIES)
	@cp $(filter-out $(LIBRARY),$(LIBRARIES)) target/dist/lib
	@C2_LIB_DIR=$(CURDIR)/target/dist/lib $(CARGO) --program target/examples/flash >target/dist/compared || \
	    { cat target/dist/compared; exit 1; }
	@echo "ok     comparison over dist/: $$(tail -n 1 target/dist/compared | xargs)"

# ---- More of the same, for minutes: in `make compare-long`

compare-long: dist-long

.PHONY: dist-long cortex-m

# The sanitizers and other processors, and the comparison over dist/ with every overflow and lossy conversion
# a trap.
dist-long: dist-cases dist-replay dist-examples $(LIBRARIES) target/examples/flash
	@sh translate/elsewhere.sh $(REPLAYED) $(WRITING)
	@mkdir -p target/dist/trap
	@if command -v clang >target/dist/found; then \
	    $(foreach face,$(FACES),rm -f target/dist/trap/lib$(face).a && $(foreach file,$(notdir $(basename $($(face)_HEADERS))), \
	        clang -std=c99 -O2 -fsanitize=undefined,integer -fsanitize-trap=all -Iinclude -c dist/$(file).c \
	            -o target/dist/trap/$(file).o && ar rcs target/dist/trap/lib$(face).a target/dist/trap/$(file).o &&)) \
	    cp $(filter-out $(LIBRARY),$(LIBRARIES)) target/dist/trap && \
	    C2_LIB_DIR=$(CURDIR)/target/dist/trap $(CARGO) --program target/examples/flash >target/dist/compared || \
	        { cat target/dist/compared; exit 1; }; \
	    echo "ok     comparison over dist/, with traps: $$(tail -n 1 target/dist/compared | xargs)"; \
	else echo "not run: the comparison with traps (Debian package clang)"; fi

# Code, stack and instructions for a Cortex-M0+ and a Cortex-M4, and the driver of examples/cortex-m under
# qemu.
cortex-m:
	@mkdir -p target/cortex-m
	@$(CC) -std=c99 -O2 $(STRICT) translate/replay.c dist/c2.c dist/c2_target.c -o target/cortex-m/replay
	@$(CC) -std=c99 -O2 $(WARNINGS) translate/replay.c examples/cortex-m/by_hand.c dist/c2_target.c -o target/cortex-m/replay_by_hand
	@target/cortex-m/replay $(REPLAYED) >target/cortex-m/replayed
	@target/cortex-m/replay_by_hand $(REPLAYED) | diff target/cortex-m/replayed -
	@echo "ok     by_hand.c: $(REPLAYED) calls, as dist/c2.c"
	@python3 -B examples/cortex-m/measure.py target/cortex-m
