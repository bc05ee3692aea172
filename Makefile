# The C and Rust side of Arznavik: the example, the host tests and the measurements, over the static
# library that `rt lib` in crates/host proves and builds. `make help` lists the commands; it prints
# the lines of this file that begin with ##.

ARCHIVE ?= target/staticlib/libhost.a
# The check bit by bit, which only the measurements link.
BITWISE ?= target/staticlib/libbitwise_bench.a
REPLAY ?= target/bin/replay
CASES ?= target/bin/run_cases
OUT ?= target/out
RUSTC ?= rustc
SIZE ?= size
CLANG ?= clang
VALGRIND ?= valgrind
FUZZ_SECONDS ?= 60

WARNINGS := -Wall -Wextra -Wpedantic -Werror
CFLAGS := -std=c99 -O2 $(WARNINGS) -Iinclude
CXXFLAGS := -std=c++11 -O2 $(WARNINGS) -Iinclude
RUSTFLAGS := --edition 2021 -C opt-level=2 -D warnings
# The library is compiled at -O3, and so is the C that it is measured against.
BENCH_CFLAGS := -std=c99 -O3 $(WARNINGS) -Iinclude

HEADERS := $(wildcard include/*.h $(addsuffix /*.h,tests/c tests/fuzz bench examples/firmware))
C_TESTS := known_answers crc writer reader header collector line
TESTS := $(C_TESTS) serial reference division differential damage replay_reference replay_test \
	history_text history_text_test ash_reference ash_test packet_reference packet_test \
	session_reference session_test display_reference display_test
PLAIN := bench/plain_frame.c bench/plain_crc.c
MEASURED := bench/workload.c $(PLAIN)
RECEIVER ?= target/bin/receive_bench

# What a rule compiles and links: its prerequisites without the headers.
INPUTS = $(filter-out %.h,$^)

# $(call need,PROGRAM,WHAT IT IS) ends a rule with a clear word where a program is missing.
need = @command -v $(firstword $(1)) >/dev/null || { echo "make: $@ needs $(1), $(2)" >&2; exit 1; }
need_rt = $(call need,rt,the Rattle toolchain: put it on the PATH)
# $(call rust,OPTIONS) compiles the first prerequisite.
define rust
$(call need,$(RUSTC),the Rust compiler (1.80 or later): install it or set RUSTC)
$(RUSTC) $(RUSTFLAGS) $(1) -o $@ $<
endef

.PHONY: all help run example history_text test soak mutants written-edits emptied fuzz fuzz-packages \
	valgrind bench bench-receive measure clean
.DELETE_ON_ERROR:

## make                  build the library and the example
all: $(ARCHIVE) $(OUT)/display

## make help             print this list
help:
	@sed -n 's/^## \{0,1\}//p' $(firstword $(MAKEFILE_LIST))

# What rt builds lies in the crate's out/, which `rt ci` empties of it: so copies are taken.
SOURCES := crates.txt $(shell find crates -type f -not -path 'crates/*/out/*')

# rt proves again only what has changed.
$(patsubst %,target/staticlib/lib%.a,host bitwise_bench): target/staticlib/lib%.a: $(SOURCES)
	$(need_rt)
	cd crates/$* && rt lib
	mkdir -p $(@D)
	cp crates/$*/out/lib$*.a $@

# rt runs what it has built. With no input these programs have nothing to do.
$(addprefix target/bin/,replay run_cases receive_bench): target/bin/%: $(SOURCES)
	$(need_rt)
	cd crates/$* && rt run </dev/null >/dev/null
	mkdir -p $(@D) target/obj
	cp crates/$*/out/$*.o target/obj/$*.o
	cp crates/$*/out/$* $@

# What the programs call of the toolchain's C, where their object files are linked into others.
RUNTIME = $(addprefix $(dir $(shell rt doc))c/,libos_c.a liblibc_c.a)

$(OUT):
	mkdir -p $@

# The example

$(OUT)/display: $(addprefix examples/firmware/,main.c collector.c line.c) $(HEADERS) $(ARCHIVE) | $(OUT)
	$(CC) $(CFLAGS) -o $@ $(INPUTS)

## make run              show the board of a bundled history, by the program `replay`
run: $(REPLAY)
	$(REPLAY) <examples/histories/case_6.history

## make example          run the example firmware loop on the bundled capture
example: $(OUT)/display
	$(OUT)/display examples/captures/line.capture

# The tool between histories and readable texts

## make history_text     build target/out/history_text, between histories and texts (rustc)
history_text: $(OUT)/history_text

$(OUT)/history_text: tools/history_text/main.rs tools/history_text/text.rs | $(OUT)
	$(call rust)

# The tests

$(OUT)/history_text_test: tools/history_text/main.rs tools/history_text/text.rs | $(OUT)
	$(call rust,--test)

$(OUT)/expect.o $(OUT)/calls.o: $(OUT)/%.o: tests/c/%.c $(HEADERS) | $(OUT)
	$(CC) $(CFLAGS) -c -o $@ $<

$(OUT)/known_answers $(OUT)/writer $(OUT)/reader: $(OUT)/%: tests/c/%.c $(HEADERS) \
		$(OUT)/calls.o $(OUT)/expect.o $(ARCHIVE)
	$(CC) $(CFLAGS) -o $@ $(INPUTS)

$(OUT)/crc: tests/c/crc.c $(PLAIN) $(HEADERS) $(OUT)/expect.o $(ARCHIVE)
	$(CC) $(CFLAGS) -Ibench -o $@ $(INPUTS)

$(OUT)/header: tests/c/header.cpp $(HEADERS) $(OUT)/expect.o $(ARCHIVE)
	$(CXX) $(CXXFLAGS) -o $@ $(INPUTS)

$(OUT)/collector: tests/c/collector.c examples/firmware/collector.c $(HEADERS) $(OUT)/expect.o \
		$(ARCHIVE)
	$(CC) $(CFLAGS) -Iexamples/firmware -o $@ $(INPUTS)

$(OUT)/line: tests/c/line.c examples/firmware/line.c $(HEADERS) $(OUT)/expect.o
	$(CC) $(CFLAGS) -Iexamples/firmware -o $@ $(INPUTS)

$(OUT)/serial: tests/c/serial.c $(HEADERS) $(OUT)/expect.o
	$(CC) $(CFLAGS) -o $@ $(INPUTS)

# What several of the Rust tests are built of; a change in one builds them all again.
RUST_SHARED := $(wildcard tests/shared/*.rs tests/reference/*.rs)

$(OUT)/reference: tests/reference/frame.rs | $(OUT)
	$(call rust,--test)

$(OUT)/division: tests/reference/division.rs | $(OUT)
	$(call rust,--test)

$(OUT)/differential: tests/differential/main.rs $(wildcard tests/differential/*.rs) $(RUST_SHARED) \
		$(ARCHIVE) | $(OUT)
	$(call rust,-C link-arg=$(ARCHIVE))

$(OUT)/damage: tests/damage/main.rs $(wildcard tests/damage/*.rs) $(RUST_SHARED) $(ARCHIVE) | $(OUT)
	$(call rust,-C link-arg=$(ARCHIVE))

REPLAY_TEST := tests/replay/main.rs $(wildcard tests/replay/*.rs) $(RUST_SHARED)

$(OUT)/replay_test: $(REPLAY_TEST) | $(OUT)
	$(call rust)

$(OUT)/replay_reference: $(REPLAY_TEST) | $(OUT)
	$(call rust,--test)

ASH_TEST := tests/ash/main.rs $(wildcard tests/ash/*.rs) $(RUST_SHARED)

$(OUT)/ash_test: $(ASH_TEST) | $(OUT)
	$(call rust)

$(OUT)/ash_reference: $(ASH_TEST) crates/run_cases/stdin crates/run_cases/stdout | $(OUT)
	$(call rust,--test)

PACKET_TEST := tests/packet/main.rs $(wildcard tests/packet/*.rs) $(RUST_SHARED)

$(OUT)/packet_test: $(PACKET_TEST) | $(OUT)
	$(call rust)

$(OUT)/packet_reference: $(PACKET_TEST) crates/run_cases/stdin crates/run_cases/stdout | $(OUT)
	$(call rust,--test)

SESSION_TEST := tests/session/main.rs $(wildcard tests/session/*.rs) $(RUST_SHARED)

$(OUT)/session_test: $(SESSION_TEST) | $(OUT)
	$(call rust)

$(OUT)/session_reference: $(SESSION_TEST) crates/run_cases/stdin crates/run_cases/stdout | $(OUT)
	$(call rust,--test)

DISPLAY_TEST := tests/display/main.rs $(wildcard tests/display/*.rs) $(RUST_SHARED)

$(OUT)/display_test: $(DISPLAY_TEST) | $(OUT)
	$(call rust)

$(OUT)/display_reference: $(DISPLAY_TEST) crates/run_cases/stdin crates/run_cases/stdout | $(OUT)
	$(call rust,--test)

CAPTURE := examples/captures/line
CASE_6 := examples/histories/case_6
AT_THE_FLAG := examples/histories/refusal_1_at_the_flag

## make test             run the host tests, and replay the histories of examples/ (rustc, python3)
test: $(addprefix $(OUT)/,$(TESTS)) $(OUT)/display $(REPLAY) $(CASES)
	$(call need,python3,Python (3.10 or later))
	@set -e; for test in $(C_TESTS); do $(OUT)/$$test; done
	@tests/example/run.sh $(OUT)/display $(CAPTURE).capture $(CAPTURE).expected
	@$(OUT)/serial $(OUT)/display
	@rm -rf $(OUT)/histories
	@tests/histories/cases.py $(OUT)/histories
	@diff -r -x '*.txt' $(OUT)/histories examples/histories
	@tests/histories/run.sh $(REPLAY) examples/histories
	@$(OUT)/reference --quiet
	@$(OUT)/division --quiet
	@$(OUT)/differential
	@$(OUT)/damage
	@$(OUT)/history_text_test --quiet
	@tests/history_text/run.sh $(OUT)/history_text $(CASE_6).history $(CASE_6).txt $(OUT)/display \
		$(AT_THE_FLAG).history "refused 1 at byte 6"
	@$(OUT)/replay_reference --quiet
	@$(OUT)/replay_test $(REPLAY) 20000 1
	@$(OUT)/ash_reference --quiet
	@$(OUT)/ash_test $(CASES)
	@$(OUT)/packet_reference --quiet
	@$(OUT)/packet_test $(CASES)
	@$(OUT)/session_reference --quiet
	@$(OUT)/session_test $(CASES)
	@$(OUT)/display_reference --quiet
	@$(OUT)/display_test $(CASES)
	@tests/mutants/written.py --apply-only
	@tests/mutants/table.py --check

## make soak             compare `replay` with the reference on a million histories (rustc)
soak: $(OUT)/replay_test $(REPLAY)
	$(OUT)/replay_test $(REPLAY) 1000000 $$(date +%s)

# The fuzzers: the library and `replay` as they were compiled, each held to what was written a
# second time. The C and Rust code around them has counters that the fuzzer follows.

FUZZ := $(OUT)/fuzz
FUZZ_CFLAGS := -std=c99 -O2 -g $(WARNINGS) -Iinclude -Ibench -Iexamples/firmware
SANITIZERS := -fsanitize=fuzzer,address,undefined -fno-sanitize-recover=undefined
COUNTERS := level=3 inline-8bit-counters pc-table trace-compares
FUZZ_COUNTERS := -C panic=abort -C codegen-units=1 --crate-type staticlib \
	-C passes=sancov-module $(addprefix -C llvm-args=-sanitizer-coverage-,$(COUNTERS))

fuzz-packages:
	@tests/fuzz/packages.sh $(CLANG)

$(FUZZ): | fuzz-packages
	mkdir -p $@

# The library, with its own functions visible.
$(FUZZ)/archive.o: $(ARCHIVE) | $(FUZZ)
	ar p $< >$@
	objcopy --wildcard --globalize-symbol='*::*' $@

# The program's main, read and write under other names, and its own functions visible.
$(FUZZ)/replay.o: $(REPLAY) | $(FUZZ)
	objcopy --wildcard --globalize-symbol='*::*' --redefine-sym main=replay_main \
		--redefine-sym read=replay_read --redefine-sym write=replay_write target/obj/replay.o $@

$(FUZZ)/%.s: $(FUZZ)/%.o tests/fuzz/instructions.awk
	objdump -d --no-show-raw-insn $< | awk -v listing=$(FUZZ)/$*.listing \
		-f tests/fuzz/instructions.awk >$@

$(FUZZ)/coverage.o: tests/fuzz/coverage.c $(HEADERS) | $(FUZZ)
	$(CLANG) $(FUZZ_CFLAGS) -c -o $@ $<

$(FUZZ)/archive: tests/fuzz/archive.c examples/firmware/collector.c $(PLAIN) $(HEADERS) \
		$(addprefix $(FUZZ)/,coverage.o archive.s archive.o)
	$(CLANG) $(FUZZ_CFLAGS) $(SANITIZERS) -o $@ $(INPUTS)

$(FUZZ)/libreplay.a: tests/fuzz/replay.rs $(wildcard tests/fuzz/*.rs) tests/replay/histories.rs \
		$(RUST_SHARED) | $(FUZZ)
	$(call rust,$(FUZZ_COUNTERS))

$(FUZZ)/replay: $(addprefix $(FUZZ)/,coverage.o replay.s replay.o libreplay.a)
	$(CLANG) -fsanitize=fuzzer -o $@ $(INPUTS) $(RUNTIME)

## make fuzz             fuzz the library and `replay`, each for FUZZ_SECONDS=60 (rustc, clang and its
##                       fuzzer's library, binutils)
fuzz: $(FUZZ)/archive $(FUZZ)/replay
	@tests/fuzz/run.sh $(FUZZ) archive $(FUZZ_SECONDS) 1200 examples/captures/line.capture \
		examples/histories/*.history
	@tests/fuzz/run.sh $(FUZZ) replay $(FUZZ_SECONDS) 8192 examples/histories/*.history

# The tests under valgrind

## make valgrind         run the host tests under valgrind, some minutes (rustc, valgrind)
valgrind: $(addprefix $(OUT)/,$(C_TESTS) serial differential replay_test display) $(REPLAY) $(CASES)
	@tests/valgrind/run.sh $(VALGRIND) $(OUT) $(REPLAY) $(CASES) $(C_TESTS)

# Mutants: small wrong programs, each to be refused

# The crates that have code to change, and those that have written edits. CRATES=.. names fewer.
MUTATED := refusals slices crc frame ash cutter session host packet value rows board link sender display transfer history cases
EDITED := $(notdir $(wildcard tests/mutants/written/*))
# On the contracts of `cases` no library rests that has a theorem.
EMPTIED := $(filter-out cases,$(MUTATED))
# $(call check,CRATES) proves crates one after the other.
check = set -e; for crate in $(1); do (cd crates/$$crate && rt check); done

## make mutants          try small wrong programs against the prover; hours for all crates, of some:
##                       make mutants CRATES="crc value" (python3)
mutants: written-edits
	$(call check,$(or $(CRATES),$(MUTATED)))
	tests/mutants/run.py $(OUT)/mutants $(or $(CRATES),$(MUTATED))

## make written-edits    try the written ones of them alone; CRATES as above (python3)
written-edits:
	$(need_rt)
	$(call check,$(or $(CRATES),$(EDITED)))
	tests/mutants/written.py --try $(or $(CRATES),$(EDITED))

## make emptied          empty the contract of each public function, and say what breaks; CRATES as
##                       above (python3)
emptied:
	$(need_rt)
	$(call check,$(or $(CRATES),$(EMPTIED)) conversation ledger answers)
	mkdir -p $(OUT)
	tests/mutants/emptied.py $(OUT)/emptied $(or $(CRATES),$(EMPTIED))

# The measurements

# What is timed begins at a cache line, as some hundredths depend on its place in the program.
ALIGN_C := -falign-functions=64
ALIGN_ARCHIVE := objcopy --wildcard --set-section-alignment '.text.*=64'

$(OUT)/library.a: $(ARCHIVE) | $(OUT)
	$(ALIGN_ARCHIVE) $< $@

$(OUT)/bitwise.a: $(BITWISE) | $(OUT)
	$(ALIGN_ARCHIVE) $< $@

# With EARLIER=COMMIT the library of that commit is measured too, if this toolchain proves it. It is proved
# and built outside the checkout, since `rt ci` refuses a second crates.txt inside; its calls are renamed to
# earlier_.. The programs that measure it stand in a folder of their own.
BENCH_OUT := $(OUT)
ifdef EARLIER
COMMIT := $(shell git rev-parse --verify --quiet '$(EARLIER)^{commit}')
$(if $(COMMIT),,$(error EARLIER=$(EARLIER) is no commit of this repository))
BENCH_OUT := $(OUT)/earlier/$(COMMIT)
EARLIER_ARCHIVE := $(BENCH_OUT)/libearlier.a
EARLIER_FLAGS := -DEARLIER
RENAMED := $(foreach call,crc frame_write frame_check,--redefine-sym arznavik_$(call)=earlier_$(call))

$(EARLIER_ARCHIVE):
	$(need_rt)
	mkdir -p $(BENCH_OUT)
	set -e; work=$$(mktemp -d); trap 'rm -rf "$$work"' EXIT; \
	git archive $(COMMIT) | tar -x -C "$$work"; \
	(cd "$$work/crates/host" && rt lib); \
	$(ALIGN_ARCHIVE) --keep-global-symbol='earlier_*' $(RENAMED) "$$work/crates/host/out/libhost.a" $@
endif

LIBRARIES := $(OUT)/library.a $(OUT)/bitwise.a $(EARLIER_ARCHIVE)

$(BENCH_OUT)/speed: bench/speed.c $(MEASURED) $(HEADERS) $(LIBRARIES) | $(OUT)
	$(CC) $(BENCH_CFLAGS) $(ALIGN_C) $(EARLIER_FLAGS) -o $@ $(INPUTS)

$(BENCH_OUT)/stack: bench/stack.c bench/painted.c $(MEASURED) $(HEADERS) $(LIBRARIES) | $(OUT)
	$(CC) $(BENCH_CFLAGS) $(ALIGN_C) $(EARLIER_FLAGS) -o $@ $(INPUTS)

# A program whose main, read and write have other names.
$(OUT)/%.program.o: target/bin/% | $(OUT)
	objcopy --redefine-sym main=program_main --redefine-sym read=program_read \
		--redefine-sym write=program_write target/obj/$*.o $@

$(OUT)/replay_stack $(OUT)/run_cases_stack: $(OUT)/%_stack: bench/program_stack.c bench/painted.c \
		$(HEADERS) $(OUT)/%.program.o
	$(CC) $(BENCH_CFLAGS) -o $@ $(INPUTS) $(RUNTIME)

# Packets of 1 to 499,998 items: three from the line, and the others by cases.
ITEM_HISTORIES := $(patsubst %,examples/histories/%.history,case_6 items_before_the_name items_189)
ITEM_CASES := $(patsubst %,bench/items_%.txt,1 189 44998 499998)

$(OUT)/receive $(OUT)/plain_receiver: $(OUT)/%: bench/%.c $(PLAIN) $(HEADERS) | $(OUT)
	$(CC) $(BENCH_CFLAGS) -o $@ $(INPUTS)

$(OUT)/table_receiver: bench/plain_receiver.c $(PLAIN) $(HEADERS) | $(OUT)
	$(CC) $(BENCH_CFLAGS) -DCONTENT_CRC=table_crc -o $@ $(INPUTS)

## make measure          measure stack and code size alone; EARLIER as below (binutils)
measure: $(BENCH_OUT)/stack $(addprefix $(OUT)/,replay_stack run_cases_stack)
	@$(BENCH_OUT)/stack
	@echo "stack in bytes of whole programs"
	@$(OUT)/replay_stack $(ITEM_HISTORIES)
	@$(OUT)/run_cases_stack $(ITEM_CASES)
	@echo "code size in bytes (text)"
	@$(SIZE) $(ARCHIVE) $(BITWISE) $(EARLIER_ARCHIVE)

## make bench            measure speed, stack and code size; beside the library of an earlier commit:
##                       make bench EARLIER=COMMIT, which proves that one first (binutils, git)
bench: $(BENCH_OUT)/speed measure bench-receive
	@$(BENCH_OUT)/speed

## make bench-receive    measure the speed of the receiver alone
bench-receive: $(addprefix $(OUT)/,receive plain_receiver table_receiver) $(RECEIVER)
	@$(OUT)/receive $(RECEIVER) $(OUT)/plain_receiver $(OUT)/table_receiver

## make clean            remove what this file built, the library apart
clean:
	rm -rf $(OUT)

##
## The library and the programs are built by rt, the Rattle toolchain, and the C by a C99 and C++11
## compiler. What else a command needs stands behind it in brackets.
