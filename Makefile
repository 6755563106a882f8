# The gate is `make test`. What rt proves and builds of a crate lies in its folder out/; what make builds lies under build/.
# To add a command: `TARGET: WHAT IT TAKES ## TEXT` in its group, with a line `#- VARIABLE=VALUE TEXT` for each of its variables, and
# its tools under 'Tools'. `make help` prints the texts. A test joins the gate by its name in TESTS of tests/gate.py.
# To add a program in C: `build/c/NAME: SOURCES ARCHIVES` under 'Programs in C', and its flags where they differ.
.DEFAULT_GOAL := help
.SUFFIXES:
.DELETE_ON_ERROR:
# rt takes all processors by itself.
.NOTPARALLEL:
COMMANDS := $(shell awk -v names=1 -f tools/help.awk Makefile)
# cargo sees by itself what has changed, and is always asked.
FUZZ := build/rust/release/fuzz
.PHONY: $(COMMANDS) replay_file $(FUZZ)

# TMPDIR puts temporary files elsewhere.
export TMPDIR := $(or $(shell sh tools/tmp.sh 2>/dev/null),/tmp)

# Each crate of crates.txt whose name begins with capi is an object of libmednukals.a; capi_test alone is libmednukals_test.a.
EXPORTS := $(filter-out capi_test,$(shell sed -n 's/^\(capi[a-z0-9_]*\) staticlib:.*/\1/p' crates.txt))
LIB := build/lib/libmednukals.a
LIBS := $(LIB) build/lib/libmednukals_test.a
# The same over another checksum function, crc16_LEAF; what is measured over it has its name behind it.
LEAVES := small fold
LEAF_LIBS := $(LEAVES:%=build/lib/libmednukals_%.a)
MADE_LIBS = $(if $(TARGET),$(TARGET_LIB),$(if $(LEAF),build/lib/libmednukals_$(LEAF).a build/$(LEAF)/libmednukals_test.a,$(LIBS)))
OVER := $(LEAF:%=_%)

# Folders stand in the list too, so that a file added or removed counts as a change; but not those of the crates themselves, in which
# rt makes out/.
SOURCES := crates.txt $(shell find crates -mindepth 2 \( -name must-fail -o -name out \) -prune -o -print)
include tools/targets/targets.mk
$(if $(filter-out $(LEAVES),$(LEAF)),$(error mednukals: LEAF=$(LEAF): only $(LEAVES:%=LEAF=%) are known))
$(if $(LEAF),$(if $(filter-out lib install uninstall $(if $(TARGET),demo,bench counts) memory,$(MAKECMDGOALS)),$(error mednukals: LEAF is for make lib, make install, make uninstall, make bench, make counts and make memory)))

CC := gcc
CXX := g++
WARNINGS := -Wall -Wextra -Wpedantic -Werror
C99 = $(CC) -std=c99 $(WARNINGS)
CXX11 = $(CXX) -std=c++11 $(WARNINGS)

# $(STEP) NAME LABEL COMMAND: one line with its time, and the command's output in build/log/NAME.log
STEP := sh tools/step.sh
# COMMAND || $(call failed,WHAT)
failed = { echo "mednukals: FAILED: $(1)" >&2; exit 1; }

# Tools. $(call need,TOOLS) ends in one clear line where one is missing; $(call needs,COMMANDS,TOOLS) does so for one that is asked
# for, before anything is built. What proves or compiles says itself what it needs: where all is built, nothing is needed.
need = $(foreach tool,$(1),$(if $(shell command -v $(tool) 2>/dev/null),,$(error mednukals: $(tool) is needed and is not on the PATH)))
needs = $(if $(filter $(1),$(MAKECMDGOALS)),$(call need,$(2)))
$(call needs,kit test,rt $(firstword $(CC)) $(firstword $(CXX)) cargo python3 valgrind)
$(call needs,$(filter-out rust_test,$(filter %_test,$(COMMANDS))) bench counts mutants promises,python3)
$(call needs,format fmt bench counts mutants,rt)
$(call needs,rust_test leaf_test fuzz replay,cargo)
$(call needs,leaf_test,size)$(call needs,memory,$(if $(TARGET),arm-none-eabi-)size)
$(call needs,counts_test counts,valgrind nm)

### use it

help: ## these commands; make alone prints them too
	@awk -f tools/help.awk Makefile

# The name goes to the shell through the environment, and unexpanded: quotes, dollars and spaces in it are its own.
run segment old_boards checksum: export MEDNUKALS_CAPTURE := $(value CAPTURE)
unexport CAPTURE

run: build/bin/line ## print the packets and bad checksums in a capture, by the proved program line
#- CAPTURE=FILE a capture of your own; - is standard input
	@sh tools/run_program.sh $< 'end [0-9]+' 'events in' "$${MEDNUKALS_CAPTURE:-examples/capture.bin}"
segment: build/c/segment ## print the same with the offset of each, of a capture of any length, by an example in C
#- CAPTURE=FILE a capture of your own; - is standard input
	@$< "$${MEDNUKALS_CAPTURE:-examples/capture.bin}"
old_boards: build/c/old_boards ## print the packets and bad checksums in a capture of Protocol 1.0, by an example in C
#- CAPTURE=FILE a capture of your own; - is standard input
#- MERCURY=1 of Mercury
	@$< $(if $(MERCURY),--mercury) "$${MEDNUKALS_CAPTURE:-examples/old_boards.bin}"
checksum: build/bin/checksum ## print the checksum and byte count of a file, by the proved program checksum
#- CAPTURE=FILE a file of your own; - is standard input
	@sh tools/run_program.sh $< '[0-9a-f]{4} [0-9]+' 'checksum and byte count of' "$${MEDNUKALS_CAPTURE:-examples/ping.bin}"

build/bin/line build/bin/checksum: build/bin/%: $(SOURCES) tools/prove.py
	@$(call need,rt python3)$(STEP) program-$* 'proving and building the program $*' python3 tools/prove.py program $* $@

demo: $(if $(TARGET),$(BARE_BOARD) $(wildcard build/c/dxl),build/c/board build/c/uart_pty build/c/dxl) ## run a device in C on a pseudo-terminal, talk to it and show the exchanges
#- TARGET=NAME on an emulated Cortex-M0, thumbv6m, or Cortex-M4, thumbv7em, with dxl only if that is built; LEAF=NAME as for make lib
	@sh $(if $(TARGET),examples/bare/demo.sh $(MACHINE),examples/demo.sh) $(filter-out %/uart_pty,$^) || $(call failed,the demo)

lib: $(MADE_LIBS) ## prove the exports and build what C links, archives and a shared library, under build/lib
#- LEAF=small over the small checksum function, for boards with little flash
#- LEAF=fold over the one without a table, the fastest
#- TARGET=NAME for another processor, thumbv6m, thumbv7em, rv32imac or i686, under build/lib/NAME
	@echo 'archives: $(MADE_LIBS)'

# They come with what the compiler was handed for them: the libraries for other processors are made of that (tools/targets/targets.mk).
ARCHIVES_TOOLS := tools/prove.py tools/join.sh tools/targets/record.py tests/archives.py
$(LIBS) $(call modules,table) &: $(SOURCES) KIT $(ARCHIVES_TOOLS)
	@$(call need,rt python3 ar)$(STEP) archives 'proving the exports and building the archives' python3 tools/prove.py archives

$(LEAF_LIBS): build/lib/libmednukals_%.a: $(SOURCES) KIT tests/other_leaf.py $(ARCHIVES_TOOLS)
	@$(call need,rt python3 ar)$(STEP) archive-$* 'proving the exports over crc16_$* and building $@' python3 tests/other_leaf.py crc16_$* build/$*
	@mkdir -p $(@D) && cp build/$*/libmednukals.a $@
$(LEAVES:%=build/%/libmednukals_test.a): build/%/libmednukals_test.a: build/lib/libmednukals_%.a ;
dxl: build/c/dxl ## build the tool dxl, for captures, line logs, plans of goals and devices on a serial line: build/c/dxl
	@echo 'the tool: $<'

include tools/install.mk

### prove and test it

# rt ci comes last: its count is the last line. The tests that link the archives run beside it.
test: kit format promises_test constants_test vectors_test make_test ## the gate: every proof from nothing, every must-fail edit, and all that follows down to targets_test
	@python3 tests/gate.py rt ci

# Another kit may prove the same crates, so a difference is only said.
kit: ## the tools that are needed, and the kit's version
	@echo "kit: $$(rt version)"
	@[ "$$(rt version)" = "$$(cat KIT)" ] || echo "WARNING: the project is written for the kit $$(cat KIT)" >&2
format: ## the layout of the Rattle files
	@$(STEP) format 'layout of the Rattle files (make fmt puts it right)' sh tools/layout.sh --check
promises_test: ## docs/PROMISES.md and docs/BELIEVE.md beside the tree
	@$(STEP) promises 'docs/PROMISES.md beside the tree' python3 tools/promises.py --check
	@$(STEP) check_believe 'docs/BELIEVE.md beside the tree' python3 tests/check_believe.py
constants_test: ## the names for numbers in the header beside the definitions and the code
	@$(STEP) check_constants 'names for numbers in the header beside the definitions and the code' python3 tests/check_constants.py include/mednukals.h
# The rest is in tests/vectors, and rt ci holds the proved program to its stored run.
vectors_test: ## the input of the program vectors beside the published packets
	@$(STEP) check_vectors 'input of the program vectors beside the published packets' python3 tests/check_vectors.py
make_test: ## these commands themselves
	@$(STEP) make_test 'the commands of make; gate.py and counts_test.py' python3 tests/make_test.py

C_TESTS := published exchange board_calls plan parts segment old_boards uart_test log_pages
c_test: $(C_TESTS:%=build/c/%) ## the archive from C: published packets, the header's loop, the calls on a board, one with a UART, logs
	@$(STEP) published 'published packets through the archive' build/c/published tests/vectors/packets.txt tests/vectors/packets_v1.txt
	@$(STEP) exchange 'the loop that the header shows' build/c/exchange
	@$(STEP) board_calls 'the calls on a board from C' build/c/board_calls
	@$(STEP) plan 'the planner and the test of plans from C' build/c/plan
	@$(STEP) parts 'example that sends a packet in parts' build/c/parts
	@$(STEP) segment_test 'example that prints the events of a capture' python3 tests/segment_test.py build/c/segment
	@$(STEP) old_boards_test 'example that reads and writes packets of the old boards' python3 tests/old_boards_test.py build/c/old_boards
	@$(STEP) uart_test 'example board on a simulated UART' build/c/uart_test
	@$(STEP) log_pages 'questions to a log whose other segments are unreadable' build/c/log_pages

# $(call alone,COMPILER,LANGUAGE): the header alone, with the compiler's own headers and no others.
alone = $(1) -ffreestanding -nostdinc -isystem "$$($(CC) -print-file-name=include)" -fsyntax-only -x $(2) include/mednukals.h
header_test: $(LIBS) build/c/header_c99 build/c/header_cxx11 build/c/empty ## the header beside the archive, and as C99 and C++11, also without a C library
	@$(STEP) header 'header as C99 and as C++11' sh -c 'build/c/header_c99 && build/c/header_cxx11 && build/c/empty'
	@$(STEP) header_alone 'header without a C library' sh -c '$(call alone,$(C99),c) && $(call alone,$(CXX11),c++)'
	@$(STEP) check_header 'header beside the archive' python3 tests/check_header.py include/mednukals.h $(LIB)
install_test: $(LIB) build/c/dxl build/lib/libmednukals_fold.a build/lib/thumbv6m/libmednukals_fold.a $(SHARED) build/lib/libmednukals_fold.so.$(VERSION) ## make install and make uninstall, the shared library, and the version
	@$(STEP) install_test 'make install and uninstall, the shared library, the version' python3 tests/install_test.py $(CC) $^
docs_test: $(LIB) ## links, commands and code in the documents
	@$(STEP) docs_test 'documents: links, commands and code' python3 tests/docs_test.py $(CC) $<
programs_test: build/bin/line build/bin/checksum ## the programs line and checksum where something is wrong
	@$(STEP) programs_test 'programs line and checksum where something is wrong' python3 tests/programs_test.py $^
cli_test: build/c/dxl ## the tool dxl: words, files, logs and plans
	@$(STEP) cli_test 'the tool dxl' python3 tests/cli_test.py $<
man_test: build/c/dxl ## its man page and its completion for bash, beside what it says of itself
	@command -v groff >/dev/null || echo 'groff is not there: how the man page is formatted is not tried'
	@$(STEP) man_test 'man page and completion of the tool dxl' python3 tests/man_test.py $<
show_test: build/c/dxl build/c/dxl_checked ## what it shows of captures, also with the compiler's checks of memory, on random and damaged files
	@$(STEP) show_test 'what the tool dxl shows of captures' python3 tests/show_test.py $^
send_test: build/c/dxl build/c/dxl_checked build/c/board build/c/uart_pty ## the tool's master, with the example boards and with devices that damage, delay or are silent
	@$(STEP) send_test 'the master of the tool dxl' python3 tests/send_test.py $^
python_test: $(SHARED) build/lib/libmednukals_fold.so.$(VERSION) ## the module for Python: docstrings, published packets, bad input, examples
	@$(STEP) python_test 'the module for Python and its examples' python3 tests/python_test.py $(CC) $^
demo_test: build/c/board build/c/refusing_board build/c/uart_pty build/c/dxl ## the example boards and their master
	@$(STEP) demo_test 'example boards and their master' python3 tests/demo_test.py $^
counts_test: build/c/counts ## the instructions that each export takes beside tests/instructions.txt
	@$(STEP) counts_test 'instructions of each export beside tests/instructions.txt' python3 tests/counts_test.py $< $(LIBS)
rust_test: $(LIBS) build/bin/line ## every export beside the second implementation
	@$(STEP) rust_test 'comparison with the second implementation' sh -c 'cd tests && exec cargo test --release --offline --quiet'

# The comparisons of the calls that make a checksum; the others, whose inputs are long, run over the first archive.
SUMMED := $(addprefix --test ,cases checksum board verdict encoder status exchange plain)
leaf_test: $(LIBS) $(LEAF_LIBS) build/bin/line ## the exports over the other checksum functions: no large table, and the same beside it
	@$(STEP) leaves 'other archives: no large table, and none' python3 tests/check_leaves.py $(LIB) $(LEAF_LIBS)
	@$(foreach leaf,$(LEAVES),$(STEP) $(leaf)-header 'header beside the archive over crc16_$(leaf)' \
	    python3 tests/check_header.py include/mednukals.h build/lib/libmednukals_$(leaf).a &&) true
	@$(foreach leaf,$(LEAVES),$(STEP) $(leaf)-rust 'archive over crc16_$(leaf) beside the second implementation' \
	    env MEDNUKALS_ARCHIVES=build/$(leaf) sh -c 'cd tests && exec cargo test --release --offline --quiet --package compare $(SUMMED)' &&) true
targets_test: $(LIB) $(LEAF_LIBS) $(PROCESSOR_LIBS) build/c/dxl ## the library on four other processors, emulated: the same as for x86-64, byte for byte
	@python3 tests/targets_test.py --missing
	@$(STEP) targets_test 'the library on other processors' python3 tests/targets_test.py build build/lib

# Ends at the first difference, with a file under build/fuzz that replays it. The same seed gives the same cases.
SECONDS ?= 600
fuzz: $(FUZZ) ## the second implementation on random cases, for ten minutes
#- SECONDS=N for so long
#- SEED=S the cases of an earlier run
	@$< --seconds '$(SECONDS)' $(if $(SEED),--seed '$(SEED)') || { status=$$?; \
	    [ $$status -lt 128 ] || echo 'mednukals: the search crashed; $< with the options in build/fuzz/running-SEED.txt' \
	        'prints the case for make replay' >&2; exit $$status; }
replay: replay_file $(FUZZ) ## FILE=FILE run a case again in which make fuzz has found a difference
	@$(FUZZ) --replay '$(FILE)'
replay_file:
	@[ -n '$(FILE)' ] || { echo 'mednukals: make replay FILE=build/fuzz/difference-SEED-CASE.txt' >&2; exit 1; }
	@[ -f '$(FILE)' ] || { echo 'mednukals: there is no file $(FILE)' >&2; exit 1; }
$(FUZZ): $(LIBS)
	@$(STEP) fuzz_program 'building the search for differences' sh -c 'cd tests && exec cargo build --release --offline --quiet --bin fuzz'

# Long: some seconds for each change.
mutants: ## CRATE=NAME change a crate's source in one place at a time and sort what the checker says
#- DEFINITIONS=1 change its definitions instead
#- SINCE=REV only in lines that are new since that commit
#- MOST=N SEED=S only N of the changes, drawn by that seed
	@[ -n '$(CRATE)' ] || { echo 'mednukals: make mutants CRATE=NAME [DEFINITIONS=1] [SINCE=REV] [MOST=N] [SEED=S]' >&2; exit 1; }
	@python3 tools/mutants.py $(CRATE) $(if $(DEFINITIONS),--definitions) $(if $(SINCE),--since '$(SINCE)') $(if $(MOST),--most $(MOST)) $(if $(SEED),--seed $(SEED)) $(if $(LIMIT),--limit $(LIMIT))

### measure it

RUNS ?= 1
bench: build/c/bench$(OVER) ## the exports beside plain C, as ratios
#- RUNS=N so many times, with the medians
#- LEAF=NAME over the checksum function small or fold
	@python3 tools/bench_runs.py '$(RUNS)' $< "$$(rt version)" || $(call failed,the benchmark)

counts: build/c/counts$(if $(PLAIN),_plain,$(OVER)) ## count the instructions that each export takes, into tests/instructions.txt
#- LEAF=NAME over the checksum function small or fold: printed, and not written
#- PLAIN=1 of the plain C that the benchmark has beside them: printed likewise
	@python3 tests/counts_test.py $(if $(PLAIN)$(LEAF),--print,--write) $< $(if $(PLAIN),$(PLAIN_OBJECTS)) $(MADE_LIBS) || $(call failed,the counts)

memory: $(if $(TARGET),$(MADE_LIBS),build/c/memory$(OVER) build/c/stack$(OVER)) ## records, answers, stack depths and the archive's size
#- LEAF=NAME likewise
#- TARGET=NAME of a board with thumbv6m or thumbv7em: text, stack and instructions, beside plain C
	@$(if $(TARGET),python3 tools/targets/measure.py $(TARGET) $<,build/c/memory$(OVER) && build/c/stack$(OVER)) || $(call failed,the memory figures)
	@echo 'the archive that firmware links, in bytes' && $(if $(TARGET),arm-none-eabi-)size -t $(firstword $(MADE_LIBS))

### keep it tidy

promises: ## write docs/PROMISES.md from the comments in the tree, and say what a rule lacks
	@python3 tools/promises.py
	@python3 tests/check_believe.py --write
fmt: ## format every Rattle file
	@sh tools/layout.sh --write
clean: ## remove build/, and what rt keeps of each crate
	rm -rf build crates/*/out

# Programs in C, by one rule: from what a program names, in that order, by COMPILER with FLAGS; where one takes others, it has its own.
# A header that has changed makes all of them anew.
HEADERS := $(wildcard include/*.h examples/*.h cli/*.h tests/bench/*.h)
COMPILER = $(C99)
FLAGS := -O2
INPUTS = $(filter-out %.h,$^)
build/c/%: $(HEADERS)
	@$(if $(INPUTS),,$(error mednukals: the Makefile names no sources of $@))$(call need,$(firstword $(COMPILER)))mkdir -p $(@D)
	@$(COMPILER) $(FLAGS) -Iinclude -o $@ $(INPUTS) || $(call failed,compiling $@)

$(addprefix build/c/,published exchange board_calls plan log_pages): build/c/%: tests/c/%.c $(LIB)
$(addprefix build/c/,segment old_boards): build/c/%: examples/%.c $(LIB)
build/c/parts: tests/c/parts.c examples/parts.c $(LIB)
# The second for tests, with the compiler's checks of memory and of undefined behaviour.
build/c/dxl build/c/dxl_checked: $(wildcard cli/*.c) $(LIB) build/cli/timeline_page.h
build/c/dxl_checked: FLAGS += -O1 -g -fsanitize=address,undefined -fno-sanitize-recover=all
# The page of dxl timeline, a string for each line.
build/cli/timeline_page.h: cli/timeline.html
	@$(call need,$(firstword $(CC)))mkdir -p $(@D) && sed 's/[\\"]/\\&/g; s/.*/"&\\n",/' $< >$@
HOST := examples/pty_line.c examples/host.c
build/c/board: examples/board.c $(HOST) $(LIB)
build/c/refusing_board: examples/board.c $(HOST) tests/c/refusing.c $(LIB)
build/c/uart_pty: examples/uart_pty.c examples/uart_board.c $(HOST) $(LIB)
build/c/uart_test: tests/c/uart_test.c tests/c/refusing.c examples/uart_board.c $(LIB)
build/c/parts build/c/uart_test: FLAGS += -Iexamples
# These need POSIX, and Linux for lines and pages; files may have more than two gigabytes.
build/c/dxl build/c/dxl_checked build/c/log_pages: FLAGS += -Ibuild/cli -D_XOPEN_SOURCE=700 -D_DEFAULT_SOURCE -D_FILE_OFFSET_BITS=64
# The library refuses what the test asks it to. dxl_fresh is not among these: dxl_board_start always gives it a table of its size.
REFUSING := encode reader_feed reader_gap board_feed_parts board_gap_parts measure status
build/c/refusing_board build/c/uart_test: FLAGS += $(REFUSING:%=-Wl,--wrap=dxl_%)

build/c/header_c99 build/c/header_cxx11: tests/c/header.c $(LIB)
build/c/empty: tests/c/empty.cpp $(LIB)
build/c/header_c99 build/c/header_cxx11 build/c/empty: FLAGS :=
build/c/header_cxx11 build/c/empty: COMPILER = $(CXX11)
build/c/header_cxx11: INPUTS = -x c++ $(filter %.c,$^) -x none $(filter %.a,$^)

# The baseline is a file of its own and there is no link-time optimization: its calls stay calls, as ours are.
BASELINE := baseline baseline_reader baseline_v1 baseline_log baseline_plan baseline_device baseline_board
BENCH_FLAGS := -O3 -fno-lto
build/c/bench$(OVER): $(patsubst %,tests/bench/%.c,bench lines board $(BASELINE)) $(MADE_LIBS)
build/c/bench$(OVER): FLAGS = $(BENCH_FLAGS) -DBASELINE_BUILD="\"$$($(CC) --version | head -n 1), -std=c99 $(BENCH_FLAGS)\""
build/c/memory$(OVER) build/c/stack$(OVER): build/c/%$(OVER): tests/bench/%.c $(firstword $(MADE_LIBS))

# -O0, so that `counted` stays a function of its own; what is counted lies in the archives.
COUNTS := tests/counts/counts.c $(patsubst %,tests/bench/%.c,lines board worst)
build/c/counts$(OVER): $(COUNTS) $(patsubst %,tests/bench/%.c,baseline baseline_reader baseline_log baseline_plan) $(MADE_LIBS)
build/c/counts$(OVER) build/c/counts_plain: FLAGS := -O0 -Itests/bench
# The same inputs by the baseline, compiled as in the benchmark; what it lacks is called in the archive.
PLAIN_CALLS := crc16 encode p1_encode mercury_encode feed gap reader_feed reader_gap p1_feed p1_gap mercury_feed mercury_gap fresh \
    measure device exchange carry_out carry_out_packet status board_feed_parts board_gap_parts next_event log_write plan plan_check
PLAIN_OBJECTS := $(BASELINE:%=build/c/%.o)
$(PLAIN_OBJECTS): build/c/%.o: tests/bench/%.c
$(PLAIN_OBJECTS): FLAGS := $(BENCH_FLAGS) -c
build/c/counts_plain: $(COUNTS) $(PLAIN_OBJECTS) $(LIBS)
build/c/counts_plain: FLAGS += $(foreach name,$(PLAIN_CALLS),-Ddxl_$(name)=baseline_$(name)) -Ddxl_test_crc16_small=baseline_crc16_small
