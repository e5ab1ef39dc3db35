# Estrenwind: proved rounding of IEEE 754 numbers, delivered as build/libestrenwind.a, build/estrenwind.h, the programs build/sheet,
# build/run and build/explain, and the command build/estrenwind over the library.

VERSION = 0.2.0
PREFIX = /usr/local
DESTDIR =

CC = gcc
CXX = g++
CFLAGS = -O2
WARNINGS = -Wall -Wextra -Wpedantic -Wconversion -Werror
CARGO_TESTS = --offline --release --manifest-path tests/Cargo.toml
CARGO_BINDINGS = --offline --manifest-path bindings/rust/Cargo.toml
CARGO_COMMAND = --offline --release --manifest-path tools/estrenwind/Cargo.toml

LIBRARY = build/libestrenwind.a
CROSS_CHECK = build/libcross_check.a
HEADER = build/estrenwind.h
PROGRAMS = build/sheet build/run build/explain
COMMAND = build/estrenwind
export ESTRENWIND_LIB_DIR = $(CURDIR)/build
SOURCES = crates.txt $(shell find crates -name out -prune -o \( -name '*.rt' -o -name '*.antt' \) -print)
# The processor that the code is compiled for: the oldest, whose instructions every x86-64 has.
PROCESSOR = --cpu x86-64

# $(call need,TOOL,PURPOSE): one line about what is missing instead of a shell's complaint.
need = command -v $(1) >/dev/null || { echo "$(1) is missing: it is needed to $(2)" >&2; exit 1; }

# $(call quoted,TEXT): one word of the shell, whatever is in it. $(call replacement,TEXT): what s|..|..| of sed puts in as it is.
quoted = '$(subst ','\'',$(1))'
replacement = $(subst |,\|,$(subst &,\&,$(subst \,\\,$(1))))
DESTINATION = $(call quoted,$(DESTDIR)$(PREFIX))

help:  ## this list
	@awk -F ':.*## ' '/^[a-z-]+:.*## / { printf "  make %-16s %s\n", $$1, $$2 }' Makefile

build: $(LIBRARY) $(HEADER) $(PROGRAMS) $(COMMAND) $(CROSS_CHECK)  ## prove the crates and build the C library, its header, the programs and the command estrenwind, in build/

# Every function starts a 64-byte line: where a linker put it would otherwise move its speed by a third.
$(LIBRARY): $(SOURCES)
	@$(call need,rt,prove and compile the crates (the Rattle toolchain))
	@$(call need,objcopy,align the library's functions (binutils))
	cd crates/c_library && rt lib $(PROCESSOR)
	@mkdir -p build
	objcopy --set-section-alignment '.text.*=64' crates/c_library/out/libc_library.a $@

# Sums and products, in whole numbers and on floats, and fmod at a width of a caller's own, for tests and the benchmark. It is not installed.
$(CROSS_CHECK): $(SOURCES)
	@$(call need,rt,prove and compile the crates (the Rattle toolchain))
	@$(call need,objcopy,align the archive's functions (binutils))
	cd crates/cross_check && rt lib $(PROCESSOR)
	@mkdir -p build
	objcopy --set-section-alignment '.text.*=64' crates/cross_check/out/libcross_check.a $@

# What they share is proved once. `rt run` proves and builds a program and runs it too: here on an empty input, and what it answers is not kept.
$(PROGRAMS) &: $(SOURCES)
	@$(call need,rt,prove and compile the programs (the Rattle toolchain))
	for program in sheet run explain; do (cd crates/$$program && rt run $(PROCESSOR) </dev/null >/dev/null) || exit 1; done
	@mkdir -p build
	cp crates/sheet/out/sheet crates/run/out/run crates/explain/out/explain build/

$(HEADER): include/estrenwind.h
	@mkdir -p build
	cp $< $@

$(COMMAND): $(LIBRARY) $(wildcard tools/estrenwind/Cargo.* tools/estrenwind/src/*.rs bindings/rust/Cargo.* bindings/rust/src/*.rs)
	@$(call need,cargo,build the command estrenwind)
	cargo build --quiet $(CARGO_COMMAND)
	@mkdir -p build
	cp tools/estrenwind/target/release/estrenwind $@

EXAMPLE = texture_index

demo: build  ## an example recipe through the command estrenwind (EXAMPLE=turned_down for another)
	@sh examples/demo.sh build/estrenwind examples/$(EXAMPLE)

roundings: build  ## show what each rounding makes of a dozen texture indices
	@$(call need,$(CC),compile the example)
	$(CC) -std=c99 $(CFLAGS) $(WARNINGS) -Ibuild examples/roundings.c $(LIBRARY) -o build/roundings
	@echo
	@build/roundings

quadrant: build  ## show on which side face of a cube map a heading falls, by remquo
	@$(call need,$(CC),compile the example)
	$(CC) -std=c99 $(CFLAGS) $(WARNINGS) -Ibuild examples/quadrant.c $(LIBRARY) -o build/quadrant
	@echo
	@build/quadrant

install: build  ## install command, programs, library, header, pkg-config file, manual pages and completion under PREFIX (DESTDIR is put before it)
	@$(call need,install,put files in their places (coreutils))
	sed -e $(call quoted,s|@PREFIX@|$(call replacement,$(PREFIX))|) -e 's|@VERSION@|$(VERSION)|' estrenwind.pc.in >build/estrenwind.pc
	install -d $(addprefix $(DESTINATION)/,bin lib/pkgconfig include share/man/man1 share/bash-completion/completions)
	install -m 755 $(PROGRAMS) $(COMMAND) $(DESTINATION)/bin
	install -m 644 $(LIBRARY) $(DESTINATION)/lib
	install -m 644 build/estrenwind.pc $(DESTINATION)/lib/pkgconfig
	install -m 644 $(HEADER) $(DESTINATION)/include
	install -m 644 man/sheet.1 man/run.1 man/explain.1 man/estrenwind.1 $(DESTINATION)/share/man/man1
	install -m 644 tools/estrenwind/estrenwind.bash $(DESTINATION)/share/bash-completion/completions/estrenwind

INSTALLED = bin/sheet bin/run bin/explain bin/estrenwind lib/libestrenwind.a lib/pkgconfig/estrenwind.pc include/estrenwind.h \
	share/man/man1/sheet.1 share/man/man1/run.1 share/man/man1/explain.1 share/man/man1/estrenwind.1 \
	share/bash-completion/completions/estrenwind

uninstall:  ## remove what install put under PREFIX
	rm -f $(addprefix $(DESTINATION)/,$(INSTALLED))

test:  ## the whole gate: .ci/run
	bash .ci/run

# Halves beside the processor's conversion and the compiler's.
build/halves: tests/c/halves.c $(LIBRARY) $(HEADER)
	@$(call need,$(CC),compile the C tests)
	$(CC) -std=c99 $(CFLAGS) $(WARNINGS) -Ibuild tests/c/halves.c $(LIBRARY) -lm -o $@

# fmin and fmax beside glibc's and the processor's. The compiler must call the C library's, and not work them out by itself.
build/peers: tests/c/peers.c tests/c/random.h $(LIBRARY) $(HEADER)
	@$(call need,$(CC),compile the C tests)
	$(CC) -std=c99 $(CFLAGS) -fno-builtin $(WARNINGS) -Ibuild tests/c/peers.c $(LIBRARY) -lm -o $@

test-peers: build/peers  ## hold fmin and fmax beside glibc's and the processor's own, on 120 million pairs
	build/peers

# Sums, differences and products beside the processor's own.
build/arithmetic: tests/c/arithmetic.c tests/c/cross_check.h tests/c/random.h $(CROSS_CHECK) $(HEADER)
	@$(call need,$(CC),compile the C tests)
	$(CC) -std=c99 $(CFLAGS) $(WARNINGS) -Ibuild tests/c/arithmetic.c $(CROSS_CHECK) -o $@

test-arithmetic: build/arithmetic  ## hold sums, differences and products beside the processor's own, on 105 million pairs and under 16 of its settings
	build/arithmetic

test-c: build build/halves test-peers test-arithmetic  ## compile the header as C99 and C++11, check the marked cases, hold halves, fmin and fmax, sums and products beside others', read the machine code, measure the stack
	@$(call need,$(CC),compile the C tests)
	@$(call need,objdump,read the machine code (binutils))
	$(CC) -std=c99 $(CFLAGS) $(WARNINGS) -Ibuild tests/c/compile.c $(LIBRARY) -lm -o build/compile-c
	$(CC) -std=c99 $(CFLAGS) -ffast-math $(WARNINGS) -Ibuild tests/c/compile.c $(LIBRARY) -lm -o build/compile-fast-math
	build/compile-c
	build/compile-fast-math
	@if command -v $(CXX) >/dev/null; then \
		set -x; $(CXX) -std=c++11 $(CFLAGS) $(WARNINGS) -Ibuild tests/c/compile.cpp $(LIBRARY) -lm -o build/compile-cpp && build/compile-cpp; \
	else \
		echo "$(CXX) is missing: the C++ test is left out"; \
	fi
	build/halves
	sh tests/c/machine_code.sh $(LIBRARY) $(CROSS_CHECK)
	$(CC) -std=gnu11 $(CFLAGS) $(WARNINGS) -Ibuild tests/c/stack.c $(LIBRARY) -lpthread -o build/stack
	build/stack

test-rust: build  ## compare the library with the independent second implementation
	@$(call need,cargo,build the Rust tests)
	cargo test $(CARGO_TESTS)

test-bindings: build  ## the Rust crate in bindings/rust: its tests and the examples in its documents
	@$(call need,cargo,build the Rust crate)
	cargo test $(CARGO_BINDINGS)

test-command: build  ## the command estrenwind: its own tests, and those of the built command beside the programs
	@$(call need,cargo,build the tests)
	cargo test $(CARGO_COMMAND)
	cargo test $(CARGO_TESTS) --test text_form --test command --test command_speed

test-install: build  ## install into build/installed, and build and run a C program and the Rust crate against that
	CC=$(call quoted,$(CC)) sh tests/c/installed.sh $(call quoted,$(CURDIR)/build/installed)

test-processors: build  ## the same answers on this processor and on two emulated ones, without and with SSE4.1 and AVX2
	@$(call need,$(CC),compile the test)
	@$(call need,cargo,write the recipes)
	@$(call need,qemu-x86_64,be another processor: make processors-deps)
	@mkdir -p build/processors.d
	cargo build --quiet $(CARGO_TESTS) --bin recipe_cases
	tests/target/release/recipe_cases calls >build/processors.d/calls
	tests/target/release/recipe_cases input >build/processors.d/input
	$(CC) -std=gnu99 $(CFLAGS) $(WARNINGS) -fno-builtin -static -Ibuild tests/c/processors.c $(LIBRARY) $(CROSS_CHECK) -lm \
		-o build/processors
	sh tests/c/processors.sh build

zero-rules: build  ## W-202's rule for the two zeros beside the one before it, over recipes: where a zero's sign differs, with examples
	@$(call need,cargo,build the second implementation)
	@cargo run --quiet $(CARGO_TESTS) --bin zero_rules

processors-deps:  ## install the emulator for test-processors (Debian, as root)
	@$(call need,apt-get,install packages)
	apt-get install -y --no-install-recommends qemu-user

faults-deps:  ## install strace, with which the tests have single system calls of the programs fail (Debian, as root)
	@$(call need,apt-get,install packages)
	apt-get install -y --no-install-recommends strace

farm-deps:  ## install GNU parallel, for examples/farm, and tmux, in which a test runs the command (Debian, as root)
	@$(call need,apt-get,install packages)
	apt-get install -y --no-install-recommends parallel tmux

ENDLESS_MIB = 4096

test-endless: build  ## the programs on lines of 4 GiB, in memory that does not grow: long, not in the gate
	@$(call need,cargo,build the Rust tests)
	ESTRENWIND_ENDLESS_MIB=$(ENDLESS_MIB) cargo test $(CARGO_TESTS) --test programs -- endless

test-exhaustive: build build/halves  ## compare them on every f32 there is, 2^32 patterns a function: long, not in the gate
	@$(call need,cargo,build the Rust tests)
	cargo run $(CARGO_TESTS) --bin exhaustive
	build/halves all

bench: build  ## time single calls beside glibc, musl and newlib, halves beside gcc, F16C and Imath, sums and products beside the processor's own, check the targets, and time runs, sheets, the program run beside plain ones, and the command beside the program
	@$(call need,$(CC),compile the benchmark)
	CC=$(call quoted,$(CC)) sh bench/references.sh build/bench
	$(CC) -std=gnu99 -O2 -Wall -Wextra -falign-functions=64 -falign-loops=64 -Ibuild -Ibuild/bench bench/bench.c bench/host.c \
		build/bench/musl.o build/bench/newlib.o build/bench/imath.o $(LIBRARY) $(CROSS_CHECK) $$(cat build/bench/libraries) -lm -o build/bench/bench
	@$(call need,cargo,build the plain interpreter)
	cargo build --offline --quiet --profile speed --manifest-path tests/Cargo.toml --bin recipe_speed --bin reference_run --bin program_speed
	@echo
	@build/bench/bench
	@echo
	@tests/target/speed/recipe_speed
	@echo
	@tests/target/speed/program_speed build/run tests/target/speed/reference_run build/estrenwind build/bench

bench-deps:  ## install musl, newlib's source and Imath for the benchmark (Debian, as root)
	@$(call need,apt-get,install packages)
	apt-get install -y musl-dev newlib-source libimath-dev

fmt:  ## put Rattle and Rust sources in their layout
	@$(call need,rt,format the crates (the Rattle toolchain))
	@$(call need,cargo,format the Rust tests)
	for crate in crates/*/; do (cd $$crate && rt fmt) || exit 1; done
	cargo fmt --manifest-path tests/Cargo.toml
	cargo fmt --manifest-path bindings/rust/Cargo.toml
	cargo fmt --manifest-path tools/estrenwind/Cargo.toml

clean:  ## remove everything that was built
	rm -rf build crates/*/out tests/target bindings/rust/target tools/estrenwind/target

.PHONY: help build demo roundings quadrant install uninstall test test-c test-peers test-arithmetic test-rust test-bindings test-command test-install \
	test-processors zero-rules processors-deps faults-deps farm-deps test-endless test-exhaustive bench bench-deps fmt clean
