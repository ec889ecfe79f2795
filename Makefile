# Cellumaq. `make test` proves everything and tests it; `make demo` does the main job on a file that is there.
PREFIX ?= /usr/local
CC = gcc
CFLAGS = -std=c11 -O2 -Wall -Wextra -Werror
VERSION = 0.1.0
RATTLE = $(shell find crates -name out -prune -o \( -name '*.rt' -o -name '*.antt' \) -print)

C_TESTS = test_checksum test_list test_fixed_list test_list_call test_lookup test_fixed_lookup test_lookup_call \
  test_dataset test_header test_spans test_eals test_hostile test_differences test_stack test_symbols test_fuzz \
  test_example
BENCHES = bench_checksum bench_list bench_lookup bench_worst

# A folder with whole lists of questions and answers, of which tests/data has a part.
VECTORS = ../shared/vectors

# The folder with the Rust's extensible_array.rs and fixed_array.rs, to measure beside them.
RUST_SOURCES = ../shared/docs/src/src

# `make fuzz` tries random inputs for so many seconds; built by the same compiler, the same seed tries the same ones.
SECONDS = 60
SEED = 1

.PHONY: test test-real vectors demo lib bench fuzz install clean tools kit

test: tools kit
	@CC='$(CC)' tests/run $(C_TESTS)

vectors: build/test_list build/test_lookup build/test_fixed_list build/test_fixed_lookup
	@build/test_list $(VECTORS)/rust-questions.txt $(VECTORS)/rust-answers.txt
	@build/test_list $(VECTORS)/real/questions.txt $(VECTORS)/real/answers.txt
	@build/test_lookup $(VECTORS)/lookup-questions.txt $(VECTORS)/lookup-answers.txt
	@build/test_lookup $(VECTORS)/real/questions.txt $(VECTORS)/real/answers.txt
	@for q in w201 real/fixed real/fixed-empty; do for t in list lookup; do \
	  build/test_fixed_$$t $(VECTORS)/$$q-questions.txt $(VECTORS)/$$q-answers.txt || exit 1; done; done

# One sentence where something is missing.
tools:
	@command -v rt >/dev/null || { echo "Cellumaq needs the Rattle kit: there is no command 'rt' on the PATH." >&2; exit 1; }
	@command -v $(CC) >/dev/null || { echo "Cellumaq needs a C compiler: there is no command '$(CC)' on the PATH." >&2; exit 1; }

# One sentence where the kit is another; it may do.
kit: tools
	@kit=$$(sed -n 's/^Kit: `\([^`]*\)`.*/\1/p' README.md); test "$$(rt version)" = "$$kit" || \
	  echo "This is another kit ($$(rt version)) than the README names ($$kit); going on."

lib: build/libcellumaq.a build/cellumaq.h

# The crates are proved before they are built; tests/prove tells which.
build/libcellumaq.a: crates.txt $(RATTLE) | tools
	@mkdir -p build
	@tests/prove build/lib.log lib cellumaq
	@cp crates/cellumaq/out/libcellumaq.a $@

build/cellumaq.h: include/cellumaq.h
	@mkdir -p build
	@cp include/cellumaq.h $@

# The program, proved before it is built.
build/eals: crates.txt $(RATTLE) | tools
	@mkdir -p build
	@tests/prove build/eals.log program eals
	@cp crates/eals/out/eals $@

build/test_eals: build/eals

build/test_%: tests/c/test_%.c $(wildcard tests/c/*.h tests/fuzz/*.h) build/libcellumaq.a build/cellumaq.h
	@$(CC) $(CFLAGS) -Ibuild -Itests/c -o $@ $< build/libcellumaq.a

build/test_stack: CFLAGS += -pthread

build/fuzz: $(wildcard tests/fuzz/*) $(wildcard tests/c/*.h) build/libcellumaq.a build/cellumaq.h
	@$(CC) $(CFLAGS) -g -fsanitize=address,undefined -fno-sanitize-recover=all -Ibuild -Itests/c -o $@ \
	  tests/fuzz/fuzz.c build/libcellumaq.a

# The span listings are called from C in their test only.
build/libspans_call.a: crates.txt $(RATTLE) | tools
	@mkdir -p build
	@tests/prove build/spans_call.log lib spans_call
	@cp crates/spans_call/out/libspans_call.a $@

build/test_spans: tests/c/test_spans.c tests/c/test.h build/libspans_call.a
	@$(CC) $(CFLAGS) -Itests/c -o $@ $< build/libspans_call.a

build/bench_%: bench/bench_%.c $(wildcard bench/*.h tests/c/*.h) build/libcellumaq.a build/cellumaq.h
	@$(CC) $(CFLAGS) -Ibuild -Itests/c -o $@ $< build/libcellumaq.a

build/example_%: examples/%.c build/libcellumaq.a build/cellumaq.h
	@$(CC) $(CFLAGS) -Ibuild -o $@ $< build/libcellumaq.a

build/test_example: build/example_matcher

build/demo_%: demo/%.c $(wildcard demo/*.h) build/libcellumaq.a build/cellumaq.h
	@$(CC) $(CFLAGS) -Ibuild -o $@ $< build/libcellumaq.a

# A dataset of 11 by 13 that the HDF5 library has written: offsets of 8 bytes, the index at 447, elements of 4 bytes,
# chunks of 4 by 4.
DATASET = tests/data/real/edge_ea.bin 8 8 447 4 4,4 11,13 '*,15'

# The same with 14 rows at most: the index is a Fixed Array.
FIXED_DATASET = tests/data/real/edge_fa.bin 8 8 447 4 4,4 11,13 14,15

demo: build/demo_checksum build/demo_list build/demo_lookup
	@build/demo_checksum tests/data/real/edge_ea.bin
	@build/demo_list $(DATASET)
	@build/demo_lookup $(DATASET) 8,4
	@build/demo_list $(FIXED_DATASET)

# Beside the HDF5 library where it is installed.
bench: $(BENCHES:%=build/%)
	@bench/rust $(RUST_SOURCES)
	@for b in $(BENCHES); do build/$$b || exit 1; done
	@if pkg-config --exists hdf5 2>/dev/null; then \
	  $(CC) $(CFLAGS) -Ibuild -Itests/c -Itests/real -Idemo -o build/bench_hdf5 bench/bench_hdf5.c build/libcellumaq.a \
	    $$(pkg-config --cflags --libs hdf5) && build/bench_hdf5 build/bench/hdf5.h5; \
	else echo $(NO_HDF5); fi

# Files that the HDF5 library writes, where it is installed.
test-real: lib
	@if pkg-config --exists hdf5 2>/dev/null; then \
	  $(CC) $(CFLAGS) -Ibuild -Itests/c -o build/real tests/real/real.c build/libcellumaq.a \
	    $$(pkg-config --cflags --libs hdf5) && build/real build; \
	else echo $(NO_HDF5); fi

NO_HDF5 = "skipped: the HDF5 library (Debian: libhdf5-dev) isn't installed, or pkg-config doesn't know it."

fuzz: build/fuzz
	@build/fuzz $(SEED) $(SECONDS)

install: lib
	@mkdir -p $(DESTDIR)$(PREFIX)/lib/pkgconfig $(DESTDIR)$(PREFIX)/include
	@cp build/libcellumaq.a $(DESTDIR)$(PREFIX)/lib/libcellumaq.a
	@cp build/cellumaq.h $(DESTDIR)$(PREFIX)/include/cellumaq.h
	@printf '%s\n' 'prefix=$(PREFIX)' 'libdir=$${prefix}/lib' 'includedir=$${prefix}/include' '' 'Name: cellumaq' \
	  'Description: Proved reader of HDF5 extensible array and Fixed Array chunk indexes' 'Version: $(VERSION)' \
	  'Libs: -L$${libdir} -lcellumaq' 'Cflags: -I$${includedir}' >$(DESTDIR)$(PREFIX)/lib/pkgconfig/cellumaq.pc
	@echo "libcellumaq.a, cellumaq.h and cellumaq.pc are in $(DESTDIR)$(PREFIX)."

clean:
	@rm -rf build crates/*/out
	@echo "build/ and crates/*/out/ are removed."
