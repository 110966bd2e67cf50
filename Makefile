# Builds the library with the kit, and everything around it with a C compiler.
#
#     make                      target/staticlib/libjoyce.a and target/joyce, the tool
#     make example              builds the example, examples/film.c, and runs it
#     make install PREFIX=DIR   header, archive, pkg-config and CMake files, tool, manual page, documents and the binding for Python below DIR
#                               (default /usr/local); DESTDIR is honoured
#     make uninstall PREFIX=DIR
#     make test                 the gate
#     make fuzz                 fuzzers with clang's libFuzzer: target/fuzz of the calls that take tables, with inputs to begin with in target/corpus,
#                               and target/fuzz-symbols of joyce_symbols, with target/texts;
#                               SANITIZERS=fuzzer,address,undefined for slower ones that see more
#     make clean                removes what make built; proofs are kept
.POSIX:
.SUFFIXES:

CC = cc
CFLAGS = -O2
WARNINGS = -Wall -Wextra -pedantic
PREFIX = /usr/local
DESTDIR =
BINDIR = $(PREFIX)/bin
INCLUDEDIR = $(PREFIX)/include
LIBDIR = $(PREFIX)/lib
DATADIR = $(PREFIX)/share

LIBRARY = target/staticlib/libjoyce.a
C99 = $(CC) -std=c99 $(WARNINGS) $(CFLAGS) $(CPPFLAGS) -Iinclude -Iexamples

all: $(LIBRARY) target/joyce

# The first time, the kit proves every crate below it: see tools/library.
$(LIBRARY): FORCE
	@CC='$(CC)' tools/library -q

FORCE:

TOOL = tools/joyce.c tools/tool.c tools/check.c tools/run.c tools/look.c tools/explain.c tools/explain_form.c tools/explain_numbers.c \
	tools/explain_types.c tools/show.c tools/view.c tools/text.c tools/table.c tools/labels.c tools/names.c tools/picture.c tools/symbols.c \
	tools/scan.c tools/unset.c tools/room.c
TOOL_HEADERS = tools/tool.h tools/check.h tools/explain.h tools/judge.h tools/show.h tools/view.h tools/text.h tools/table.h tools/labels.h tools/names.h \
	tools/picture.h tools/scan.h tools/unset.h tools/room.h

target/joyce: $(LIBRARY) $(TOOL) $(TOOL_HEADERS) include/joyce.h
	$(C99) $(TOOL) $(LIBRARY) $(LDFLAGS) -o $@

target/film: $(LIBRARY) examples/film.c examples/board.c examples/board.h examples/builder.c examples/builder.h include/joyce.h
	$(C99) examples/film.c examples/board.c examples/builder.c $(LIBRARY) $(LDFLAGS) -o $@

target/rewind: $(LIBRARY) examples/rewind.c examples/board.c examples/board.h examples/builder.c examples/builder.h include/joyce.h
	$(C99) examples/rewind.c examples/board.c examples/builder.c $(LIBRARY) $(LDFLAGS) -o $@

target/paint: $(LIBRARY) examples/paint.c examples/builder.c examples/builder.h include/joyce.h
	$(C99) examples/paint.c examples/builder.c $(LIBRARY) $(LDFLAGS) -o $@

example: target/film
	target/film

PLACES = PREFIX='$(PREFIX)' BINDIR='$(BINDIR)' INCLUDEDIR='$(INCLUDEDIR)' LIBDIR='$(LIBDIR)' DATADIR='$(DATADIR)' DESTDIR='$(DESTDIR)'

install: all
	@$(PLACES) tools/install

uninstall:
	@$(PLACES) tools/install --remove

test:
	bash .ci/run

# The plain interpreter is compared with, and its branches guide the fuzzer: the archive has no counters of its own.
SANITIZERS = fuzzer
FUZZ = fuzz/calls.c fuzz/mutator.c bench/plain.c bench/interpreter.c

FUZZ_SYMBOLS = fuzz/symbols.c bench/scanner.c

fuzz: $(LIBRARY) $(FUZZ) fuzz/short.c $(FUZZ_SYMBOLS) fuzz/texts.c include/joyce.h
	clang -std=c11 -g -O2 $(WARNINGS) -fsanitize=$(SANITIZERS) -DPLAIN $(FUZZ_FLAGS) -Iinclude -Ibench $(FUZZ) $(LIBRARY) -o target/fuzz
	$(CC) -std=c11 -O2 $(WARNINGS) -Iinclude fuzz/calls.c fuzz/short.c fuzz/mutator.c $(LIBRARY) -o target/inputs
	mkdir -p target/corpus
	target/inputs crates/verdicts/data/verdicts.bin 1000 target/corpus
	clang -std=c11 -g -O2 $(WARNINGS) -fsanitize=$(SANITIZERS) $(FUZZ_FLAGS) -Iinclude -Ibench $(FUZZ_SYMBOLS) $(LIBRARY) -o target/fuzz-symbols
	$(CC) -std=c11 -O2 $(WARNINGS) -Iinclude -Ibench fuzz/texts.c $(FUZZ_SYMBOLS) $(LIBRARY) -o target/inputs-symbols
	mkdir -p target/texts
	target/inputs-symbols tests/symbols/symbols.bin 1000 target/texts

clean:
	rm -f target/joyce target/film target/rewind target/paint target/fuzz target/inputs target/fuzz-symbols target/inputs-symbols
	rm -rf target/corpus target/texts target/install

.PHONY: all example install uninstall test fuzz clean FORCE
