# Targets: run (the program on an example job), test (the gate), lib (the proved archive for C, and the same as a shared library), slotline (the program), sim (the judge of mutants in a
# simulator), install, bench, pictures, fmt (lays out the files of all crates); and the steps of test: audit, second, jobs, cases, host, examples, fuzz, package, python, sim-gate. tools-run,
# tools-sim and tools-test look for what run, sim and test need, and kit says which kit proves.
CFLAGS = -std=c11 -O2 -g -Wall -Wextra -Werror
SANITIZE = -fsanitize=address,undefined -fno-sanitize-recover=all
LIB = target/staticlib/libslt.a
SHARED = target/staticlib/libslt.so
SLOTLINE = target/bin/slotline
SECOND = target/second/release
# How the program is started, and what compiles and runs the comparison, which links the archive.
PROGRAM = $(SLOTLINE)
COMPARE = cargo run
# What looks into the shared library.
NM = nm
READELF = readelf

# The prover compiles for x86-64. On another processor the C and the comparison are compiled for x86-64 as well, and all of it runs under an emulator, where the
# address sanitizer does not find the addresses that it takes.
ifneq ($(shell uname -m),x86_64)
CC = x86_64-linux-gnu-gcc
CXX = x86_64-linux-gnu-g++
NM = x86_64-linux-gnu-nm
READELF = x86_64-linux-gnu-readelf
EMULATOR = qemu-x86_64-static
SANITIZE = -fsanitize=undefined -fno-sanitize-recover=all -static-libubsan
PROGRAM = target/emulated/slotline
COMPARE = RUSTC=/usr/bin/rustc CARGO_TARGET_X86_64_UNKNOWN_LINUX_GNU_LINKER=$(CC) CARGO_TARGET_X86_64_UNKNOWN_LINUX_GNU_RUNNER=$(EMULATOR) \
    /usr/bin/cargo run --target x86_64-unknown-linux-gnu
endif

.PHONY: test kit tools-run tools-sim tools-test steps sim sim-gate lib slotline run fmt audit pictures judges second jobs cases host examples fuzz python install package bench bench-programs bench-table clean

# The steps go three at a time, the output of each in one piece; what most of them stand on is proved beside those that stand on nothing, which give way to it. rt ci comes last: it
# proves every crate, tries every must-fail edit, runs the programs, looks at the layout of every file, and prints the verdict.
GIVES_WAY = nice -n 10
test: | tools-test
	@echo "test: what the library stands on is proved first, which takes some minutes and is printed when it is done"
	$(MAKE) --no-print-directory -j3 --output-sync=target -o kit BEFORE=lib steps
	@sh setup/gate.sh target/gate

# The longest of them that needs the library comes first, so that no long one is left alone at the end.
steps: audit sim-gate second fuzz jobs cases host examples package python

# Which kit proves is said before anything is proved, and that it is another than setup/kit names, where it is.
kit:
	@sh setup/kit.sh

# The tools, one list for all commands. What is missing is installed where it may be, else the command that does it is printed.
tools-run tools-sim tools-test: | kit
	@sh setup/tools.sh $(@:tools-%=%)

# Lays out the files of every crate. rt ci, and so the gate, refuses files in another layout.
fmt:
	for crate in crates/*/; do (cd $$crate && rt fmt) || exit 1; done

# Proves the C calls and what they stand on, and compiles them: one archive, and a shared library of the same object. As many crates are proved at a time as there are processors, eight at most.
# What rt proved it keeps in the crates' folders out/, so that a second call takes little. The shared library's other names are copies: rt ci refuses a link anywhere in the checkout.
JOBS := $(shell n=$$(nproc) && echo $$((n < 8 ? n : 8)) || echo 2)
PROVE = rt all check --jobs $(JOBS)
lib: | kit
	cd crates/slt && $(PROVE) && rt lib
	rm -f $(LIB) $(SHARED)*
	install -D -m 644 crates/slt/out/libslt.a $(LIB)
	$(CC) -shared -nostartfiles $(SHARED_FLAGS) -Wl,--whole-archive $(LIB) -Wl,--no-whole-archive -o $(SHARED).$(VERSION)
	cd $(dir $(SHARED)) && cp libslt.so.$(VERSION) libslt.so.$(MAJOR) && cp libslt.so.$(VERSION) libslt.so

# The shared library exports what the version script says. It is linked only if its code needs no change where it is loaded, and if the C library alone has what it
# calls; with nothing to do at its start or end it has no start files.
MAJOR = $(firstword $(subst ., ,$(VERSION)))
SHARED_FLAGS = -Wl,-soname,libslt.so.$(MAJOR) -Wl,--version-script=packaging/libslt.map -Wl,-z,text,-z,defs,-z,relro,-z,now

# Proves the program that reads a job file and what it stands on, and compiles it: rt does that where it runs it. In the gate BEFORE names the target that goes before, since only one rt works
# on a crate at a time.
slotline: | tools-run $(BEFORE)
	cd crates/slotline && $(PROVE) && rt run < ../../examples/three_kinds.slt > /dev/null
	install -D -m 755 crates/slotline/out/slotline $(SLOTLINE)
ifdef EMULATOR
	mkdir -p $(dir $(PROGRAM))
	printf '#!/bin/sh\nexec %s "%s" "$$@"\n' $(EMULATOR) $(abspath $(SLOTLINE)) > $(PROGRAM)
	chmod +x $(PROGRAM)
endif

# The program on an example job. On a file of one's own: target/bin/slotline < FILE
run: slotline
	$(PROGRAM) < examples/three_kinds.slt

# The pages, the header, the comments and the pictures against the source; then the audit itself, tried on wrong words that it must find, and the scripts of setup/ on
# kits and machines that are not here.
audit:
	$(GIVES_WAY) python3 -B audit/audit.py
	$(GIVES_WAY) python3 -B audit/test_audit.py
	sh setup/try.sh target/setup

# The pictures of docs/, drawn anew from crates.txt and from the specs.
pictures:
	python3 -B audit/pictures.py

# What needs no archive of the independent second program: its own tests, and the programs that judge job files, cases and random calls.
judges:
	cd second && $(GIVES_WAY) cargo test --quiet --release --offline --lib --bin jobs
	cd second && $(GIVES_WAY) cargo build --quiet --release --offline --bin jobs --bin cases --bin fuzz

# Its comparison with the archive.
second: lib judges
	cd second && $(COMPARE) --quiet --release --offline

# The program on many job files and on the examples, against the text of the second program's rules; then the generator
# that docs/JOBFILE.md shows, whose job the rules print as well, and the mistakes in it that the page lists.
jobs: judges slotline
	$(SECOND)/jobs $(abspath $(PROGRAM)) examples
	sh examples/try_generator.sh $(abspath $(PROGRAM)) target/generator
	$(SECOND)/jobs --print < target/generator/job.slt | cmp - target/generator/expected
	$(SECOND)/jobs --print < target/generator/thousands.slt | cmp - target/generator/thousands.printed
	python3 examples/try_mistakes.py $(PROGRAM)
	python3 examples/try_mistakes.py $(SECOND)/jobs --print

# The questions that the program cases is given and the text that it must print, printed anew by the second program; rt ci runs cases itself on these
# questions and compares what it prints with the same text.
cases: judges
	$(SECOND)/cases --questions | cmp - crates/cases/stdin
	$(SECOND)/cases | cmp - crates/cases/stdout

# A C host under the sanitizers, with the archive and then with the shared library; what it prints is compared with what it should. What the shared library
# exports and asks for is compared with the header. Then the programs that docs/WAKE.md and docs/BANK.md show.
host: lib
	mkdir -p target/host
	$(CC) $(CFLAGS) $(SANITIZE) -Iinclude examples/host.c $(LIB) -o target/host/host
	$(EMULATOR) target/host/host > target/host/stdout
	cmp target/host/stdout examples/host.stdout
	NM=$(NM) READELF=$(READELF) sh packaging/try_shared.sh $(SHARED) include/slt.h libslt.so.$(MAJOR) target/host
	$(CC) $(CFLAGS) $(SANITIZE) -Iinclude examples/host.c $(SHARED) -Wl,-rpath,$(abspath $(dir $(SHARED))) -o target/host/shared
	$(EMULATOR) target/host/shared > target/host/shared.stdout
	cmp target/host/shared.stdout examples/host.stdout
	CC="$(CC) $(CFLAGS) $(SANITIZE) -Iinclude" EMULATOR="$(EMULATOR)" sh examples/try_wake.sh $(LIB) target/host
	CC="$(CC) $(CFLAGS) $(SANITIZE) -Iinclude" EMULATOR="$(EMULATOR)" sh examples/try_page.sh BANK 0 $(LIB) target/host

# A short program for each use, compiled as the C host is; what it prints stands beside it.
EXAMPLES = $(filter-out host,$(basename $(notdir $(wildcard examples/*.c))))
examples: lib
	mkdir -p target/examples
	for name in $(EXAMPLES); do \
	    $(CC) $(CFLAGS) $(SANITIZE) -Iinclude examples/$$name.c $(LIB) -o target/examples/$$name && \
	    $(EMULATOR) target/examples/$$name > target/examples/$$name.stdout && cmp target/examples/$$name.stdout examples/$$name.stdout || exit 1; \
	done
	@echo "examples: $(words $(EXAMPLES)) programs print what stands beside them"

# Cases drawn at random: the C calls under the sanitizers, in memory where a stray access shows, and the program on files.
# How many there are is fixed, and SEED decides which: `make fuzz SEED=2` tries others, with CASE=N only that C call.
SEED = 1
CASE =
fuzz: lib judges slotline
	mkdir -p target/fuzz
	$(CC) $(CFLAGS) $(SANITIZE) -Iinclude fuzz/*.c $(LIB) -o target/fuzz/fuzz
	$(SECOND)/fuzz $(SEED) $(CASE) | $(EMULATOR) target/fuzz/fuzz
	test -n "$(CASE)" || $(SECOND)/jobs --fuzz $(SEED) $(PROGRAM)

# The Python package: its types, where a checker of them is there, and its tests, which load the shared library and run the program; SEED decides their random arguments,
# too. A Python of another processor cannot load a library for x86-64: there only the types are looked at.
MYPY = mypy
python: lib slotline
	if command -v $(MYPY) > /dev/null; then cd python && $(MYPY) slt backend tests/typed.py; else echo "python: there is no $(MYPY) here, and types are not looked at"; fi
ifdef EMULATOR
	@echo "python: this machine's Python cannot load a library for x86-64: the tests of the package are left out"
else
	cd python && SEED=$(SEED) SLT_LIBRARY=$(abspath $(SHARED)) SLOTLINE=$(abspath $(PROGRAM)) python3 -B -m unittest discover -s tests -t .
endif

# The judge at work in a simulator (docs/SIMULATOR.md): the mutants of four circuits. sim-gate has fewer of them, and compares their classes with those in sim/expected; it is
# a step of test, which has looked for the tools.
SIM = CC="$(CC)" CXX="$(CXX)" EMULATOR="$(EMULATOR)" SLT_LIB=$(abspath $(LIB)) python3 -B sim/all.py
MUTANTS = 200
sim: lib | tools-sim
	$(SIM) --mutants $(MUTANTS) --seed $(SEED)

sim-gate: lib
	python3 -B sim/test_judge.py --quiet
	SIM_QUIET=1 $(SIM) --gate

# The archive, the shared library with its links, the header and its pkg-config file, what a SystemVerilog bench needs, the program and its man page, and the Python package with a link to
# the library beside it. PREFIX is where they will be used, and DESTDIR stands before it where they are only put together. PYTHON_DIR is where Python looks for packages below PREFIX.
PREFIX = /usr/local
VERSION = 2.0
PYTHON_DIR = $(or $(shell python3 -B packaging/python_dir.py "$(PREFIX)"),$(PREFIX)/lib/python3/site-packages)
install: lib slotline
	install -D -m 644 $(LIB) "$(DESTDIR)$(PREFIX)/lib/libslt.a"
	install -D -m 755 $(SHARED).$(VERSION) "$(DESTDIR)$(PREFIX)/lib/libslt.so.$(VERSION)"
	ln -sf libslt.so.$(VERSION) "$(DESTDIR)$(PREFIX)/lib/libslt.so.$(MAJOR)"
	ln -sf libslt.so.$(MAJOR) "$(DESTDIR)$(PREFIX)/lib/libslt.so"
	install -D -m 644 include/slt.h "$(DESTDIR)$(PREFIX)/include/slt.h"
	install -D -m 755 $(SLOTLINE) "$(DESTDIR)$(PREFIX)/bin/slotline"
	install -D -m 644 sim/slt_pkg.sv "$(DESTDIR)$(PREFIX)/share/slt/slt_pkg.sv"
	install -D -m 644 sim/slt_dpi.c "$(DESTDIR)$(PREFIX)/share/slt/slt_dpi.c"
	install -D -m 644 packaging/slotline.1 "$(DESTDIR)$(PREFIX)/share/man/man1/slotline.1"
	sed 's|@PREFIX@|$(PREFIX)|; s|@VERSION@|$(VERSION)|' packaging/slt.pc.in > target/slt.pc
	install -D -m 644 target/slt.pc "$(DESTDIR)$(PREFIX)/lib/pkgconfig/slt.pc"
	install -d "$(DESTDIR)$(PYTHON_DIR)/slt"
	install -m 644 python/slt/*.py python/slt/py.typed "$(DESTDIR)$(PYTHON_DIR)/slt"
	ln -sfr "$(DESTDIR)$(PREFIX)/lib/libslt.so.$(MAJOR)" "$(DESTDIR)$(PYTHON_DIR)/slt/libslt.so.$(MAJOR)"

# An installation as another project meets it: its man page, its program, a C program and a SystemVerilog bench that are told by pkg-config alone where everything is,
# and the Python package, installed and as pip installs it. It stands outside the checkout, since an installation has links, which rt ci refuses in a checkout.
package: lib slotline
	room=$$(mktemp -d) && trap 'rm -rf "$$room"' EXIT && \
	    $(MAKE) --no-print-directory -o lib -o slotline install DESTDIR= PREFIX="$$room/install" && \
	    CC="$(CC)" CXX="$(CXX)" EMULATOR="$(EMULATOR)" sh packaging/try.sh "$$room/install" "$$room/outside" "$$(python3 -B packaging/python_dir.py "$$room/install")"

# Ratios to plain C, to tight C and to memcpy, in one run. It fails where the library and the C beside it answer or write anything that is not the
# same; nothing fails by its numbers. The program slotline is timed against programs of its own.
BENCH = target/bench
BENCH_CC = $(CC) -std=c11 -O3 -Wall -Wextra -Werror -Iinclude -Ibench
YARDSTICKS = $(filter-out %_slotline.c,$(wildcard bench/plain_*.c bench/tight_*.c))
TIMED = $(filter-out bench/plain_%.c bench/tight_%.c,$(wildcard bench/*.c))
bench-programs: lib slotline
ifdef EMULATOR
	@echo "bench: times under an emulator say nothing: this needs an x86-64 machine" >&2; exit 1
endif
	mkdir -p $(BENCH)
	for whose in plain tight; do $(BENCH_CC) bench/$${whose}_slotline.c $(YARDSTICKS) -o $(BENCH)/$${whose}_slotline || exit 1; done
	$(BENCH_CC) $(TIMED) $(YARDSTICKS) $(LIB) -lm -o $(BENCH)/bench

RUN_BENCH = $(BENCH)/bench $(SLOTLINE) $(BENCH)/tight_slotline $(BENCH)/plain_slotline
bench: bench-programs
	$(RUN_BENCH)

# The table of docs/SPEED.md: medians of nine runs, with the least and the greatest seen.
RUNS = 9
bench-table: bench-programs
	python3 bench/table.py $(RUNS) $(RUN_BENCH)

clean:
	rm -rf target crates/*/out
