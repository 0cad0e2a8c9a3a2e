# `make help` lists the targets. docs/TESTING.md says what the tests show, docs/SPEED.md what the times say.

SCRIPTS ?= 1000
SECONDS ?= 60
SEED ?= 1
ROUNDS ?= 31
reference = reference/target/release/reference
archive = target/lib/libdrivelog.a
tool = target/bin/drivelog
# The crates that export the calls for C: those that read an image's bytes, and those of the log with its state in lent words.
c_crates = c_query_c c_read_c c_write_c c_append_c c_three_c c_vet_c c_crash_c
# What the archive is made of: the files of these crates and of all that they stand on.
c_sources := $(shell tools/sources $(c_crates))
cli_c = $(wildcard cli/*.c driver/*.c)
cli_h = $(wildcard cli/*.h driver/*.h include/*.h)
# The version has one place, the header.
version := $(shell sed -n 's/^.define DRIVELOG_VERSION "\(.*\)"$$/\1/p' include/drivelog.h)
PREFIX ?= /usr/local
DESTDIR ?=
# The proved programs that are installed.
rattle_programs = loglist logload logwhy $(notdir $(wildcard crates/logorphans))
shared = target/install/libdrivelog.so.$(version)
driver_shared = target/install/libdrivelog-driver.so.$(version)
driver_archive = target/install/libdrivelog-driver.a

.PHONY: help demo list load lib tool prove test programs reference shared install uninstall clean
.PHONY: compare compare-calls compare-c compare-why compare-orphans compare-load crash crash-three loss cells kill bench bench-c
.PHONY: bench-export speed worst

help:
	@echo "make demo          a log in a file, whose writer is killed in the middle, recovered and listed; then one on three modules"
	@echo "make test          the gate: every proof, edits that must be refused, all comparisons; .ci/run calls it"
	@echo "make prove         every function and theorem from nothing, with no program run"
	@echo "make lib           the calls for C, proved: $(archive), for include/drivelog.h"
	@echo "make tool          the command-line tool $(tool), over that archive and driver/"
	@echo "make install       archive, shared libraries, headers, programs, pages: PREFIX=/usr/local DESTDIR=; make uninstall removes them"
	@echo "make list          the records of a sample module, by loglist"
	@echo "make load          an image made from a sample listing by logload, and listed again"
	@echo "make compare       all five comparisons with the reference, SCRIPTS=1000 SEED=1:"
	@echo "  compare-calls    the eleven calls and append, on random scripts, and loglist on random images"
	@echo "  compare-c        the calls for C, on images and scripts"
	@echo "  compare-why      logwhy"
	@echo "  compare-orphans  logorphans"
	@echo "  compare-load     logload, and loglist on what it writes"
	@echo "make crash         the crash bench: power failures in random histories, SECONDS=60 SEED=1"
	@echo "make crash-three   the same for three modules: absent ones, missed ops, power failures, SECONDS=60 SEED=1"
	@echo "make loss          how many completed records a power failure loses, for F of 1 to 16, SECONDS=60 SEED=1"
	@echo "make cells         what one changed word, of any value, does to the list that loglist prints, SECONDS=60 SEED=1"
	@echo "make kill          processes killed and modules whose power fails, on one module and on three, SECONDS=60 SEED=1"
	@echo "make bench         how long the calls take beside plain Rust, zlib and libpmemlog, ROUNDS=31"
	@echo "make bench-export  how long drivelog export takes for 1,000 files, beside plain Rust, ROUNDS=31"
	@echo "make worst         what each call for C costs at worst: instructions, by callgrind, and stack"
	@echo "make speed         how long loglist takes for a full image, beside one in plain Rust"
	@echo "make clean         removes target/ and reference/target/; what was proved is kept in crates/*/out"

demo: tool
	@tests/cli/demo $(tool)

list:
	@tools/need list rt
	tools/rt check loglist
	target/bin/loglist < crates/loglist/stdin

load:
	@tools/need load rt
	tools/rt check logload loglist
	target/bin/logload < crates/logload/stdin | target/bin/loglist

lib: $(archive)

# tools/archive says how. What the checks say is shown only if one fails.
$(archive): $(c_sources) crates.txt tools/rt tools/archive
	@tools/need lib rt
	@mkdir -p target
	@tools/progress target/lib.log $(c_crates) -- tools/archive $(c_crates)

tool: $(tool)

$(tool): $(cli_c) $(cli_h) $(archive)
	@tools/need tool gcc
	@mkdir -p target/bin
	gcc -std=c11 -O2 -Wall -Wextra -Werror -Iinclude -Idriver -o $@ $(cli_c) $(archive)

# The shared libraries: the archive's calls, and the driver, which is not proved, as a library of its own.
shared: $(shared) $(driver_shared)

$(shared): $(archive)
	@tools/need shared gcc
	@mkdir -p target/install
	gcc -shared -Wl,-soname,libdrivelog.so.$(firstword $(subst ., ,$(version))) -Wl,--no-undefined -o $@ \
	  -Wl,--whole-archive $(archive) -Wl,--no-whole-archive
	ln -sfn $(notdir $@) target/install/libdrivelog.so

$(driver_archive): $(wildcard driver/*.c driver/*.h) include/drivelog.h
	@tools/need install gcc
	@mkdir -p target/install/driver
	rm -f target/install/driver/*.o
	cd target/install/driver && gcc -std=c11 -O2 -fPIC -Wall -Wextra -Werror -I$(CURDIR)/include -I$(CURDIR)/driver -c $(CURDIR)/driver/*.c
	rm -f $@
	ar rcs $@ target/install/driver/*.o

$(driver_shared): $(driver_archive) $(shared)
	gcc -shared -Wl,-soname,libdrivelog-driver.so.$(firstword $(subst ., ,$(version))) -Wl,--no-undefined -o $@ \
	  -Wl,--whole-archive $(driver_archive) -Wl,--no-whole-archive -Ltarget/install -ldrivelog -Wl,-rpath,'$$ORIGIN'
	ln -sfn $(notdir $@) target/install/libdrivelog-driver.so

# The programs that are installed, proved and built.
target/install/programs: $(shell tools/sources $(rattle_programs)) crates.txt
	@tools/need install rt
	@mkdir -p target/install
	@tools/progress target/install/programs.log $(rattle_programs) -- tools/rt check $(rattle_programs)
	@touch $@

install: lib tool shared target/install/programs
	@tools/install "$(PREFIX)" "$(version)" "$(DESTDIR)"

uninstall:
	@tools/install "$(PREFIX)" "$(version)" "$(DESTDIR)" --remove

clean:
	rm -rf target reference/target

prove:
	@tools/need prove rt
	tools/rt prove

test:
	@tools/need test rt gcc g++ cargo git python3
	tests/gate

reference:
	@tools/need reference cargo
	cd reference && cargo build --release --offline --quiet

programs: reference
	@tools/need programs rt
	tools/rt check replay loglist

compare: compare-calls compare-c compare-why compare-orphans compare-load

compare-calls: programs
	$(reference) compare target/bin/replay target/bin/loglist $(SEED) $(SCRIPTS)

compare-c: lib reference
	tests/c/run $(SEED) $(SCRIPTS)

compare-why: reference
	@tools/need compare-why rt
	tools/rt check logwhy
	$(reference) why target/bin/logwhy $(SEED) $(SCRIPTS)

compare-orphans: reference
	@tools/need compare-orphans rt
	tools/rt check logorphans
	$(reference) orphans target/bin/logorphans $(SEED) $(SCRIPTS)

compare-load: reference
	@tools/need compare-load rt
	tools/rt check logload loglist
	$(reference) load target/bin/logload target/bin/loglist $(SEED) $(SCRIPTS)

crash: programs
	$(reference) crash $(SECONDS) --program target/bin/replay --seed $(SEED)

crash-three: reference
	$(reference) crash-three $(SECONDS) --seed $(SEED)

loss: reference
	$(reference) loss $(SECONDS) --seed $(SEED)

cells: reference
	tools/rt check loglist
	$(reference) cells target/bin/loglist $(SECONDS) --seed $(SEED)

kill: lib
	tests/kill/run $(SECONDS) $(SEED)

speed: programs
	$(reference) time target/bin/loglist reference/target/release/plain_loglist

# Each case by turns, as `make lib bench ROUNDS=101`. What cannot be built here (zlib's header, libpmemlog, libpmem, the archive of `make lib`)
# is left out with a line.
bench: programs bench-c
	tools/rt check bench
	cd reference && cargo build --profile plain --offline --quiet --bin plain_bench
	$(reference) bench target/bin/bench reference/target/plain/plain_bench target/bench/crc target/bench/pmemlog \
	  --calls target/bench/calls --append target/bench/append --append-pmem target/bench/append-pmem --carry target/bench/carry \
	  --three target/bench/three \
	  --vet target/bench/vet --crashes target/bench/crashes --rounds $(ROUNDS)

bench-export: tool
	@tools/need bench-export cargo python3
	cd reference && cargo build --profile plain --offline --quiet --bin plain_export
	tests/bench/export $(tool) reference/target/plain/plain_export $(ROUNDS)

# drivelog_append has a case as soon as the header declares it.
has_append = $(if $(shell grep drivelog_append include/drivelog.h),-DHAS_APPEND)
worst: lib
	@tools/need worst gcc python3 valgrind
	@mkdir -p target/bench
	@gcc -std=c11 -O2 -Wall -Wextra -Werror -Iinclude $(has_append) -o target/bench/worst tests/bench/worst.c $(archive) -pthread
	@tests/bench/worst target/bench/worst

append_c = -std=c11 -O2 -Wall -Wextra -Iinclude -Idriver
append_from = tests/bench/append.c driver/driver.c driver/handle.c $(archive)
has_zlib = echo '\#include <zlib.h>' | gcc -E - > /dev/null 2>&1
bench-c:
	@tools/need bench gcc
	mkdir -p target/bench
	rm -f target/bench/crc target/bench/calls target/bench/append target/bench/append-pmem target/bench/pmemlog target/bench/three target/bench/vet \
	  target/bench/crashes target/bench/carry
	if $(has_zlib); then gcc -O2 -Wall -Wextra -o target/bench/crc tests/bench/crc.c -lz; \
	else echo "zlib.h is not installed (Debian: zlib1g-dev), so zlib's CRC-32 and the calls for C are left out"; fi
	if [ -e $(archive) ] && $(has_zlib); then \
	  gcc -O2 -Wall -Wextra -Iinclude -o target/bench/calls tests/bench/calls.c $(archive) -lz && \
	  gcc -O2 -Wall -Wextra -Iinclude -o target/bench/three tests/bench/three.c $(archive) -lz && \
	  gcc -O2 -Wall -Wextra -Iinclude -o target/bench/vet tests/bench/vet.c $(archive) && \
	  gcc -O2 -Wall -Wextra -Iinclude -o target/bench/crashes tests/bench/crashes.c $(archive) && \
	  gcc $(append_c) -o target/bench/append $(append_from) -lz; fi
	if [ -e $(archive) ] && $(has_zlib) && pkg-config --exists libpmem; then \
	  gcc $(append_c) -DDRIVER_PMEM -o target/bench/append-pmem $(append_from) -lz $$(pkg-config --cflags --libs libpmem); fi
	if $(has_zlib) && pkg-config --exists libpmem; then \
	  gcc $(append_c) -DDRIVER_PMEM -o target/bench/carry tests/bench/carry.c driver/driver.c -lz $$(pkg-config --cflags --libs libpmem); fi
	if pkg-config --exists libpmemlog; then \
	  gcc -O2 -Wall -Wextra -o target/bench/pmemlog tests/bench/pmemlog.c $$(pkg-config --cflags --libs libpmemlog); fi
