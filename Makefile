# What is built from the proved crates: the library that firmware links, and what uses it. `rt` proves; see README.md.
CC = gcc
CFLAGS = -std=c11 -O2 -Wall -Wextra -Werror -pedantic -Iinclude
CARGO = CARGO_TARGET_DIR=target/cargo cargo
MANIFEST = --quiet --offline --manifest-path compare/Cargo.toml

# the scripts of tests/ that make stored inputs and outputs, and where they put them
STORED = test_bus test_feed test_frames test_pages test_pixel test_bench demo depot door_monitor
INTO = .

.PHONY: demo depot bdf claims references unused stored stored-check library divisions example model comparison speed ports port-known ports-refusals ports-test ports-count

# the picture: proves, builds and runs it, and shows it as text
demo:
	tools/programs demo preview
	mkdir -p target/demo
	target/bin/demo < crates/demo/stdin > target/demo/frame.ppm
	@echo "the picture: $(CURDIR)/target/demo/frame.ppm"
	@target/bin/preview < target/demo/frame.ppm

# the depot's programs: proves and builds them, and runs them over good files, bad ones of each kind and wrong lengths
depot:
	tools/programs font_pack font_check font_unpack
	python3 -B tests/depot_runs.py

# fonts in BDF, which font editors read and write: tools/bdf.py both ways
bdf:
	@python3 -B tests/bdf.py

# every claim of specs/ is tied to its proof, and docs/PROMISES.md lists it
claims:
	@python3 tests/claims.py

# what the documents point to is there, and docs/PROMISES.md has each public function once
references:
	@python3 tests/references.py

# every declaration is cited and every import used
unused:
	@python3 tools/unused.py

# proves osd and all below it, and writes target/staticlib/libosd.a (rt lib); its module is kept for the ports
library:
	ports/library

# the library does not divide; a port that does is refused as it is built
divisions: library
	ports/divisions target/staticlib/libosd.a

# the library for ARM, RISC-V and WebAssembly, under target/ports/ (docs/PORTS.md); PORT names one, before anything is proved
ports: port-known library
	ports/build $(PORT)

port-known:
	@ports/build --known $(PORT)

# what the ports' build must refuse: wrong names, modules that mean something else elsewhere, code that needs more than it may
ports-refusals: library
	ports/refusals

# the ports against the independent implementation, emulated or in Node, where they are installed; PORT, SEED and SESSIONS can be given
ports-test: ports
	mkdir -p target/ports-test
	$(CARGO) run $(MANIFEST) --release --bin trace -- target/ports-test/trace crates/demo/stdin $(SEED) $(SESSIONS) > target/ports-test/expected
	$(CARGO) run $(MANIFEST) --release --bin trace -- target/ports-test/trace.short crates/demo/stdin 9425 60 > target/ports-test/expected.short
	ports/test $(PORT)

# instructions of each call on a Cortex-M0 and a Cortex-M4, counted by an emulator where it is installed (docs/SPEED.md)
ports-count: library
	ports/build thumbv6m-none-eabi thumbv7em-none-eabi
	mkdir -p target/ports-count
	$(CARGO) run $(MANIFEST) --release --bin pages -- target/ports-count/pages
	ports/count

# the C example against its stored output (tests/door_monitor.py)
example: library
	mkdir -p target/example
	$(CC) $(CFLAGS) examples/door_monitor.c target/staticlib/libosd.a -o target/example/door_monitor
	target/example/door_monitor | diff examples/door_monitor.stdout -

# makes all stored inputs and outputs again, with the answers of tests/model.py
stored:
	@set -e; for name in $(STORED); do python3 -B tests/$$name.py $(INTO); done

# makes them below target/ instead: a line for each file that the repository has otherwise, or that no script makes (what rt leaves below
# out/ aside)
stored-check:
	@rm -rf target/stored
	@$(MAKE) --no-print-directory stored INTO=target/stored
	@same=true; for file in $$({ find crates examples -path 'crates/*/out' -prune -o \( -name stdin -o -name '*stdout' \) -print; (cd target/stored && find * -type f); } | sort -u); do \
		cmp -s $$file target/stored/$$file || { echo "stored-check: $$file is not what tests/ makes"; same=false; }; done; $$same

# the independent implementation's own tests
model:
	$(CARGO) test $(MANIFEST) -p osd_model

# the library against the independent implementation; SEED and SESSIONS can be given
comparison: library
	$(CARGO) run $(MANIFEST) --release --bin compare -- crates/demo/stdin $(SEED) $(SESSIONS)

# the table of docs/SPEED.md
speed: library
	$(CARGO) run $(MANIFEST) --release --bin speed
