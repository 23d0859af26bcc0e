# make demo   a card formatted, a calibration set saved, the power cut at each point of a save, and what the box would load
# make test   proves every crate, tries the must-fail edits, runs the programs and the tests of the host side
# make bench  each call beside plain Rust in one run
# make soak [MINUTES=60]   fresh random cases for the proved library and the second program: runs of calls, cuts, damage, edges, lent
#             forms; prints the sums, and at the first difference a line that replays it (REPLAY=KIND:SEED). SEED=S CASES=N makes the
#             same cases again, THREADS=T takes so many cores instead of all
# make mutants   every must-fail edit, also those tried before, and every wrong definition of host/definition-edits, with the statement
#             that it makes false
# make vectors   the folder vectors/: small volumes of every kind as text, and what stands on each, for the tests of other readers
# make install PREFIX=DIR [DESTDIR=DIR]   installs the command, its manual and completion, the header, the library and a pkg-config
#             file; make uninstall removes them
PREFIX ?= /usr/local
DESTDIR ?=
MINUTES ?= 60
.PHONY: demo test bench soak mutants vectors install uninstall

demo:
	@tests/demo

test:
	@tests/run

bench:
	@packaging/build-library goofs search
	@cargo run --manifest-path host/Cargo.toml --offline --release -p bench

soak:
	@packaging/build-library goofs
	@cargo run --manifest-path host/Cargo.toml --offline --release --quiet -p soak -- $(if $(REPLAY),--replay $(REPLAY), \
	    $(if $(CASES),--cases $(CASES),--minutes $(MINUTES)) $(if $(SEED),--seed $(SEED)) $(if $(THREADS),--threads $(THREADS)))

mutants:
	@tests/edits
	@cargo run --manifest-path host/Cargo.toml --offline --release --quiet -p definition-edits

install:
	@packaging/install "$(PREFIX)" "$(DESTDIR)"

uninstall:
	@packaging/install --remove "$(PREFIX)" "$(DESTDIR)"

vectors:
	@cargo run --manifest-path host/Cargo.toml --offline --release --quiet -p vectors -- write vectors
