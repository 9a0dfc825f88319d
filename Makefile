# afdxmon: everything that is done in this repository.
#
#   make demo      runs the program on the recordings of a flight in examples/, in seconds
#   make test      runs the tests of the program, in minutes
#   make install   installs bin/afdxmon, its man pages, completions, plugin for Wireshark, documents and examples below
#                  PREFIX (/usr/local), in DESTDIR where that is given; make uninstall removes them
#   make dist      packs them as a tarball in dist/, which is unpacked anywhere; make deb packs them for Debian and its kin,
#                  make rpm for Red Hat, SUSE and theirs. The same bytes come of the same commit
#   make completions  writes the completions and the synopsis of afdxmon(1), which follow from the program's help
#   make manuals   writes afdxmon-table(5) and afdxmon-ledger(5), which have the text of docs/TABLE.md and docs/LEDGER.md
#   make pictures  makes docs/*.png from the flight in examples/ (needs chromium, pngquant, wireshark, xvfb, xdotool, imagemagick,
#                  python3-pandas and python3-matplotlib; a picture without its tools is skipped)
#   make bench     beside tcpdump, mergecap and libpcap (needs tcpdump, wireshark-common, libpcap-dev, gcc and python3; not
#                  part of the gate)
#
# They take bin/afdxmon out of release/, where that was made of the sources that are here; else they build it first. make demo
# and make install need a POSIX shell, coreutils and gzip; make test needs python3, and says at its end what each part that it
# skipped lacked; make dist needs git and tar, make deb dpkg-deb, make rpm rpmbuild. What follows needs the Rattle toolchain,
# whose command is rt, and python3:
#
#   make build     proves the crates that the program stands on, and leaves it at bin/afdxmon
#   make prove     the gate of proofs: proves every crate and its tests from nothing, tries the must-fail edits, runs the
#                  tests, and compares the program that was proved with the one in release/
#   make release   builds the program of the committed sources, and writes release/
#   make check     every check there is: prove and test, and with them all mutants, further tests, packages, plugin and fleet
#
# The parts of make test and make check:
#   make program      the program's status, lines and files
#   make package-test   installs the program in each way into empty directories, and runs it there (needs dpkg and rpm)
#   make wireshark-test   the plugin for Wireshark, in tshark (needs tshark, editcap and mergecap)
#   make fleet-test   many flights, by GNU parallel and by Slurm, and their ledgers in SQLite and PostgreSQL (needs parallel,
#                     slurmctld, slurmd, munged, sqlite3 and a PostgreSQL server: a part without its tools is skipped)
#   make release-test   the scripts that release, unpack and compare the program, and a clone without the toolchain
#   make allocations  refuses each allocation of each command in turn
#   make borrows      shows that what a frame lends can't outlive it
#   make mutants      tries the edits of crates/*/mutants/, which the prover must refuse as it refuses the must-fail edits
#   make further-tests   tests of crates that are too dear for the gate
#   make mutants-of-the-program   wrong programs that the prover passes: make program refuses each (takes two hours)

RT ?= rt
PREFIX ?= /usr/local

.PHONY: demo test build prove release check bench install uninstall dist deb rpm package-test wireshark-test fleet-test \
	release-test program mutants mutants-of-the-program further-tests allocations borrows completions manuals pictures toolchain python3 bin/afdxmon

demo: bin/afdxmon
	@examples/demo bin/afdxmon bin

test: python3 bin/afdxmon
	@tests/run

bin/afdxmon:
	@tools/unpack

build: python3 toolchain
	@tools/build

prove: python3 toolchain
	@tests/prove

release: python3 toolchain
	@tools/release

check: prove test mutants further-tests mutants-of-the-program

bench: bin/afdxmon
	@bench/run

completions: bin/afdxmon
	@tools/completions bin/afdxmon

manuals: python3
	@tools/manuals

pictures: bin/afdxmon
	@tools/pictures

install: bin/afdxmon
	@DESTDIR='$(DESTDIR)' PREFIX='$(PREFIX)' tools/install

uninstall:
	@DESTDIR='$(DESTDIR)' PREFIX='$(PREFIX)' tools/install --uninstall

dist deb rpm: bin/afdxmon
	@tools/package $@

package-test: bin/afdxmon
	@tests/package

wireshark-test: bin/afdxmon
	@tests/wireshark

fleet-test: bin/afdxmon
	@tests/fleet

release-test: bin/afdxmon
	@tests/release

program: bin/afdxmon
	@tests/program

mutants: build
	@tests/edits

mutants-of-the-program: build
	@tests/mutants/run

further-tests: toolchain
	@tests/further/run

allocations: build
	@tests/allocations

borrows: toolchain
	@tests/borrows.sh

python3:
	@command -v python3 > /dev/null || { echo 'afdxmon: python3 is missing: install it' >&2; exit 1; }

toolchain:
	@command -v $(RT) > /dev/null || { echo "afdxmon: the Rattle toolchain is missing: its command 'rt' is not on the PATH" >&2; exit 1; }
