# What a checkout can do, by name:
#
#   make              proves and builds the program sst and the libraries for C
#   make test         rt ci: every proof and every test
#   make quick        every test, without proofs
#   make bench        times the tables beside LevelDB and RocksDB
#   make dist         packs what is built, in dist/out
#   make installed    tests these packages in an empty folder
#   make install      installs what is built below PREFIX, /usr/local by default
#   make uninstall    removes what was installed there
#   make help         prints this list
#
# DESTDIR is put before PREFIX, and is in no file that is installed.

PREFIX = /usr/local
DESTDIR =

.NOTPARALLEL:
.PHONY: all program libraries test quick bench dist installed install uninstall help toolchain

all: program libraries

# One run for both, so that their crates are proved side by side.
program: toolchain
	@examples/prove sst sst_c
	@examples/sst --version

libraries: toolchain
	@echo "make: proves and builds bindings/out/libsst.a and libsst.so"
	@bindings/build

test: toolchain
	@echo "make: rt ci, every proof and every test; .ci/run does more"
	@rt ci

quick: toolchain
	@echo "make: .ci/quick, every test without proofs"
	@.ci/quick

bench: toolchain
	@echo "make: bench/run, which installs what it lacks"
	@bench/run

dist:
	@echo "make: packs what is built in dist/out"
	@dist/build

installed:
	@echo "make: tests the packages in an empty folder"
	@.ci/installed

install:
	@echo "make: installs what is built below $(DESTDIR)$(PREFIX)"
	@dist/install "$(PREFIX)" "$(DESTDIR)"

uninstall:
	@echo "make: removes what was installed below $(DESTDIR)$(PREFIX)"
	@dist/install --remove "$(PREFIX)" "$(DESTDIR)"

help:
	@sed -n 's/^#   //p' Makefile

toolchain:
	@command -v rt >/dev/null || { \
	    echo "make: rt is not on the PATH: it is the command of the Rattle toolchain" >&2; exit 1; }
