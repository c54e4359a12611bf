# make            prove the crates, build build/mbox2maildir, and compile the companion's modules, if python3 is there
# make run        deliver the example mailboxes to a fresh Maildir under build/, and show what it holds: by what is compiled
#                 for this run where build/mbox2maildir is not there, or older than the sources
# make test       prove the crates, all or what the kit has not proved here before, and test everything: the gate
# make quick      test within two minutes what a change most often breaks, by the program that is there
# make install    copy the program, its companion, their pages and completions below PREFIX
# make uninstall  remove what install has copied there
# make release    make what a user takes, in build/release: a Debian package, an RPM, a tarball, the sources, SHA256SUMS
# make bench      time the program on generated mail beside cat, sha256sum and a plain C program (SIZE=megabytes)
# make clean      remove build/
#
# Each needs the command rt and a shell, but for uninstall and clean; where build/mbox2maildir is newer than the sources,
# install and release need no rt. make test wants python3 besides, make bench gcc and python3, and make release git,
# binutils, dpkg-dev, debhelper and rpmbuild.

PREFIX ?= /usr/local
RELEASE ?= build/release

PROGRAM = build/mbox2maildir
CRATE = crates/mbox2maildir
SOURCES = crates.txt $(shell find crates -name out -prune -o \( -name '*.rt' -o -name '*.antt' \) -print)

all: $(PROGRAM)
	! command -v python3 >/dev/null || python3 -I -S -m compileall -q admin/mbox2maildir_admin

# rt builds a program only where it is proved, and then runs it, here on no input.
$(PROGRAM): $(SOURCES)
	cd $(CRATE) && rt run </dev/null >/dev/null
	mkdir -p build
	cp $(CRATE)/out/mbox2maildir $@

run:
	@examples/run

# The lines and the documents, the gate, and then the tests that run what it has built. The gate says what it is at as it goes.
test:
	@echo "Proves the crates, all or what the kit has not proved here before, and tests everything."
	@echo "From nothing that takes half an hour to an hour on four processors, and up to an hour and a half on two."
	tests/run pages
	PYTHONUNBUFFERED=1 rt ci
	mkdir -p build
	cp $(CRATE)/out/mbox2maildir $(PROGRAM)
	tests/run units program tables companion world

# What is seen within two minutes, of a program that is there.
quick:
	tests/run --quick

install: $(PROGRAM)
	packaging/install $(PROGRAM) '$(DESTDIR)$(PREFIX)'
	packaging/install --compile '$(DESTDIR)$(PREFIX)'

uninstall:
	packaging/install --remove '$(DESTDIR)$(PREFIX)'

release: $(PROGRAM)
	packaging/release $(PROGRAM) '$(RELEASE)'

bench: $(PROGRAM)
	bench/run

clean:
	rm -rf build

.PHONY: all run test quick install uninstall release bench clean
