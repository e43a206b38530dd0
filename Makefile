# make            builds the program and the library, and so proves them; make program and make library build one of them
# make install    installs them, with header, Python module, man pages, completion and documents, below DESTDIR/PREFIX;
#                 make install-program, install-library (what programs load), install-development (what C programs are
#                 built with) and install-python install a part
# make uninstall  removes them
# make deb        makes Debian packages of them in OUT, for the architecture ARCH, which is this machine's if it isn't set
# make dist       makes the source archive of the version in OUT
# make sums       prints the SHA-256 of the program, of the libraries, and of what is in OUT
# make check      the merge gate
#
# With ARCH=arm64 all but the last are for 64-bit ARM.
PREFIX ?= /usr/local
LIBDIR ?= $(PREFIX)/lib
PYTHONDIR ?= $(PREFIX)/lib/python3/dist-packages
DESTDIR ?=
OUT ?= out
ARCH =
ifeq ($(ARCH),arm64)
PROGRAM = crates/mp3edit/out/arm64/mp3edit
# The folder of the built libraries.
LIBRARY = library/out/arm64
else
PROGRAM = crates/mp3edit/out/mp3edit
LIBRARY = library/out
endif

BIN = $(DESTDIR)$(PREFIX)/bin
INCLUDE = $(DESTDIR)$(PREFIX)/include
LIB = $(DESTDIR)$(LIBDIR)
PYTHON = $(DESTDIR)$(PYTHONDIR)/mp3edit
MAN = $(DESTDIR)$(PREFIX)/share/man
COMPLETIONS = $(DESTDIR)$(PREFIX)/share/bash-completion/completions
DOC = $(DESTDIR)$(PREFIX)/share/doc/mp3edit
VERSION = $(firstword $(shell scripts/release))

.PHONY: all program library install install-program install-library install-development install-python uninstall deb dist sums \
	check

all: program library

program:
	scripts/build mp3edit $(ARCH)

library:
	scripts/build-library $(ARCH)

# All is built before anything is installed.
install: all install-program install-library install-development install-python

install-program: program
	install -D -m 755 "$(PROGRAM)" "$(BIN)/mp3edit"
	install -d "$(MAN)/man1"
	gzip -9nc docs/mp3edit.1 | install -m 644 /dev/stdin "$(MAN)/man1/mp3edit.1.gz"
	install -D -m 644 scripts/completion/mp3edit "$(COMPLETIONS)/mp3edit"
	install -d "$(DOC)/docs/figures" "$(DOC)/docs/measurements"
	install -m 644 README.md CHANGELOG.md SECURITY.md CONTRIBUTING.md LICENSE COPYRIGHT "$(DOC)"
	install -m 644 docs/*.md "$(DOC)/docs"
	install -m 644 docs/measurements/*.md "$(DOC)/docs/measurements"
	for page in crates/*/README.md library/examples/*; do install -D -m 644 "$$page" "$(DOC)/$$page" || exit; done
	install -m 644 docs/figures/*.svg "$(DOC)/docs/figures"

install-library: library
	install -D -m 644 "$(LIBRARY)/libmp3edit.so.1" "$(LIB)/libmp3edit.so.1"

install-development: library
	install -D -m 644 library/mp3edit.h "$(INCLUDE)/mp3edit.h"
	install -D -m 644 "$(LIBRARY)/libmp3edit.a" "$(LIB)/libmp3edit.a"
	ln -sf libmp3edit.so.1 "$(LIB)/libmp3edit.so"
	install -d "$(LIB)/pkgconfig" "$(MAN)/man3"
	sed 's|@PREFIX@|$(PREFIX)|; s|@LIBDIR@|$(LIBDIR)|; s|@VERSION@|$(VERSION)|' library/mp3edit.pc.in | \
		install -m 644 /dev/stdin "$(LIB)/pkgconfig/mp3edit.pc"
	gzip -9nc docs/mp3edit.3 | install -m 644 /dev/stdin "$(MAN)/man3/mp3edit.3.gz"

install-python:
	install -d "$(PYTHON)"
	install -m 644 library/python/mp3edit/*.py library/python/mp3edit/py.typed "$(PYTHON)"

uninstall:
	rm -f "$(BIN)/mp3edit" "$(MAN)/man1/mp3edit.1.gz" "$(COMPLETIONS)/mp3edit"
	rm -rf "$(DOC)" "$(PYTHON)"
	rm -f "$(LIB)/libmp3edit.so.1" "$(LIB)/libmp3edit.so" "$(LIB)/libmp3edit.a" "$(LIB)/pkgconfig/mp3edit.pc"
	rm -f "$(INCLUDE)/mp3edit.h" "$(MAN)/man3/mp3edit.3.gz"

deb: all
	ARCH="$(ARCH)" PROGRAM="$(PROGRAM)" LIBRARY="$(LIBRARY)" scripts/package "$(OUT)"

dist:
	scripts/dist "$(OUT)"

sums:
	PROGRAM="$(PROGRAM)" LIBRARY="$(LIBRARY)" scripts/sums "$(OUT)"

check:
	.ci/run
