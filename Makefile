# Installs the program `dvg`, the libraries for C, their headers, the manual and the completions.
#
#   make                      builds them, by ./dvg and ./lib, into build/package
#   make install              copies them below PREFIX, /usr/local where none is named; what make
#                             built isn't built again, so no compiler is wanted
#   make install PREFIX=/usr DESTDIR=stage
#                             copies them below stage/usr, for who makes a package of them
#   make uninstall            removes what was installed below the same PREFIX and DESTDIR
#   make dist                 packs the libraries for C with their headers, into build/dist; with
#                             TARGET and CC for another system
#
# LIBDIR and BINDIR are folders below PREFIX, for the libraries and the program: name them for make
# and for make install. CC, CFLAGS, CPPFLAGS, LDFLAGS and RUSTFLAGS are those of the compilers.
# BUILD is another folder than build/ and plain/target, where this tree can't be written. `./lib
# --help` tells of TARGET.
PREFIX ?= /usr/local
LIBDIR ?= $(PREFIX)/lib
BINDIR ?= $(PREFIX)/bin
DESTDIR ?=
export PREFIX LIBDIR BINDIR

all:
	packaging/package

install: all
	packaging/package --install '$(DESTDIR)$(PREFIX)'

uninstall:
	packaging/package --uninstall '$(DESTDIR)$(PREFIX)'

dist:
	packaging/dist

.PHONY: all install uninstall dist
