# make                 proves and builds the program and the library for C, in out/
# make install         installs them, and builds first what isn't there: [DESTDIR=DIR] [PREFIX=/usr/local] [LIBDIR=lib]
# make uninstall       takes away what it has installed, with the same words
# make package         makes the Debian package out/xcpd_VERSION_amd64.deb
#
# PROGRAM=FILE LIBRARY=FILE installs or packs these files, and builds nothing. docs/INSTALL.md says what goes where.
PREFIX = /usr/local
LIBDIR = lib
DESTDIR =
PROGRAM = out/xcpd
LIBRARY = out/libbillhookyew.a
given = $(filter-out out/xcpd out/libbillhookyew.a,$(PROGRAM) $(LIBRARY))
where = --destdir "$(DESTDIR)" --prefix "$(PREFIX)" --libdir "$(LIBDIR)"

all:
	bin/xcpd --version
	bin/make-library

out/xcpd:
	bin/xcpd --version

out/libbillhookyew.a:
	bin/make-library

install: $(PROGRAM) $(LIBRARY)
	bin/install-files --program "$(PROGRAM)" --library "$(LIBRARY)" $(where)

uninstall:
	bin/install-files --remove $(where)

package:
	bin/make-package $(if $(given),--program "$(PROGRAM)" --library "$(LIBRARY)")

.PHONY: all install uninstall package
