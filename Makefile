# SPDX-License-Identifier: Apache-2.0
# Builds and installs the program `cbor`. `bindings/Makefile` does it for the library.
#
#   make                                     proves and builds its two programs, if that is due
#   make install PREFIX=/usr/local DESTDIR=  also installs them, the command `cbor` and its manual page
#   make uninstall PREFIX=/usr/local DESTDIR=

PREFIX ?= /usr/local
BINDIR ?= $(PREFIX)/bin
LIBEXECDIR ?= $(PREFIX)/libexec/cbor
MANDIR ?= $(PREFIX)/share/man

PROGRAMS := ciborium_ll_tool tool_files_main

# Each is run once, on nothing.
all:
	verify/prover/prove ciborium_ll_tool recode 0 < /dev/null
	verify/prover/prove tool_files_main --version > /dev/null

install: all
	install -d $(addprefix $(DESTDIR),$(BINDIR) $(LIBEXECDIR) $(MANDIR)/man1)
	for program in $(PROGRAMS); do \
		install -m 755 crates/$$program/out/$$program $(DESTDIR)$(LIBEXECDIR) || exit 1; done
	sed 's|@LIBEXECDIR@|$(LIBEXECDIR)|g' verify/programs/cbor.in > $(DESTDIR)$(BINDIR)/cbor
	chmod 755 $(DESTDIR)$(BINDIR)/cbor
	sed 's|\./cbor|cbor|g' docs/cbor.1 > $(DESTDIR)$(MANDIR)/man1/cbor.1

uninstall:
	rm -f $(DESTDIR)$(BINDIR)/cbor $(DESTDIR)$(MANDIR)/man1/cbor.1
	rm -f $(addprefix $(DESTDIR)$(LIBEXECDIR)/,$(PROGRAMS))
	-rmdir $(DESTDIR)$(LIBEXECDIR)

.PHONY: all install uninstall
