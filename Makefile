# GNU make. The proved library, the command, and where they are installed: make install PREFIX=/usr/local DESTDIR=
PREFIX = /usr/local
INCLUDEDIR = $(PREFIX)/include
LIBDIR = $(PREFIX)/lib
BINDIR = $(PREFIX)/bin
MANDIR = $(PREFIX)/share/man
PKGCONFIGDIR = $(LIBDIR)/pkgconfig

RT = rt
INSTALL = install
CFLAGS ?= -O2
# The command runs wherever it is copied, and starts sooner. STATIC= where there is no static C library.
STATIC = -static

LIBRARY = target/staticlib/libsfs.a
COMMAND = target/sfs
COMMAND_SOURCES = $(wildcard command/*.c)

# The package's version is the number of the interface.
VERSION = $(shell awk '/^.define SFS_API / { print $$3 + 0 }' include/sfs.h)

all: $(LIBRARY) $(COMMAND)

# The proofs take minutes, several at a time, so that they are run only where a source is newer. Without the kit a library that is there is taken.
$(LIBRARY): crates.txt $(shell find crates -name out -prune -o '(' -name '*.rt' -o -name '*.antt' ')' -print)
	@if command -v $(RT) > /dev/null; then RT=$(RT) tools/archive sfs; \
	elif [ -e $@ ]; then echo "no $(RT): $@ is older than its sources, and taken as it is" >&2; \
	else echo "no $(RT): it comes with the Rattle kit, and $@ is made by it" >&2; exit 1; fi

$(COMMAND): $(COMMAND_SOURCES) $(wildcard command/*.h) include/sfs.h $(LIBRARY)
	$(CC) $(CPPFLAGS) $(CFLAGS) -std=c11 -I include $(STATIC) $(LDFLAGS) -o $@ $(COMMAND_SOURCES) $(LIBRARY)

test:
	./test

# Directories below the prefix are named by it in sfs.pc, so that a prefix that is moved is changed in one line.
install: all
	$(INSTALL) -d "$(DESTDIR)$(INCLUDEDIR)" "$(DESTDIR)$(PKGCONFIGDIR)" "$(DESTDIR)$(BINDIR)" \
		"$(DESTDIR)$(MANDIR)/man1" "$(DESTDIR)$(MANDIR)/man3"
	$(INSTALL) -m 644 include/sfs.h "$(DESTDIR)$(INCLUDEDIR)/sfs.h"
	$(INSTALL) -m 644 $(LIBRARY) "$(DESTDIR)$(LIBDIR)/libsfs.a"
	sed -e 's|@prefix@|$(PREFIX)|' -e 's|@version@|$(VERSION)|' \
		-e 's|@includedir@|$(INCLUDEDIR:$(PREFIX)/%=$${prefix}/%)|' -e 's|@libdir@|$(LIBDIR:$(PREFIX)/%=$${prefix}/%)|' \
		sfs.pc.in > "$(DESTDIR)$(PKGCONFIGDIR)/sfs.pc"
	chmod 644 "$(DESTDIR)$(PKGCONFIGDIR)/sfs.pc"
	$(INSTALL) -m 755 $(COMMAND) "$(DESTDIR)$(BINDIR)/sfs"
	$(INSTALL) -m 644 man/sfs.1 "$(DESTDIR)$(MANDIR)/man1/sfs.1"
	$(INSTALL) -m 644 man/sfs.3 "$(DESTDIR)$(MANDIR)/man3/sfs.3"

uninstall:
	rm -f "$(DESTDIR)$(INCLUDEDIR)/sfs.h" "$(DESTDIR)$(LIBDIR)/libsfs.a" "$(DESTDIR)$(PKGCONFIGDIR)/sfs.pc" \
		"$(DESTDIR)$(BINDIR)/sfs" "$(DESTDIR)$(MANDIR)/man1/sfs.1" "$(DESTDIR)$(MANDIR)/man3/sfs.3"

# All that rt and make write is there, the proofs too.
clean:
	rm -rf target crates/*/out

.PHONY: all test install uninstall clean
