# Builds and installs the library under its own name, with the header, a pkg-config file and man pages.
#
#   make                        makes them in target/install
#   make install PREFIX=DIR     installs them below DIR, /usr/local where none is named
#   make uninstall PREFIX=DIR   takes them away again
#
# The code is that of target/staticlib/libhost.a, which 'tools/build host' proves and writes; SGQ_LIB=FILE names another
# archive. DESTDIR, LIBDIR, INCLUDEDIR, MANDIR, CC and LDFLAGS are as usual.

PREFIX = /usr/local
LIBDIR = $(PREFIX)/lib
INCLUDEDIR = $(PREFIX)/include
MANDIR = $(PREFIX)/share/man
CC = cc

# The header has the version. While the major number is 0, another minor number means other calls.
number = $(shell sed -n 's/^.define SGQ_VERSION_$(1) //p' include/sgq.h)
ABI := $(call number,MAJOR).$(call number,MINOR)
VERSION := $(ABI).$(call number,PATCH)

MADE = target/install
SHARED = libsgq.so.$(VERSION)
SONAME = libsgq.so.$(ABI)
PAGES := $(notdir $(wildcard install/man/*.[13]))
FILES = $(INCLUDEDIR)/sgq.h $(LIBDIR)/libsgq.a $(LIBDIR)/$(SHARED) $(LIBDIR)/$(SONAME) $(LIBDIR)/libsgq.so \
        $(LIBDIR)/pkgconfig/sgq.pc $(foreach page,$(PAGES),$(MANDIR)/man$(subst .,,$(suffix $(page)))/$(page))

ifdef SGQ_LIB
ARCHIVE = $(SGQ_LIB)
else
ARCHIVE = target/staticlib/libhost.a
$(ARCHIVE): crates.txt $(shell find crates -path 'crates/*/out' -prune -o -type f -print)
	tools/build host
endif

# Both are made anew each time: it takes no time, and another archive may be named.
.PHONY: all install uninstall
all: $(ARCHIVE)
	mkdir -p $(MADE)
	cp $(ARCHIVE) $(MADE)/libsgq.a
	$(CC) $(LDFLAGS) -shared -o $(MADE)/$(SHARED) -Wl,-soname,$(SONAME) -Wl,--version-script=install/sgq.map \
	    -Wl,-z,relro,-z,now,--no-undefined -Wl,--whole-archive $(ARCHIVE) -Wl,--no-whole-archive

install: all
	install -d $(sort $(dir $(addprefix $(DESTDIR),$(FILES))))
	install -m 644 include/sgq.h $(DESTDIR)$(INCLUDEDIR)
	install -m 644 $(MADE)/libsgq.a $(DESTDIR)$(LIBDIR)
	install -m 755 $(MADE)/$(SHARED) $(DESTDIR)$(LIBDIR)
	ln -sf $(SHARED) $(DESTDIR)$(LIBDIR)/$(SONAME)
	ln -sf $(SONAME) $(DESTDIR)$(LIBDIR)/libsgq.so
	sed -e 's|@LIBDIR@|$(abspath $(LIBDIR))|' -e 's|@INCLUDEDIR@|$(abspath $(INCLUDEDIR))|' \
	    -e 's|@VERSION@|$(VERSION)|' install/sgq.pc.in >$(DESTDIR)$(LIBDIR)/pkgconfig/sgq.pc
	install -m 644 $(addprefix install/man/,$(filter %.1,$(PAGES))) $(DESTDIR)$(MANDIR)/man1
	install -m 644 $(addprefix install/man/,$(filter %.3,$(PAGES))) $(DESTDIR)$(MANDIR)/man3

uninstall:
	rm -f $(addprefix $(DESTDIR),$(FILES))
