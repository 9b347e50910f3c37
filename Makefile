# The library for hosts: make builds the archive, the shared object and what else is installed.
#
#   make                                 target/staticlib/libmezdaulk.a, target/make/libmezdaulk.so
#   make install PREFIX=/usr/local       header, archive, shared object, pkg-config file, manual page; DESTDIR stands before PREFIX
#   make uninstall PREFIX=/usr/local     removes what was installed there
#   make clean                           removes target/make, and nothing that rt wrote

VERSION := $(shell cat VERSION)
MAJOR := $(firstword $(subst ., ,$(VERSION)))

PREFIX = /usr/local
INCLUDEDIR = $(PREFIX)/include
LIBDIR = $(PREFIX)/lib
PKGCONFIGDIR = $(LIBDIR)/pkgconfig
MANDIR = $(PREFIX)/share/man
INSTALL = install

ARCHIVE = target/staticlib/libmezdaulk.a
OUT = target/make
SONAME = libmezdaulk.so.$(MAJOR)
SHARED = libmezdaulk.so.$(VERSION)
SOURCES := crates.txt $(shell find crates -path '*/src/*' -o -path '*/specs/*' -o -path '*/proofs/*' | grep -E '\.(rt|antt)$$')

all: $(ARCHIVE) $(OUT)/libmezdaulk.so

$(ARCHIVE): $(SOURCES)
	tools/build mezdaulk
	touch $@

# Every object of the archive is position independent. The other two names lead to the shared object.
$(OUT)/$(SHARED): $(ARCHIVE) bindings/c/mezdaulk.map VERSION Makefile
	mkdir -p $(OUT)
	$(CC) $(LDFLAGS) -shared -nostartfiles -Wl,-soname,$(SONAME) -Wl,--version-script,bindings/c/mezdaulk.map -Wl,-z,defs -Wl,-z,now \
	    -Wl,--whole-archive $(ARCHIVE) -Wl,--no-whole-archive -o $@

$(OUT)/libmezdaulk.so: $(OUT)/$(SHARED)
	ln -sf $(SHARED) $(OUT)/$(SONAME)
	ln -sf $(SHARED) $@

install: all
	$(INSTALL) -d "$(DESTDIR)$(INCLUDEDIR)" "$(DESTDIR)$(LIBDIR)" "$(DESTDIR)$(PKGCONFIGDIR)" "$(DESTDIR)$(MANDIR)/man3"
	$(INSTALL) -m 644 include/mezdaulk.h "$(DESTDIR)$(INCLUDEDIR)/mezdaulk.h"
	$(INSTALL) -m 644 $(ARCHIVE) "$(DESTDIR)$(LIBDIR)/libmezdaulk.a"
	$(INSTALL) -m 755 $(OUT)/$(SHARED) "$(DESTDIR)$(LIBDIR)/$(SHARED)"
	ln -sf $(SHARED) "$(DESTDIR)$(LIBDIR)/$(SONAME)"
	ln -sf $(SHARED) "$(DESTDIR)$(LIBDIR)/libmezdaulk.so"
	sed -e 's|@PREFIX@|$(PREFIX)|' -e 's|@INCLUDEDIR@|$(INCLUDEDIR)|' -e 's|@LIBDIR@|$(LIBDIR)|' -e 's|@VERSION@|$(VERSION)|' \
	    bindings/c/mezdaulk.pc.in > "$(DESTDIR)$(PKGCONFIGDIR)/mezdaulk.pc"
	chmod 644 "$(DESTDIR)$(PKGCONFIGDIR)/mezdaulk.pc"
	$(INSTALL) -m 644 docs/mezdaulk.3 "$(DESTDIR)$(MANDIR)/man3/mezdaulk.3"

uninstall:
	rm -f "$(DESTDIR)$(INCLUDEDIR)/mezdaulk.h" "$(DESTDIR)$(LIBDIR)/libmezdaulk.a" \
	    "$(DESTDIR)$(LIBDIR)/$(SHARED)" "$(DESTDIR)$(LIBDIR)/$(SONAME)" "$(DESTDIR)$(LIBDIR)/libmezdaulk.so" \
	    "$(DESTDIR)$(PKGCONFIGDIR)/mezdaulk.pc" "$(DESTDIR)$(MANDIR)/man3/mezdaulk.3"

clean:
	rm -rf $(OUT)

.PHONY: all install uninstall clean
.DELETE_ON_ERROR:
