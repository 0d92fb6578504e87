# The libraries for C: built, installed, packed.
#   make                        both libraries, in target/c
#   make install [PREFIX=..] [LIBDIR=..] [DESTDIR=..]
#   make uninstall              with the same words as the install
#   make dist                   target/egrivundo-VERSION-x86_64-linux.tar.gz, which needs no kit
#   make check                  the tests of what is built here
# BUILD names another folder than target for all that is made here. The proved archive is made by host/archive.sh, once and after a change of the crates; EGRIVUNDO_ARCHIVE names another, by its whole path.

BUILD = target
PREFIX = /usr/local
INCLUDEDIR = $(PREFIX)/include
LIBDIR = $(PREFIX)/lib
PKGCONFIGDIR = $(LIBDIR)/pkgconfig
INSTALL = install

header = host/include/egrivundo.h
version := $(shell sed -n 's/^.define EGRIVUNDO_VERSION "\(.*\)"/\1/p' $(header))
abi := $(basename $(version))
archive = $(or $(EGRIVUNDO_ARCHIVE),target/staticlib/libcapi.a)

out = $(BUILD)/c
static = libegrivundo.a
shared = libegrivundo.so.$(version)
soname = libegrivundo.so.$(abi)

name = egrivundo-$(version)
tree = $(out)/$(name)
tarball = $(BUILD)/$(name)-x86_64-linux.tar.gz
examples = room.py table viewing-room.room outside-broadcast.room
# The time of the commit, so that the same commit gives the same bytes.
SOURCE_DATE_EPOCH ?= $(shell git log -1 --format=%ct 2>/dev/null || echo 0)

.PHONY: all install uninstall dist check clean FORCE
.DELETE_ON_ERROR:

all: $(out)/$(static) $(out)/$(shared)

target/staticlib/libcapi.a: FORCE
	@if [ ! -f $@ ] || [ -n "$$(find crates crates.txt -name out -prune -o -type f -newer $@ -print -quit)" ]; then \
	    command -v rt >/dev/null || { echo "rt is not installed; it makes the archive" >&2; exit 1; }; \
	    host/archive.sh; \
	fi

$(out)/$(static): $(archive)
	mkdir -p $(out)
	cp $< $@

$(out)/$(shared): $(archive) $(header)
	mkdir -p $(out)
	$(CC) -shared -Wl,--whole-archive $< -Wl,--no-whole-archive -Wl,-soname,$(soname) -Wl,-z,defs,-z,relro,-z,now -Wl,--build-id=none -o $@
	ln -sf $(shared) $(out)/$(soname)
	ln -sf $(soname) $(out)/libegrivundo.so

# PREFIX, INCLUDEDIR and LIBDIR as egrivundo.pc tells them
pc = sed -e 's|@VERSION@|$(version)|' -e 's|@PREFIX@|$(1)|' -e 's|@INCLUDEDIR@|$(2)|' -e 's|@LIBDIR@|$(3)|' host/c/egrivundo.pc.in

install: all
	$(INSTALL) -d "$(DESTDIR)$(INCLUDEDIR)" "$(DESTDIR)$(LIBDIR)" "$(DESTDIR)$(PKGCONFIGDIR)"
	$(INSTALL) -m 644 $(header) "$(DESTDIR)$(INCLUDEDIR)/egrivundo.h"
	$(INSTALL) -m 644 $(out)/$(static) "$(DESTDIR)$(LIBDIR)/$(static)"
	$(INSTALL) -m 755 $(out)/$(shared) "$(DESTDIR)$(LIBDIR)/$(shared)"
	ln -sf $(shared) "$(DESTDIR)$(LIBDIR)/$(soname)"
	ln -sf $(soname) "$(DESTDIR)$(LIBDIR)/libegrivundo.so"
	$(call pc,$(PREFIX),$(INCLUDEDIR),$(LIBDIR)) >"$(DESTDIR)$(PKGCONFIGDIR)/egrivundo.pc"

uninstall:
	rm -f "$(DESTDIR)$(INCLUDEDIR)/egrivundo.h" "$(DESTDIR)$(PKGCONFIGDIR)/egrivundo.pc"
	cd "$(DESTDIR)$(LIBDIR)" && rm -f $(static) $(shared) $(soname) libegrivundo.so

dist: all
	@command -v rt >/dev/null || { echo "rt is not installed; BUILD-INFO tells the kit by it" >&2; exit 1; }
	rm -rf $(tree)
	$(MAKE) --no-print-directory install DESTDIR= PREFIX="$(abspath $(tree))"
	$(call pc,$${pcfiledir}/../..,$${prefix}/include,$${prefix}/lib) >$(tree)/lib/pkgconfig/egrivundo.pc
	mkdir -p $(tree)/examples/c $(tree)/docs
	cp $(addprefix examples/,$(examples)) $(tree)/examples
	cp examples/c/*.c $(tree)/examples/c
	cp docs/RULES.md docs/GLOSSARY.md $(tree)/docs
	cp host/c/PACKAGE.md $(tree)/README.md
	host/c/build-info.sh $(version) $(archive) "$(CC)" >$(tree)/BUILD-INFO
	cd $(tree) && find . -type f ! -name SHA256SUMS -printf '%P\n' | LC_ALL=C sort | xargs sha256sum >SHA256SUMS
	tar -C $(out) --sort=name --mtime=@$(SOURCE_DATE_EPOCH) --owner=0 --group=0 --numeric-owner --mode=u+rwX,go+rX,go-w -cf - $(name) | gzip -n >$(tarball)
	cd $(BUILD) && sha256sum $(notdir $(tarball)) >$(notdir $(tarball)).sha256
	@echo "$(tarball)"

check: all
	tests/header.py
	tests/rows.py
	tests/room-files.py
	tests/c-examples.sh
	tests/packed.sh

clean:
	rm -rf $(out) $(BUILD)/egrivundo-*-x86_64-linux.tar.gz*
