# What a host needs. Nothing is proved or compiled here: wrapper/archive makes the archive.
#
#   make install DESTDIR=.. PREFIX=..     archive, header, zelwydro.pc and documents under DESTDIR, to be used from PREFIX
#   make dist DIST=..                     the same and the Rust package, as DIST/zelwydro-VERSION.tar.gz, to be used from wherever it is unpacked

PREFIX ?= /usr/local
LIBDIR ?= $(PREFIX)/lib
INCLUDEDIR ?= $(PREFIX)/include
DOCDIR ?= $(PREFIX)/share/doc/zelwydro
DIST ?= target/dist
ARCHIVE ?= target/staticlib/libhost.a
INSTALL ?= install

VERSION := $(shell sed -n 's/^.define ZELWYDRO_VERSION "\(.*\)"/\1/p' wrapper/include/zelwydro.h)
NAME := zelwydro-$(VERSION)
# They keep their folders, so that the links between them hold.
DOCUMENTS := LICENSE NOTICE CHANGELOG.md docs/FORMATS.md docs/HANDBOOK.md docs/PROVED.md wrapper/README.md wrapper/tests/host.c
# Where zelwydro.pc says that it is installed; what is below that it says by it.
PC_PREFIX ?= $(PREFIX)
below = $(patsubst $(PREFIX)/%,$${prefix}/%,$(1))
# A tar of the same files has the same bytes, whoever makes it and when.
SOURCE_DATE_EPOCH ?= $(shell git log -1 --format=%ct 2>/dev/null || echo 0)

.PHONY: all install dist
all:
	@echo "make install DESTDIR=.. PREFIX=.., or make dist DIST=.."

$(ARCHIVE):
	@echo "There is no $(ARCHIVE): run wrapper/archive" >&2; exit 1

install: $(ARCHIVE)
	$(INSTALL) -d '$(DESTDIR)$(LIBDIR)/pkgconfig' '$(DESTDIR)$(INCLUDEDIR)'
	$(INSTALL) -m 644 '$(ARCHIVE)' '$(DESTDIR)$(LIBDIR)/libzelwydro.a'
	$(INSTALL) -m 644 wrapper/include/zelwydro.h '$(DESTDIR)$(INCLUDEDIR)/zelwydro.h'
	sed -e 's|@PREFIX@|$(PC_PREFIX)|' -e 's|@LIBDIR@|$(call below,$(LIBDIR))|' -e 's|@INCLUDEDIR@|$(call below,$(INCLUDEDIR))|' \
	    -e 's|@VERSION@|$(VERSION)|' wrapper/zelwydro.pc.in >'$(DESTDIR)$(LIBDIR)/pkgconfig/zelwydro.pc'
	chmod 644 '$(DESTDIR)$(LIBDIR)/pkgconfig/zelwydro.pc'
	for file in $(DOCUMENTS); do $(INSTALL) -D -m 644 "$$file" '$(DESTDIR)$(DOCDIR)'/"$$file" || exit 1; done

# The tree is made anew, so that nothing of an older one is in the tar. The Rust package finds the archive where it is in the project, beside its own folder.
dist: $(ARCHIVE)
	rm -rf '$(DIST)/$(NAME)'
	$(MAKE) --no-print-directory install DESTDIR='$(DIST)' PREFIX='/$(NAME)' PC_PREFIX='$$$${pcfiledir}/../..' ARCHIVE='$(ARCHIVE)' \
	    LIBDIR='/$(NAME)/lib' INCLUDEDIR='/$(NAME)/include' DOCDIR='/$(NAME)/share/doc/zelwydro'
	$(INSTALL) -m 644 LICENSE NOTICE '$(DIST)/$(NAME)'
	$(INSTALL) -d '$(DIST)/$(NAME)/rust' '$(DIST)/$(NAME)/target/staticlib'
	cp -R wrapper/Cargo.toml wrapper/build.rs wrapper/src wrapper/examples '$(DIST)/$(NAME)/rust'
	ln -s ../../lib/libzelwydro.a '$(DIST)/$(NAME)/target/staticlib/libhost.a'
	tar --sort=name --owner=0 --group=0 --numeric-owner --mode=u=rwX,go=rX --mtime='@$(SOURCE_DATE_EPOCH)' -C '$(DIST)' \
	    -cf '$(DIST)/$(NAME).tar' '$(NAME)'
	gzip -nf '$(DIST)/$(NAME).tar'
