# make            builds the static library, the shared library, station and shiftbook; rt proves
#                 them first
# make shared     builds the shared library, target/shared/libwwvb.so.VERSION
# make quick      the library, the C tests and both programs, without the must-fail edits
# make test       the gate, .ci/run
# make bench      the library beside a plain C codec, as a table
# make install    libraries, header, pkg-config file, both programs and man pages below PREFIX
#                 (DESTDIR is put before it)
# make uninstall  removes these
# make clean      removes target/ and what rt made and kept, crates/*/out/
# Nothing is fetched.

# The header is the one place of the version.
VERSION := $(shell sed -n 's/^.define WWVB_VERSION "\(.*\)"$$/\1/p' include/wwvb.h)
MAJOR := $(firstword $(subst ., ,$(VERSION)))
ifeq ($(VERSION),)
$(error include/wwvb.h has no line with WWVB_VERSION)
endif
PREFIX = /usr/local
override PREFIX := $(abspath $(PREFIX))
BINDIR = $(PREFIX)/bin
INCLUDEDIR = $(PREFIX)/include
LIBDIR = $(PREFIX)/lib
PKGCONFIGDIR = $(LIBDIR)/pkgconfig
MANDIR = $(PREFIX)/share/man
DESTDIR =

CC = cc
CXX = c++
CFLAGS = -O2
LDFLAGS =
INSTALL = install

# rt builds in a crate's folder, into out/. The shared library is made elsewhere.
LIBRARY = crates/wwvb/out/libwwvb.a
SHARED = target/shared/libwwvb.so.$(VERSION)
PROGRAMS = station shiftbook
BINARIES = $(foreach it,$(PROGRAMS),crates/$(it)/out/$(it))
SOURCES := $(shell find crates -path 'crates/*/out' -prune -o \( -name '*.rt' -o -name '*.antt' \) -print) crates.txt

all: $(LIBRARY) $(SHARED) $(BINARIES)

shared: $(SHARED)

# What is needed, each with what it is for.
need = @command -v $(firstword $(1)) >/dev/null 2>&1 || { echo "make: '$(firstword $(1))' is not found on the PATH: $(2)" >&2; exit 1; }

need-rt = $(call need,rt,it is the Rattle toolchain that proves and builds the library)

need-x86:
	@case "$$(uname -m)" in x86_64) ;; *) echo "make: the library is for x86-64, and this is $$(uname -m)" >&2; exit 1 ;; esac

need-cc: need-x86
	$(call need,$(CC),it is the C compiler; name another by CC=..)

need-install:
	$(call need,$(INSTALL),it copies the files to PREFIX)

$(LIBRARY): $(SOURCES)
	$(need-rt)
	cd crates/wwvb && rt lib
	@touch $@

$(BINARIES): $(SOURCES)
	$(need-rt)
	cd crates/$(@F) && rt run </dev/null >/dev/null
	@touch $@

# The archive's code is position-independent. It needs no other library, and the link sees that.
# The other two names are copies: rt takes no link in a checkout.
$(SHARED): $(LIBRARY) include/wwvb.h | need-cc
	@mkdir -p $(@D)
	$(CC) -shared -nostdlib $(LDFLAGS) -Wl,-soname,libwwvb.so.$(MAJOR) -Wl,--no-undefined \
	    -Wl,--whole-archive $(LIBRARY) -Wl,--no-whole-archive -o $@
	@cp $@ $(@D)/libwwvb.so.$(MAJOR) && cp $@ $(@D)/libwwvb.so

quick:
	$(need-rt)
	tools/stated
	CC='$(CC)' CXX='$(CXX)' tests/run --quick

test:
	$(need-rt)
	CC='$(CC)' CXX='$(CXX)' .ci/run

bench: $(LIBRARY) need-cc
	@CC='$(CC)' CFLAGS='$(CFLAGS)' bench/run

# A folder as the pkg-config file names it: below ${prefix} where it is.
relative = $(patsubst $(PREFIX)/%,$${prefix}/%,$(1))

install: $(LIBRARY) $(SHARED) $(BINARIES) need-install
	$(INSTALL) -d '$(DESTDIR)$(BINDIR)' '$(DESTDIR)$(INCLUDEDIR)' '$(DESTDIR)$(LIBDIR)' '$(DESTDIR)$(PKGCONFIGDIR)' \
	    '$(DESTDIR)$(MANDIR)/man1' '$(DESTDIR)$(MANDIR)/man3'
	$(INSTALL) -m 755 $(BINARIES) '$(DESTDIR)$(BINDIR)'
	$(INSTALL) -m 644 include/wwvb.h '$(DESTDIR)$(INCLUDEDIR)/wwvb.h'
	$(INSTALL) -m 644 $(LIBRARY) '$(DESTDIR)$(LIBDIR)/libwwvb.a'
	$(INSTALL) -m 755 $(SHARED) '$(DESTDIR)$(LIBDIR)/libwwvb.so.$(VERSION)'
	ln -sf libwwvb.so.$(VERSION) '$(DESTDIR)$(LIBDIR)/libwwvb.so.$(MAJOR)'
	ln -sf libwwvb.so.$(MAJOR) '$(DESTDIR)$(LIBDIR)/libwwvb.so'
	for page in $(PROGRAMS:%=man1/%.1) man3/wwvb.3; do \
	    sed -e 's|@VERSION@|$(VERSION)|' "man/$${page#*/}" >'$(DESTDIR)$(MANDIR)/'"$$page" && \
	    chmod 644 '$(DESTDIR)$(MANDIR)/'"$$page" || exit 1; done
	sed -e 's|@PREFIX@|$(PREFIX)|' -e 's|@INCLUDEDIR@|$(call relative,$(INCLUDEDIR))|' \
	    -e 's|@LIBDIR@|$(call relative,$(LIBDIR))|' -e 's|@VERSION@|$(VERSION)|' \
	    wwvb.pc.in >'$(DESTDIR)$(PKGCONFIGDIR)/wwvb.pc'
	chmod 644 '$(DESTDIR)$(PKGCONFIGDIR)/wwvb.pc'

uninstall:
	rm -f $(PROGRAMS:%='$(DESTDIR)$(BINDIR)/%') $(PROGRAMS:%='$(DESTDIR)$(MANDIR)/man1/%.1') \
	    '$(DESTDIR)$(INCLUDEDIR)/wwvb.h' '$(DESTDIR)$(LIBDIR)/libwwvb.a' \
	    '$(DESTDIR)$(LIBDIR)/libwwvb.so' '$(DESTDIR)$(LIBDIR)/libwwvb.so.$(MAJOR)' '$(DESTDIR)$(LIBDIR)/libwwvb.so.$(VERSION)' \
	    '$(DESTDIR)$(PKGCONFIGDIR)/wwvb.pc' '$(DESTDIR)$(MANDIR)/man3/wwvb.3'

clean:
	rm -rf target crates/*/out

# One rt at a time: it uses the processors itself.
.NOTPARALLEL:
.PHONY: all shared quick test bench install uninstall clean need-x86 need-cc need-install
