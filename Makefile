# make                     builds the library, the command and its manual page in target/install. The library is proved first, if that has not been done: from
#                          nothing this takes minutes, and says how far it is.
# make install PREFIX=/usr/local
#                          installs header, archive, command, manual page, pkg-config file, the page on the format and the notice below PREFIX (below
#                          DESTDIR too, for packages)
# make uninstall PREFIX=/usr/local
# make test                is ./run-tests
#
# rt (the Rattle toolchain), cc, ar and cargo are needed; nothing is fetched.

PREFIX ?= /usr/local
DESTDIR ?=
bindir = $(PREFIX)/bin
includedir = $(PREFIX)/include
libdir = $(PREFIX)/lib
man1dir = $(PREFIX)/share/man/man1
pkgconfigdir = $(libdir)/pkgconfig
docdir = $(PREFIX)/share/doc/reqshabu

# The header is the one place that says the version.
VERSION := $(shell sed -n 's/^\#define REQSHABU_VERSION "\(.*\)"/\1/p' include/reqshabu.h)
BUILT := target/install
PROVED := target/staticlib/libreqshabu.a
CRATES := crates.txt $(shell find crates -name out -prune -o \( -name '*.rt' -o -name '*.antt' \) -print)

.PHONY: all install uninstall test
all: $(BUILT)/libreqshabu.a $(BUILT)/reqshabu $(BUILT)/reqshabu.1

$(PROVED): $(CRATES)
	@tools/build reqshabu
	@touch $@

# The proved archive, and beside its one object another that says the version.
$(BUILT)/libreqshabu.a: $(PROVED) include/reqshabu.h
	@mkdir -p $(BUILT)
	@printf '#include "reqshabu.h"\nconst char reqshabu_version[] = REQSHABU_VERSION;\n' >$(BUILT)/version.c
	$(CC) -O2 -Iinclude -c $(BUILT)/version.c -o $(BUILT)/version.o
	cp $(PROVED) $@.part
	$(AR) rs $@.part $(BUILT)/version.o
	mv $@.part $@

$(BUILT)/reqshabu: $(PROVED) include/reqshabu.h $(wildcard rust/reqshabu/src/*.rs) rust/reqshabu/build.rs rust/reqshabu/Cargo.toml
	@. tools/need && command_name=make need cargo cc
	cd rust/reqshabu && CARGO_TARGET_DIR=../../target/command cargo build --release --offline --quiet
	@mkdir -p $(BUILT)
	cp target/command/release/reqshabu $@.part
	mv $@.part $@

$(BUILT)/reqshabu.1: man/reqshabu.1.in include/reqshabu.h
	@mkdir -p $(BUILT)
	sed 's/@VERSION@/$(VERSION)/g' $< >$@.part
	mv $@.part $@

install: all
	install -d '$(DESTDIR)$(bindir)' '$(DESTDIR)$(includedir)' '$(DESTDIR)$(libdir)' '$(DESTDIR)$(man1dir)' '$(DESTDIR)$(pkgconfigdir)' \
	    '$(DESTDIR)$(docdir)'
	install -m 644 include/reqshabu.h '$(DESTDIR)$(includedir)/reqshabu.h'
	install -m 644 $(BUILT)/libreqshabu.a '$(DESTDIR)$(libdir)/libreqshabu.a'
	install -m 755 $(BUILT)/reqshabu '$(DESTDIR)$(bindir)/reqshabu'
	install -m 644 $(BUILT)/reqshabu.1 '$(DESTDIR)$(man1dir)/reqshabu.1'
	install -m 644 docs/FORMAT.md NOTICE '$(DESTDIR)$(docdir)'
	sed -e 's|@PREFIX@|$(PREFIX)|g' -e 's/@VERSION@/$(VERSION)/g' reqshabu.pc.in >$(BUILT)/reqshabu.pc
	install -m 644 $(BUILT)/reqshabu.pc '$(DESTDIR)$(pkgconfigdir)/reqshabu.pc'

uninstall:
	rm -f '$(DESTDIR)$(includedir)/reqshabu.h' '$(DESTDIR)$(libdir)/libreqshabu.a' '$(DESTDIR)$(bindir)/reqshabu' \
	    '$(DESTDIR)$(man1dir)/reqshabu.1' '$(DESTDIR)$(pkgconfigdir)/reqshabu.pc' \
	    '$(DESTDIR)$(docdir)/FORMAT.md' '$(DESTDIR)$(docdir)/NOTICE'

test:
	./run-tests
