# What is built and installed for people who write passes. The proved library comes from the Rattle kit's rt; the command needs cargo.
#
#   make             proves the library and writes target/staticlib/libmarshtrundle.a
#   make command     builds the command marshtrundle over it
#   make install     puts the archive, the headers and marshtrundle.pc under PREFIX, and the command where it is built
#   make uninstall   takes them away again
#   make test        tests the library, the crate, the command and the pages
PREFIX ?= /usr/local
CARGO ?= cargo
ARCHIVE = target/staticlib/libmarshtrundle.a
COMMAND = rust/command/target/release/marshtrundle
VERSION = $$(sed -n 's/^version = "\(.*\)"$$/\1/p' rust/marshtrundle/Cargo.toml)

all:
	tools/archive.sh

command:
	cd rust/command && $(CARGO) build --release --offline

install:
	@test -f $(ARCHIVE) || { echo "make install: $(ARCHIVE) is missing: run 'make' first" >&2; exit 1; }
	install -d $(DESTDIR)$(PREFIX)/lib/pkgconfig $(DESTDIR)$(PREFIX)/include $(DESTDIR)$(PREFIX)/bin
	install -m 644 $(ARCHIVE) $(DESTDIR)$(PREFIX)/lib/libmarshtrundle.a
	install -m 644 include/marshtrundle.h include/marshtrundle_build.h $(DESTDIR)$(PREFIX)/include
	sed -e 's|@PREFIX@|$(PREFIX)|' -e "s|@VERSION@|$(VERSION)|" c/marshtrundle.pc.in >$(DESTDIR)$(PREFIX)/lib/pkgconfig/marshtrundle.pc
	if [ -f $(COMMAND) ]; then install -m 755 $(COMMAND) $(DESTDIR)$(PREFIX)/bin/marshtrundle; fi

uninstall:
	rm -f $(DESTDIR)$(PREFIX)/lib/libmarshtrundle.a $(DESTDIR)$(PREFIX)/lib/pkgconfig/marshtrundle.pc
	rm -f $(DESTDIR)$(PREFIX)/include/marshtrundle.h $(DESTDIR)$(PREFIX)/include/marshtrundle_build.h
	rm -f $(DESTDIR)$(PREFIX)/bin/marshtrundle

test:
	tools/library_tests.sh

.PHONY: all command install uninstall test
