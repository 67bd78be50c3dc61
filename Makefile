# Builds and installs the library for C and Rust, and the programs. What is out of date is proved and built again.
#   make                           the static library, the programs, and the Rust package (for rustc alone)
#   make install PREFIX=/usr/local library, header, pkg-config file, programs and their manual pages; DESTDIR=... stages them
#   make uninstall PREFIX=/usr/local
PREFIX = /usr/local
bindir = $(PREFIX)/bin
libdir = $(PREFIX)/lib
includedir = $(PREFIX)/include
mandir = $(PREFIX)/share/man
VERSION := $(shell awk '/define ALLSTAR_VERSION_(MAJOR|MINOR|PATCH) / { printf "%s%s", dot, $$3; dot = "." }' include/allstar.h)

fill = sed -e 's|@PREFIX@|$(PREFIX)|; s|@LIBDIR@|$(libdir)|; s|@INCLUDEDIR@|$(includedir)|; s|@VERSION@|$(VERSION)|'

library = target/staticlib/liballstar_c.a
programs = notes tokens check_grammar audit_cache

# The files that a crate and all crates that it knows are proved from, and the folders that they stand in.
proved = $(shell find $$(tools/knows $(1) | sed -E 's|(.*)|crates/\1/src crates/\1/specs crates/\1/proofs|') 2> /dev/null)

.PHONY: all install uninstall
.NOTPARALLEL:
all: $(library) $(programs:%=target/bin/%) target/rust/liballstar.rlib
	@echo "built in target/: staticlib/liballstar_c.a, rust/liballstar.rlib, bin/{notes,tokens,check_grammar,audit_cache}"

.SECONDEXPANSION:
target/staticlib/lib%.a: $$(call proved,$$*)
	@tools/rt $*

target/bin/%: $$(call proved,$$*)
	@tools/rt $*

target/rust/liballstar.rlib: $(library) $(wildcard rust/allstar/src/*.rs)
	@mkdir -p target/rust
	@rustc -O --edition 2021 -D warnings --crate-type rlib --crate-name allstar rust/allstar/src/lib.rs -o $@ \
	    -L target/staticlib -l static=allstar_c

install: $(library) $(programs:%=target/bin/%)
	@install -d $(DESTDIR)$(bindir) $(DESTDIR)$(libdir)/pkgconfig $(DESTDIR)$(includedir) $(DESTDIR)$(mandir)/man1
	@install -m 755 $(programs:%=target/bin/%) $(DESTDIR)$(bindir)
	@install -m 644 $(library) $(DESTDIR)$(libdir)
	@install -m 644 include/allstar.h $(DESTDIR)$(includedir)
	@for program in $(programs); do $(fill) man/$$program.1 > $(DESTDIR)$(mandir)/man1/$$program.1; done
	@$(fill) allstar.pc.in > $(DESTDIR)$(libdir)/pkgconfig/allstar.pc
	@echo "installed allstar $(VERSION): bin, include, lib, share/man"

uninstall:
	@rm -f $(programs:%=$(DESTDIR)$(bindir)/%) $(programs:%=$(DESTDIR)$(mandir)/man1/%.1)
	@rm -f $(DESTDIR)$(libdir)/liballstar_c.a $(DESTDIR)$(includedir)/allstar.h $(DESTDIR)$(libdir)/pkgconfig/allstar.pc
