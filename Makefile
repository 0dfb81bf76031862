# Installs the library for C: header, archive and pkg-config file; with install-tool the tool
# `sledgewren` and its man page too. What is proved is proved by rt; this copies.
PREFIX ?= /usr/local
DESTDIR ?=
VERSION := $(shell sed -n 's/^.define SLEDGEWREN_VERSION "\(.*\)"/\1/p' include/sledgewren.h)
ARCHIVE := target/staticlib/libsledgewren.a
TOOL := target/rust/release/sledgewren
INTO := $(DESTDIR)$(PREFIX)

.PHONY: all install install-tool uninstall

all: $(ARCHIVE)

# Where there is none; `make -B target/staticlib/libsledgewren.a` makes it again after a change. The same for the fill for
# comparison, libcomparison.a.
target/staticlib/lib%.a:
	cd crates/$*_c && rt lib
	install -D -m 644 crates/$*_c/out/lib$*_c.a $@

install: $(ARCHIVE)
	install -d "$(INTO)/include" "$(INTO)/lib/pkgconfig"
	install -m 644 include/sledgewren.h "$(INTO)/include/sledgewren.h"
	install -m 644 $(ARCHIVE) "$(INTO)/lib/libsledgewren.a"
	sed -e 's|@PREFIX@|$(PREFIX)|' -e 's|@VERSION@|$(VERSION)|' include/sledgewren.pc.in \
		>"$(INTO)/lib/pkgconfig/sledgewren.pc"
	chmod 644 "$(INTO)/lib/pkgconfig/sledgewren.pc"

install-tool: $(ARCHIVE)
	cargo build --release --offline --manifest-path host/Cargo.toml --target-dir target/rust
	install -d "$(INTO)/bin" "$(INTO)/share/man/man1"
	install -m 755 $(TOOL) "$(INTO)/bin/sledgewren"
	$(TOOL) --man >"$(INTO)/share/man/man1/sledgewren.1"
	chmod 644 "$(INTO)/share/man/man1/sledgewren.1"

uninstall:
	rm -f "$(INTO)/include/sledgewren.h" "$(INTO)/lib/libsledgewren.a" \
		"$(INTO)/lib/pkgconfig/sledgewren.pc" "$(INTO)/bin/sledgewren" \
		"$(INTO)/share/man/man1/sledgewren.1"
