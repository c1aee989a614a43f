# Builds the proved broker for hosts, installs it, plays the first minute and tests the hosts.
# The proofs and all tests are .ci/run.

VERSION = 0.2.0
PREFIX ?= /usr/local
DESTDIR ?=
CFLAGS ?= -O2
warnings = -Wall -Wextra -Wconversion -Wpedantic -Werror
cargo = OBRISKA_LIB_DIR=$(abspath $(libdir)) cargo
host = --offline --release --manifest-path host/Cargo.toml

# The kit that the proofs were made with, as `rt version` says it.
KIT = rattle-kit-13f logic dac8208d650f15bf

# $(call need,TOOL,WHAT FOR): ends a target at once where a tool is missing.
need = @command -v $(1) >/dev/null || { echo "$(strip make $(MAKECMDGOALS)): $(1) is missing, which $(2)" >&2; exit 1; }

# A library that is there already can be named by its directory; else the proved one is built.
ifdef OBRISKA_LIB_DIR
libdir = $(OBRISKA_LIB_DIR)
else
libdir = build
endif
library = $(libdir)/libobriska.a

# Proves what has changed and compiles the exports, which are a crate of their own, for any x86-64 processor.
compile = env -C crates/broker_c rt lib --cpu x86-64
compiled = crates/broker_c/out/libbroker_c.a

.PHONY: lib help play talk example install check-hosts check-c check-same bench-numbers clean
.PHONY: need-cargo need-cc need-checks need-benches
lib: $(library)

help:
	@echo "make                     build/libobriska.a, the proved broker for C and Rust hosts"
	@echo "make play                plays examples/first-minute.talk, with the bytes beside"
	@echo "make talk                talk to a broker at the prompt"
	@echo "make example             build/first_minute, the example host in C"
	@echo "make install PREFIX=..   headers, library and pkg-config file (DESTDIR is honoured)"
	@echo "make check-hosts         tests of the C headers and example, the Rust crate and talk"
	@echo "make check-same          compiles the library once more: it is the same byte for byte"
	@echo "make bench-numbers       times the number reader beside the one before it"
	@echo "make clean               removes build/ and host/target/"

# These stand before $(library) in a target that needs them, so that nothing is proved in vain.
need-cargo:
	$(call need,cargo,builds the Rust crate and obriska-talk)

need-cc:
	$(call need,$(firstword $(CC)),compiles the example)

need-checks:
	$(call need,cc,compiles the tests of the C headers)
	$(call need,c++,compiles the tests of the headers in C++)
	$(call need,nm,tells what the library needs)
	$(call need,pkg-config,finds the installed copy that is tested)

need-benches:
	$(call need,rt,compiles what is timed)
	$(call need,cargo,builds the benchmark)

ifdef OBRISKA_LIB_DIR
$(library):
	@echo "OBRISKA_LIB_DIR names a directory without libobriska.a: $(libdir)" >&2
	@exit 1
else
# From the same sources and kit the archive is the same byte for byte, so its sha256 is told.
sources = $(shell find crates -type f -not -path '*/must-fail/*' -not -path '*/out/*')
$(library): crates.txt $(sources)
	$(call need,rt,proves and compiles the broker: $(KIT); OBRISKA_LIB_DIR=.. takes a library that is there)
	@kit=$$(rt version); echo "== kit: $$kit"; \
	    [ "$$kit" = "$(KIT)" ] || echo "warning: another kit than $(KIT)" >&2
	@echo "== proving and compiling the broker (the first time takes minutes)"
	@mkdir -p $(libdir)
	@host/progress $(libdir)/proofs.log $(compile)
	cp $(compiled) $@
	@echo "== sha256 $$(sha256sum $@)"
endif

play: need-cargo $(library)
	@echo "== building obriska-talk"
	$(cargo) build $(host) --package obriska-talk
	@echo "== playing examples/first-minute.talk"
	@host/target/release/obriska-talk --hex examples/first-minute.talk

# Where rlwrap is installed, the prompt has history and completes the names that lines may have.
talk: need-cargo $(library)
	@$(cargo) build $(host) --package obriska-talk
	@talk=host/target/release/obriska-talk; \
	if command -v rlwrap >/dev/null; then \
	    mkdir -p build && $$talk --words >build/talk-words && \
	    exec rlwrap -b ' ,=:+()' -f build/talk-words -H build/talk-history $$talk; \
	else \
	    echo "(with rlwrap installed, there would be history and completion here)"; exec $$talk; \
	fi

example: need-cc build/first_minute

build/first_minute: examples/c/first_minute.c include/obriska.h include/obriska_codec.h $(library)
	@mkdir -p build
	$(CC) -std=c11 $(warnings) $(CFLAGS) -Iinclude $< $(library) -o $@

install: $(library)
	install -d $(DESTDIR)$(PREFIX)/include $(DESTDIR)$(PREFIX)/lib/pkgconfig
	install -m 644 include/obriska.h include/obriska_codec.h $(DESTDIR)$(PREFIX)/include
	install -m 644 $(library) $(DESTDIR)$(PREFIX)/lib/libobriska.a
	sed -e 's|@PREFIX@|$(PREFIX)|' -e 's|@VERSION@|$(VERSION)|' include/obriska.pc.in \
	    > $(DESTDIR)$(PREFIX)/lib/pkgconfig/obriska.pc

check-c: need-checks $(library)
	@OBRISKA_LIB_DIR=$(abspath $(libdir)) host/c/check

# The archive is compiled once more and compared.
check-same: $(library)
	@rm -f $(compiled)
	@host/progress $(libdir)/again.log $(compile)
	@if cmp $(library) $(compiled); then \
	    echo "test result: ok. 1 passed; 0 failed"; \
	else \
	    echo "test result: FAILED. 0 passed; 1 failed"; exit 1; \
	fi

check-hosts: need-cargo check-c
	$(cargo) test $(host)

bench-numbers: need-benches
	tests/numbers/libraries
	OBRISKA_LIB_DIR=$(abspath build/numbers) cargo run --release --offline --manifest-path tests/Cargo.toml --package numbers

clean:
	rm -rf build host/target
