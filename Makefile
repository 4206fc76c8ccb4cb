# The programs and the static library for those who type make; launch/build proves and builds them.
#   make                        both
#   make install PREFIX=DIR     libsaturn.a, saturn.h and saturn.pc under DIR (else /usr/local); DESTDIR goes before it

PREFIX ?= /usr/local
VERSION := $(shell sed -n 's/^.define SATURN_VERSION "\(.*\)"/\1/p' include/saturn.h)
TO = $(DESTDIR)$(PREFIX)

.PHONY: all programs library install uninstall check

all: programs library

programs:
	@launch/build

library:
	@launch/build library

install: library
	install -d "$(TO)/lib/pkgconfig" "$(TO)/include"
	install -m 644 target/staticlib/libfirmware.a "$(TO)/lib/libsaturn.a"
	install -m 644 include/saturn.h "$(TO)/include/saturn.h"
	sed -e 's|@PREFIX@|$(abspath $(PREFIX))|' -e 's|@VERSION@|$(VERSION)|' include/saturn.pc.in >"$(TO)/lib/pkgconfig/saturn.pc"

uninstall:
	rm -f "$(TO)/lib/libsaturn.a" "$(TO)/include/saturn.h" "$(TO)/lib/pkgconfig/saturn.pc"

check:
	@./check
