# Installs bkd: the program, its man page and completion, and the Python client beside it. Nothing is fetched, and
# nothing is built: the program is that of release/, or the one that ./bkd --build has built here.
#
#     make install PREFIX=/usr/local        (DESTDIR=.. puts the same below another root)
#     make uninstall PREFIX=/usr/local
#     make package                          a Python wheel and a Debian package, in dist/
#
# It wants Linux on x86-64 with a C library of 2.34 or later; the client wants Python 3.11 or later.
PREFIX ?= /usr/local
DESTDIR ?=
bin = $(DESTDIR)$(PREFIX)/bin
lib = $(DESTDIR)$(PREFIX)/lib/bkd
share = $(DESTDIR)$(PREFIX)/share

.PHONY: help install uninstall package

help:
	@sed -n 's/^# \{0,1\}//p' Makefile

install:
	release/install "$(DESTDIR)" "$(PREFIX)"

uninstall:
	rm -f "$(bin)/bkd" "$(share)/man/man1/bkd.1" "$(share)/bash-completion/completions/bkd" \
	    "$(share)/zsh/site-functions/_bkd" "$(share)/fish/vendor_completions.d/bkd.fish"
	rm -rf "$(lib)" "$(share)/doc/bkd"

package:
	release/package dist
