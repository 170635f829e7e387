# make            builds the program and the library, from dist/ with a C compiler. Where a source of the program is not
#                 as dist/ has it, rt proves and builds it
# make prove      proves and builds it from nothing, with rt of the Rattle toolchain
# make portable   builds dist/out/portable/squitter: check, track and feed over dist/squitter.c, by any compiler of C11
# make static     builds dist/out/static-PROCESSOR/squitter, which needs no file of the system (STATIC_CC=musl-gcc)
# make check      tries all that can be tried here, a line for each part, and the sum last
# make check-platforms  tries dist/squitter.c on other processors and systems, by qemu-user and wine, where these are there
# make release    makes all that a release has, in release/ (dist/release)
# make dist       makes dist/ of what rt proves, and what the page of web/ takes from it
# make install    puts the program with its page and completions below DESTDIR and PREFIX; PROGRAM= names another file to install
# make uninstall  takes them away
PREFIX = /usr/local
DESTDIR =

.DEFAULT_GOAL = all
PROGRAM = $$(dist/program)
# The page of squitter-live, and all that it loads.
LIVE = web/live.html $(shell sed -n 's,.*\(src\|href\)="\([a-z]*[.][a-z]*\)".*,web/\2,p' web/live.html)
share = $(PREFIX)/share
# Where zsh looks below PREFIX, as it says itself; Debian's looks for what is not of the system in site-functions.
ZSHDIR = $(shell zsh -fc 'print -l $$fpath' 2> /dev/null | grep -m 1 -x '$(share)/zsh/\(site-functions\|vendor-completions\)' || echo '$(share)/zsh/site-functions')
FISHDIR = $(share)/fish/vendor_completions.d

# The program from dist/ alone, not run: for another processor too (CC=aarch64-linux-gnu-gcc), and for packages.
PROCESSOR = $(firstword $(subst -, ,$(shell $(CC) -dumpmachine)))
dist/out/$(PROCESSOR)/squitter: dist/squitter-$(PROCESSOR).s dist/os.c
	mkdir -p $(@D)
	$(CC) $(CPPFLAGS) $(or $(CFLAGS),-O2) $(LDFLAGS) -Wl,--gc-sections,-z,relro,-z,now -o $@ dist/squitter-$(PROCESSOR).s dist/os.c

# The program as one static file. (A C library may hand constructors no words, so they are those of main: dist/os.c.)
STATIC_CC = $(shell command -v musl-gcc || echo $(CC))
STATIC = $(firstword $(subst -, ,$(shell $(STATIC_CC) -dumpmachine)))
dist/out/static-$(STATIC)/squitter: dist/squitter-$(STATIC).s dist/os.c
	mkdir -p $(@D)
	$(STATIC_CC) -O2 -static -DWORDS_OF_MAIN -Wl,--wrap=main,--gc-sections -s -o $@ $^

dist/out/portable/squitter: portable/squitter_main.c portable/squitter_texts.h clib/squitter.h dist/squitter.c
	mkdir -p $(@D)
	$(CC) $(CPPFLAGS) -std=c11 $(or $(CFLAGS),-O2) $(LDFLAGS) -Iclib -o $@ portable/squitter_main.c dist/squitter.c

.PHONY: all program library release prove portable static check check-platforms dist install uninstall
all: program library
program:
	@test -x "$(PROGRAM)"
library:
	$(MAKE) -C clib

portable: dist/out/portable/squitter
static: dist/out/static-$(STATIC)/squitter

prove:
	rm -rf crates/*/out
	cd crates/squitter && rt run --cpu=x86-64 -- show 8D40621D58C382D690C8AC2863A7

check:
	@tests/check

check-platforms:
	@tests/platforms

release:
	dist/release release

dist:
	dist/make
	web/embed

install: program
	install -D -m 755 "$(PROGRAM)" "$(DESTDIR)$(PREFIX)/bin/squitter"
	install -D -m 755 -t "$(DESTDIR)$(PREFIX)/bin" feeds/squitter-feed feeds/squitter-geojson feeds/squitter-live
	install -D -m 644 -t "$(DESTDIR)$(share)/squitter" feeds/squitter_*.py
	install -D -m 644 -t "$(DESTDIR)$(share)/squitter/web" $(LIVE)
	for name in squitter squitter-feed squitter-geojson squitter-live; do \
	  install -D -m 644 man/$$name.1 "$(DESTDIR)$(share)/man/man1/$$name.1" && \
	  install -D -m 644 completions/$$name.bash "$(DESTDIR)$(share)/bash-completion/completions/$$name" && \
	  install -D -m 644 completions/_$$name "$(DESTDIR)$(ZSHDIR)/_$$name" && \
	  install -D -m 644 completions/$$name.fish "$(DESTDIR)$(FISHDIR)/$$name.fish" || exit; \
	done
	@test -n "$(DESTDIR)" || ! command -v zsh > /dev/null || zsh -fc 'print -l $$fpath' | grep -qx '$(ZSHDIR)' || \
	  echo 'zsh finds the completion by this line of ~/.zshrc, before compinit: fpath=("$(ZSHDIR)" $$fpath)'
	@test -n "$(DESTDIR)" || ! command -v fish > /dev/null || fish -c 'printf "%s\n" $$fish_complete_path' | grep -qx '$(FISHDIR)' || \
	  echo 'fish finds the completion by this line of ~/.config/fish/config.fish: set -p fish_complete_path "$(FISHDIR)"'

uninstall:
	for name in squitter squitter-feed squitter-geojson squitter-live; do \
	  rm -f "$(DESTDIR)$(PREFIX)/bin/$$name" "$(DESTDIR)$(share)/man/man1/$$name.1" "$(DESTDIR)$(FISHDIR)/$$name.fish" \
	    "$(DESTDIR)$(share)/bash-completion/completions/$$name" "$(DESTDIR)$(ZSHDIR)/_$$name" || exit; \
	done
	for file in feeds/squitter_*.py $(LIVE); do rm -f "$(DESTDIR)$(share)/squitter/$${file#feeds/}" || exit; done
	rmdir "$(DESTDIR)$(share)/squitter/web" "$(DESTDIR)$(share)/squitter" 2> /dev/null || true
