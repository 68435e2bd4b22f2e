# make play      the board in the terminal, where the last game is continued.
#                GAME=unequal is the other game, ID= an ID or a save file. In a
#                pipe it plays the commands that come in: echo show | make play
# make page      the board in a browser, programs/web/puzzles.html: one file that
#                needs no server and no network. WORDS=--path prints where it lies,
#                and so does make page where there is no screen
# make sheet     puzzles on paper: writes build/sheet.html and shows it. GAME=, or
#                IDS= a list of IDs; WORDS='--size 4-6 --seed 7' goes to
#                puzzles-sheet
# make install   installs commands, page, manual pages, documents and completions
#                below PREFIX=/usr/local; docs/PACKAGING.md has the other folders
# ----------------------------------------------------------------------------
# The programs are proved and built by make, make build, make programs and make gate
# alone, and the page's module by make web and make gate. Where those that are there
# don't match the sources, all others do nothing and say what is to be typed.
#
# make test      tries the programs from outside: commands, saves, objects, the
#                board, the page, sheets. Its end lists what can't be tried here,
#                which is a failure only with SKIPS_FAIL=1
# make           does nothing if the programs in programs/ match the sources, by
#                programs/RECORD; otherwise it says so and does make build
# make build     proves and builds both programs from the sources, crates side by
#                side, as build/puzzles and build/puzzles-json
# make programs  does that, and stores them in programs/ with those for ARM and
#                their record, unless they are there
# make web       makes the page, and its module if that is of other sources, and
#                stores both; the page alone needs no kit
# make site      puts the page into SITE=build/site, a folder for any web server
# make gate      does it all: proofs from nothing, wrong bodies, make test,
#                faults, scripts, texts, whether the stored programs are the same
#                bytes. What can't be tried is a failure, unless SKIPS_FAIL=0
# make check     CRATE=clue_rules: proves one crate, in seconds after an edit
# make try       CRATE=clue_rules: runs the tests of one crate without a proof
# make must-fail CRATE=clue_rules: tries the wrong bodies in its must-fail/
# make fmt       lays out all files; FMT='rt tidy' also drops unused imports
# make test-bodies   refuses all wrong bodies and proves all twins; CRATES= for
#                some crates, ANEW=1 to try again what passed
# make test-twins    proves the twins alone; CRATES= for some crates
# make test-faults   has memory, reads and writes fail in turn
# make exchange  tries saves, IDs and fair games against the usual programs, of
#                Debian's package sgt-puzzles; no part of the gate
# make trust     counts the lines to read to believe each promise; PROMISE=solve
#                prints these lines, and so does another name that it prints, or
#                CRATE::FUNCTION
# make bench     times solver, fair games and answers, the first two beside the
#                usual program if it is there; IDS=file times the solver on its lines
# make hard      times the solver on COUNT=22000 fresh hard puzzles, by SEED=1
# make installcheck, make uninstall   play with what is installed; remove it
# make dist      packs the last commit, and its programs, in build/
# make clean     removes build/; the results of checks stay
# make help      prints this list

RT ?= rt
GAME ?=
ID ?=
IDS ?=
WORDS ?=
SEED ?= 1
COUNT ?= 22000
SITE ?= build/site
CRATE ?=
CRATES ?=
PROMISE ?=
FMT ?= '$(RT)' fmt
PREFIX ?= /usr/local
bindir ?= $(PREFIX)/bin
gamesdir ?= $(bindir)
datadir ?= $(PREFIX)/share
mandir ?= $(datadir)/man
docdir ?= $(datadir)/doc/verified-puzzles
bashcompdir ?= $(datadir)/bash-completion/completions
zshcompdir ?= $(datadir)/zsh/site-functions
fishcompdir ?= $(datadir)/fish/vendor_completions.d
DESTDIR ?=

.PHONY: all build programs web site play page sheet test gate trust test-twins test-bodies test-faults exchange bench hard check try must-fail fmt dist install uninstall installcheck clean help crate

# Prints the folder of the programs that are of the sources here; where there are none it says what is to be typed.
READY = tools/programs ready

# Tries them; folders of tests/ may stand after it.
TESTS = programs=$$($(READY)) && tests/run "$$programs/puzzles" "$$programs/puzzles-json"

all:
	@RT='$(RT)' tools/programs where > /dev/null

build:
	@RT='$(RT)' tools/build

programs:
	@RT='$(RT)' tools/programs store

web:
	@RT='$(RT)' tools/web store

site: export SITE := $(SITE)
site:
	@tools/web where > /dev/null
	@tools/web site "$$SITE"

# The board is for a terminal; in a pipe the program plays by itself. The words go by the environment, since there may be any letter in them.
play: export GAME := $(GAME)
play: export ID := $(ID)
play:
	@case "$$GAME" in ''|towers|skyscrapers|unequal|futoshiki) ;; *) echo 'make: GAME is towers or unequal' >&2; exit 2 ;; esac
	@case "$$GAME" in skyscrapers) GAME=towers ;; futoshiki) GAME=unequal ;; esac; \
	programs=$$($(READY)) || exit; \
	if [ -t 0 ] && [ -t 1 ]; then PUZZLES_JSON="$${PUZZLES_JSON:-$$programs/puzzles-json}" exec board/puzzles-play "$${GAME:-$${ID:+towers}}" "$$ID"; \
	else exec tools/play_in_pipe "$$programs/puzzles" "$$GAME" "$$ID"; fi

# Its status is 1 where there is no screen; then it has printed where the page lies, and that is no error of make.
page:
	@tools/web where > /dev/null
	@page/puzzles-page $(WORDS) || [ $$? = 1 ]

sheet: export GAME := $(GAME)
sheet: export IDS := $(IDS)
sheet:
	@programs=$$($(READY)) || exit; mkdir -p build; [ -n "$$GAME$$IDS" ] || GAME=towers; \
	PUZZLES_JSON="$${PUZZLES_JSON:-$$programs/puzzles-json}" \
	    sheet/puzzles-sheet $${GAME:+"$$GAME"} $${IDS:+--ids "$$IDS"} $(WORDS) --output build/sheet.html || exit; \
	echo 'build/sheet.html is there: a browser shows and prints it'; \
	if [ -n "$$DISPLAY$$WAYLAND_DISPLAY" ] && command -v xdg-open > /dev/null; then xdg-open build/sheet.html; fi

test:
	@$(TESTS)

gate:
	@RT='$(RT)' tools/gate

test-twins:
	@RT='$(RT)' tools/test_bodies --twins $(CRATES)

test-bodies:
	@RT='$(RT)' tools/test_bodies $(CRATES)

test-faults:
	@cd crates/trial_runs && '$(RT)' run -- calls < /dev/null > /dev/null
	@$(TESTS) --calls=crates/trial_runs/out/trial_runs tests/faults

trust:
	@tools/trust $(PROMISE)

exchange:
	@$(TESTS) tests/exchange

bench: export IDS := $(IDS)
bench:
	@RT='$(RT)' bench/run $${IDS:+"$$IDS"}

hard: export SEED := $(SEED)
hard: export COUNT := $(COUNT)
hard:
	@RT='$(RT)' bench/run --hard "$$SEED" "$$COUNT"

check: crate
	@cd 'crates/$(CRATE)' && '$(RT)' check

try: crate
	@cd 'crates/$(CRATE)' && '$(RT)' try --test

must-fail: crate
	@'$(RT)' must-fail '$(CRATE)'

crate:
	@[ -n '$(CRATE)' ] && [ -d 'crates/$(CRATE)' ] || { echo 'make: CRATE= one of:' $(notdir $(wildcard crates/*)) >&2; exit 2; }

fmt:
	@for crate in crates/*/; do (cd "$$crate" && $(FMT)) || exit 1; done

dist:
	@tools/dist

# The folders go by the environment, since there may be any letter in them.
export DESTDIR gamesdir datadir mandir docdir bashcompdir zshcompdir fishcompdir
install:
	@tools/install

uninstall:
	@tools/install --remove

installcheck:
	@tools/install --check

clean:
	rm -rf build

help:
	@sed -n '/^#/!q; s/^# \{0,1\}//p' Makefile
