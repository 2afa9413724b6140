# make            proves what the programs need, builds them into build/ and tries each of them, on all cores
#                 (four at most, or RT_JOBS)
# make gate       proofs from nothing, edits that must fail, tests, the programs' stored runs
# make audit      the wrong bodies that the gate leaves out, each of which has to be refused: before a release those of
#                 all crates, else of those that changed (CHANGED=COMMIT). What the programs need is proved first, if it
#                 isn't
# make test       the gate, and then the programs built anew, run on the cases of tests/, and test-growth
# make test-program  runs the built programs on the cases of tests/ (needs Python 3.11)
# make test-random  compares the built occur with the built grep on 100,000 random edits
# make test-growth  looks for searches whose time grows faster than the line
# make test-changes  compares an editor's lists, kept by `changes`, with what the built occur shows, on 100,000 edits;
#                 and those of an example client (tests/client.py), on as many in batches
# make test-memory  runs the programs, matchers and sessions with each of their allocations refused in turn (needs a C
#                 compiler and Python 3.11)
# make test-editor  tests the Emacs client on the built programs (needs Emacs 28)
# make test-nvim  tests the Neovim client on the built programs (needs Neovim 0.7)
# make lib        proves what libgaxtrel needs, and builds it into build/lib
# make test-lib   tries it in C (plain, under sanitizers, with each allocation refused, from eight threads, by a million
#                 random calls) and in Python, on AT&T's cases, rows and scripts of tests/, and beside the built grep on
#                 100,000 patterns (needs compilers for C and C++, and Python 3.11)
# make test-engines  tries its extensions of SQLite and PostgreSQL and its module for Dask in the real engines (needs
#                 sqlite3, libsqlite3-dev, postgresql, postgresql-server-dev-all, python3-distributed)
# make figures    makes docs/figures/*.svg of crates.txt and of tables of the pages, and gives links of the pages to
#                 names of the code their lines
# make size       prints the bytes of code, specs and proofs and the number of functions, by crate
# make evidence   writes docs/EVIDENCE.md: the newest run of each of the targets above, and the sizes
# make install    copies the programs, stripped, with their manual pages and completions below $(DESTDIR)$(PREFIX), grep
#                 by the name GREP_NAME; the Emacs client to $(DESTDIR)$(SITE_LISP) and the Neovim client to
#                 $(DESTDIR)$(NVIM_SITE), if SITE_LISP and NVIM_SITE name folders; EMACS compiles its client, where it
#                 is there; another grep that is there is kept, unless FORCE=1 is given; the symbols stay in build/debug
# make install-occur  does so without grep
# make uninstall  removes what `make install` copied, with the same words; where another grep is there, nothing
# make uninstall-occur  removes what `make install-occur` copied, beside any grep
# make install-lib    copies what `make lib` built, libgaxtrel.a and .so, to $(DESTDIR)$(LIBDIR), which is lib below
#                 PREFIX unless it is given, with gaxtrel.pc, and gaxtrel.h and gaxtrel.3 below $(DESTDIR)$(PREFIX)
# make uninstall-lib  removes them, with the same words
# make dist       packs archives into build/: the programs, their pages and the clients; their symbols; the sources; the
#                 library, if it is built
# make deb        packs the programs for Debian into build/, grep as gaxgrep, and the library, if it is built, for C and
#                 for Python (needs dpkg-dev, and Python's headers)
# make clean      removes what make built; what rt keeps of its proofs is kept

# DESTDIR can be set in the environment too. FORCE counts on the command line alone.
PREFIX = /usr/local
GREP_NAME = grep
SITE_LISP =
NVIM_SITE =
FORCE =
EMACS = emacs
NVIM = nvim

.PHONY: all programs gate audit test test-program test-random test-growth test-changes test-memory test-editor test-nvim \
    lib test-lib test-engines figures size evidence grep-name install install-occur uninstall uninstall-occur install-lib \
    uninstall-lib dist deb clean

all: programs

programs:
	@tools/build.sh grep occur

build/grep:
	$(MAKE) programs

# Where grep was missing too, both are built by now.
build/occur: | build/grep
	test -e $@ || $(MAKE) programs

# Each lane proves one crate or tries one crate's edits, in 2 to 4 GB; rt's own estimate of that is
# twice as high, and leaves lanes empty.
LANES = RT_JOBS=$${RT_JOBS:-$$(nproc | awk '{ print $$1 < 4 ? $$1 : 4 }')}

gate:
	$(LANES) tools/evidence.sh gate rt ci

# Names of crates in CRATES audit these alone, a commit in CHANGED those with a file that differs from the commit's. A
# crate above one that changed isn't among them: its own text is the same.
audit: programs
	$(LANES) tools/evidence.sh audit tools/audit.sh $(if $(CHANGED),--changed $(CHANGED),$(CRATES))

test: gate
	$(MAKE) programs
	$(MAKE) test-program
	$(MAKE) test-growth

test-program: build/grep build/occur
	tools/evidence.sh test-program python3 tests/run.py build/grep build/occur

test-random: build/grep build/occur
	tools/evidence.sh test-random python3 tests/random_edits.py build/grep build/occur

test-growth: build/grep build/occur
	tools/evidence.sh test-growth python3 tests/random_growth.py build/grep build/occur

test-changes: build/occur
	tools/evidence.sh test-changes python3 tests/random_changes.py build/occur
	tools/evidence.sh test-changes-client python3 tests/random_batches.py build/occur

test-memory: build/grep build/occur
	tools/evidence.sh test-memory-grep tools/refuse_allocations.sh
	tools/evidence.sh test-memory-occur python3 tests/refused_growths.py build/occur
	tools/evidence.sh test-memory-crates tools/refuse_growths.sh

# The tests run on the compiled client, as its users do.
test-editor: build/grep build/occur
	mkdir -p build/emacs
	cp editors/emacs/*.el build/emacs/
	$(EMACS) -Q --batch -L build/emacs -f batch-byte-compile build/emacs/*.el
	OCCUR=$(CURDIR)/build/occur GREP=$(CURDIR)/build/grep tools/evidence.sh test-editor \
	    $(EMACS) -Q --batch -L build/emacs -l editors/emacs/test/live-occur-test.el -f ert-run-tests-batch-and-exit

test-nvim: build/grep build/occur
	OCCUR=$(CURDIR)/build/occur GREP=$(CURDIR)/build/grep tools/evidence.sh test-nvim \
	    $(NVIM) --headless -u NONE -i NONE -n -S editors/nvim/test/run.lua

lib:
	@tools/build.sh gaxtrel
	@$(MAKE) --no-print-directory -C capi

build/lib/libgaxtrel.a:
	$(MAKE) lib

test-lib: build/lib/libgaxtrel.a build/grep
	tools/evidence.sh test-lib $(MAKE) --no-print-directory -C capi test
	tools/evidence.sh test-lib-cases $(MAKE) --no-print-directory -C capi test-cases
	tools/evidence.sh test-lib-fuzz $(MAKE) --no-print-directory -C capi test-fuzz
	tools/evidence.sh test-lib-random python3 capi/tests/random_patterns.py build/grep

test-engines: build/lib/libgaxtrel.a build/grep
	tools/evidence.sh test-sqlite $(MAKE) --no-print-directory -C capi test-sqlite
	tools/evidence.sh test-postgres $(MAKE) --no-print-directory -C capi test-postgres
	tools/evidence.sh test-dask $(MAKE) --no-print-directory -C capi test-dask

figures:
	tools/figures.py
	tools/links.py

size:
	tools/count.py --size

# Each of the test targets above adds its run to build/evidence.tsv.
evidence:
	tools/evidence_page.sh

grep-name:
	@tools/grep_name.sh "$(GREP_NAME)"

KEEP_OTHER_GREP = tools/keep_other_grep.sh $@ "$(DESTDIR)$(PREFIX)/bin/$(GREP_NAME)"

install: grep-name build/grep build/occur
	@test "$(FORCE)" = 1 || $(KEEP_OTHER_GREP)
	tools/install.sh install "$(DESTDIR)$(PREFIX)" "$(GREP_NAME)" grep
	$(MAKE) install-occur

install-occur: grep-name
	test -e build/occur || tools/build.sh occur
	tools/install.sh install "$(DESTDIR)$(PREFIX)" "$(GREP_NAME)" occur
	if test -n "$(SITE_LISP)"; then editors/emacs/install.sh "$(EMACS)" "$(DESTDIR)$(SITE_LISP)"; fi
	if test -n "$(NVIM_SITE)"; then cd editors/nvim && for folder in plugin doc lua/live_occur; do \
	    install -d "$(DESTDIR)$(NVIM_SITE)/$$folder" && \
	    install -m 644 $$folder/*.* "$(DESTDIR)$(NVIM_SITE)/$$folder/" || exit; done; fi

# What of the clients is removed.
EMACS_CLIENT = live-occur.el live-occur.elc live-occur-track.el live-occur-track.elc live-occur-autoloads.el
NVIM_CLIENT = plugin/live_occur.lua doc/live-occur.txt lua/live_occur

uninstall: grep-name
	@$(KEEP_OTHER_GREP)
	tools/install.sh remove "$(DESTDIR)$(PREFIX)" "$(GREP_NAME)" grep
	$(MAKE) uninstall-occur

uninstall-occur: grep-name
	tools/install.sh remove "$(DESTDIR)$(PREFIX)" "$(GREP_NAME)" occur
	test -z "$(SITE_LISP)" || rm -f $(foreach file,$(EMACS_CLIENT),"$(DESTDIR)$(SITE_LISP)/$(file)")
	test -z "$(NVIM_SITE)" || rm -rf $(foreach file,$(NVIM_CLIENT),"$(DESTDIR)$(NVIM_SITE)/$(file)")
	@test -z "$(NVIM_SITE)" || for folder in plugin doc lua; do \
	    rmdir --ignore-fail-on-non-empty "$(DESTDIR)$(NVIM_SITE)/$$folder" 2> /dev/null || true; done

install-lib:
	@test -e build/lib/libgaxtrel.a || { echo 'The library is not built: run `make lib` first.' >&2; exit 1; }
	$(MAKE) --no-print-directory -C capi install

uninstall-lib:
	$(MAKE) --no-print-directory -C capi uninstall

# The time of all files in packages: that of the commit or, without git, of the file VERSION, which the archive of the
# sources has kept.
dist deb: export SOURCE_DATE_EPOCH ?= $(shell test -e .git && git log -1 --format=%ct || stat --format=%Y VERSION)

dist: build/grep build/occur
	tools/dist.sh

deb: build/grep build/occur
	tools/deb.sh

clean:
	rm -rf build
