# The first target makes the program: it unpacks the one that is kept here, or builds it if a source has changed. `make help` lists the
# targets. check: every proof from nothing, every must-fail edit, every test and program; then tests with requests for memory refused, and
# the program next to the system's sh, and to the one that is kept here. install and deb only copy what is built: nothing is proved as root.
PREFIX = /usr/local
# Where zsh looks for what completes words.
ZSH = $(PREFIX)/share/zsh/site-functions

program = crates/plrun/out/plrun
bin = $(DESTDIR)$(PREFIX)/bin
man = $(DESTDIR)$(PREFIX)/share/man/man1
bash = $(DESTDIR)$(PREFIX)/share/bash-completion/completions
zsh = $(DESTDIR)$(ZSH)
fish = $(DESTDIR)$(PREFIX)/share/fish/vendor_completions.d

# How many crates are proved side by side: one a processor, where each has 4 GiB of memory. Each check gets one job, since a
# second one costs a quarter more of the processors' time.
JOBS = $(shell awk -v most=$$(nproc) '/^MemAvailable:/ { n = int($$2 / 4194304); print n < 1 ? 1 : n < most ? n : most }' /proc/meminfo)

.PHONY: all help build prove status test check long docs install uninstall release deb bench clean

all: build

help:
	@echo 'make            unpacks the program that is kept here, or builds it if a source differs'
	@echo 'make status     says which program is here'
	@echo 'make test       compares that program with the system utilities: 4 to 8 minutes, no toolchain'
	@echo 'make docs       writes out/docs/DEFINITIONS.md: what has to be believed, with its comments'
	@echo 'make install    copies the program, its manual page and its completions (PREFIX=/usr/local)'
	@echo 'make uninstall  removes them'
	@echo 'make deb        makes a Debian package (OUT=folder)'
	@echo 'make bench      measures it next to sh: 10 minutes; bench/run 8 takes 2'
	@echo 'make prove      proves and builds it here, and compares it with the one that is kept: needs rt, half an hour'
	@echo 'make check      proves everything from nothing, and runs every test: needs rt, 30 to 77 minutes'
	@echo 'make long       runs the tests that are too long for the gate, after make check: over 20 minutes; it is for a release'
	@echo 'make release    packs the program that was built, makes its package, and writes the message of its tag'
	@echo 'make clean      removes what was built'

build:
	@./build --if-needed

prove:
	@PLRUN_BUILD=1 ./build --if-needed
	@packaging/compare

status:
	@packaging/status

# The program that is here is compared with the system's utilities. Nothing is proved.
test: build
	@tests/all

# The prover's allocator keeps what was freed, which saves a twenty-fifth of its time.
check:
	@command -v rt > /dev/null || { echo 'make check: it needs the Rattle toolchain (rt), which is not on the path; make test needs none' >&2; exit 1; }
	@MIMALLOC_PURGE_DELAY=-1 RT_JOBS=$(JOBS) rt ci
	@tests/refused_calls 20 node_tests network_tests
	@tests/all
	@packaging/compare

# The definitions that have to be believed, with their comments, as a page.
docs:
	@mkdir -p out/docs
	@tests/believed --read > out/docs/DEFINITIONS.md
	@echo out/docs/DEFINITIONS.md

# What takes too long for each change. The tests of the crates, which `make check` leaves, and the program that is here are tried.
long: build
	@tests/long

# The built program, its manual page, and the completions of words in three shells.
install:
	@test -x $(program) || { echo 'make install: nothing is built yet: run make first, as yourself' >&2; exit 1; }
	@! packaging/unproved $(program) || { echo 'make install: the built program was not proved: run make first, as yourself' >&2; exit 1; }
	@packaging/made $(program) || { echo 'make install: the built program was made of other sources: run make first, as yourself' >&2; exit 1; }
	@install -d "$(bin)" "$(man)" "$(bash)" "$(zsh)" "$(fish)"
	@install -m 755 $(program) "$(bin)/plrun"
	@install -m 644 docs/plrun.1 "$(man)/plrun.1"
	@install -m 644 completions/plrun.bash "$(bash)/plrun"
	@install -m 644 completions/plrun.zsh "$(zsh)/_plrun"
	@install -m 644 completions/plrun.fish "$(fish)/plrun.fish"

uninstall:
	@rm -f "$(bin)/plrun" "$(man)/plrun.1" "$(bash)/plrun" "$(zsh)/_plrun" "$(fish)/plrun.fish"

# Packs the built program into packaging/built, with its checksums, makes its package, and writes the message of its tag to out/release.
release:
	@packaging/release

# A Debian package of the built program, in this folder or in that of OUT.
deb:
	@packaging/deb

bench:
	@echo 'make bench: this takes about 10 minutes; bench/run MEGABYTES measures with other inputs than of 64 MB'
	@bench/run

clean:
	@rm -rf crates/*/out out/docs out/release
