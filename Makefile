# Tries, builds, tests and installs kati. GNU make and kati accept this file.
#
#     make try                                   runs kati on the example, without proofs
#     make                                       proves and builds both programs
#     make check                                 the gate: all proofs and tests
#     make install PREFIX=/usr DESTDIR=root
#     make uninstall, make deb
#
# install and deb use the programs that were built, or those that PROGRAM=FILE and ASKED=FILE name.

PREFIX = /usr/local
DESTDIR =
PROGRAM = crates/kati_program/out/kati_program
ASKED = crates/kati_asked/out/kati_asked

# Where things go below DESTDIR. A Debian package has the functions of zsh in share/zsh/vendor-completions.
BIN = $(PREFIX)/bin
SHARE = $(PREFIX)/share/kati
MAN = $(PREFIX)/share/man/man1
DOC = $(PREFIX)/share/doc/kati-ninja
BASH = $(PREFIX)/share/bash-completion/completions
ZSH = $(PREFIX)/share/zsh/site-functions
FISH = $(PREFIX)/share/fish/vendor_completions.d

COMMANDS = kati kati-asked kati-build kati-port kati-compare
TOOLS = $(filter-out kati kati-asked,$(COMMANDS))
# The commands whose completions are links to those of kati.
LINKED = $(filter-out kati,$(COMMANDS))
PAGES = $(COMMANDS:%=%.1)
EXAMPLE = Makefile README.md config.mk files.txt list.c list.h main.c
# What of it kati reads.
TRIED = Makefile config.mk files.txt
PAPERS = README.md CHANGELOG.md CONTRIBUTING.md SECURITY.md NOTICE

# The packages of the tools, each of which stands on those before it.
PACKAGES = base makefile make build port

# Bytecode, by which the tools start sooner; it counts where it is of the source that stands there.
COMPILE = -m compileall -q --invalidation-mode checked-hash

# The folders that are this package's alone, and its files in folders of others.
FOLDERS = $(SHARE) $(DOC)
FILES = $(COMMANDS:%=$(BIN)/%) $(PAGES:%=$(MAN)/%) $(COMMANDS:%=$(BASH)/%) $(ZSH)/_kati $(COMMANDS:%=$(FISH)/%.fish)

.PHONY: all try built install uninstall deb check

all:
	python3 scripts/build_programs.py

try:
	cd crates/kati_program && rt try $(foreach name,$(TRIED),--data $(name)=../../example/$(name)) -- --files files.txt

# What is installed is there; it takes an hour and more to build, so that isn't begun unasked.
built:
	@for program in $(PROGRAM) $(ASKED); do test -x $$program || { echo "no $$program: run make first" >&2; exit 1; }; done

install: built
	install -d $(addprefix $(DESTDIR),$(BIN) $(PACKAGES:%=$(SHARE)/kati_tools/%) $(MAN) $(DOC)/docs $(DOC)/example $(BASH) $(ZSH) $(FISH))
	install -m 755 $(PROGRAM) $(DESTDIR)$(BIN)/kati
	install -m 755 $(ASKED) $(DESTDIR)$(BIN)/kati-asked
	install -m 755 $(TOOLS:%=tools/%) $(DESTDIR)$(BIN)
	install -m 644 share/kati/*.mk $(DESTDIR)$(SHARE)
	install -m 644 share/kati/kati_tools/*.py $(DESTDIR)$(SHARE)/kati_tools
	for package in $(PACKAGES); do install -m 644 share/kati/kati_tools/$$package/*.py $(DESTDIR)$(SHARE)/kati_tools/$$package || exit 1; done
	python3 $(COMPILE) -d $(SHARE)/kati_tools $(DESTDIR)$(SHARE)/kati_tools || true
	install -m 644 $(PAGES:%=share/man/man1/%) $(DESTDIR)$(MAN)
	install -m 644 $(PAPERS) $(DESTDIR)$(DOC)
	install -m 644 docs/*.md docs/*.svg $(DESTDIR)$(DOC)/docs
	install -m 644 $(EXAMPLE:%=example/%) $(DESTDIR)$(DOC)/example
	install -m 644 share/bash-completion/completions/kati $(DESTDIR)$(BASH)
	for command in $(LINKED); do ln -sf kati $(DESTDIR)$(BASH)/$$command || exit 1; done
	install -m 644 share/zsh/site-functions/_kati $(DESTDIR)$(ZSH)
	install -m 644 share/fish/vendor_completions.d/kati.fish $(DESTDIR)$(FISH)
	for command in $(LINKED); do ln -sf kati.fish $(DESTDIR)$(FISH)/$$command.fish || exit 1; done

uninstall:
	rm -f $(addprefix $(DESTDIR),$(FILES))
	rm -rf $(addprefix $(DESTDIR),$(FOLDERS))

deb: built
	python3 scripts/make_deb.py --program $(PROGRAM) --asked $(ASKED)

check:
	.ci/run
