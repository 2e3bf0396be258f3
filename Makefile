# Builds, checks and installs the program exhash. `make` alone lists what can be made.
#
#   PREFIX    where install puts things, /usr/local if left out
#   DESTDIR   a folder before PREFIX, for who makes packages
#   PROGRAM   a program that is built already, in place of a build
#   RELEASE   1 where install puts the program that release/ ships, whatever the sources here are,
#             beside this checkout's manual page and completions

PREFIX ?= /usr/local
DESTDIR ?=
PROGRAM ?=
RELEASE =

# Recipes have these from the environment, where a path may have spaces and quotes.
export BUILT := $(if $(PROGRAM),$(PROGRAM),crates/exh_cli/out/exh_cli)
export INTO := $(DESTDIR)$(PREFIX)

.PHONY: help build check try install uninstall bench dist release

help:
	@echo 'make build                   proves the program and builds it, or takes the one that release/ ships of these sources'
	@echo 'make check                   the gate: proves all, tries wrong bodies, runs every case'
	@echo 'make try                     runs the program on an example, with nothing proved'
	@echo 'make install PREFIX=FOLDER   program, manual page and completions, below /usr/local if no PREFIX is given'
	@echo 'make install RELEASE=1 ..    the same with the program that release/ ships, whatever the sources are'
	@echo 'make uninstall PREFIX=FOLDER removes them'
	@echo 'make bench                   every measure of bench/, one after the other (hours)'
	@echo 'make dist                    dist/exhash-VERSION-COMMIT-LIBC.tar.gz of what install puts'
	@echo 'make release                 what release/ ships, from the gate that passed here'

build:
ifeq ($(PROGRAM),)
	@./exhash version > /dev/null
endif

check:
	.ci/run

try:
	tools/try check examples/three-pairs.files/three-pairs.exh

install: $(if $(RELEASE),,build)
	install -d "$$INTO/bin" "$$INTO/share/man/man1" "$$INTO/share/bash-completion/completions"
ifeq ($(RELEASE),)
	install -m 755 -- "$$BUILT" "$$INTO/bin/exhash"
else
	root=.; . tools/shipped.sh; clear_up_at_end; have_shipped && unpack_shipped "$$INTO/bin/exhash"
endif
	install -m 644 docs/exhash.1 "$$INTO/share/man/man1/exhash.1"
	install -m 644 completions/exhash.bash "$$INTO/share/bash-completion/completions/exhash"

uninstall:
	rm -f "$$INTO/bin/exhash" "$$INTO/share/man/man1/exhash.1" "$$INTO/share/bash-completion/completions/exhash"

bench: build
	failed=0; for script in bench/*.sh; do echo "== $$script"; $$script || failed=1; done; exit $$failed

dist: build
	tools/dist "$$BUILT"

release:
	tools/release
