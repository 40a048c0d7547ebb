# The words that people try first; each stands for a command of this repository.
PREFIX ?= /usr/local
DESTDIR ?=
# programs to install in place of the proved ones, both or none
FLASHFILL ?=
FILLCSV ?=

all:                 ## proves and builds both programs: an hour or more, once
	./fillcsv --help >/dev/null
	./flashfill made 1 >/dev/null

try:                 ## compiles fillcsv without proof, and fills an example
	./fillcsv --try examples/people.csv --to Label --from Name,City --state

check:               ## the whole gate: all proofs and all tests
	.ci/run

install:             ## puts programs, manual and completions below $(DESTDIR)$(PREFIX)
	python3 release/install.py '$(DESTDIR)$(PREFIX)' $(FLASHFILL) $(FILLCSV)

uninstall:           ## takes them away
	python3 release/install.py --remove '$(DESTDIR)$(PREFIX)'

release:             ## makes the archive and the package in out/release
	tools/release

help:                ## tells these words
	@sed -n 's/^\([a-z]*\): *## /make \1\t/p' $(firstword $(MAKEFILE_LIST)) | expand -t 20

.PHONY: all try check install uninstall release help
