# What is made here, and of what. `make` alone says what there is. What proofs leave stands in out/
# of each crate; what is made to be taken away, in out/.

SHELL := bash
# no source is made of another by a rule that make knows
MAKEFLAGS += --no-builtin-rules
.SUFFIXES:
OUT ?= out
PREFIX ?= /usr/local
ARCHIVE ?= crates/bearoff_c/out/libbearoff.a
# folders that may have any name: a recipe has it from its environment, as it was typed, since in
# its own text make and the shell would read it
help install uninstall release: export override PREFIX := $(value PREFIX)
help install uninstall release: export override DESTDIR := $(value DESTDIR)
help install uninstall release: export override DIR := $(value DIR)
VERSION := $(shell cat VERSION)

MODULES := $(OUT)/modules/wide.wasm $(OUT)/modules/narrow.wasm
PAGE := $(OUT)/bearoff.html
PACKAGE := $(OUT)/js/bearoff-$(VERSION).tgz

TESTED := $(OUT)/tested/ready
# programs that tests in Python run, which `rt ci` builds too
TRIALS := board_trials failing_calls number_trials

WORK_PAGE := $(OUT)/work.html

# compiled as it is written, without a proof: what is proved never stands here
UNPROVED := out/unproved

# the scripts in Python; the mutants of the page are rows of one line each
SCRIPTS := git ls-files '*.py' && \
	git grep -lE '^\#!.*python3' -- packaging tests tools ':!*.py' ':!tests/page/mutants'

.PHONY: help always needs prove library page work-page js tested trials install uninstall release
.PHONY: unproved quick
.PHONY: reference pictures second-opinion format check test test-python test-node
.DELETE_ON_ERROR:

help:
	@echo 'make needs              installs what the tests and the packaging need from Debian'
	@echo 'make prove              proves and builds the program'
	@echo 'make check              all that has to pass: Debian, proofs, builds, tests'
	@echo 'make test               the tests in Python and under node, and what they run'
	@echo 'make quick              most tests that need no prover, in minutes; NOTHING IS PROVED'
	@echo 'make page               $(PAGE)'
	@echo 'make work-page          $(WORK_PAGE), the same with source maps, for work on it'
	@echo 'make js                 $(PACKAGE)'
	@echo 'make reference          $(OUT)/ref, of the comments and contracts of the sources'
	@echo 'make pictures           what docs/ shows of the page, by Chromium'
	@echo 'make second-opinion     the theorem in Coq, proved, and the checker that Coq makes'
	@echo 'make format             lays out the Python and the C of tests, by black and clang-format'
	@printf 'make install            into PREFIX (%s), below DESTDIR where that is set\n' "$$PREFIX"
	@echo 'make uninstall          takes that away'
	@echo 'make release DIR=DIR    the files of a release, in a new folder, proved anew'

needs:
	tests/needs.py

# does nothing where that is done already
prove:
	./bearoff --prove $(if $(JOBS),--jobs $(JOBS))

trials:
	tools/prove $(TRIALS) $(if $(JOBS),--jobs $(JOBS))

# what stands is asked of tools/made, and by no time of a file
library:
	packaging/archive "$(ARCHIVE)"

page: $(PAGE)
work-page: $(WORK_PAGE)
$(PAGE) $(WORK_PAGE): $(MODULES) $(wildcard web/* web/*/*) $(wildcard js/*.js) VERSION packaging/page.py \
		packaging/third-party-licences.txt
	/usr/bin/python3 -I packaging/page.py web $(OUT)/modules VERSION $@ \
		$(if $(filter %/work.html,$@),--maps)

$(MODULES) &: always
	packaging/modules $(OUT)/modules

js: $(PACKAGE)
$(PACKAGE): $(MODULES) $(wildcard js/*.js js/*.d.ts js/*.json) js/README.md VERSION packaging/js \
		packaging/third-party-licences.txt
	packaging/js $(OUT)/modules $(OUT)/js

reference:
	tools/reference $(OUT)/ref

# what docs/ shows of the page, and a sum of what is to be read there
pictures: page tested
	to=$$(mktemp -d) && BROWSERS=chromium PARTS=pictures PICTURES=$$to node --test tests/page/drive.test.mjs && \
		cp $$to/start-1180.png docs/page.png && cp $$to/start-360.png docs/page-telephone.png && \
		cp $$to/lesson-1180.png docs/page-lesson.png && cp $$to/drill-1180.png docs/page-drill.png && \
		cp $$to/pictures.txt docs/ && rm -r $$to

second-opinion:
	tests/needs.py coqc
	second_opinion/prove $(OUT)/second_opinion

format:
	black --quiet --line-length 99 $$($(SCRIPTS))
	clang-format -i $$(git ls-files '*.c' '*.cpp')

install:
	packaging/install "$$PREFIX"

uninstall:
	packaging/uninstall "$$PREFIX"

release:
	packaging/release --anew "$$DIR"

# what the tests under node compare with
tested: $(TESTED)
$(TESTED): crates/bearoff_cli/out/bearoff_cli tests/page/prepare tests/callers/questions.py tests/callers/ask_gnubg.py
	tests/page/prepare $< $(@D)
	@touch $@

crates/bearoff_cli/out/bearoff_cli: prove ;

# each part goes on where it was stopped
check:
	tools/check needs proofs build bodies python node

test: test-python test-node

# what is tested, compiled as it is written. The page and the package are made of modules that have
# the mark of tools/unproved, and say that they are not proved
unproved:
	tools/unproved
	tests/needs.py esbuild pako
	/usr/bin/python3 -I packaging/page.py web $(UNPROVED)/wasm VERSION $(UNPROVED)/bearoff.html
	packaging/js $(UNPROVED)/wasm $(UNPROVED)/js
	BEAROFF_UNPROVED=told tests/page/prepare $(UNPROVED)/bearoff $(UNPROVED)/given

quick:
	tools/check --quick

test-python: needs prove library trials
	pytest -n 4 --dist loadgroup tests

test-node: needs prove page js tested
	node --test --test-concurrency=1 tests/page
