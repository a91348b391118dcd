# `make help` lists the targets.
PREFIX ?= /usr/local
PLAY = crates/chaosplay/out/chaosplay
RUN = crates/chaosrun/out/chaosrun
BISECT = crates/chaosbisect/out/chaosbisect
APPEND = crates/chaosappend/out/chaosappend
.DEFAULT_GOAL := help
PROGRAM ?= chaosplay
.PHONY: help demo try programs install examples bench chart test

# $(call needs,TOOL,WHAT FOR): ends with one line where the tool is missing
needs = @command -v $(1) >/dev/null 2>&1 || { echo "$(1) is missing: $(2)" >&2; exit 1; }
rt = $(call needs,rt,the command of the Rattle kit that proves and builds everything here)
python = $(call needs,python3,the scripts of this target are written in it)
stand = @[ -x $(PLAY) ] && [ -x $(RUN) ] && [ -x $(BISECT) ] && [ -x $(APPEND) ] || { echo "The programs don't stand yet: make programs proves and builds them" >&2; exit 1; }

help: ## this list
	@sed -n 's/^\([a-z]*\):.*## /  make \1 - /p' Makefile

demo: ## builds the programs unproved and runs examples: two minutes to the first text, six in all
	$(rt)
	@examples/demo.sh

try: ## runs SOURCE=FILE, with the csv files beside it, with WORDS=".." and unproved: a minute or two, then seconds
	$(rt)
	$(python)
	@tools/try.py "$(PROGRAM)" "$(FOLDER)" "$(SOURCE)" $(WORDS)

programs: ## proves and builds all programs (about 65 processor minutes), and tells where they stand
	$(rt)
	$(python)
	@bench/programs.py

install: ## puts the programs that stand and their manual pages into PREFIX=/usr/local
	$(stand)
	@mkdir -p "$(DESTDIR)$(PREFIX)/bin" "$(DESTDIR)$(PREFIX)/share/man/man1"
	install -m 755 $(PLAY) $(RUN) $(BISECT) $(APPEND) "$(DESTDIR)$(PREFIX)/bin"
	install -m 644 docs/chaosrun.1 docs/chaosplay.1 docs/chaosbisect.1 docs/chaosappend.1 "$(DESTDIR)$(PREFIX)/share/man/man1"

examples: ## runs every example, every program, command and message of the pages, and the tools, and compares what they write
	$(python)
	$(stand)
	@examples/run.py
	@docs/run.py
	@docs/crates.py
	@docs/pictures.py
	@tools/run.py

bench: ## times the programs that stand on large inputs, beside a Fortran program, and compares every text
	$(python)
	$(stand)
	@bench/run.py

chart: ## draws docs/speed.svg from the last make bench
	$(python)
	@bench/chart.py

test: ## the gate: every proof, must-fail edit, test and program (bench/gate.py tells what it costs)
	$(rt)
	@.ci/run
