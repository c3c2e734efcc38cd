# Thin: each target is a line or two.
DAY ?= examples/first.day
CRATES ?=
PREFIX ?= /usr/local

.PHONY: demo build test quick edits outside blocks try bench examples audit install deb recipes around

# Shows a gridlock freed, over a journal: by the built program, which is killed and run again, or by the same sources before
# their proof.
demo:
	tools/demo

# Proves the program's crates, and builds it.
build:
	tools/build

# The gate: every proof, must-fail edit, test and stored run, and what stands around the program that it built.
test:
	.ci/run

# Every crate's tests, or those of CRATES, before any proof.
quick:
	tools/quick $(CRATES)

# What the built program does at the edge of the machine.
outside: build
	tests/outside/run
	tests/outside/killed
	tests/outside/streams
	tests/outside/memory

# A million changed and made-up blocks, given to the built program.
blocks: build
	tests/blocks/run

# The wrong bodies that stand outside the gate, in a copy: make edits CRATES="dali_base dali_line"
edits:
	tools/edits $(CRATES)

# Runs the program on a file before any proof, over an empty journal: make try DAY=FILE
try:
	tools/try $(DAY)

# Times the proved program, the gateway, the journal, the checker, the search, `check`, records, recovery, the words beside a day,
# and `ship` into `follow`.
bench: build
	bench/day/run
	bench/gate/run
	bench/journal/run
	bench/checker/run
	bench/search/run
	bench/check/run
	bench/record/run
	bench/recover/run
	bench/words/run
	bench/ship/run

# Runs each example and compares its replies.
examples:
	examples/run

# Tries the commands of the operator's page, and compares what they print.
recipes:
	tools/recipes docs/OPERATING.md

# Judges the program from outside: random days by every reply, their blocks and a thousand broken ones by two checkers.
audit:
	audit/audit.py

# Installs the built program, manual pages, completion, documents and examples: make install PREFIX=/usr/local
install:
	tools/install $(PREFIX) $(DESTDIR)

# Packs the same as a package of Debian, in out/.
deb:
	tools/deb

# What of these needs no more than the machine has, in less than three minutes; the gate runs it behind its proofs.
around:
	tools/around
