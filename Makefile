# The forecourt site controller. `make` alone says what there is.

PROGRAM := crates/forecourt/out/forecourt
CRATES := $(patsubst crates/%/wrong-bodies,%,$(wildcard crates/*/wrong-bodies))

.PHONY: help run build check smoke test audit bench package

help:
	@echo 'make run      compiles the program without proof and runs it on the three stored messages'
	@echo 'make build    proves and builds the program: $(PROGRAM)'
	@echo 'make check    proves every crate, lowest first'
	@echo 'make smoke    builds without proof, and runs every test: not the gate'
	@echo 'make test     the gate: the layers of the crates, every proof that is not kept, the'
	@echo '              mutants of the gate, every test, and the built programs on their tables'
	@echo '              and cases, with allocations and devices that fail; scripts/test runs one'
	@echo '              suite of these tests, or one test'
	@echo 'make package  builds the program, and makes the Debian package of it: out/packages'
	@echo 'make audit    the mutants of the audit, of every crate or of CRATES="a b"'
	@echo 'make bench    measures what a message, a row, a request and a notice cost, a start, and tills'
	@echo '              beside feeds, a page and a flood, on a small machine and a slow disk too: one'
	@echo '              table, each figure beside its yardstick (an echo, Redis if it is installed).'
	@echo '              Takes ten minutes; the machine must have nothing else to do'

run:
	@cd crates/forecourt && rt try < stdin

build:
	@cd crates/forecourt && rt run < stdin > /dev/null && echo '$(PROGRAM)'

package: build
	scripts/package

check:
	rt all check

smoke:
	scripts/smoke

test:
	scripts/tools/check-layers
	scripts/gate
	scripts/test all

audit:
	scripts/audit $(CRATES)

bench: build
	@scripts/bench/all $(PROGRAM)
