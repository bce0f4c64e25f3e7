# Short ways to try, to build, to test and to install the programs: `make` lists them.
PROGRAM = crates/analyser_main/out/analyser_main
CHECKER = crates/abi_check/out/abi_check
EXAMPLE = examples/saved_registers.elf
SLOTS = 0x10010:-8,0x10010:-16,0x10044:-8
FILE = $(EXAMPLE)
TRACK = sp,ra,s0,a0$(if $(filter $(EXAMPLE),$(FILE)),$(COMMA)$(SLOTS))
COMMA = ,
export FILE TRACK

REPORT = $(if $(filter $(EXAMPLE),$(FILE)),examples/saved_registers.report)
STEPS = 1000
REGS =
export REPORT STEPS REGS

AT =
ROW =
export AT ROW

# The programs that are installed: each name, and the crate that it is.
INSTALLED = \
	affine-relations=analyser_main \
	abi-check=abi_check
PREFIX = /usr/local
DESTDIR =

.PHONY: help demo analyse cert list run upgrade narrow refute check build install test large hostile faults readme bench edits

help:
	@echo 'make demo                       what the program tells of $(EXAMPLE)'
	@echo 'make analyse FILE=F TRACK=LIST  the report of F for the names of LIST'
	@echo 'make cert FILE=F TRACK=LIST     which registers its procedures give back'
	@echo 'make list FILE=F                the code of F that can be reached'
	@echo 'make run FILE=F REPORT=R STEPS=N REGS=..  a run of F against the report R, with these registers'
	@echo 'make upgrade FILE=F REPORT=R    the report R with certificates'
	@echo 'make narrow FILE=F TRACK=LIST   relations of the low 32 bits of the names of LIST'
	@echo 'make refute FILE=F TRACK=LIST AT=P,A ROW=..  whether a row holds at the address A in the procedure at P'
	@echo 'make check FILE=F               whether the routines of F keep sp, ra and s0 to s11, with no list of names'
	@echo
	@echo 'These run the programs that make build made, at once, where no source is newer; else each compiles the'
	@echo 'sources anew, without proofs: 67 to 114 s where it was measured, with four processors.'
	@echo
	@echo 'make build                      proves and builds the programs                 half an hour or more where nothing is kept'
	@echo 'make install PREFIX=P           the proved programs as P/bin/affine-relations and P/bin/abi-check, and their manual pages'
	@echo 'make test                       the whole test, rt ci                          an hour or more where nothing is kept'
	@echo 'make large                      the built program on inputs near the limits    half a minute'
	@echo 'make hostile                    the built program on damaged and odd files and outputs     half a minute'
	@echo 'make faults                     each allocation, read and write of the built program fails in turn   half a minute'
	@echo 'make readme                     each command of README.md and of the manual pages, with what they show, and make'"'"'s messages'
	@echo 'make bench                      times of the built program on files of growing size   some seconds'
	@echo 'make edits                      further wrong bodies, each of which the proof must refuse     half an hour or more'
	@echo
	@echo 'The built programs lie at $(PROGRAM) and $(CHECKER); run them as'
	@echo '  $(PROGRAM) analyse FILE --track LIST'
	@echo '  $(CHECKER) FILE'

demo:
	@tools/demo

analyse:
	@tools/order analyse --track "$$TRACK"

cert:
	@tools/order cert --track "$$TRACK"

list:
	@tools/order list

run:
	@tools/order run --steps "$$STEPS" $${REGS:+--regs "$$REGS"}

upgrade:
	@tools/order upgrade

narrow:
	@tools/order narrow --track "$$TRACK"

refute:
	@tools/order refute --track "$$TRACK" --at "$$AT" --row "$$ROW"

check:
	@tools/order check

build:
	@cd crates/analyser_main && rt run -- list ../../examples/one_register.elf
	@touch .built-analyser_main
	@cd crates/abi_check && rt run -- ../../examples/one_register.elf
	@touch .built-abi_check
	@echo 'make: built, proved: $(PROGRAM), $(CHECKER)'

install:
	@PREFIX='$(DESTDIR)$(PREFIX)' tools/install $(INSTALLED)

large hostile faults bench: is_built
large hostile faults:
	@python3 tests/$@.py $(PROGRAM)

bench:
	@python3 bench/bench.py $(PROGRAM)

.PHONY: is_built
is_built:
	@test -x $(PROGRAM) || { echo 'make: make build comes first' >&2; exit 1; }

readme: is_built
	@python3 tests/messages.py
	@python3 tests/readme.py README.md docs/affine-relations.md docs/abi-check.md

test:
	rt ci

edits:
	more-edits/try
