# Moves a linked program by a profile of one run: `make -f examples/move.mk PROGRAM=name` makes `name.moved` and `name.map`.
# WORDS are the arguments of the run, and INPUT is its standard input. A recipe fails if the run doesn't end, if the
# profile says of no block that it ran, or if the output isn't a faithful rewrite. `check` follows the run on the symbol
# machine too, and compares what both files print.
SUDREPKA ?= sudrepka
PROGRAM ?= program
WORDS ?=
INPUT ?= /dev/null
# The closing line of a run that ended. What the program printed last may stand before it in the same line.
ENDED = grep -q '\[ended [0-9]* after [0-9]* steps\]$$'

$(PROGRAM).moved: $(PROGRAM) $(PROGRAM).profile
	$(SUDREPKA) rewrite $(PROGRAM) $(PROGRAM).profile $@.new $(PROGRAM).map > $@.log; status=$$?; cat $@.log; exit $$status
	! grep -q '; 0 hot blocks' $@.log
	$(SUDREPKA) verify $(PROGRAM) $@.new $(PROGRAM).map
	mv $@.new $@

# `record` ends with the status of the program, whatever that is.
$(PROGRAM).profile: $(PROGRAM)
	$(SUDREPKA) record $(PROGRAM) $@.new -- $(WORDS) < $(INPUT) > $@.log || true
	tail -n 1 $@.log | $(ENDED)
	mv $@.new $@

.PHONY: check
check: $(PROGRAM).moved
	$(SUDREPKA) run --symbols $(PROGRAM) -- $(WORDS) < $(INPUT) > $(PROGRAM).followed || true
	tail -n 1 $(PROGRAM).followed | $(ENDED)
	qemu-riscv64 $(PROGRAM) $(WORDS) < $(INPUT) > $(PROGRAM).before; echo $$? >> $(PROGRAM).before
	qemu-riscv64 $(PROGRAM).moved $(WORDS) < $(INPUT) > $(PROGRAM).after; echo $$? >> $(PROGRAM).after
	cmp $(PROGRAM).before $(PROGRAM).after
