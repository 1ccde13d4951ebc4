# make example        builds the program, scores two dumps of examples/pads, merges their databases, shows the report and
#                     writes the tracefile, scores and reports examples/alu, and scores, merges and reports the two dumps
#                     of examples/uart, that of examples/door with its state machine and the late habit, and the two of
#                     examples/fifo, which has a memory
# make try            shows the example with a program that is not proved, in a minute or two
# make test           the gate: proves every crate, tries the wrong bodies, runs the tests, the program and the example cases
# make cases          builds the program and runs the example cases of the stage that is reached; so does make rows
# make built-cases    runs the same cases, the limit of points, an argument and names that are not UTF-8, and small inputs that might take long,
#                     with the program that the gate has built
# make wrong-bodies   tries the wrong bodies of all crates, also those that the gate passes over; CRATES='NAME ..' of some
# make install        puts the program into $(PREFIX)/bin, and its man page and documents into $(PREFIX)/share

PREFIX ?= /usr/local
PROGRAM = crates/covered/out/covered
STAGE = selfrun
PADS = examples/pads
ALU = examples/alu
UART = examples/uart
DOOR = examples/door
FIFO = examples/fifo
DOCUMENTS = USER_GUIDE.md LANGUAGE.md FORMATS.md

.PHONY: build example try test cases rows built-cases wrong-bodies install

build:
	@bash .ci/build

example: build
	cd $(PADS) && COVERED=../../$(PROGRAM) \
	  && $$COVERED score -t pads -i tb.dut -v pads.v -vcd pads.vcd -o pads.db && cat pads.db \
	  && $$COVERED score -t pads -i tb.dut -v pads.v -vcd icarus.vcd -o icarus.db \
	  && $$COVERED merge -o all.db pads.db icarus.db && $$COVERED report -d v all.db \
	  && $$COVERED lcov -o all.info all.db
	cd $(ALU) && COVERED=../../$(PROGRAM) \
	  && $$COVERED score -t alu -i tb.dut -v alu.v -vcd alu.vcd -o alu.db && $$COVERED report -d v alu.db
	cd $(UART) && COVERED=../../$(PROGRAM) \
	  && $$COVERED score -t uart_tx -i tb.dut -v uart_tx.v -vcd sent.vcd -o sent.db \
	  && $$COVERED score -t uart_tx -i tb.dut -v uart_tx.v -vcd aborted.vcd -o aborted.db \
	  && $$COVERED merge -o all.db sent.db aborted.db && $$COVERED report -d v all.db
	cd $(DOOR) && COVERED=../../$(PROGRAM) \
	  && $$COVERED score -t door -i tb.dut -v door.v -vcd door.vcd -o late.db -late -states door=state:CLOSED,OPENING,OPEN,CLOSING \
	  && $$COVERED report -d v late.db \
	  && $$COVERED score -t door -i tb.dut -v door.v -vcd door.vcd -o drawn.db -F door=state,state && $$COVERED report -m f -d d drawn.db
	cd $(FIFO) && COVERED=../../$(PROGRAM) \
	  && $$COVERED score -t fifo -i tb.dut -v fifo.v -vcd some.vcd -o some.db \
	  && $$COVERED score -t fifo -i tb.dut -v fifo.v -vcd filled.vcd -o filled.db \
	  && $$COVERED report -m m -d v some.db && $$COVERED merge -o all.db some.db filled.db && $$COVERED report -m ltcm all.db

try:
	@echo 'covered: this program is compiled without any proof; `make example` proves it first'
	cd crates/covered && rt try --data pads.v=../../$(PADS)/pads.v --data icarus.vcd=../../$(PADS)/icarus.vcd \
	  -- score -t pads -i tb.dut -v pads.v -vcd icarus.vcd -o /dev/stdout

test:
	bash .ci/run

cases rows: build built-cases

built-cases:
	python3 cases/run.py $(PROGRAM) --stage $(STAGE)
	sh cases/points_limit.sh $(PROGRAM)
	bash cases/arguments.sh $(PROGRAM)
	bash cases/bytes.sh $(PROGRAM)
	python3 bench/doubling.py $(PROGRAM) --test --seconds 2

wrong-bodies:
	bash .ci/wrong-bodies $(CRATES)

install: build
	install -D $(PROGRAM) $(DESTDIR)$(PREFIX)/bin/covered
	install -D -m 644 docs/covered.1 $(DESTDIR)$(PREFIX)/share/man/man1/covered.1
	for document in $(DOCUMENTS); do \
	  install -D -m 644 docs/$$document $(DESTDIR)$(PREFIX)/share/doc/covered/$$document; done
