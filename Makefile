.PHONY: help run test check wrong faults bench library

help:
	@echo "make run      build the lister and list a sample capture"
	@echo "make test     prove everything, try the must-fail edits, run the programs and the tests (the gate)"
	@echo "make check    prove what changed since it was last proved"
	@echo "make wrong    try more wrong programs than the gate does; the prover has to refuse each"
	@echo "make faults   put faults into copies of the second program; its tests or the differential tests have to fail for each (cargo)"
	@echo "make library  the static library for C and Rust, target/staticlib/libexport.a"
	@echo "make bench    measure the library against the second program (cargo), reader and lister against C (gcc); valgrind counts instructions"

run:
	@command -v rt > /dev/null || { echo "make run: rt is not on the path; it proves and builds the lister (the Rattle kit)"; exit 1; }
	@echo "Proving and building the lister: a few minutes the first time."
	@mkdir -p target && cd crates/lister && rt run < /dev/null > ../../target/lister.log 2>&1 || { tail -n 20 ../../target/lister.log; exit 1; }
	@echo "The sample capture captures/every-form.capture:"
	@echo
	crates/lister/out/lister < captures/every-form.capture
	@echo
	@echo "Your own:  crates/lister/out/lister < FILE.capture"
	@echo "A packet file of sFlow traffic (UDP port 6343):  captures/from_pcap FILE.pcap > FILE.capture"

test:
	bash .ci/run

check:
	rt all check

wrong:
	python3 wrong-programs/fit
	python3 wrong-programs/try

faults:
	@test -f target/staticlib/libexport.a || bash tools/library
	python3 faults/try

library:
	bash tools/library

bench:
	python3 bench/run
