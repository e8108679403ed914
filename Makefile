# make run: proves and builds the planner and runs it on its sample input. make test: the gate.
.PHONY: run test misuse fmt

run:
	cd crates/planner && rt run < stdin

test:
	tests/gate

misuse:
	tests/misuse/run

fmt:
	for crate in crates/*; do (cd "$$crate" && rt fmt) || exit 1; done
