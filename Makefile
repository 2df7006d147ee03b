# make run: proves what two programs need, builds and runs them.  make test: the whole gate.
.PHONY: run test

run:
	cd crates/bracket && rt run
	cd crates/path_outline && rt run

test:
	.ci/run
