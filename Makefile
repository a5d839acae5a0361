# The commands of README.md. Each does all its own set-up.
.PHONY: test run bench

# The gate: prove every crate, try every must-fail edit, then run the Rust tests.
test:
	@./scripts/test

# The program outline on two recipes of very different lengths: proved, built, run, compared.
# make run QUICK=1 runs it without proving it first.
run:
	@QUICK=$(QUICK) ./scripts/run

# Nanoseconds per call of the proved library, the second model and a plain copy, in one run.
bench:
	@./scripts/bench
