# make report: prove, build and run the main job. make test: the gate.
.PHONY: report test

report:
	@tools/build soereport
	@target/bin/soereport < crates/soereport/stdin

test:
	@bash .ci/run
