# make test    the gate: the referee's cases, calls from a host, the host itself, the programs, then every proof, must-fail edit and program (rt ci)
# make demo    runs the library on the marked examples of its specification, both programs on a small frame, and the host's calls on a made picture of the chute (docs/demo.png)
# make host    builds the host that opens PGM pictures, target/host/fibre, and the maker of a chute picture, target/host/chute
# make bench   times it beside its peers, natively, in one run (bench/run --record keeps it under docs/bench/)
# CPU=native before any of these has the library compiled for the vectors of this machine (tools/archive)

.PHONY: test demo host bench

test:
	@check/citations
	@check/vectors
	@check/listing
	@check/run
	@check/host
	@check/programs
	@tools/prove

demo:
	@host/build target/host chute
	@host/build target/host demo
	@echo "The line 3 5 5 2 4: example, refusal number, figure, values"
	@tools/run marked
	@echo "The programs' input: direction number, width and height, rows"
	@cat crates/sums/stdin
	@echo "stretches: line number and pixel count; start, end, level, base, place of the encloser"
	@tools/run stretches < crates/stretches/stdin
	@echo "sums: direction number and bins; length as measured along a row and sum of each bin; rest"
	@tools/run sums < crates/sums/stdin
	@target/host/chute 3 > target/host/chute.pgm
	@echo
	@echo "docs/demo.png: a made picture of the chute, its highest opening with length 41 as measured along a row, and the direction that gave it, by hue"
	@target/host/demo 41 docs/demo.png < target/host/chute.pgm

host:
	@host/build target/host fibre
	@host/build target/host chute
	@echo "target/host/fibre --help says how to use it"

bench:
	@bench/run
