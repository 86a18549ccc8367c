# test: the gate (.ci/run).
# lib: build/libgoqhari.a, for C and C++ by include/goqhari.h and for Rust by bindings/rust, proved before it is built.
# demo: a phrase through it, to hear and to see. sheet: the data sheet's pictures and figures, measured anew.
# replay: the replays' tallies, of the part's answers beside kept lists of the oracle's. bench: the part's time over the Rust's.
.PHONY: test lib demo sheet replay bench

test:
	.ci/run

lib: build/libgoqhari.a

# By rt lib, which first proves the crates below, each with what is kept of it in its out/. For crate NAME the static library is of NAME_c.
build/lib%.a: crates.txt $(shell find crates -name out -prune -o \( -name '*.rt' -o -name '*.antt' \) -print)
	mkdir -p build
	cd crates/$*_c && rt lib
	cp crates/$*_c/out/lib$*_c.a $@

demo: lib
	bindings/example demo build/demo.wav build/demo.svg

sheet: lib
	bindings/example sheet docs

replay:
	cd crates/replay && rt run < stdin
	cd crates/replay_stages && rt run < stdin

bench:
	harness/bench
