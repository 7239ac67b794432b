# make run     the main job on an example: a shelf, a draw, a proof, its check, and an old page put back
# make test    the gate: every proof, every must-fail edit, every program, then the Rust and the C tests
# make bench   throughput of the library, the second implementation and OpenSSL, and what a proof costs, in
#              target/; make bench KEEP=1 writes docs/proof-cost.txt and docs/proof-cost.svg
# make install PREFIX=/usr/local   headers, archives, pkg-config files, wv, its manual page and completions
# make dist    tarballs in target/dist: the sources, and the package that the README begins with
# make fmt     the layout of every crate and of the Rust sources

.PHONY: run test bench lib install dist fmt

cargo_run = cargo run --release --manifest-path rust/Cargo.toml --target-dir target/rust --offline --locked --quiet
costs = $(if $(KEEP),docs,target)/proof-cost
PREFIX ?= /usr/local
# How many crates make lib proves side by side: a check takes 1 to 4 GB.
jobs = $(shell nproc)

run: lib
	@$(cargo_run) --package wv --bin depot -- target/run

test:
	@tools/gate

# rt lib proves the crates below the library one after the other, rt all check side by side, and keeps what it proved
# for rt lib, which writes crates/wivulameno/out/libwivulameno.a.
lib:
	@mkdir -p target
	@echo "The library is proved, then built, which is long the first time; target/lib.out shows how far it is."
	@(cd crates/wivulameno && rt all check --jobs $(jobs) && rt lib) >target/lib.out 2>&1 || \
		{ cat target/lib.out; exit 1; }

bench: lib
	$(cargo_run) --package bench
	$(cargo_run) --package wv --bin cost -- measure $(costs).txt
	test ! -f $(costs).txt || $(cargo_run) --package wv --bin cost -- plot $(costs).txt $(costs).svg

install: lib
	@tools/install "$(DESTDIR)$(PREFIX)"

dist: lib
	@tools/dist target/dist

fmt:
	for crate in crates/*/; do (cd $$crate && rt fmt) || exit 1; done
	cd rust && cargo fmt
