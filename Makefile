# make test: every proof and test. make run: bench case B, call by call. make bench: calls a second, and beside it the kernel's own line discipline.
CARGO = cargo --quiet
TESTS = --offline --release --manifest-path tests/Cargo.toml
REPLAY = crates/replay/out/replay
SOURCES = crates.txt $(shell find crates \( -name must-fail -o -name out \) -prune -o -type f -print)

.PHONY: test run bench

test:
	@tests/all

run: $(REPLAY)
	@$(REPLAY) < tests/scripts/case-b.script

bench: $(REPLAY)
	@$(CARGO) build $(TESTS) --bins
	@$(CARGO) run $(TESTS) --bin bench
	@$(CARGO) run $(TESTS) --bin pty

# How far it is goes beside the answers. It links anew only what has changed: the date shows that it has looked.
$(REPLAY): $(SOURCES)
	@tools/build >&2
	@touch $@
