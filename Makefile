# make run: the main job on known queries. make test: every proof and every test. make bench: the time of each call.
# make bench BEFORE=path/to/libzunidelo.a: the archive of an earlier commit is timed in the same rounds, and must answer alike, but for which
# lemma it gives. make lemmas BEFORE=..: what the lemmas of both have in comparisons, literals, clauses and bytes, by kind of query.
# make soak and make confirm: as many random queries as you like, against the second program and against solvers of others.
.PHONY: run test bench lemmas soak confirm

run:
	@examples/run

# run even where make is told to print and not to run
test:
	+@tests/run

# the archive that C and Rust link, made again where a source is newer
archive = target/lib/libzunidelo.a
$(archive): crates.txt $(shell find crates -path 'crates/*/out' -prune -o -name '*.rt' -print)
	@tests/library && touch $@

build_bench = cd rust && ZUNIDELO_BEFORE="$(abspath $(BEFORE))" cargo build --release --offline --quiet -p bench
bench: $(archive)
	@$(build_bench) && target/release/bench

# what the lemmas of seeded queries cost, SEED=1 COUNT=1000 or as asked
lemmas: $(archive)
	@$(build_bench) && target/release/bench lemmas $(or $(SEED),1) $(or $(COUNT),1000)

# the product against the second program, SEEDS="5 6 7" COUNT=10000 FIELDS=7 or as asked
soak: $(archive)
	@tests/build answers
	@tests/second

# lemmas, clauses and models confirmed by z3 and cadical, SEEDS="5 6 7" COUNT=2000 or as asked
confirm: $(archive)
	@SEEDS="$${SEEDS:-1 2 3 4}" COUNT="$${COUNT:-2000}" tests/confirm
