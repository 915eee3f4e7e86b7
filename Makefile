# `make try` runs the sample before any proof, in under a minute on four free cores.
# `make run` proves exec_run and the libraries below it, side by side, and runs the sample; seconds later. On a new machine
# with four free cores at 2.7 GHz it took under 25 minutes by the clock and 62 of a processor (docs/GATE.md).
# `make programs` proves exec_show and exec_join besides: all three took 28 minutes on another machine.
# `make test` is the gate: everything is proved, and the proved program is tested.
# `make stress` runs the proved program some thousand times with 1 to 16 workers, for at most half an hour.
# `make bench` measures the proved program, with mawk, jq and mlr beside it where they are installed (bench/measure.py),
# and one hop at a time (bench/hops.py).
# `make growth` measures how its time and memory grow: with the records, the nodes and the workers (bench/growth.py).
# `make docs` writes docs/PLANS.md, docs/exec_plan.5, docs/plan.schema.json, and the page and picture of the crates
# (docs/make_rooms.py) again.
# `make install` installs the programs that `make programs` leaves, their manual pages, their completions in bash, zsh and fish,
# and below share/exec_run the schema of plans and senders.py, which writes plans in Python. All is below PREFIX (below
# DESTDIR where that is given), and it builds nothing. `make uninstall` takes these files away.

PREFIX ?= /usr/local
PROGRAM := crates/exec_run/out/exec_run
SHOWS := crates/exec_show/out/exec_show
JOINS := crates/exec_join/out/exec_join
PLAN := samples/add_one.json
NUMBERS := samples/numbers.txt

SHARE := $(DESTDIR)$(PREFIX)/share
BIN := $(DESTDIR)$(PREFIX)/bin
NAMES := exec_run exec_show
PAGES := exec_run.1 exec_show.1 exec_join.1 exec_plan.5
SHARED := docs/plan.schema.json $(wildcard samples/senders.py)

SOURCES := $(wildcard crates/*/src/*.rt crates/*/specs/*.antt)

.PHONY: try run programs test stress bench growth docs install uninstall
try:
	cd crates/exec_run && rt try --data add_one.json=../../$(PLAN) -- run add_one.json < ../../$(NUMBERS)

run: $(PROGRAM)
	$(PROGRAM) run $(PLAN) < $(NUMBERS)

$(PROGRAM): $(SOURCES)
	tools/prove_programs.py exec_run

programs: $(PROGRAM) $(SHOWS) $(JOINS)

$(SHOWS) $(JOINS) &: $(SOURCES)
	tools/prove_programs.py exec_run exec_show exec_join

test:
	.ci/run

stress: $(PROGRAM)
	tests/stress.py --program $(PROGRAM)

bench: $(PROGRAM)
	bench/measure.py $(PROGRAM)
	bench/hops.py $(PROGRAM)

growth: $(PROGRAM)
	bench/growth.py $(PROGRAM)

docs: programs
	docs/make_plans.py $(PROGRAM)
	tests/check_docs.py --write

install:
	@for it in "$(PROGRAM)" "$(SHOWS)" "$(JOINS)"; do test -x "$$it" || \
	  { echo "no program at $$it: \`make programs\` proves and builds it" >&2; exit 1; }; done
	install -D -m 755 "$(PROGRAM)" "$(BIN)/exec_run"
	install -D -m 755 "$(SHOWS)" "$(BIN)/exec_show"
	install -D -m 755 "$(JOINS)" "$(BIN)/exec_join"
	for it in $(PAGES); do \
	  install -D -m 644 docs/$$it "$(SHARE)/man/man$${it##*.}/$$it" || exit 1; done
	for it in $(NAMES); do \
	  install -D -m 644 completions/$$it.bash "$(SHARE)/bash-completion/completions/$$it" && \
	  install -D -m 644 completions/$$it.zsh "$(SHARE)/zsh/site-functions/_$$it" && \
	  install -D -m 644 completions/$$it.fish "$(SHARE)/fish/vendor_completions.d/$$it.fish" || exit 1; done
	for it in $(SHARED); do install -D -m 644 $$it "$(SHARE)/exec_run/$${it##*/}" || exit 1; done

uninstall:
	for it in $(PAGES); do rm -f "$(SHARE)/man/man$${it##*.}/$$it"; done
	for it in $(NAMES); do rm -f "$(BIN)/$$it" \
	  "$(SHARE)/bash-completion/completions/$$it" "$(SHARE)/zsh/site-functions/_$$it" \
	  "$(SHARE)/fish/vendor_completions.d/$$it.fish"; done
	rm -f "$(BIN)/exec_join"
	rm -f $(addprefix "$(SHARE)/exec_run/",$(notdir $(SHARED)))
	rmdir "$(SHARE)/exec_run" 2>/dev/null || true
