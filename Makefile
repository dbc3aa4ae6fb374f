# The programs, each crates/NAME/out/NAME once it is built.
PROGRAMS = guest_host strace_cli strace_sweep

# Where make install puts programs, manual pages and completions; DESTDIR stands before it.
PREFIX = /usr/local

.PHONY: try run build install test check wrong-bodies

# Builds the programs of these sources unproved, by eight minutes of a processor, into out-try/.
try:
	@tests/try

# Traces a guest whose second write is made to fail, by the program that was built last: make build's, or make try's, which
# is built first where there is none. make run-strace_cli, make run-strace_sweep and make run-guest_host run the programs
# on their stored runs.
run:
	@echo '$$ strace_cli -e trace=write -e fault=write:when=2 --file /p=three_writes -- /p'
	@tests/stored-run strace_cli -o /dev/stdout -e trace=write -e fault=write:when=2 --file /p=three_writes -- /p

run-%:
	@tests/stored-run $*

# Proves each program, with all that it stands on, and leaves it at crates/NAME/out/NAME. Says how far it is.
build:
	@tests/prove $(PROGRAMS)

# Installs what make build left, and the kits for guests in C: it builds nothing.
install:
	@for program in $(PROGRAMS); do test -x crates/$$program/out/$$program || \
		{ echo "$$program isn't built: make build" >&2; exit 1; }; done
	install -d $(addprefix $(DESTDIR)$(PREFIX)/,bin share/man/man1 share/bash-completion/completions \
		share/zsh/site-functions share/fish/vendor_completions.d share/girmolet)
	for program in $(PROGRAMS); do \
		install crates/$$program/out/$$program $(DESTDIR)$(PREFIX)/bin/ && \
		install -m 644 docs/$$program.1 $(DESTDIR)$(PREFIX)/share/man/man1/ && \
		install -m 644 completions/girmolet.bash $(DESTDIR)$(PREFIX)/share/bash-completion/completions/$$program && \
		install -m 644 completions/girmolet.fish $(DESTDIR)$(PREFIX)/share/fish/vendor_completions.d/$$program.fish \
		|| exit 1; done
	install -m 644 completions/_girmolet $(DESTDIR)$(PREFIX)/share/zsh/site-functions/
	cp -R guests/picolibc guests/musl guests/recipes $(DESTDIR)$(PREFIX)/share/girmolet/

# The gate: every proof from nothing, the tests and the stored runs; the wrong bodies of gate-edits.tsv, each of which must be
# refused; the suites of tests/ over the proved programs. Tells at the end what each crate and function has cost.
test:
	tests/gate 'rt ci' 'tests/wrong-bodies --gate' 'tests/run --proved'

# Proves what an edit changed.
check:
	rt all check

# Tries all wrong bodies, crate by crate.
wrong-bodies:
	@for folder in crates/*/wrong-bodies; do tests/wrong-bodies $$(basename $$(dirname $$folder)) || failed=1; done; \
	test -z "$$failed"
