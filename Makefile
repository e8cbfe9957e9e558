# make          proves all that the programs stand on, and builds them: crates/mzv/out/mzv, crates/mzv_merge/out/mzv_merge
# make try      runs the program unproved
# make check    the gate: every proof, wrong body, test and program, from nothing
# make test     the scripts of tests/ on the built programs
# make bench    times proved programs beside plain ones
# make install  PREFIX=/usr/local: the programs, their man pages and completions
# make clean    removes what was built

PREFIX ?= /usr/local
MZV ?= crates/mzv/out/mzv
MZV_MERGE ?= crates/mzv_merge/out/mzv_merge
bin = $(DESTDIR)$(PREFIX)/bin
share = $(DESTDIR)$(PREFIX)/share
benches = $(notdir $(patsubst %/proved.txt,%,$(wildcard bench/*/proved.txt)))

.PHONY: all try check test bench install uninstall clean built kit

# The listing of weight 2 is empty, so the run behind the first build prints nothing; that behind the second prints a share without rows.
all: kit
	@echo "proves what the programs stand on, then builds them: minutes the first time" >&2
	cd crates/mzv && rt run -- list 2 1 </dev/null
	cd crates/mzv_merge && rt run -- share 2 1 3 lex 0 1 </dev/null >/dev/null

try: kit
	cd crates/mzv && rt try -- reduce 5 4 101 lex <../../examples/weight5.txt

check: kit
	rt ci

kit:
	@command -v rt >/dev/null || { echo "rt, the command of the Rattle kit, is not on the path" >&2; exit 1; }

built:
	@test -x $(MZV) -a -x $(MZV_MERGE) || { echo "$(MZV) or $(MZV_MERGE) is not there: run make first" >&2; exit 1; }

test: built
	tests/run $(MZV) $(MZV_MERGE)

bench: kit
	bench/beside.py $(benches)

install: built
	install -d $(bin) $(share)/man/man1 $(share)/bash-completion/completions $(share)/zsh/site-functions
	install -m 755 $(MZV) $(bin)/mzv
	install -m 755 $(MZV_MERGE) $(bin)/mzv_merge
	install -m 644 man/mzv.1 man/mzv_merge.1 $(share)/man/man1/
	install -m 644 completions/mzv.bash $(share)/bash-completion/completions/mzv
	install -m 644 completions/mzv_merge.bash $(share)/bash-completion/completions/mzv_merge
	install -m 644 completions/_mzv completions/_mzv_merge $(share)/zsh/site-functions/

uninstall:
	rm -f $(bin)/mzv $(bin)/mzv_merge $(share)/man/man1/mzv.1 $(share)/man/man1/mzv_merge.1
	rm -f $(share)/bash-completion/completions/mzv $(share)/bash-completion/completions/mzv_merge
	rm -f $(share)/zsh/site-functions/_mzv $(share)/zsh/site-functions/_mzv_merge

clean:
	rm -rf crates/*/out bench/out
	find bench tests -name __pycache__ -prune -exec rm -rf {} +
