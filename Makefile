# Brinefeather. `make demo` shows what it does, `make test` proves and tests everything.
SHELL := bash
.PHONY: demo test edits archive install bench clean

# Marks the sample sheets; PAPER=file and SHEET=file mark your own. Only what stands on make's command line counts: such
# a name may be in the environment for something else.
$(foreach name,PAPER SHEET KEY,$(if $(filter command,$(origin $(name))),,$(eval unexport $(name))))
demo:
	@examples/demo.sh

test: edits
	@.ci/test.sh

# In a second: do the must-fail edits still fit the files that they edit?
edits:
	@.ci/edits.sh

# target/staticlib/libbrinefeather.a, for C that is compiled here.
archive:
	@. desk/tools.sh; make_archive prove

# Into PREFIX=/usr/local, below DESTDIR= if that is given.
install:
	@desk/install.sh

bench:
	@desk/bench.sh

clean:
	rm -rf target crates/*/out
