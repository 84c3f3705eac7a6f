# make install PREFIX=DIR puts the built program, bin/pop, the workbench, the manual page and completions in their
# places. POP_MAIN=FILE installs that program in place of the built one. The work is bin/install's, which quotes every
# path.
PREFIX = /usr/local
PROGRAM =
PYTHON = /usr/bin/python3
BROWSERS = test_serve_page.py test_page.py test_serve_fuzz.py test_serve_firefox.py
SCRIPTS = bin/pop bin/install bin/test proofs/coq/build tests/test_pop tests/gallery \
	docs/pictures/draw tests/types tests/page_code .ci/run
export PREFIX DESTDIR PROGRAM POP_MAIN

.PHONY: texts docs lint test test-fast install uninstall

# what is made from the table of commands and from the crates' constants
texts:
	mkdir -p man completion
	$(PYTHON) tests/limits.py --write
	$(PYTHON) -m hurleyoak.cli.help.manual >man/pop.1
	$(PYTHON) -m hurleyoak.cli.help.reference >docs/reference/commands.md
	$(PYTHON) -m hurleyoak.cli.help.completion bash >completion/pop.bash
	$(PYTHON) -m hurleyoak.cli.help.completion zsh >completion/_pop

# all of docs/ that is made: pages, and the pictures of README, of the tutorials, of the gallery and of the page in
# chromium
docs: texts
	$(PYTHON) tests/theorems.py --write
	docs/pictures/draw
	$(PYTHON) -m bench.finder.curves
	$(PYTHON) tests/page_pictures.py

lint:
	$(PYTHON) -m black --check --quiet hurleyoak tests bench bin/recheck
	tests/types
	tests/page_code
	shellcheck -x $(SCRIPTS)

# what a change of the workbench needs, on a program that is built
test-fast:
	$(PYTHON) tests/names.py
	$(PYTHON) tests/limits.py
	$(PYTHON) tests/documents.py
	$(PYTHON) tests/theorems.py
	$(PYTHON) -m pytest -q -n auto $(BROWSERS:%=--ignore tests/workbench/%) tests/workbench

# everything: each proof, and each of the repository's own checks
test:
	bin/test

install:
	@bin/install

uninstall:
	@bin/install --remove
