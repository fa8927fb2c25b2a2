# make test: the merge gate. `rt ci` proves each crate, tries the edits that have to be refused, and runs the tests and the programs. Then
# come checks of our own: the examples are the models that the cases run, the definitions stand apart from lemmas, the built program
# leaves a user's files whole, and the tools for people work.
# make demo: solves examples/one.mps, and shows the answer and the certificate. It takes the proved program where there is one. Else it
# builds the same program without its proof, and says so.
# make build: builds the proved program. What was proved in this checkout before is kept.
# make install PREFIX=DIR: installs the proved program, the tools, their manual pages, the completions and the class for PuLP below DIR,
# which is /usr/local by default. tools/README.md lists what goes where. DESTDIR=DIR puts all of that below another root.
# make install-unproved: the same with a program that is built without its proof. Its manual page and share/bnc/bnc-version say so.
# make uninstall: removes what these two installed there.

PREFIX ?= /usr/local
program = crates/bnc_cli/out/bnc_cli
unproved = crates/bnc_cli/out/bnc_unproved
root = $(DESTDIR)$(PREFIX)
tools = $(notdir $(wildcard tools/bnc-*))
pages = $(notdir $(wildcard docs/bnc*.1))
version = $(shell git describe --always --dirty 2>/dev/null || echo unknown)

.PHONY: test demo install install-unproved install-files uninstall build kit

test: kit
	rt ci
	@for model in crates/model_cases/data/*.mps; do cmp "$$model" "examples/$${model##*/}" || exit 1; done
	@tools/definitions check
	@tests/files.sh $(program)
	@if command -v python3 >/dev/null; then tests/people $(program); else echo "tests/people is left out: it needs Python 3"; fi

demo: kit
	@tools/demo

install: build
	@$(MAKE) --no-print-directory install-files built=$(program) proved=yes

install-unproved: kit
	@echo "building bnc without its proof; this takes a few minutes"
	@mkdir -p '$(dir $(unproved))'
	@tools/build_unproved '$(unproved)'
	@$(MAKE) --no-print-directory install-files built='$(unproved)' proved=no

# Installs the program at `built`; `proved` is yes or no.
install-files:
	@[ -x '$(built)' ] || { echo "make install-files needs built=PROGRAM: make install and make install-unproved call it" >&2; exit 1; }
	install -d '$(root)/bin' '$(root)/share/man/man1' '$(root)/share/bnc/bnc_tools' '$(root)/share/zsh/site-functions' \
	    '$(root)/share/bash-completion/completions'
	install -m 755 '$(built)' '$(root)/bin/bnc'
	install -m 755 $(addprefix tools/,$(tools)) '$(root)/bin'
	install -m 644 $(filter-out %/__pycache__,$(wildcard tools/bnc_tools/*)) '$(root)/share/bnc/bnc_tools'
	install -m 644 integrations/pulp/bnc_pulp.py '$(root)/share/bnc'
	install -m 644 $(addprefix docs/,$(pages)) '$(root)/share/man/man1'
	install -m 644 tools/completions/bnc.bash '$(root)/share/bash-completion/completions/bnc'
	@for tool in $(tools); do ln -sf bnc '$(root)/share/bash-completion/completions/'"$$tool"; done
	install -m 644 tools/completions/_bnc '$(root)/share/zsh/site-functions/_bnc'
	@tools/mark_version '$(proved)' '$(version)' '$(root)'

uninstall:
	rm -f '$(root)/bin/bnc' $(foreach tool,$(tools),'$(root)/bin/$(tool)' '$(root)/share/bash-completion/completions/$(tool)')
	rm -f $(foreach page,$(pages),'$(root)/share/man/man1/$(page)')
	rm -f '$(root)/share/bash-completion/completions/bnc' '$(root)/share/zsh/site-functions/_bnc'
	rm -rf '$(root)/share/bnc'

# `rt run` proves and builds the program. The run itself only shows that it starts.
build: kit
	@[ -x $(program) ] || { \
	    echo "proving bnc and each crate below it, and building it. From nothing the proofs of all crates took 4,250 seconds of one processor"; \
	    echo "(29 November 2026, tools/cost). make install-unproved installs a program that is built without its proof in a few minutes."; }
	@cd crates/bnc_cli && log=$$(mktemp) && trap 'rm -f "$$log"' EXIT \
	    && { rt run -- solve data/one.mps one.journal /dev/null >"$$log" 2>&1 || { cat "$$log"; exit 1; }; }

kit:
	@command -v rt >/dev/null || { echo "bnc is proved by the Rattle kit: put its command rt on the PATH" >&2; exit 1; }
