# `make help` prints what follows each `##` below, in two groups: lines with `users |` first. The times
# stand here and nowhere else; tools/quotes.py compares those that README repeats.

SCENARIO ?= crates/mig_tool/stdin
WORDS ?=
CRATES ?=
PREFIX ?= /usr/local
# the targets with their help texts: NAME | users | TIME | TEXT, or without `users |`
LISTED = sed -n 's/^\([a-z-]*\):.*\#\# /\1 | /p' $(MAKEFILE_LIST)

.PHONY: help run check build program lib install uninstall dist try-dist example bindings fleet bench header try runs mutants interop promises documents pictures site test gate

help: ## users | at once | lists the targets
	@echo "Times on 4 processors, from a fresh clone. For users:"
	@$(LISTED) | awk -F ' [|] ' '$$2 == "users" {printf "  make %-10s %-22s %s\n", $$1, $$3, $$4}'
	@echo "For maintainers:"
	@$(LISTED) | awk -F ' [|] ' '$$2 != "users" {printf "  make %-10s %-22s %s\n", $$1, $$2, $$3}'

run: ## users | about a minute | sends a small guest and loads it
	@tools/run.sh "$(SCENARIO)" $(WORDS)

check: ## users | up to 10 minutes | every test, all but large runs, no proofs; CRATES='..'
	@tools/check.py $(CRATES)

runs: ## seconds | runs the proved programs on runs/; after test
	@tools/runs/runs.py

mutants: ## minutes a crate | tries more planted bugs; CRATES='..'; after lib
	@tools/mutants.py $(CRATES)

build: ## half an hour and more | proves and builds mig_tool
	@tools/prove.py mig_tool "half an hour and more"
	@echo "built: crates/mig_tool/out/mig_tool"

program: ## users | half an hour and more | proves and builds zimgasol
	@tools/prove.py zimgasol_cli "half an hour and more"
	@echo "built: crates/zimgasol_cli/out/zimgasol_cli"

lib: header ## users | half an hour and more | proves and builds out/libzimgasol.a and .so
	@tools/lib.sh

install: ## users | at once | installs these; PREFIX, LIBDIR, INCLUDEDIR, DESTDIR
	@tools/install.sh "$(PREFIX)"

uninstall: ## users | at once | removes what was installed; PREFIX, DESTDIR
	@tools/install.sh --uninstall "$(PREFIX)"

dist: ## users | minutes | makes a release in out/dist; UNPROVED=1, SITE=DIR; after these
	@tools/dist/dist.py $(if $(UNPROVED),--unproved) $(if $(SITE),--site '$(SITE)')

try-dist: ## minutes | makes it twice, uses it on a new system; SUITE, SITE; after lib
	@tools/try_dist.py $(if $(SUITE),--suite '$(SUITE)') $(if $(SITE),--site '$(SITE)')

example: lib ## users | some minutes | runs examples/c, tries an installation; after lib
	@tools/example.py
	@tools/try_install.py

bindings: lib ## some minutes | tests bindings/rust and bindings/python; after lib
	@tools/try_bindings.py

fleet: ## some minutes | tests examples/fleet with Dask; after lib
	@tools/try_fleet.py

bench: ## users | at once | builds out/bench, the benchmarks in C; after lib
	@test -f out/libzimgasol.a || { echo "out/libzimgasol.a isn't there: make lib" >&2; exit 1; }
	@$(CC) -O2 -Wall -Wextra -Wpedantic -pthread -Iinclude -o out/bench bench/*.c out/libzimgasol.a
	@out/bench

header: ## at once | compares include/zimgasol.h with the library's exports
	@tools/header.py

try: ## at once | runs the built mig_tool in a shell; after build
	@tools/try_tool.py

interop: ## minutes | tests with QEMU; QEMU='PROGRAM ..'; after build, program, lib
	@tools/interop/interop.py $(if $(QEMU),--qemu '$(QEMU)') $(if $(SUITES),--suites '$(SUITES)')

promises: ## at once | writes the contracts, and draws the map of the proof
	@tools/promises.py
	@tools/proof_map.py

documents: header ## at once | compares the documents with the code
	@tools/case_lists.py --check
	@tools/promises.py --check
	@tools/proof_map.py --check
	@tools/tool_page.py --check
	@tools/zimgasol_page.py --check
	@tools/quotes.py
	@tools/widths.py
	@tools/delta_facts.py --check
	@tools/bindings.py --check
	@tools/pictures.py --check

pictures: ## at once | draws docs/pictures
	@tools/pictures.py

site: ## at once | builds the documents as HTML in out/site
	@tools/site.py

test: ## users | 1 to 2 hours | all proofs, planted bugs, tests; says how far it is
	@.ci/run

gate: ## 1 to 2 hours | make test, taking nothing from earlier runs
	@.ci/run --anew
