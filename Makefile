# The few commands of this repository. `make` prints them.
.DEFAULT_GOAL := help
.PHONY: help run test needs gate check pytest packages install

help: ## prints this list
	@sed -n 's/^\([a-z]*\):.*## /\1\t/p' $(MAKEFILE_LIST) | while IFS="$$(printf '\t')" read -r name told; do \
		printf '  make %-10s %s\n' "$$name" "$$told"; done

run: ## solves North Carolina's House and Senate with the program of dist/
	./quickstart.sh

test: ## runs all tests with the programs of dist/, in minutes
	./test.sh

needs: ## installs Debian's packages that the tests use (as root)
	tools/test_needs.sh --install

check: ## checks types and layout of the Python files, in seconds
	tools/check_python.sh

pytest: ## runs the tests of tools and of the package for Python, four at once
	/usr/bin/python3 -m pytest -n 4

gate: ## proves every crate and tests what it built, in hours (needs the Rattle kit)
	.ci/run

packages: ## makes the packages of a release in packages/
	tools/packages.sh packages

install: ## installs the program, its man page and completions (PREFIX=/usr/local)
	tools/install.sh "$(DESTDIR)$(or $(PREFIX),/usr/local)"
