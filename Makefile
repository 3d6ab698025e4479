# make                   builds the program: the proved one is built by ./prove
# make install PREFIX=$HOME/.local   installs program, tools, man page and completions (default: /usr/local)
# make check             all tests without proofs: the golden test and the tests of the tools
# make wheel             writes a wheel with program and tools into dist, for pip
# make deb               writes a Debian package with program, tools, pages and examples into dist
# make docs              writes the pages as HTML with search into dist/site
PREFIX ?= /usr/local
# The program that is installed: the one that ./qss runs, which is looked up once. PROGRAM=PATH names another one.
PROGRAM ?= $(eval PROGRAM := $$(shell python3 tools/qss-tools --which))$(PROGRAM)
LIB = $(DESTDIR)$(PREFIX)/lib/qss
BIN = $(DESTDIR)$(PREFIX)/bin
MAN = $(DESTDIR)$(PREFIX)/share/man/man1
COMPLETIONS = $(DESTDIR)$(PREFIX)/share/bash-completion/completions
# The tools for all. Those for work on qss, in tools/qss_dev, are not installed.
MODULES = $(wildcard tools/qss_tools/*.py tools/qss_tools/*/*.py tools/qss_tools/live/page.*)
TOOLS = $(notdir $(wildcard tools/qss-*)) rows-to-trace solution-to-trace

.PHONY: all install uninstall check wheel deb docs

all:
	./qss gen 0 1

install:
	@case "$(PREFIX)" in "~"*) echo "PREFIX=$(PREFIX): the shell has not replaced ~; write PREFIX=\$$HOME/.local"; exit 2;; esac
	@test -n "$(PROGRAM)" || exit 9
	@test -x "$(PROGRAM)" || { echo "$(PROGRAM): no program that can be run"; exit 9; }
	@rm -rf "$(LIB)/tools"
	@mkdir -p "$(LIB)/tools" "$(BIN)" "$(MAN)" "$(COMPLETIONS)"
	@install -m 755 "$(PROGRAM)" "$(LIB)/qss"
	@install -m 644 tools/run_tool.py "$(LIB)/tools"
	@for module in $(MODULES); do \
	    mkdir -p "$$(dirname "$(LIB)/$$module")" && install -m 644 "$$module" "$(LIB)/$$module" || exit 1; \
	done
	@for tool in $(TOOLS); do \
	    install -m 755 "tools/$$tool" "$(LIB)/tools" && ln -sf "../lib/qss/tools/$$tool" "$(BIN)/$$tool" || exit 1; \
	done
	@install -m 644 tools/share/qss.1 "$(MAN)/qss.1"
	@install -m 644 tools/share/qss.bash "$(COMPLETIONS)/qss"
	@for tool in $(TOOLS); do ln -sf qss "$(COMPLETIONS)/$$tool" || exit 1; done
	@if test -f VERSION; then cp VERSION "$(LIB)/VERSION"; else \
	    { python3 tools/qss-tools --version | grep -v -e '^python:' -e '^program:' -e '^binary:'; \
	      echo "program: $$(python3 tools/qss-tools --proved "$(PROGRAM)")"; } > "$(LIB)/VERSION"; \
	fi
	@install -m 755 tools/share/qss-unproved "$(LIB)/qss-unproved"
	@if grep -qx "program: proved" "$(LIB)/VERSION"; then ln -sf ../lib/qss/qss "$(BIN)/qss"; \
	    else ln -sf ../lib/qss/qss-unproved "$(BIN)/qss"; fi
	@echo "installed in $(PREFIX): $$(sed -n 's/^program: proved$$/the proved program/p; s/^program: the /the /p; t; s/^program: /a program that is /p' "$(LIB)/VERSION")"
	@case ":$$PATH:" in *":$(BIN):"*) ;; *) echo "the path lacks its commands: export PATH=\"$(PREFIX)/bin:\$$PATH\"";; esac

uninstall:
	rm -rf "$(LIB)"
	cd "$(BIN)" && rm -f qss $(TOOLS)
	cd "$(COMPLETIONS)" && rm -f qss $(TOOLS)
	rm -f "$(MAN)/qss.1"

check:
	python3 tools/run-checks

wheel deb:
	@test -n "$(PROGRAM)" || exit 9
	python3 tools/make-package $@ --program "$(PROGRAM)"

docs:
	python3 tools/make-site
