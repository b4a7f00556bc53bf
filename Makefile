# `make` lists the targets, and proves nothing.
.PHONY: help build demo try page judge quick check cases fuzz bench test wrong install install-unproved uninstall dist clean

PREFIX = /usr/local
PROGRAM = crates/cyclone/out/cyclone
UNPROVED = out/unproved/cyclone
FAST = out/unproved/fast/cyclone
MINUTES = 20
SOURCE = examples/hello.cyc
ARCHIVE = out/hengvuol.tar.gz
BIN = $(DESTDIR)$(PREFIX)/bin
SHARE = $(DESTDIR)$(PREFIX)/share
MAN = $(SHARE)/man/man1
VIM = $(SHARE)/vim/vimfiles
DOC = $(SHARE)/doc/hengvuol
SHARED = $(SHARE)/hengvuol
# The program that was proved, or else one that is built with no proof.
AT_HAND = $(if $(wildcard $(PROGRAM)),$(PROGRAM),$(FAST))
PAGES = cyclone.1 cyclone-judge.1 cyclone-page.1 cyclone-lsp.1 cyclone-c.1
TOOLS = judge page lsp c
# What the tools have beside them.
PARTS = asked.py names.py translating.py cyclone-page.service \
	$(addprefix served/,doors.py turns.py reading.py page.html page.css page.js editor.js keeping.js) \
	$(patsubst tools/%,%,$(wildcard tools/c_front/*.py tools/c_front/include/*.h tools/c_front/include/sys/*.h))
LIBRARY = $(wildcard lib/*.cyc)
SYNTAX = $(foreach it,compiler ftdetect ftplugin indent syntax,$(it)/cyclone.vim)
TEXTS = README.md CHANGELOG.md SECURITY.md VERSION lib/README.md $(wildcard docs/*.md docs/pictures/*.png docs/pictures/*.svg examples/*.md examples/*.cyc examples/*.in examples/*.out examples/c/*.c examples/c/*.in \
	editors/README.md editors/package.json editors/vscode/*.json editors/textmate/*.json)

# The folders of this product's own, each behind those in it.
FOLDERS = "$(SHARED)/lib" "$(SHARED)/c_front/include/sys" "$(SHARED)/c_front/include" "$(SHARED)/c_front" "$(SHARED)/served" "$(SHARED)" "$(DOC)/docs/pictures" "$(DOC)/docs" "$(DOC)/examples/c" "$(DOC)/examples" "$(DOC)/editors/vscode" \
	"$(DOC)/editors/textmate" "$(DOC)/editors" "$(DOC)/lib" "$(DOC)"

help:
	@echo 'make install-unproved    builds the program with no proof, in some minutes, and installs it: to try it (PREFIX=$$HOME/.local)'
	@echo 'make page     serves the page on which programs are written and run, at http://127.0.0.1:8068/; make judge SOURCE=F prints a verdict on F.'
	@echo '              Both take the program that was proved, or else one that they build with no proof'
	@echo 'make build    proves and builds the program, $(PROGRAM), with a line for each crate: half an hour to an hour from nothing,'
	@echo '              and some seconds where make test has proved and built it of the same sources'
	@echo 'make install  puts the program that was built, the judge, the page, the language server, the library, the manual pages, the'
	@echo '              files for vim, the documents and the examples below PREFIX; make uninstall takes them away'
	@echo 'make demo     builds it, and shows it at work on the texts in examples/'
	@echo 'make try      compiles and runs the program in SOURCE with no proof: make try SOURCE=examples/count.cyc'
	@echo 'make quick    builds it with no proof, and runs the command-line suite, the whole-language cases, the examples and random'
	@echo '              programs on that, in some minutes: for who changes something. make check is the same'
	@echo 'make cases    builds it, and runs the command-line suite, the table of codes, the examples, random programs and images, and'
	@echo '              refuses its allocations in turn. It and make quick end where a command is missing that they need, and name its'
	@echo '              Debian package; sh tests/install.sh installs all, as make test does first'
	@echo 'make fuzz     builds it, and changes texts and images at random for MINUTES=20, led by the code of the program that they come to'
	@echo 'make bench    builds it, and prints figures of its speed and its stack beside qemu-mips, tcc and gcc, of its code by pairs of equal'
	@echo '              programs here and in C, in bench/pairs, and of what texts of each form cost (Debian packages qemu-user, tcc, gcc,'
	@echo '              gcc-mips-linux-gnu and valgrind)'
	@echo 'make test     the gate: every proof and test from nothing, the wrong bodies that no record stands for and a tenth of the'
	@echo '              others, and what `make cases` runs; hours. The last line is `N passed, M failed`'
	@echo 'make wrong    tries every wrong body over the libraries that are built, and writes the record, tests/wrong/refused.sums; hours'
	@echo 'make dist     makes one archive of all these, ARCHIVE=$(ARCHIVE), with the sum of each file and the last line of the gate'
	@echo 'make clean    removes all that was built, the proofs too'

build:
	@tools/build

demo: build
	@sh examples/demo.sh

try:
	@sh examples/try.sh "$(SOURCE)"

page:
	@test -x "$(PROGRAM)" || tools/unproved --fast "$(FAST)"
	@tools/page --program "$(AT_HAND)"

judge:
	@test -x "$(PROGRAM)" || tools/unproved --fast "$(FAST)"
	@tools/judge --program "$(AT_HAND)" "$(SOURCE)"

quick check:
	@sh tests/quick.sh "$(UNPROVED)"

cases:
	@sh tests/tools.sh
	@tools/build
	@sh tests/cases.sh

fuzz: build
	@python3 tests/runners/fuzzed.py --minutes "$(MINUTES)"

bench: build
	@python3 bench/machine.py
	@python3 bench/steps.py
	@python3 bench/store.py
	@python3 bench/checker.py
	@python3 bench/compiler.py
	@python3 bench/pairs.py
	@python3 bench/pairs.py --sizes
	@python3 bench/stack.py
	@python3 tests/runners/growth.py --tokens 60000 --table

test:
	@bash tests/gate.sh

wrong:
	@python3 tests/runners/wrong.py --record

install:
	@test -x "$(PROGRAM)" || { echo 'there is no program $(PROGRAM): make build proves and builds it' >&2; exit 1; }
	@install -D -m 755 "$(PROGRAM)" "$(BIN)/cyclone"
	@for it in $(TOOLS); do install -D -m 755 "tools/$$it" "$(BIN)/cyclone-$$it" || exit; done
	@for it in $(PARTS); do install -D -m 644 "tools/$$it" "$(SHARED)/$$it" || exit; done
	@for it in $(LIBRARY); do install -D -m 644 "$$it" "$(SHARED)/$$it" || exit; done
	@for it in $(PAGES); do install -D -m 644 "docs/$$it" "$(MAN)/$$it" || exit; done
	@for it in $(SYNTAX); do install -D -m 644 "editors/vim/$$it" "$(VIM)/$$it" || exit; done
	@for it in $(TEXTS); do install -D -m 644 "$$it" "$(DOC)/$$it" || exit; done
	@echo 'installed below $(DESTDIR)$(PREFIX): bin/cyclone, $(TOOLS:%=bin/cyclone-%), share/hengvuol, share/doc/hengvuol and manual pages'

install-unproved:
	@tools/unproved --fast "$(FAST)"
	@$(MAKE) --no-print-directory -s install PROGRAM="$(FAST)"
	@echo 'Nothing is proved of this program, which was built of the same sources: make build install proves it and puts that one in its place.'

# Only the files that were put there, and the folders of this product's own that are empty then.
uninstall:
	@rm -fv "$(BIN)/cyclone" $(TOOLS:%="$(BIN)/cyclone-%") $(PARTS:%="$(SHARED)/%") $(LIBRARY:%="$(SHARED)/%")
	@rm -fv $(PAGES:%="$(MAN)/%") $(SYNTAX:%="$(VIM)/%") $(TEXTS:%="$(DOC)/%")
	@for it in $(FOLDERS); do if [ -d "$$it" ]; then rmdir -v --ignore-fail-on-non-empty "$$it"; fi; done

clean:
	@for it in out crates/*/out; do if [ -e "$$it" ]; then echo "removed $$it"; rm -rf "$$it"; fi; done

dist:
	@tools/dist "$(PROGRAM)" "$(ARCHIVE)"
