# Installs the program, its manual, completion for three shells, and syntax files for two editors:
#
#     make install [PREFIX=/usr/local] [DESTDIR=]
#
# The program is proved and built by `rt run` in crates/sunvm, or by `.ci/run`; there is nothing else to make here.

PREFIX ?= /usr/local
DESTDIR ?=
PROGRAM ?= crates/sunvm/out/sunvm
PYTHON ?= python3
INSTALL ?= install

bin = $(DESTDIR)$(PREFIX)/bin
share = $(DESTDIR)$(PREFIX)/share
bash = $(share)/bash-completion/completions
zsh = $(share)/zsh/site-functions
fish = $(share)/fish/vendor_completions.d
vim = $(share)/vim/vimfiles
vscode = $(share)/sunvm/vscode

.PHONY: all install uninstall

all:
	@echo 'make install puts the built program, its manual and completion under $(PREFIX)'

install:
	@test -x $(PROGRAM) || { echo '$(PROGRAM) is not built: run `rt run` in crates/sunvm' >&2; exit 1; }
	$(INSTALL) -d $(bin) $(share)/man/man1 $(bash) $(zsh) $(fish) $(vim)/ftdetect $(vim)/syntax $(vscode)/syntaxes
	$(INSTALL) -m 755 $(PROGRAM) $(bin)/sunvm
	$(INSTALL) -m 644 docs/sunvm.1 $(share)/man/man1/sunvm.1
	$(PYTHON) tools/completion/complete.py bash > $(bash)/sunvm
	$(PYTHON) tools/completion/complete.py zsh > $(zsh)/_sunvm
	$(PYTHON) tools/completion/complete.py fish > $(fish)/sunvm.fish
	$(INSTALL) -m 644 tools/editors/vim/ftdetect/sunvm.vim $(vim)/ftdetect/sunvm.vim
	$(INSTALL) -m 644 tools/editors/vim/syntax/*.vim $(vim)/syntax
	$(INSTALL) -m 644 tools/editors/vscode/*.json $(vscode)
	$(INSTALL) -m 644 tools/editors/vscode/syntaxes/*.json $(vscode)/syntaxes

uninstall:
	rm -f $(bin)/sunvm $(share)/man/man1/sunvm.1 $(bash)/sunvm $(zsh)/_sunvm $(fish)/sunvm.fish
	rm -f $(vim)/ftdetect/sunvm.vim $(vim)/syntax/sunvm.vim $(vim)/syntax/sunvmreport.vim $(vim)/syntax/sunvmtrace.vim
	rm -rf $(share)/sunvm
