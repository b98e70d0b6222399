# `make help` says what can be made.
UNPROVED =
PREFIX = /usr/local
DESTDIR =
include install/places.mk
LIBEXEC = $(LIBEXECDIR)/varisat
MAN1 = $(MANDIR)/man1
BASH = $(DATADIR)/bash-completion/completions
ZSH = $(DATADIR)/zsh/site-functions
FISH = $(DATADIR)/fish/vendor_completions.d

# Prints the file of the program that is to be installed, built if that is due.
WHICH = ./varisat $(if $(UNPROVED),,--prove) --which

# It works in another folder, where a relative DESTDIR would be another one.
LIBRARY = $(MAKE) -s -C contrib/c UNPROVED='$(UNPROVED)' PREFIX='$(PREFIX)' \
  DESTDIR='$(if $(filter-out /%,$(firstword $(DESTDIR))),$(CURDIR)/)$(DESTDIR)'

# What is installed, each part by a target of its own.
PARTS = program maxsat library

all: $(PARTS:%=build-%)
install: $(PARTS:%=install-%)
uninstall: $(PARTS:%=uninstall-%)

help:
	@cat install/help.txt

# The gate, and the tests that take minutes.
test:
	@./test
check:
	@install/check

# What contrib/certify reads of install/, from where it lies beside the program.
CERTIFY_PARTS = start.sh prove.sh jobs.sh
# The pages for man that come with the program.
PAGES = varisat.1 varisat-certify.1

build-program:
	@$(WHICH) >/dev/null

# The command is a script that starts the program. It says of a program without proofs what no program can know.
install-program:
	@program=$$($(WHICH)) && \
	install -d '$(DESTDIR)$(BINDIR)' '$(DESTDIR)$(LIBEXEC)' && \
	install -m 755 "$$program" '$(DESTDIR)$(LIBEXEC)/varisat' && \
	sh install/command.sh varisat '$(call from,$(BINDIR),$(LIBEXEC))' "$$program" "$$(install/identity)" \
	  >'$(DESTDIR)$(BINDIR)/varisat.new' && \
	chmod 755 '$(DESTDIR)$(BINDIR)/varisat.new' && mv '$(DESTDIR)$(BINDIR)/varisat.new' '$(DESTDIR)$(BINDIR)/varisat'
	@install -d '$(DESTDIR)$(MAN1)' && $(foreach page,$(PAGES),sed '1s/@VERSION@/$(VERSION)/' install/$(page) >'$(DESTDIR)$(MAN1)/$(page)' && \
	chmod 644 '$(DESTDIR)$(MAN1)/$(page)' &&) :
	@install -D -m 644 install/completion.bash '$(DESTDIR)$(BASH)/varisat'
	@install -D -m 644 install/completion.zsh '$(DESTDIR)$(ZSH)/_varisat'
	@install -D -m 644 install/completion.fish '$(DESTDIR)$(FISH)/varisat.fish'
	@install -D -m 755 contrib/certify '$(DESTDIR)$(LIBEXEC)/contrib/certify' && \
	install -d '$(DESTDIR)$(LIBEXEC)/install' && install -m 644 $(CERTIFY_PARTS:%=install/%) '$(DESTDIR)$(LIBEXEC)/install' && \
	ln -sf '$(call from,$(BINDIR),$(LIBEXEC))/contrib/certify' '$(DESTDIR)$(BINDIR)/varisat-certify'

uninstall-program:
	@rm -f '$(DESTDIR)$(BINDIR)/varisat' '$(DESTDIR)$(LIBEXEC)/varisat' $(PAGES:%='$(DESTDIR)$(MAN1)/%')
	@rm -f '$(DESTDIR)$(BINDIR)/varisat-certify' '$(DESTDIR)$(LIBEXEC)/contrib/certify' $(CERTIFY_PARTS:%='$(DESTDIR)$(LIBEXEC)/install/%')
	@rmdir '$(DESTDIR)$(LIBEXEC)/contrib' '$(DESTDIR)$(LIBEXEC)/install' 2>/dev/null || true
	@rm -f '$(DESTDIR)$(BASH)/varisat' '$(DESTDIR)$(ZSH)/_varisat' '$(DESTDIR)$(FISH)/varisat.fish'
	@rmdir '$(DESTDIR)$(LIBEXEC)' 2>/dev/null || true

# The program for MaxSAT.
WHICH_MAXSAT = ./maxsat $(if $(UNPROVED),,--prove) --which
build-maxsat:
	@$(WHICH_MAXSAT) >/dev/null

install-maxsat:
	@program=$$($(WHICH_MAXSAT)) && \
	install -d '$(DESTDIR)$(BINDIR)' '$(DESTDIR)$(LIBEXEC)' && \
	install -m 755 "$$program" '$(DESTDIR)$(LIBEXEC)/maxsat' && \
	sh install/command.sh maxsat '$(call from,$(BINDIR),$(LIBEXEC))' "$$program" "$$(install/identity)" >'$(DESTDIR)$(BINDIR)/maxsat.new' && \
	chmod 755 '$(DESTDIR)$(BINDIR)/maxsat.new' && mv '$(DESTDIR)$(BINDIR)/maxsat.new' '$(DESTDIR)$(BINDIR)/maxsat'
	@install -d '$(DESTDIR)$(MAN1)' && sed '1s/@VERSION@/$(VERSION)/' install/maxsat.1 >'$(DESTDIR)$(MAN1)/maxsat.1' && chmod 644 '$(DESTDIR)$(MAN1)/maxsat.1'
	@install -D -m 644 install/maxsat.bash '$(DESTDIR)$(BASH)/maxsat'
	@install -D -m 644 install/maxsat.zsh '$(DESTDIR)$(ZSH)/_maxsat'
	@install -D -m 644 install/maxsat.fish '$(DESTDIR)$(FISH)/maxsat.fish'

uninstall-maxsat:
	@rm -f '$(DESTDIR)$(BINDIR)/maxsat' '$(DESTDIR)$(LIBEXEC)/maxsat' '$(DESTDIR)$(MAN1)/maxsat.1'
	@rm -f '$(DESTDIR)$(BASH)/maxsat' '$(DESTDIR)$(ZSH)/_maxsat' '$(DESTDIR)$(FISH)/maxsat.fish'
	@rmdir '$(DESTDIR)$(LIBEXEC)' 2>/dev/null || true

build-library:
	+@$(LIBRARY) all

install-library:
	+@$(LIBRARY) install

uninstall-library:
	+@$(LIBRARY) uninstall

# The archives of a release.
dist:
	+@UNPROVED='$(UNPROVED)' install/dist

web:
	+@$(MAKE) -s -C contrib/web UNPROVED='$(UNPROVED)'

# Both would prove the crates below at once.
.NOTPARALLEL:
.PHONY: all help test check web dist build-maxsat install-maxsat uninstall-maxsat install uninstall $(PARTS:%=build-%) $(PARTS:%=install-%) $(PARTS:%=uninstall-%)
