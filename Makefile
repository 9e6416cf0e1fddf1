# Puts the program, its manual page, completions and pages in place; nothing is built. The program is bin/ghs, which the
# gate proved and built; `./ghs --prove` proves and builds it here.
#
#   make install [PREFIX=/usr/local] [DESTDIR=..]
#   make uninstall [PREFIX=/usr/local] [DESTDIR=..]
PREFIX = /usr/local
DATA = $(DESTDIR)$(PREFIX)/share
# where the program itself lies: what stands in bin/ starts it on huge pages
OWN = $(PREFIX)/libexec/ghs

all:
	@echo 'usage: make install [PREFIX=/usr/local] [DESTDIR=..]'

install:
	mkdir -p $(DESTDIR)$(PREFIX)/bin $(DESTDIR)$(OWN) $(DATA)/man/man1 $(DATA)/bash-completion/completions
	mkdir -p $(DATA)/zsh/site-functions $(DATA)/fish/vendor_completions.d $(DATA)/ghs/pages $(DATA)/ghs/examples
	cp bin/ghs $(DESTDIR)$(OWN)/ghs
	sed 's|@OWN@|$(OWN)|' share/start >$(DESTDIR)$(PREFIX)/bin/ghs
	chmod 755 $(DESTDIR)$(OWN)/ghs $(DESTDIR)$(PREFIX)/bin/ghs
	cp share/man/ghs.1 $(DATA)/man/man1/ghs.1
	cp share/completions/ghs.bash $(DATA)/bash-completion/completions/ghs
	cp share/completions/_ghs $(DATA)/zsh/site-functions/_ghs
	cp share/completions/ghs.fish $(DATA)/fish/vendor_completions.d/ghs.fish
	cp page/choose.html $(DATA)/ghs/choose.html
	cp docs/pages/*.html $(DATA)/ghs/pages
	cp examples/*.gr examples/*.trace $(DATA)/ghs/examples

uninstall:
	rm -f $(DESTDIR)$(PREFIX)/bin/ghs $(DATA)/man/man1/ghs.1 $(DATA)/bash-completion/completions/ghs
	rm -f $(DATA)/zsh/site-functions/_ghs $(DATA)/fish/vendor_completions.d/ghs.fish
	rm -rf $(DATA)/ghs $(DESTDIR)$(OWN)

.PHONY: all install uninstall
