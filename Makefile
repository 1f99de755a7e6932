# make            builds the library and the command, if they are not built or something has changed
# make install    puts command, library, header, pkg-config file, manual page and completion below PREFIX
# make uninstall  takes them away again
# DESTDIR, if it is set, stands before every place that is written to.
PREFIX = /usr/local
DESTDIR =

build:
	@host/command

install: build
	@PREFIX='$(PREFIX)' DESTDIR='$(DESTDIR)' host/place install

uninstall:
	@PREFIX='$(PREFIX)' DESTDIR='$(DESTDIR)' host/place uninstall

.PHONY: build install uninstall
