# Installs the library for C programs by ./install, and takes it away again.

PREFIX ?= /usr/local
into = $(DESTDIR)$(abspath $(PREFIX))

.PHONY: help install uninstall

help:
	@echo "make install PREFIX=FOLDER, make uninstall PREFIX=FOLDER; ./install --help says what goes where"

install:
	DESTDIR='$(DESTDIR)' ./install '$(PREFIX)'

uninstall:
	rm -f '$(into)/include/morvenka.h' '$(into)/lib/pkgconfig/morvenka.pc' '$(into)/lib'/libmorvenka.a '$(into)/lib'/libmorvenka.so*
