# Installs the library for C, and removes it again. Nothing is built for that: all that is installed is in one folder.
# In the tarball of 'make dist' this is the Makefile. In the repository the Makefile reads it, and makes the folder.
.PHONY: help install uninstall

kit := .
version := $(shell sed -n 's/^.define LUTNIORAD_VERSION "\([^"]*\)".*/\1/p' include/lutniorad.h)
ifeq ($(version),)
$(error include/lutniorad.h says no version)
endif
purpose := $(shell sed -n 's/^ \* Lutniorad: \(.*\)\.$$/\1/p' include/lutniorad.h)
soname := liblutniorad.so.$(firstword $(subst ., ,$(version)))
shared := liblutniorad.so.$(version)

PREFIX ?= /usr/local
INCLUDEDIR ?= $(PREFIX)/include
LIBDIR ?= $(PREFIX)/lib
PKGCONFIGDIR ?= $(LIBDIR)/pkgconfig
MANDIR ?= $(PREFIX)/share/man

# Before each of these folders stands DESTDIR, which no installed file has in it.
include_to = $(DESTDIR)$(INCLUDEDIR)
lib_to = $(DESTDIR)$(LIBDIR)
pkgconfig_to = $(DESTDIR)$(PKGCONFIGDIR)
man_to = $(DESTDIR)$(MANDIR)/man3

help:
	@echo "'make install' installs Lutniorad $(version) below $(PREFIX), 'make uninstall' removes it."
	@echo 'PREFIX=FOLDER has it elsewhere, as do INCLUDEDIR, LIBDIR, PKGCONFIGDIR and MANDIR, and DESTDIR before them all.'

install:
	@for folder in '$(include_to)' '$(lib_to)' '$(pkgconfig_to)' '$(man_to)'; do \
	    [ -d "$$folder" ] || install -d "$$folder" || exit; \
	done # of a folder that is there, install would change the mode
	@install -m 644 $(kit)/include/lutniorad.h '$(include_to)'
	@install -m 644 $(kit)/lib/liblutniorad.a '$(lib_to)'
	@install -m 755 $(kit)/lib/$(shared) '$(lib_to)'
	@ln -sf $(shared) '$(lib_to)/$(soname)'
	@ln -sf $(soname) '$(lib_to)/liblutniorad.so'
	@printf '%s\n' 'prefix=$(PREFIX)' \
	    'includedir=$(patsubst $(PREFIX)/%,$${prefix}/%,$(INCLUDEDIR))' \
	    'libdir=$(patsubst $(PREFIX)/%,$${prefix}/%,$(LIBDIR))' '' \
	    'Name: lutniorad' 'Description: $(purpose)' 'Version: $(version)' \
	    'Cflags: -I$${includedir}' 'Libs: -L$${libdir} -llutniorad' \
	    | install -m 644 /dev/stdin '$(pkgconfig_to)/lutniorad.pc'
	@install -m 644 $(kit)/lutniorad.3 '$(man_to)'
	@echo 'Lutniorad $(version) is installed below $(DESTDIR)$(PREFIX)'

# The folders stay: others may have files in them.
uninstall:
	@rm -f '$(include_to)/lutniorad.h' '$(lib_to)/liblutniorad.a' '$(lib_to)/$(shared)' '$(lib_to)/$(soname)' \
	    '$(lib_to)/liblutniorad.so' '$(pkgconfig_to)/lutniorad.pc' '$(man_to)/lutniorad.3'
	@echo 'Lutniorad $(version) is no longer below $(DESTDIR)$(PREFIX)'
