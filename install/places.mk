# A part of both Makefiles: the version, and the folders into which `make install` puts things, by GNU's names.
HERE := $(patsubst %/,%,$(dir $(lastword $(MAKEFILE_LIST))))
VERSION := $(shell cat $(HERE)/../VERSION)

$(if $(filter-out /%,$(firstword $(PREFIX))),$(error PREFIX=$(PREFIX) is no absolute path))
BINDIR = $(PREFIX)/bin
LIBEXECDIR = $(PREFIX)/libexec
LIBDIR = $(PREFIX)/lib
INCLUDEDIR = $(PREFIX)/include
DATADIR = $(PREFIX)/share
MANDIR = $(DATADIR)/man
# The folder below PREFIX in which python3 looks for modules.
PYTHONDIR = $(shell sh $(HERE)/python-folder '$(PREFIX)')

# The path to the folder $(2) from the folder $(1). What is installed names other files by such paths, so that all can be moved together.
from = $(shell realpath -ms --relative-to='$(1)' '$(2)')
