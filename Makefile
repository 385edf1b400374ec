# Builds, installs and packages what runs; README and docs/INSTALL.md say how. The programs gpioserved and gpiosess are made by the launchers.
#   make                      builds serve/
#   make install              installs below PREFIX (/usr/local), in DESTDIR
#   make dist                 makes a package of Debian and a tarball, in out/dist
# UNPROVED=1 has the last two take programs that aren't proved, and say so.
PREFIX ?= /usr/local
DESTDIR ?=
UNPROVED ?=
options = $(if $(UNPROVED),--unproved)

all:
	$(MAKE) -C serve

install:
	packaging/install $(options) '$(PREFIX)' '$(DESTDIR)'

dist:
	packaging/dist $(options) out/dist

.PHONY: all install dist
