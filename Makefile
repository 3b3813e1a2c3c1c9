# Installs what was built: the program, the library with its header, the man page, the completion and the Python package.
# Usage: make install [PREFIX=/usr/local] [DESTDIR=..]     and make uninstall with the same words
# What is installed is in out/ where it was built of these sources, else in release/ (tools/release.sh --files).
PREFIX ?= /usr/local
PYTHON ?= python3
ifneq ($(filter-out /%,$(firstword $(PREFIX))),)
$(error PREFIX must be an absolute path, and not $(PREFIX))
endif
# where Python looks for packages under PREFIX (Debian's does so in dist-packages), else where it would; nowhere without Python
PYTHONDIR ?= $(shell $(PYTHON) -c 'import sys, sysconfig; at = [it for it in sys.path if it.startswith("$(PREFIX)".rstrip("/") + "/lib/") and it.endswith("-packages")]; print((at + [sysconfig.get_path("purelib", "posix_prefix", {"base": "$(PREFIX)"})])[0])' 2> /dev/null)
# PREFIX as the file for pkg-config tells it, and as sed is told so: pkg-config wants a blank behind a backslash
PCPREFIX ?= $(PREFIX)
NONE =
BLANK = $(NONE) $(NONE)
TOLD_PREFIX = $(subst $(BLANK),\\$(BLANK),$(subst |,\|,$(subst &,\&,$(PCPREFIX))))
ROOT = $(DESTDIR)$(PREFIX)
PACKAGE = $(DESTDIR)$(PYTHONDIR)/uds_unit
# whether Python finds the package in this folder
FINDS = import importlib.util, os, sys; at = importlib.util.find_spec("uds_unit"); sys.exit(at is None or not os.path.samefile(os.path.dirname(at.origin), sys.argv[1]))

all:
	@echo 'make install [PREFIX=/usr/local] installs; ./uds_play proves and builds; ./check proves and tests all'

install:
	@set -e; files=$$(tools/release.sh --files); set -- $$files; \
	version=$$("$$1" --version | awk '{ print $$NF }'); \
	install -D -m 755 "$$1" '$(ROOT)/bin/uds_play'; \
	install -D -m 644 "$$2" '$(ROOT)/lib/libuds_unit.so.2'; \
	ln -sf libuds_unit.so.2 '$(ROOT)/lib/libuds_unit.so'; \
	install -D -m 644 include/uds_unit.h '$(ROOT)/include/uds_unit.h'; \
	sed -e 's|@PREFIX@|$(TOLD_PREFIX)|' -e "s|@VERSION@|$$version|" include/uds_unit.pc.in \
	  | install -D -m 644 /dev/stdin '$(ROOT)/lib/pkgconfig/uds_unit.pc'; \
	install -D -m 644 man/uds_play.1 '$(ROOT)/share/man/man1/uds_play.1'; \
	install -D -m 644 completion/uds_play.bash '$(ROOT)/share/bash-completion/completions/uds_play'; \
	if [ -z '$(PYTHONDIR)' ]; then echo 'without the Python package: $(PYTHON) does not tell where packages are'; exit; fi; \
	install -d '$(PACKAGE)'; \
	rm -rf '$(PACKAGE)'-*.dist-info; \
	install -m 644 python/uds_unit/*.py python/uds_unit/py.typed '$(PACKAGE)'; \
	install -m 644 "$$2" '$(PACKAGE)/libuds_unit.so'; \
	$(PYTHON) python/wheel_of_unit.py '$(DESTDIR)$(PYTHONDIR)' || echo 'without what tells pip and pytest of the Python package: that wants Python 3.11 or later'
	@test -n '$(DESTDIR)' || ldconfig 2> /dev/null || true
	@echo 'installed under $(ROOT)'
	@if [ -z '$(DESTDIR)' ] && [ -n '$(PYTHONDIR)' ] && ! $(PYTHON) -c '$(FINDS)' '$(PACKAGE)' 2> /dev/null; then \
	  echo '$(PYTHON) does not look for packages in $(PYTHONDIR): set PYTHONPATH to that'; fi

uninstall:
	rm -f '$(ROOT)/bin/uds_play' '$(ROOT)/lib/libuds_unit.so.2' '$(ROOT)/lib/libuds_unit.so' '$(ROOT)/include/uds_unit.h'
	rm -f '$(ROOT)/lib/pkgconfig/uds_unit.pc' '$(ROOT)/share/man/man1/uds_play.1' '$(ROOT)/share/bash-completion/completions/uds_play'
	$(if $(PYTHONDIR),rm -rf '$(PACKAGE)' '$(PACKAGE)'-*.dist-info)

.PHONY: all install uninstall
