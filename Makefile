# Builds dipq, dipq-live and the library for C, checks the repository, and puts these, the tools, their manual pages and
# the Python package where a shell, `man`, compilers and Python find them; or makes a Debian package or a wheel of them.
#
#     make                                 proves and builds the programs and the library, unless that is done
#     make check                           the gate
#     make install PREFIX="$HOME/.local"   without PREFIX, in /usr/local
#     make uninstall PREFIX="$HOME/.local"
#     make package                         out/dipq_VERSION_ARCHITECTURE.deb
#     make wheel                           out/ruzgalt-VERSION-py3-none-PLATFORM.whl
#     make library                         out/libruzgalt.so, libruzgalt.a, ruzgalt.h and ruzgalt.pc
#
# DESTDIR is put before each of these places. A program is found from where its command is, so all that is installed may
# be moved together.
PREFIX = /usr/local
BINDIR = $(PREFIX)/bin
LIBEXECDIR = $(PREFIX)/libexec
LIBDIR = $(PREFIX)/lib
INCLUDEDIR = $(PREFIX)/include
MANDIR = $(PREFIX)/share/man
DATADIR = $(PREFIX)/share

programs = dipq dipq-live
folder = $(DESTDIR)$(LIBEXECDIR)/dipq
pages = $(DESTDIR)$(MANDIR)/man1
# python/ and tools/ are next to each other, to a link to each program's command, and to one to the library.
data = $(DESTDIR)$(DATADIR)/dipq
lib = $(DESTDIR)$(LIBDIR)
include = $(DESTDIR)$(INCLUDEDIR)
libraries = libruzgalt.so.1 libruzgalt.so libruzgalt.a
# Each tool, and the command that it becomes.
tools = answers:dipq-answers csv-to-load:dipq-load
files = $(foreach tool,$(tools),$(firstword $(subst :, ,$(tool))))
commands = $(foreach tool,$(tools),$(lastword $(subst :, ,$(tool))))

SHELL = bash
.SHELLFLAGS = -eu -o pipefail -c
.PHONY: all check install uninstall package wheel library

all: library
	for program in $(programs); do "./$$program" </dev/null; done

check:
	./check

install: all
	for program in $(programs); do \
	  crate=$${program//-/_}; install -D -m 755 "crates/$$crate/out/$$crate" "$(folder)/$$program"; \
	  from_command=$$(realpath -m --relative-to="$(BINDIR)" "$(LIBEXECDIR)/dipq/$$program"); \
	  tools/command-of "$$from_command" | install -D -m 755 /dev/stdin "$(DESTDIR)$(BINDIR)/$$program"; \
	done
	install -D -m 644 -t "$(lib)" out/libruzgalt.so.1 out/libruzgalt.a
	ln -sfn libruzgalt.so.1 "$(lib)/libruzgalt.so"
	install -D -m 644 -t "$(include)" out/ruzgalt.h
	from_pc=$$(realpath -m --relative-to="$(LIBDIR)/pkgconfig" "$(INCLUDEDIR)"); \
	  sed "s,^libdir=.*,&/..,; s,^includedir=.*,&/$$from_pc," out/ruzgalt.pc \
	  | install -D -m 644 /dev/stdin "$(lib)/pkgconfig/ruzgalt.pc"
	for name in $(programs) $(commands); do tools/man-page "$$name" | install -D -m 644 /dev/stdin "$(pages)/$$name.1"; done
	rm -rf "$(data)/python"
	find python/ruzgalt -name __pycache__ -prune -o -type f -exec install -D -m 644 "{}" "$(data)/{}" ";"
	PYTHONPATH=python python3 -B -c 'import ruzgalt; print(ruzgalt.__version__)' | install -m 644 /dev/stdin "$(data)/python/ruzgalt/VERSION"
	for program in $(programs); do \
	  ln -sfn "$$(realpath -m --relative-to="$(DATADIR)/dipq" "$(BINDIR)/$$program")" "$(data)/$$program"; \
	done
	ln -sfn "$$(realpath -m --relative-to="$(DATADIR)/dipq" "$(LIBDIR)/libruzgalt.so.1")" "$(data)/libruzgalt.so"
	for tool in $(tools); do \
	  install -D -m 755 "tools/$${tool%:*}" "$(data)/tools/$${tool%:*}"; \
	  target=$$(realpath -m --relative-to="$(BINDIR)" "$(DATADIR)/dipq/tools/$${tool%:*}"); \
	  ln -sfn "$$target" "$(DESTDIR)$(BINDIR)/$${tool#*:}"; \
	done
	[ -n "$(DESTDIR)" ] || echo 'Python finds the package by: export PYTHONPATH="$(DATADIR)/dipq/python"'
	[ -n "$(DESTDIR)" ] || echo 'Programs in C find the library by: export LD_LIBRARY_PATH="$(LIBDIR)", or after ldconfig'

uninstall:
	rm -f $(patsubst %,"$(folder)/%",$(programs)) $(patsubst %,"$(data)/%",$(programs)) $(patsubst %,"$(data)/tools/%",$(files))
	rm -f $(patsubst %,"$(DESTDIR)$(BINDIR)/%",$(programs) $(commands)) $(patsubst %,"$(pages)/%.1",$(programs) $(commands))
	rm -f $(patsubst %,"$(lib)/%",$(libraries) pkgconfig/ruzgalt.pc) "$(include)/ruzgalt.h" "$(data)/libruzgalt.so"
	rm -rf "$(data)/python"
	for folder in "$(folder)" "$(data)/tools" "$(data)"; do \
	  [ ! -d "$$folder" ] || rmdir --ignore-fail-on-non-empty "$$folder"; \
	done

package: all
	tools/make-package

wheel: all library
	tools/make-wheel

library:
	tools/make-library
