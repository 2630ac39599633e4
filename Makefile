# make        builds the program, proved, as bin/metad
# make library  builds libmetad, the server inside programs in C, proved, as bin/libmetad.a, bin/libmetad.so and bin/metad.pc
# make try    answers the sample session in about two minutes, by a program that is not proved; SESSION=FILE has other
#             commands, CLASSES=FILE the classes for them
# make run    builds the program, proved, and answers the sample session
# make front  builds the front, front/, as bin/metad-front; make front-needs installs the Debian packages that this needs, where
#             it may, and otherwise says which; with the library of metad-web, for its tests
# make qt-needs  installs the Debian packages that the tests of the Qt client need, where it may, and otherwise says which
# make library-needs  installs the Debian packages that the tests of libmetad need, where it may, and otherwise says which
# make test-needs  installs the Debian packages of programs without which other tests are skipped, and flake8 for make lint, where
#             it may, and otherwise says which
# make test   proves everything from nothing, and runs every test
# make tests  runs every test on bin/metad as it is; make rows, random, program, slice, memory, nests, spared,
#             classes, clients, documents, surprises, phrases, machines, machines_files, hosting, scaling, measures, tools, embedded, test_lists and test_install run those of tests/test_rows and so on
# make soak   runs the modules with random tests once more, with a random seed, which it prints; SEED=NUMBER gives the seed
# make bench  counts the program's instructions, and fails where a count is over its guard; with LAST=PROGRAM also beside an
#             earlier program; GUARDS=1 writes down the counts and new guards
# make lists  writes the lists of commands, codes and limits, wherever they stand, from the tables of docs/PROTOCOL.md
# make lint   reads the sources in Python by flake8, with the settings of .flake8
# make tables writes the tables of the documents that are made of sources, and the tables of the clients for JavaScript and Qt
# make install, make uninstall   bin/metad, libmetad where it is built, the manual page, the documents, the client, the examples and the tools, below PREFIX;
#             with SITE=FOLDER also a link to the client in a folder where Python looks
# make dist   a tarball of all that is installed, for any folder; make deb   packages for Debian; each in DIST, with its checksum
# Each says in one sentence what it needs and does not find.

PROGRAM = meta_main
CRATE = crates/$(PROGRAM)
CC ?= cc
PREFIX ?= /usr/local

# each takes bin/metad as it is
TESTS = rows random program slice memory nests spared classes clients documents surprises phrases machines machines_files hosting scaling measures tools embedded
# the oldest Python for the tools, and for the tests
PYTHON = 3.8
PYTHON_OF_TESTS = 3.11
NEEDS = @CC="$(CC)" sh tools/needs.sh
TRY = (make try answers a session in about two minutes, not proved)

.PHONY: all library library_of_tests try run front front-needs qt-needs library-needs test-needs test_front test budget needs_of_tests tests $(TESTS) soak test_lists test_install test_package libraries bench lists tables lint install uninstall dist deb clean

all: bin/metad

SOURCES = crates.txt HANDLES $(shell find crates -name out -prune -o -type f -print)

bin/metad: $(SOURCES)
	$(NEEDS) rt python3=$(PYTHON)
	@echo "Proving and building bin/metad takes about half an hour on four processors $(TRY)"
	python3 tools/build.py . $(PROGRAM)
	mkdir -p bin
	cp $(CRATE)/out/$(PROGRAM) $@

# libmetad, the server inside programs in C: one object, whose only symbols for others are those of include/metad.h
LIBRARY = metad_c
ARCHIVE = crates/$(LIBRARY)/out/lib$(LIBRARY).a
VERSION = $(shell sed -n 's/^\#define METAD_VERSION "\(.*\)"$$/\1/p' include/metad.h)
SONAME = libmetad.so.$(firstword $(subst ., ,$(VERSION)))
KIT = $(dir $(realpath $(shell command -v rt)))..
OF_LIBRARY = bin/libmetad.a bin/libmetad.so bin/metad.pc

library: $(OF_LIBRARY)

$(ARCHIVE): $(SOURCES)
	$(NEEDS) rt python3=$(PYTHON)
	@echo "Proving and building the library takes about half an hour on four processors"
	python3 tools/build.py . $(LIBRARY)

bin/libmetad.o: library/metad.c library/symbols include/metad.h $(ARCHIVE)
	$(NEEDS) rt cc objcopy
	mkdir -p bin
	$(CC) -std=c99 -D_DEFAULT_SOURCE -O2 -Wall -Wextra -fPIC -Iinclude -c -o bin/metad_checks.o $<
	$(CC) -r -nostdlib -o $@ bin/metad_checks.o -Wl,--whole-archive $(ARCHIVE) $(KIT)/c/liblibc_c.a -Wl,--no-whole-archive
	objcopy --keep-global-symbols=library/symbols $@

bin/libmetad.a: bin/libmetad.o
	rm -f $@
	ar rcsD $@ $<

bin/libmetad.so: bin/libmetad.o
	$(CC) -shared -Wl,-soname,$(SONAME) -Wl,-z,defs -o bin/$(SONAME) $<
	ln -sf $(SONAME) $@

bin/metad.pc: library/metad.pc.in include/metad.h
	mkdir -p bin
	sed 's|@VERSION@|$(VERSION)|' $< > $@

# links the library for the tests where its crate was built, whatever has changed since: the tests say where it is missing
library_of_tests:
	$(if $(wildcard $(ARCHIVE)),@test bin/libmetad.o -nt $(ARCHIVE) || rm -f bin/libmetad.o; $(MAKE) -s -o $(ARCHIVE) library)

try:
	$(NEEDS) rt python3=$(PYTHON)
	@python3 tools/try.py $(if $(SESSION),--session "$(SESSION)") $(if $(CLASSES),--classes "$(CLASSES)")

run: bin/metad
	bin/metad < $(CRATE)/stdin

front: bin/metad-front

bin/metad-front: tools/front.py $(shell find front -name target -prune -o -type f -print)
	$(NEEDS) python3=$(PYTHON)
	mkdir -p bin
	python3 tools/front.py build

# the tests in the front's sources
test_front:
	python3 tools/front.py test

front-needs:
	$(NEEDS) python3=$(PYTHON)
	python3 tools/front.py needs

qt-needs:
	@sh tools/qt_needs.sh

library-needs:
	@sh tools/library_needs.sh

test-needs:
	@sh tools/test_needs.sh

test:
	$(NEEDS) rt cc python3=$(PYTHON_OF_TESTS)
	@echo "Proving everything and running every test takes an hour or more on four processors $(TRY)"
	$(MAKE) --no-print-directory budget front-needs qt-needs library-needs test-needs
	rt ci
	python3 tools/archive.py . $(LIBRARY)
	mkdir -p bin
	cp $(CRATE)/out/$(PROGRAM) bin/metad
	$(MAKE) --no-print-directory tests

budget:
	$(NEEDS) python3=$(PYTHON)
	python3 tools/budget.py .

# is checked before anything is built for tests
needs_of_tests:
	$(NEEDS) python3=$(PYTHON_OF_TESTS)

# all tests on bin/metad as it is, each with how many cases it has; the targets below it are those of tests/test_*
tests: needs_of_tests libraries library_of_tests bin/metad-front test_front
	python3 -m unittest -v

soak: needs_of_tests libraries library_of_tests bin/metad-front
	python3 -m tests.support.soak

$(TESTS): needs_of_tests libraries library_of_tests bin/metad-front
	python3 -m unittest -v tests.test_$@

test_lists: needs_of_tests
	python3 -m unittest -v tests.$@

test_install test_package: needs_of_tests library_of_tests bin/metad-front
	python3 -m unittest -v tests.$@

libraries: bin/refuse_growth.so bin/early_signal.so

bin/%.so: tests/preload/%.c tests/preload/growth.h
	$(NEEDS) cc
	mkdir -p bin
	$(CC) -O2 -Wall -Wextra -shared -fPIC -o $@ $< -ldl

bench: bin/metad bin/count_growth.so bin/fixed_random.so
	$(NEEDS) python3=$(PYTHON)
	python3 bench/bench.py bin/metad bin/count_growth.so bin/fixed_random.so $(if $(LAST),--last "$(LAST)") $(if $(GUARDS),--write)

lint:
	$(NEEDS) flake8
	flake8

lists:
	$(NEEDS) python3=$(PYTHON)
	python3 tools/lists.py

tables:
	$(NEEDS) python3=$(PYTHON_OF_TESTS)
	python3 tools/tables.py
	python3 tools/js_commands.py
	python3 tools/qt_commands.py

BIN = $(DESTDIR)$(PREFIX)/bin
MAN = $(DESTDIR)$(PREFIX)/share/man/man1
DOC = $(DESTDIR)$(PREFIX)/share/doc/metad
SHARE = $(DESTDIR)$(PREFIX)/share/metad
LIB = $(DESTDIR)$(PREFIX)/lib
INCLUDE = $(DESTDIR)$(PREFIX)/include
# the documents and what they lead to, which stands below DOC as it stands here
DOCUMENTS = README.md CHANGELOG.md $(filter-out %/__pycache__,$(wildcard docs/*.md docs/*.json docs/*.png clients/*/*.md examples/*/*))
FOLDERS = $(filter-out ./,$(sort $(dir $(DOCUMENTS)))) clients examples
# docs/internals and CONTRIBUTING.md are not installed: a link to them is left as its text
WITHOUT_INTERNALS = sed 's/\[\([^][]*\)\]([^()]*internals\/[^()]*)/\1/g; s/\[\([^][]*\)\](CONTRIBUTING\.md)/\1/g'
# the client, which the tools find below SHARE as they find it here
CLIENT = python/metad
OF_CLIENT = $(patsubst clients/%,%,$(wildcard clients/$(CLIENT)/*.py clients/$(CLIENT)/py.typed))
# the client in JavaScript, with its declarations for TypeScript
OF_JS = $(patsubst clients/%,%,$(wildcard clients/js/*.mjs clients/js/*.mts clients/js/package.json))
# the sources of the client for Qt, which cmake builds there as here
OF_QT = $(patsubst clients/%,%,$(wildcard clients/qt/*.cmake clients/qt/CMakeLists.txt clients/qt/metad/*))
# each is installed as metad-TOOL; what they are made of stands in these folders
TOOLS = explain check shell slice inspect compact web
PARTS = common explaining checking shelling slicing inspecting compacting relaying
# what the inspector shows beside its code: its page, and the classes of a server without a class file
PAGE = inspecting/page
OF_PAGE = $(patsubst clients/%,%,$(wildcard clients/$(PAGE)/* clients/inspecting/*.json))
OF_TOOLS = $(TOOLS) $(patsubst clients/%,%,$(wildcard $(PARTS:%=clients/%/*.py))) $(OF_PAGE)

# uses the present bin/metad and bin/metad-front, and the library where it is there
install:
	@test -f bin/metad || { echo "bin/metad is not there yet: make builds it"; exit 1; }
	@test -f bin/metad-front || { echo "bin/metad-front is not there yet: make front builds it"; exit 1; }
	install -d "$(BIN)" "$(MAN)" "$(DOC)" "$(SHARE)"
	install bin/metad "$(BIN)/metad"
	install bin/metad-front "$(BIN)/metad-front"
	install -m 644 man/metad.1 "$(MAN)/metad.1"
	for it in $(DOCUMENTS); do \
		install -D -m 644 "$$it" "$(DOC)/$$it" || exit; \
		case "$$it" in *.md) $(WITHOUT_INTERNALS) "$$it" > "$(DOC)/$$it" || exit;; esac; \
	done
	for it in $(OF_CLIENT) $(OF_JS) $(OF_QT); do install -D -m 644 "clients/$$it" "$(SHARE)/$$it" || exit; done
	for it in $(PARTS); do \
		install -d "$(SHARE)/$$it" && \
		install -m 644 clients/$$it/*.py "$(SHARE)/$$it" || exit; \
	done
	for it in $(OF_PAGE); do install -D -m 644 "clients/$$it" "$(SHARE)/$$it" || exit; done
	for it in $(TOOLS); do \
		install clients/$$it "$(SHARE)/$$it" && \
		ln -sf ../share/metad/$$it "$(BIN)/metad-$$it" || exit; \
	done
ifneq ($(wildcard bin/libmetad.so),)
	install -D -m 644 include/metad.h "$(INCLUDE)/metad.h"
	install -D -m 644 bin/libmetad.a "$(LIB)/libmetad.a"
	install -m 644 bin/$(SONAME) "$(LIB)/$(SONAME)"
	ln -sf $(SONAME) "$(LIB)/libmetad.so"
	install -D -m 644 bin/metad.pc "$(LIB)/pkgconfig/metad.pc"
endif
ifdef SITE
	install -d "$(DESTDIR)$(SITE)"
	ln -srfT "$(SHARE)/$(CLIENT)" "$(DESTDIR)$(SITE)/metad"
endif

# takes away all that install puts there, what Python has left beside it, and the folders that hold nothing else
uninstall:
	rm -f "$(BIN)/metad" "$(BIN)/metad-front" $(TOOLS:%="$(BIN)/metad-%") "$(MAN)/metad.1" $(if $(SITE),"$(DESTDIR)$(SITE)/metad")
	rm -f "$(INCLUDE)/metad.h" "$(LIB)/libmetad.a" "$(LIB)/$(SONAME)" "$(LIB)/libmetad.so" "$(LIB)/pkgconfig/metad.pc"
	rm -f $(DOCUMENTS:%="$(DOC)/%") $(OF_CLIENT:%="$(SHARE)/%") $(OF_JS:%="$(SHARE)/%") $(OF_QT:%="$(SHARE)/%") $(OF_TOOLS:%="$(SHARE)/%")
	rm -rf "$(SHARE)/$(CLIENT)/__pycache__" $(PARTS:%="$(SHARE)/%/__pycache__")
	for it in $(FOLDERS:%="$(DOC)/%") "$(DOC)" "$(SHARE)/$(CLIENT)" "$(SHARE)/python" "$(SHARE)/js" "$(SHARE)/qt/metad" "$(SHARE)/qt" "$(SHARE)/$(PAGE)" $(PARTS:%="$(SHARE)/%") "$(SHARE)"; do \
		test ! -d "$$it" || rmdir --ignore-fail-on-non-empty "$$it"; \
	done

DIST = dist

# each takes bin/metad as it is
dist:
	$(NEEDS) python3=$(PYTHON) objdump
	python3 tools/package.py tarball "$(DIST)"

deb:
	$(NEEDS) python3=$(PYTHON) objdump dpkg-deb
	python3 tools/package.py debian "$(DIST)"

clean:
	rm -rf bin dist crates/*/out
