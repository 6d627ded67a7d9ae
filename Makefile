# Proves, builds, runs and tests. Everything but `make lib`, `make dist`, `make python`, `make rust`, `make c-test`,
# `make c-fuzz`, `make fuzz`, `make hostile`, `make instructions`, `make bench`, `make edits`, `make mutants`, `make site`,
# `make site-test` and `make pictures` needs the kit's `rt` on the path, make, git and the usual POSIX tools, and nothing else.

SOURCES := $(shell find crates -path '*/out' -prune -o \( -name '*.rt' -o -name '*.antt' \) -print) crates.txt

PREFIX := /usr/local
LIBDIR = $(PREFIX)/lib

.PHONY: help try build run lib install dist python rust c-test c-fuzz test agree costs instructions vendor vendor-test contracts site site-test pictures edits mutants faults fuzz hostile bench clean

help:
	@echo "To use it:"
	@echo "  make try SCRIPT=FILE     runs the script with no proof, in half a minute, and at once where no source has changed"
	@echo "  make run SCRIPT=FILE     proves and builds what it must, says how far it is, and runs the script"
	@echo "  make build               leaves the proved program at bin/ecow-run"
	@echo "  make vendor TO=FOLDER    copies the crates of the vector into another repository, with their rows, so that its"
	@echo "                           gate proves them. KIND=tree: and a list in a tree; KIND=text: of vector, bytes and text;"
	@echo "                           KIND=nested: and nested values; KIND=store: texts and both stores, with their laws;"
	@echo "                           KIND=tool: and scripts, and the program over any reader and writer; KIND=all: all of"
	@echo "                           these. COUNT=atomic: with values that threads may share"
	@echo "  make lib                 leaves the library for C at bin/libecow.a and bin/libecow.so, with its headers (needs"
	@echo "                           a C compiler). COUNT=plain: owners are counted for one thread"
	@echo "  make install             puts it below PREFIX=$(PREFIX). LIBDIR=FOLDER: the libraries there"
	@echo "  make dist                packs it for a machine without the kit, in bin/, with the package and the crate for"
	@echo "                           each language (needs GNU tar, python3 and rustfmt), and the site where make site can; COUNT as"
	@echo "                           above"
	@echo "  make python              builds the package for Python, a wheel in bin/ (needs Python 3.11, its headers and pip)"
	@echo "  make rust                writes the crate for Rust from the proved source, in bin/rust, and tests it (needs"
	@echo "                           python3 and cargo). ORIGINAL=FOLDER: runs the original's tests in FOLDER too"
	@echo
	@echo "To change it:"
	@echo "  make test                the whole gate: every proof from nothing, must-fail edits, tests, programs, costs,"
	@echo "                           each request for memory refused in turn, command lines, large scripts, growth,"
	@echo "                           and the library for C where there is a C compiler; writes the crate for Rust, and tests"
	@echo "                           it where there is a Rust compiler; compares how much each check has compared"
	@echo "  make agree               compares documents, examples and edits with the code, and tries what compares on what it must"
	@echo "                           refuse"
	@echo "  make contracts           writes every public call with its comment and its clauses, and where their words come"
	@echo "                           from, as text into bin/contracts"
	@echo "  make site                writes all pages, calls, contracts and pictures as a site, bin/site/index.html (needs"
	@echo "                           python3, and Debian's python3-sphinx, python3-myst-parser and furo; the pages for Rust"
	@echo "                           need cargo and rustfmt too)"
	@echo "  make site-test           tries that site in a browser (needs chromium and chromium-driver)"
	@echo "  make pictures            draws the pictures of the documents from their tables, in docs/pictures (needs python3)"
	@echo "  make edits               tries each edit that must be refused, those beside the gate's too (needs python3);"
	@echo "                           CRATES=\"NAME ..\": those of some crates"
	@echo "  make mutants N=100       changes one token at a time, in code, glue and tools, and names each change that nothing"
	@echo "                           beside the proofs sees (needs python3 and what make c-test needs). SEED=NUMBER: others;"
	@echo "                           JOBS=NUMBER: so many at once; PARTS=\"rattle glue tools\": some of these"
	@echo "  make costs               counts what each call costs, and compares the tables of costs. COUNT=atomic: over that"
	@echo "                           count, which the gate proves and does not try from Rattle"
	@echo "  make instructions        counts those of each call's loop and of large scripts, and compares them with their"
	@echo "                           table (needs valgrind)"
	@echo "  make faults              refuses each request for memory in turn, without the rest of the gate; COUNT as above"
	@echo "  make c-test              tests the library for C from C, C++ and Python, and the archive (needs gcc, clang,"
	@echo "                           valgrind, cargo, and what make python needs)"
	@echo "  make c-fuzz SECONDS=60   fuzzes it, each kind of value for so long (needs clang with libFuzzer)"
	@echo "  make vendor-test         tries make vendor on a new repository, whose gate it runs; KIND and COUNT as above"
	@echo "  make fuzz SECONDS=60     runs the program on changed examples (needs python3)"
	@echo "  make hostile             runs the program with each request for memory refused in turn, with files and outputs"
	@echo "                           that fail, and with scripts of 16 MiB (needs python3 and a C compiler);"
	@echo "                           PEER=\"COMMAND\": times another program beside it"
	@echo "  make bench ECOW=FOLDER   times vector, bytes, text and four whole programs beside the original crate in FOLDER,"
	@echo "                           and the programs beside std alone (needs cargo). CPU=x86-64-v3: both compiled for a"
	@echo "                           processor with AVX2. COUNT=atomic: of that count"
	@echo "  make clean               removes what was built"

# SCRIPT may begin with --counted.
try:
	@tools/ship/try.sh $(SCRIPT)

# The program is proved, linked and run once, on the first example.
bin/ecow-run: $(SOURCES)
	@tools/ship/prove.sh ecow_run
	@cd crates/ecow_run && rt run -- ../../examples/first.eco > ../../bin/build.log 2>&1 || { cat ../../bin/build.log; exit 1; }
	@cp crates/ecow_run/out/ecow_run bin/ecow-run

build: bin/ecow-run

# make ends with 2 whenever the program's status isn't 0, and names that status.
run:
	@$(MAKE) --no-print-directory --silent bin/ecow-run >&2
	@bin/ecow-run $(SCRIPT)

# How owners are counted. The library for C has the atomic count unless another is named, and a copy the plain one.
COUNT :=
C_COUNT := $(or $(COUNT),atomic)

# The library for C: the proved one, and what tests null pointers before it.
bin/libecow_c-%.a: $(SOURCES)
	@tools/ship/c_archive.sh $*

lib: bin/libecow_c-$(C_COUNT).a
	@tools/ship/lib.sh $(C_COUNT)

# A version with the same first two numbers has the same calls, and values of the same sizes.
LIKE = $(basename $(shell cat VERSION))

install: lib
	install -d $(DESTDIR)$(LIBDIR)/pkgconfig $(DESTDIR)$(LIBDIR)/cmake/ecow $(DESTDIR)$(PREFIX)/include
	install -m 644 bin/libecow.a $(DESTDIR)$(LIBDIR)
	install -m 755 bin/libecow.so $(DESTDIR)$(LIBDIR)/libecow.so.$(LIKE)
	ln -sf libecow.so.$(LIKE) $(DESTDIR)$(LIBDIR)/libecow.so
	install -m 644 include/ecow.h include/ecow.hpp $(DESTDIR)$(PREFIX)/include
	sed 's|^prefix=.*|prefix=$(PREFIX)|; s|^libdir=.*|libdir=$(LIBDIR)|' bin/ecow.pc > $(DESTDIR)$(LIBDIR)/pkgconfig/ecow.pc
	sed 's|"$${ecow_libraries}/../include"|"$(PREFIX)/include"|' bin/ecow-config.cmake > $(DESTDIR)$(LIBDIR)/cmake/ecow/ecow-config.cmake
	install -m 644 bin/ecow-config-version.cmake $(DESTDIR)$(LIBDIR)/cmake/ecow

# The site is packed where its generator is.
dist: lib
	@if command -v sphinx-build > /dev/null; then tools/ship/site.sh; else rm -rf bin/site; fi
	@tools/ship/dist.sh $(C_COUNT)

python: lib
	python3 -m pip wheel --disable-pip-version-check --no-index --no-deps -w bin ./python

ORIGINAL :=
export ORIGINAL
rust:
	@tools/gate/rust_gate.sh

c-test: lib bin/libecow_c-plain.a
	tools/ship/lib.sh plain bin/plain
	tools/gate/c_short.sh
	tools/measure/c_test.sh

COSTS := crates/ecow_test_costs/out/ecow_test_costs
TRIALS := crates/ecow_test_trials/out/ecow_test_trials
RUN := crates/ecow_run/out/ecow_run
BENCH := crates/ecow_bench/out/ecow_bench

# `rt ci` leaves these programs built: what calls cost is counted, requests for memory are refused in turn, the program
# is run on command lines and on large scripts, and calls are timed as values grow.
test: agree
	tools/gate/ci.sh ci.sh .
	tools/gate/costs.sh $(COSTS)
	tools/gate/refuse.sh $(TRIALS)
	tools/gate/ends.sh $(RUN)
	tools/gate/cases.sh $(RUN)
	tools/gate/refuse_scripts.sh $(RUN)
	tools/gate/large.sh $(RUN)
	tools/gate/growth.sh $(BENCH)
	tools/gate/threads_gate.sh
	tools/gate/c_gate.sh
	tools/gate/rust_gate.sh
	tools/gate/counts.sh

# `rt ci` runs the program on the first example, of which there is a theorem. The kit takes no linked file.
agree:
	@rm -f bin/counts
	@cmp examples/first.eco crates/ecow_run/data/first.eco
	@sed -n '/^first_script =/,/^$$/s/^[ +]*codes "\(.*\)\\n"$$/\1/p' crates/ecow_script/specs/FirstExample.antt | cmp - examples/first.eco
	@tools/gate/agree_statuses.sh
	@tools/gate/agree_docs.sh
	@tools/gate/agree_calls.sh
	@tools/gate/agree_site.sh
	@tools/gate/agree_shipped.sh
	@tools/gate/agree_edits.sh
	@tools/gate/agree_c.sh
	@tools/gate/agree_checks.sh

KIND := vector
vendor:
	@tools/ship/vendor.sh "$(TO)" $(KIND) $(COUNT)

contracts:
	@tools/ship/contracts.sh bin/contracts

site:
	@tools/ship/site.sh

site-test:
	tools/measure/site_test.py

pictures:
	@tools/ship/pictures.py

vendor-test:
	tools/ship/vendor_test.sh $(KIND) $(COUNT)

edits:
	tools/measure/edits.py $(CRATES)

N := 100
SEED := 1
JOBS := 1
mutants:
	tools/measure/mutants.py $(N) $(SEED) $(JOBS) $(PARTS)

# Where these are tried: over the plain count here, and over the atomic one beside it.
TRIED = $(if $(filter atomic,$(COUNT)),$(shell tools/ship/for_threads.sh ecow_test_costs ecow_test_trials),.)

costs:
	cd $(TRIED)/crates/ecow_test_costs && rt run > /dev/null
	tools/gate/costs.sh $(TRIED)/$(COSTS)

instructions: bin/ecow-run
	cd crates/ecow_bench && rt run > /dev/null
	tools/measure/instructions.sh $(BENCH) $(RUN)

faults:
	cd $(TRIED)/crates/ecow_test_trials && rt run -- strict
	tools/gate/refuse.sh $(TRIED)/$(TRIALS)

SECONDS := 60
c-fuzz: lib
	@tools/measure/c_fuzz.sh $(SECONDS)

fuzz: bin/ecow-run
	tools/measure/fuzz.py $(SECONDS)

hostile: bin/ecow-run
	tools/measure/hostile.py --peer "$(PEER)"

bench:
	COUNT=$(COUNT) tools/measure/bench.sh $(ECOW)
	tools/measure/rust_bench.sh $(ECOW)

clean:
	rm -rf bin crates/*/out "$$(tools/ship/for_threads.sh)"
