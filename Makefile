# make help       these lines; docs/install.md has the times and what each target needs
# make try        runs a script with the unproved program: SCRIPT=file, standard input, or by default examples/first.tcl
# make try-lib    builds the unproved library for C, Python and Tcl: out/try/libtktext.a and out/try/libtktext.so
# make check      builds the unproved program and library and runs their tests, in five minutes on two cores
# make run        runs a script with the proved program, which it first proves and builds if needed
# make build      proves and builds the program: crates/tktext/out/tktext
# make lib        proves and builds the library: out/libtktext.a and out/libtktext.so
# make examples   runs the library's examples in C, Python and Tcl; TRY=1 with the unproved library
# make python     builds the Python package for PYTHONPATH: out/python, or out/try/python with TRY=1
# make tcl        builds the Tcl package: out/tktext.so, or out/try/tktext.so with TRY=1
# make man        makes the manual pages out/man/tktext.1 and out/man/tktext.3, with pandoc
# make install    installs program, library, Tcl package and manual pages below PREFIX=/usr/local, and all of it below
#                 DESTDIR; TRY=1 installs the unproved builds
# make uninstall  removes them
# make dist       packs a release in out/dist: a tarball, a Debian package and a Python wheel; TRY=1: unproved
# make test       proves everything, then runs the tests that aren't proofs; the last line counts them
# make fuzz       compares the program with a model on random scripts: SEEDS=300 of them, from FIRST=0
# make fuzz-library  calls the library at random under sanitizers, for SECONDS=600, from the seed FIRST=0
# make tk         compares the program with Tk, if that is installed: docs/differences.md, indices and random scripts
# make gate       runs the gate alone, from nothing, and measures its processor time on an otherwise idle machine
# make bench      measures time and memory: docs/bench.txt, bench_lines.txt, bench_tree.txt
# make library-bench  counts the instructions and allocations of library calls, next to Tk: docs/bench_library.txt;
#                 needs valgrind, and for Tk tk8.6-dev and xvfb; TRY=1 only shows them, with the unproved library
# make bench-python  measures Python's calls and tkinter's: docs/bench_python.txt; needs python3-tk and xvfb; TRY=1 only
#                 shows them, with the unproved library
# make versus     measures the program and Tk on tools/workloads.py: docs/performance.md and its pictures; needs Tk
# make counts     counts the instructions of commands on texts of two sizes: docs/bench_counts.txt; needs valgrind
# make orders     measures how each command's cost grows with each size: docs/bench_orders.txt; needs valgrind
# make gains      compares the cost with docs/gains.txt, allows a twentieth more; UPDATE=1 writes it; needs valgrind

.DEFAULT_GOAL = try
PROGRAM = crates/tktext/out/tktext
ROWS = crates/rows/out/rows
TREE_BENCH = crates/tree_bench/out/tree_bench
LIBRARY = out/libtktext.a
# What is built before anything is proved.
TRIED = out/try/tktext
TRIED_LIBRARY = out/try/libtktext.a
SHIM = out/refuse.so
WEIGH = out/weigh.so
ASKED = out/asked.so
SEEDS ?= 300
FIRST ?= 0
SECONDS ?= 600
SOURCES = crates.txt $(shell find crates -name '*.rt' -o -name '*.antt' | grep -v /out/)
# The library's calls that are written in C, and what they are made of.
IN_C = $(wildcard include/*) tools/forms.py tools/table.py

help:
	@sed -n 's/^# \{0,1\}//p; /^$$/q' Makefile

try: $(TRIED)
	@python3 tools/try.py examples/first.tcl $(SCRIPT)

$(TRIED): $(SOURCES) tools/try.py tools/unproved.py
	@python3 tools/try.py --build
	@touch $@

try-lib: $(TRIED_LIBRARY)

$(TRIED_LIBRARY): $(SOURCES) tools/try_library.py tools/unproved.py tools/build_library.py \
  $(IN_C)
	@python3 tools/try_library.py
	@touch $@

run: $(PROGRAM)
	@sh tools/run.sh $(PROGRAM) examples/first.tcl $(SCRIPT)

build: $(PROGRAM)

$(PROGRAM): $(SOURCES)
	@python3 tools/build.py
	@touch $@

lib: $(LIBRARY)

$(LIBRARY): $(SOURCES) $(IN_C)
	@python3 tools/build_library.py
	@touch $@

examples: $(if $(TRY),$(TRIED_LIBRARY),$(LIBRARY))
	@python3 tools/examples.py $(if $(TRY),--try)

# Where the library stands by which examples run, and that is installed.
OUT = $(if $(TRY),out/try,out)
PREFIX ?= /usr/local

python: $(OUT)/libtktext.a
	@python3 tools/build_python.py $(if $(TRY),--try)

tcl: $(OUT)/tktext.so

$(OUT)/tktext.so: $(OUT)/libtktext.a tcl/tktext.c tcl/pkgIndex.tcl include/tktext.h
	@python3 tools/examples.py --extension $(if $(TRY),--try)

man: out/man/tktext.1

out/man/tktext.1: docs/tktext.1.md include/tktext.h tools/manpages.py
	@python3 tools/manpages.py out/man

install: $(if $(TRY),$(TRIED),$(PROGRAM)) $(OUT)/libtktext.a tcl man
	@python3 tools/install.py --prefix '$(PREFIX)' --destdir '$(DESTDIR)' $(if $(TRY),--try)

# A release may say that it is proved, or that it isn't; the gate is no part of it.
dist: $(if $(TRY),$(TRIED),$(PROGRAM)) $(OUT)/libtktext.a tcl man
	@python3 tools/dist.py $(if $(TRY),--try)

uninstall:
	@python3 tools/install.py --prefix '$(PREFIX)' --destdir '$(DESTDIR)' --uninstall

$(SHIM): tools/refuse.c
	mkdir -p out
	cc -shared -fPIC -O1 -o $@ $<

$(WEIGH): tools/weigh.c
	mkdir -p out
	cc -shared -fPIC -O1 -o $@ $<

$(ASKED): tools/weigh.c
	mkdir -p out
	cc -DASKED -shared -fPIC -O1 -o $@ $<

# `rt ci` puts back an out/ that was there before it, so old programs are taken away first.
test: $(SHIM) $(WEIGH)
	rm -rf crates/tktext/out crates/rows/out crates/tree_bench/out
	python3 tools/total.py 'python3 tools/gate.py' \
	  'python3 tools/wrong.py' \
	  'python3 tools/wrong_test.py' \
	  'python3 tools/facts.py' \
	  'python3 tools/selftest.py' \
	  'python3 tools/fuzz.py --program $(PROGRAM) --seeds 300' \
	  'python3 tools/fuzz.py --program $(PROGRAM) --seeds 100 --lines' \
	  'python3 tools/refusals.py --program $(PROGRAM) --shim $(SHIM) --rows $(ROWS)' \
	  'python3 tools/stores.py --rows $(ROWS)' \
	  'python3 tools/idle.py --program $(PROGRAM)' \
	  'python3 tools/devices.py --program $(PROGRAM)' \
	  'python3 tools/memory.py --program $(TREE_BENCH) --shim $(WEIGH)' \
	  'python3 tools/held.py --program $(PROGRAM) --shim $(WEIGH)' \
	  'python3 tools/tree_refusals.py --program $(TREE_BENCH) --shim $(SHIM)' \
	  'python3 tools/gains.py --program $(PROGRAM) --shim $(WEIGH) --file docs/gains.txt' \
	  'python3 tools/own_counter.py' \
	  'python3 tools/manual.py --program $(PROGRAM)' \
	  'python3 tools/tk.py --program $(PROGRAM)' \
	  'python3 tools/library.py --build' \
	  'python3 tools/library_bench.py --check' \
	  'python3 tools/pages.py' \
	  'python3 tools/mirror.py' \
	  'python3 tools/editor_test.py' \
	  'python3 tools/install_test.py' \
	  'python3 tools/fuzz_library.py'

check:
	@$(MAKE) --no-print-directory -j 2 $(TRIED) $(TRIED_LIBRARY)
	@python3 tools/check.py

fuzz: $(PROGRAM)
	python3 tools/fuzz.py --program $(PROGRAM) --seeds $(SEEDS) --first $(FIRST)

fuzz-library: $(LIBRARY)
	python3 tools/fuzz_library.py --seconds $(SECONDS) --first $(FIRST)

$(TREE_BENCH): $(SOURCES)
	cd crates/tree_bench && rt run -- mixed 100 20 > /dev/null
	@touch $@

bench: $(PROGRAM) $(TREE_BENCH) $(WEIGH) $(ASKED)
	python3 tools/bench.py --program $(PROGRAM) --asked $(ASKED) --out docs/bench.txt
	python3 tools/bench_lines.py --program $(TREE_BENCH) --out docs/bench_lines.txt
	python3 tools/bench_tree.py --program $(TREE_BENCH) --shim $(WEIGH) --out docs/bench_tree.txt

library-bench: $(OUT)/libtktext.a
	@python3 tools/library_bench.py --library $< $(if $(TRY),,--write)

bench-python: python
	@python3 tools/bench_python.py --module $(OUT)/python $(if $(TRY),,--out docs/bench_python.txt)

versus: $(PROGRAM)
	python3 tools/versus.py --program $(PROGRAM) --out docs/performance.md --kept out/tk_counts.json

gains: $(PROGRAM) $(WEIGH)
	python3 tools/gains.py --program $(PROGRAM) --shim $(WEIGH) --file docs/gains.txt \
	  $(if $(UPDATE),--update)

orders: $(PROGRAM)
	python3 tools/orders.py --program $(PROGRAM) --out docs/bench_orders.txt

counts: $(PROGRAM)
	python3 tools/bench_counts.py --program $(PROGRAM) --out docs/bench_counts.txt

gate:
	python3 tools/gate.py --ratio

tk: $(PROGRAM)
	python3 tools/tk.py --program $(PROGRAM)
	python3 tools/tk.py --program $(PROGRAM) --indices
	python3 tools/tk.py --program $(PROGRAM) --scripts $(SEEDS) --first $(FIRST)

.PHONY: help try try-lib run build lib python tcl man install uninstall dist examples check test fuzz \
  fuzz-library bench bench-python library-bench versus orders counts gains gate tk
