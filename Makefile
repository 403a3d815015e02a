# make try          runs the program in about a minute: compiled with checks, not proved. FILE=my.warc lists a file, and
#                   RUN="check my.warc" runs a command
# make quick        everything that can be known without a proof: some ten minutes; it ends as `make test` does
# make              proves the program's crates, several at a time, and builds bin/warc
# make test         everything that must pass: lint, proofs, tests over them; the last line is 'N passed, M failed'
# make lib          proves the crates that C calls, and puts libwarc.a, libwarc.so and warc.h under out/lib
# make python       puts the Python package with the library under out/python, and tests it
# make rust         builds and tests the Rust crate over the library
# make test-around  tries what people touch, over what is built, in small sizes side by side: pages, zwarc, C, Python,
#                   Rust, the collection, the reading room in Chromium; ARGS="-k zwarc" picks tests
# make test-callers compares what the program, C, Python and Rust give of many archives; 10,000 damaged ones by valgrind
# make plants       tries the planted bugs of tests/plants, which the gate leaves out; hours; before a release
# make check        the quick check while editing: the whole tree, over what earlier checks kept
# make test-docs    runs the command lines of three pages, and compares what they write
# make test-compatibility   opens files that wget and bsdtar write, and those of docs/COMPATIBILITY.md
# make lint         checks the text of the tree: words, headers, widths, edits, numbers, and the pages
# make lint-code    checks the code that isn't proved: types, layout, warnings; leaves out what isn't installed
# make lint-docs    compares README's code with the example crates, and looks for what the pages may not hold
# make numbers      makes docs/NUMBERS.md from the table of numbers
# make program-page   makes docs/PROGRAM.md of the help texts, the cases and tools/program_page.md
# make man          makes the manual pages and the completions under out/
# make collection   makes the one file out/warc-collection of the package in collection/
# make install      copies what is built to PREFIX: the program, pages, completions, docs, examples, and the library,
#                   the reading room and the Rust crate if they are built; LIBDIR and DESTDIR are heeded; make uninstall
#                   removes what was installed
# make install-python   copies the Python package to PYTHONDIR, or where Debian's Python looks; make uninstall-python
# make dist         makes the tarballs of a release under dist/ (program and library, Python, Rust, source), the reading
#                   room, and their SHA-256
# make verify-dist FILE=..   builds from this folder, and compares with such a tarball byte for byte
# make stress       runs bin/warc over generated archives, and where the system fails it; minutes; before a release
# make test-package makes the Debian packages, and tries them (as root)
# make page         proves and builds the library for WebAssembly, and writes zogwedu.html, the reading room
# make test-page    tries the reading room in headless Chromium (needs chromium and wget); minutes
# make bench        measures, and prints the tables of docs/SPEED.md and docs/PAGE.md for this commit (needs gcc,
#                   valgrind and chromium); make bench-libraries measures single libraries, as bench/HISTORY.md has them
# make clean        drops what was built, with the trees in which crates were proved (in ~/.cache/zogwedu)

# What is proved shares the processors already, so nothing here runs side by side, whatever -j says.
.NOTPARALLEL:

# The scripts read these in the environment, so that each may hold spaces and quotes.
PREFIX ?= /usr/local
export PREFIX LIBDIR DESTDIR PYTHONDIR FILE RUN
ARGS ?=

.PHONY: all try quick test test-around plants check lint lint-code test-docs lint-docs man install uninstall
.PHONY: install-python uninstall-python dist verify-dist test-compatibility test-package stress bench bench-libraries
.PHONY: clean lib python rust test-callers page test-page numbers program-page collection

define PAGES
@python3 tools/make_collection.py out/warc-collection
@python3 tools/make_man.py out/man
@python3 tools/make_completions.py bin/warc out/completions
endef

all:
	@python3 tools/build.py
	$(PAGES)

try:
	@python3 tools/try_program.py

test:
	@.ci/run

quick:
	@python3 tools/quick.py

plants:
	@python3 tools/plants.py

check:
	@rt all check

lib:
	@python3 tools/build_lib.py

# The package and the crate take a built library as it is. Build anew with `make lib`.
out/lib/libwarc.so out/lib/libwarc.a:
	@python3 tools/build_lib.py

python: out/lib/libwarc.so
	@bash tests/callers/python.sh

rust: out/lib/libwarc.a
	@CARGO_TARGET_DIR=out/rust cargo test --quiet --offline --manifest-path rust/Cargo.toml

test-callers: bin/warc out/lib/libwarc.so python
	@bash tests/callers/run.sh

# The tools take a built program as it is. Build anew with `make`.
bin/warc:
	@python3 tools/build.py

# Takes what is built as it is.
test-around: bin/warc out/lib/libwarc.so zogwedu.html
	@python3 tools/test_around.py $(ARGS)

test-docs: bin/warc
	@python3 tools/test_docs.py bin/warc README.md docs/PROGRAM.md docs/FIRST-HOUR.md

test-compatibility: bin/warc
	@bash tools/need.sh wget:wget bsdtar:libarchive-tools gzip:gzip
	@python3 tests/compatibility/compare.py bin/warc
	@python3 tests/compatibility/payloads.py bin/warc

lint: lint-docs lint-code
	@python3 tools/lint.py

lint-code:
	@python3 tools/lint_code.py

lint-docs:
	@python3 tools/lint_docs.py

numbers:
	@python3 tools/make_numbers.py

program-page:
	@python3 tools/make_program.py

collection:
	@python3 tools/make_collection.py out/warc-collection

man: bin/warc
	$(PAGES)

# These copy what is built, and build nothing: proving as root would leave root's files here.
install uninstall install-python uninstall-python:
	@python3 tools/install.py $@

dist: all lib python page
	@python3 tools/dist.py make

verify-dist: all lib python page
	@python3 tools/dist.py verify "$$FILE"

test-package: bin/warc out/lib/libwarc.so python zogwedu.html man
	@bash packaging/test.sh

stress: bin/warc
	@bash tests/stress/run.sh

page:
	@python3 tools/build_page.py

out/python/zogwedu/libwarc.so: out/lib/libwarc.so
	@bash tests/callers/python.sh

# Takes a built page as it is. Build anew with `make page`.
zogwedu.html:
	@python3 tools/build_page.py

test-page: bin/warc zogwedu.html out/python/zogwedu/libwarc.so
	@python3 tests/page/test_page.py zogwedu.html bin/warc out/page
	@python3 tests/page/test_served.py bin/warc out/page

bench: all zogwedu.html out/python/zogwedu/libwarc.so
	@python3 bench/bench.py bin/warc out/bench
	@python3 bench/replay.py . bin/warc out/bench
	@python3 bench/selections.py bin/warc out/bench
	@PYTHONPATH=out/python python3 bench/written.py bin/warc out/bench
	@python3 bench/pieces.py bin/warc out/bench
	@python3 bench/digests.py bin/warc out/bench
	@python3 bench/page.py zogwedu.html bin/warc out/bench
	@bash tools/need.sh wrk:wrk
	@PYTHONPATH=out/python python3 bench/serve.py bin/warc

bench-libraries: all
	@python3 bench/decoder.py . out/bench
	@python3 bench/order.py . out/bench
	@python3 bench/segment.py . out/bench
	@python3 bench/index.py . out/bench

clean:
	@python3 tools/proofs.py clean
	rm -rf out bin dist crates/*/out
