#!/usr/bin/env bash
# Compares what the program, C, Python and Rust give of the archives of the suites and of a crawl, compares the pieces
# of cut and changed ones with those of the second reading, has valgrind watch the library over 10,000 damaged archives
# and the thread sanitizer over threads, refuses memory and writes, installs the wheel, runs the examples and the
# samples of the pages, and opens a mapped file of 5 GB. Needs gcc; valgrind, hypothesis, cargo, zlib.h and what makes
# wheels are used where they are.
#
# CALLERS_COUNT is the number of damaged archives, CALLERS_SEED their seed, CALLERS_EXAMPLES the number that hypothesis
# makes.
set -euo pipefail
cd "$(dirname "${BASH_SOURCE[0]}")/../.."
out=out/callers
mkdir -p $out
export PYTHONPATH=$PWD/out/python:tests/callers PYTHONDONTWRITEBYTECODE=1
unset ZOGWEDU_LIBRARY

flags=(-std=c11 -Wall -Wextra -Wconversion -Werror -O1 -g -Iout/lib)
${CC:-cc} "${flags[@]}" tests/callers/report.c out/lib/libwarc.a -o $out/report
${CC:-cc} "${flags[@]}" tests/callers/mutated.c out/lib/libwarc.a -o $out/mutated
${CC:-cc} "${flags[@]}" tests/callers/refused.c out/lib/libwarc.a -o $out/refused
${CC:-cc} "${flags[@]}" -fsanitize=thread tests/callers/threads.c out/lib/libwarc.a -o $out/threads
$out/threads examples/crawl.warc
rust=-
if command -v cargo > /dev/null; then
    CARGO_TARGET_DIR=out/rust cargo build --quiet --release --offline --manifest-path rust/Cargo.toml --examples
    rust=out/rust/release/examples/report
fi
rm -rf $out/archives
python3 tests/callers/archives.py $out/archives
python3 tests/callers/compare.py bin/warc $out/report $rust $out/archives/*.warc examples/*.warc

watch=
if command -v valgrind > /dev/null; then
    watch="valgrind -q --leak-check=full --show-leak-kinds=all --errors-for-leak-kinds=all --error-exitcode=9"
else
    echo "no valgrind: the damaged archives are tried without"
fi
if python3 -c 'import hypothesis' 2> /dev/null; then
    python3 tests/callers/generated.py bin/warc $out/report $rust $out
elif /usr/bin/python3 -c 'import hypothesis' 2> /dev/null; then
    /usr/bin/python3 tests/callers/generated.py bin/warc $out/report $rust $out
else
    echo "no hypothesis: no archives are generated"
fi
python3 tests/callers/cuts.py
python3 tests/callers/test_wheel.py
python3 tests/callers/test_examples.py
python3 tests/callers/test_samples.py
$watch $out/mutated "${CALLERS_COUNT:-10000}" "${CALLERS_SEED:-1}" $out/archives/*.warc examples/crawl.warc
$out/refused $out/archives/*.warc examples/crawl.warc
python3 tests/callers/large.py $out
python3 tests/callers/speed.py bin/warc $out
