#!/usr/bin/env bash
# Puts the Python package with the library under out/python, and runs its examples and tests.
set -euo pipefail
cd "$(dirname "${BASH_SOURCE[0]}")/../.."
bash tests/callers/package.sh
export PYTHONPATH=$PWD/out/python
unset ZOGWEDU_LIBRARY
python3 -c 'import doctest, sys, zogwedu; sys.exit(doctest.testmod(zogwedu).failed)'
python3 tests/callers/test_python.py
python3 tests/callers/test_compressed.py
python3 tests/callers/test_verdicts.py
python3 tests/callers/test_edges.py
python3 tests/callers/test_heads.py
python3 tests/callers/test_packages.py
echo "out/python has the package: PYTHONPATH=$PWD/out/python"
