#!/usr/bin/env bash
# Puts the Python package with the library under out/python.
set -euo pipefail
cd "$(dirname "${BASH_SOURCE[0]}")/../.."
rm -rf out/python
mkdir -p out/python
cp -r python/src/zogwedu out/python/
rm -rf out/python/zogwedu/__pycache__
cp -L out/lib/libwarc.so out/python/zogwedu/
sed 's|"" = "src"|"" = "."|' python/pyproject.toml > out/python/pyproject.toml
cp python/setup.py python/README.md out/python/
