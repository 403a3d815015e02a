#!/usr/bin/env bash
# Installs what isn't there, as root on Debian. Ends with 1 where that can't be done.
# Usage: need.sh WORD ..
#
# A word is NAME:PACKAGE, where NAME is a command, or the path or pattern of a file that the package has; or it is the
# name of a set below: `lint` is what tools/lint_code.py runs, `around` what `make test-around` runs.
set -euo pipefail

modules=/usr/lib/python3/dist-packages # Debian's, of Debian's Python
lint=(
    mypy:mypy black:black pyflakes3:pyflakes3 shellcheck:shellcheck tsc:node-typescript clang-format:clang-format
    gcc:gcc g++:g++ /usr/include/zlib.h:zlib1g-dev
    "$modules/hypothesis:python3-hypothesis" "$modules/pytest:python3-pytest" "$modules/waitress:python3-waitress"
)
around=(
    /usr/bin/python3:python3 "$modules/pytest:python3-pytest" "$modules/xdist:python3-pytest-xdist"
    "$modules/hypothesis:python3-hypothesis" "$modules/pip:python3-pip" "$modules/setuptools:python3-setuptools"
    "$modules/zstandard:python3-zstandard" "$modules/wheel:python3-wheel" '/usr/lib/python3.*/ensurepip:python3-venv'
    gcc:gcc g++:g++ /usr/include/zlib.h:zlib1g-dev valgrind:valgrind
    gzip:gzip zstd:zstd wget:wget bsdtar:libarchive-tools parallel:parallel strace:strace node:nodejs
    chromium:chromium "/usr/share/fonts/truetype/*/*.ttf:fonts-dejavu-core"
    /usr/share/nodejs/dompurify:node-dompurify /usr/share/nodejs/pako:node-pako
    /usr/share/nodejs/css-tree:node-css-tree
    "$modules/waitress:python3-waitress" "$modules/html5lib:python3-html5lib"
)

pairs=()
for word in "$@"; do
    case $word in
        lint) pairs+=("${lint[@]}") ;;
        around) pairs+=("${around[@]}") ;;
        *) pairs+=("$word") ;;
    esac
done
wanted=()
for pair in "${pairs[@]}"; do
    name=${pair%%:*}
    case $name in
        */*) compgen -G "$name" > /dev/null || wanted+=("${pair##*:}") ;;
        *) command -v "$name" > /dev/null || wanted+=("${pair##*:}") ;;
    esac
done
[ ${#wanted[@]} -gt 0 ] || exit 0
export DEBIAN_FRONTEND=noninteractive
install=(apt-get -o Acquire::Retries=3 install -y -q --no-install-recommends "${wanted[@]}")
if ! { apt-get -o Acquire::Retries=3 update -q && "${install[@]}"; } < /dev/null > /dev/null; then
    echo "not installed: ${wanted[*]}"
    exit 1
fi
