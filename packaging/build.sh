#!/usr/bin/env bash
# Makes the Debian packages of this tree by dpkg-buildpackage, on a copy of it. What is built is taken as it is.
# Usage: build.sh FOLDER        writes the packages into FOLDER
set -euo pipefail
here=$(dirname "$(readlink -f "${BASH_SOURCE[0]}")")
folder=$(readlink -f "$1")
copy=$(mktemp -d)
trap 'rm -rf "$copy"' EXIT
umask 022

tree=$copy/zogwedu
mkdir "$tree"
built=(bin out/lib out/man out/completions out/python zogwedu.html)
(cd "$here/.." && git ls-files -z | tar -cf - "${built[@]}" --null --files-from=-) |
    tar -xf - -C "$tree" --no-same-owner
version=$(sed -n 's/^pub(crate) const VERSION: &str = "\(.*\)";$/\1/p' "$tree/crates/warc_arguments/src/help.rt")
day=$(sed -n "s/^## $version (\(.*\))$/\1/p" "$tree/CHANGELOG.md")
cp -r "$tree/packaging/debian" "$tree/debian"
sed -i -e "s/@VERSION@/$version/; s/@DATE@/$(date -R -u -d "$day")/" "$tree/debian/changelog"
# A tree from git has the times of its copying, and make would build anew what is older than its sources.
find "$tree" -exec touch -h -d "$day" {} +
(cd "$tree" && dpkg-buildpackage --build=binary --no-sign --no-check-builddeps) > "$copy/log" 2>&1 || {
    tail -n 40 "$copy/log" >&2
    exit 1
}
cp "$copy"/*.deb "$copy"/*.changes "$copy"/*.buildinfo "$folder"
