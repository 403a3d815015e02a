#!/usr/bin/env bash
# Makes the Debian packages, has lintian judge them, installs them, runs their own tests, and removes them. As root.
# On Debian it installs what it needs and isn't there.
# Usage: test.sh
set -euo pipefail
here=$(dirname "$(readlink -f "${BASH_SOURCE[0]}")")
bash "$here/../tools/need.sh" lintian:lintian man:man-db dpkg-buildpackage:dpkg-dev dh:debhelper dh_python3:dh-python \
    gcc:gcc pkg-config:pkgconf systemd-analyze:systemd
folder=$(mktemp -d)
trap 'rm -rf "$folder"' EXIT

bash "$here/build.sh" "$folder"
# The packages are in no archive of Debian, so no bug of Debian's asks for them.
lintian --fail-on error,warning --allow-root --suppress-tags initial-upload-closes-no-bugs "$folder"/*.changes
dpkg --install "$folder"/*.deb > /dev/null
cd /
for page in $(dpkg --listfiles zogwedu | sed -n 's|^/usr/share/man/man\(.\)/\(.*\)\.\1\.gz$|\1/\2|p'); do
    MANWIDTH=80 man --warnings "${page%%/*}" "${page#*/}" > "$folder/page" 2> "$folder/warnings"
    if [ -s "$folder/warnings" ] || ! grep -q '^SYNOPSIS\|^DESCRIPTION' "$folder/page"; then
        echo "the manual page ${page#*/} is wrong" >&2
        cat "$folder/warnings" >&2
        exit 1
    fi
done
systemd-analyze verify --man=no /lib/systemd/system/warc-collection* > "$folder/units" 2>&1 || status=$?
if [ "${status:-0}" != 0 ] || [ -s "$folder/units" ]; then
    echo "systemd doesn't take the units" >&2
    cat "$folder/units" >&2
    exit 1
fi
# The packages are for Debian's own programs, so another python3 that comes first in PATH doesn't find the module.
for name in program python library; do
    for user in root nobody; do
        runuser -u "$user" -- env PATH=/usr/sbin:/usr/bin:/sbin:/bin sh -s < "$here/debian/tests/$name"
        echo "the test $name passed as $user"
    done
done
packages=$(for deb in "$folder"/*.deb; do dpkg-deb --field "$deb" Package; done)
# shellcheck disable=SC2086 # several words are wanted
dpkg --remove $packages > /dev/null
for path in bin/warc share/doc/zogwedu share/zogwedu include/warc.h; do
    if [ -e "/usr/$path" ]; then
        echo "the packages left /usr/$path" >&2
        exit 1
    fi
done
echo "the packages were built, installed, tried and removed"
