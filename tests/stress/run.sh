#!/bin/bash
# Runs the program over generated archives, where the system fails it, and over a collection, and compares it with the
# library as C, Python and Rust call it. Takes some minutes.
#
#   STRESS_COUNT=1000 STRESS_SEED=7 STRESS_ARCHIVES=100 bash tests/stress/run.sh
#
# STRESS_COUNT is the number of generated archives, over each of which fourteen command lines are run; STRESS_ARCHIVES
# the number of archives of the collection. As root on Debian it installs what it needs and isn't there.
set -u
cd "$(dirname "$0")/../.." || exit 1
count=${STRESS_COUNT:-10000}
seed=${STRESS_SEED:-1}
archives=${STRESS_ARCHIVES:-2000}
status=0
bash tools/need.sh strace:strace valgrind:valgrind parallel:parallel /usr/sbin/sshd:openssh-server wget:wget \
    ip:iproute2 zstd:zstd setpriv:util-linux /usr/lib/python3/dist-packages/hypothesis:python3-hypothesis \
    /usr/lib/python3/dist-packages/pytest:python3-pytest debootstrap:debootstrap \
    systemd-nspawn:systemd-container slurmctld:slurm-wlm munged:munge || exit 1
# Debian's Python has Debian's pytest and hypothesis.
python=$(command -v /usr/bin/python3 || command -v python3)
python3 tests/stress/differential.py bin/warc "$count" "$seed" || status=1
python3 tests/stress/selections.py bin/warc $((count / 10)) "$seed" || status=1
python3 tests/stress/pieces.py bin/warc $((count / 10)) "$seed" || status=1
python3 tests/stress/floods.py bin/warc || status=1
python3 tests/stress/system.py bin/warc || status=1
python3 tests/stress/memory.py bin/warc || status=1
python3 tests/stress/terminal.py bin/warc || status=1
python3 tests/stress/zwarc.py bin/warc || status=1
ROWS_COUNT=500 "$python" -m pytest -q tests/unit/test_rows.py || status=1
# Replays across files need the Python package, and so does the server.
make -s test-callers || status=1
python3 tests/stress/collection_faults.py bin/warc || status=1
python3 tests/stress/collection.py bin/warc "$archives" || status=1
python3 tests/stress/collection_slurm.py bin/warc || status=1
python3 tests/stress/serve.py bin/warc || status=1
python3 tests/stress/collection_units.py bin/warc || status=1
exit $status
