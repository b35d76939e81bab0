#!/usr/bin/env bash
# The Python module and the cluster example: makes the shared library from the static one and runs the tests of both,
# with Debian's own interpreter and packages. Packages that are missing are installed with apt-get, which only root can;
# nothing else is fetched. The cluster is a scheduler and two workers on the loopback address, which end with the test.
# Proves and builds the static library first, unless MLHE_LIBRARY=path/to/libcapi.a names one that is there.
# ZOPYKUE=path/to/zopykue compares the cluster's files with those of that tool too.
set -euo pipefail
cd "$(dirname "$0")/.."
# shellcheck source=tests/common.sh
. tests/common.sh
out=$PWD/target/python
python=/usr/bin/python3 # Debian's own
mkdir -p "$out"

tests/packages.sh python
library "$out"
make --quiet --always-make -C examples/python MLHE_LIBRARY="$MLHE_LIBRARY" SHARED="$out/libmlhe.so"

export LIBMLHE=$out/libmlhe.so PYTHONPATH=$PWD/examples/python
export PYTHONDONTWRITEBYTECODE=1 DASK_CONFIG=$out/dask # nothing is written outside target/
for test in examples/python/test_mlhe.py examples/cluster/test_cluster.py; do
    "$python" -W ignore::DeprecationWarning "$test" ||
        fail "a test failed. Next: LIBMLHE=$LIBMLHE PYTHONPATH=$PYTHONPATH $python $test CLASS.NAME, with the names above"
done
echo "python: the module and the cluster example are in order"
