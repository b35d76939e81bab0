#!/usr/bin/env bash
# Installs those of Debian's packages that are missing for the tests of the tool and of Python. Only root can; anyone
# else is told what to install. Nothing is written to the repository.
#
#   tests/packages.sh [tool] [python]     those of the named tests; both, unless one is named
set -euo pipefail
cd "$(dirname "$0")/.."
# shellcheck source=tests/common.sh
. tests/common.sh

[ "$#" -gt 0 ] || set -- tool python
missing=()
for test in "$@"; do
    case $test in
    tool)
        for package in librust-{clap,ctrlc,indicatif,rayon,tempfile}-dev; do
            state=$(dpkg-query --show --showformat='${db:Status-Status}' "$package" 2> /dev/null || true)
            [ "$state" = installed ] || missing+=("$package")
        done
        ;;
    python)
        # Another python3 may stand before it on the path, without Debian's packages.
        /usr/bin/python3 -c 'import numpy' 2> /dev/null || missing+=(python3-numpy)
        /usr/bin/python3 -c 'import distributed' 2> /dev/null || missing+=(python3-distributed)
        ;;
    *) fail "usage: tests/packages.sh [tool] [python]" ;;
    esac
done
[ "${#missing[@]}" -gt 0 ] || exit 0

install=(apt-get install --yes --no-install-recommends -o DPkg::Lock::Timeout=300 "${missing[@]}")
if [ "$(id -u)" != 0 ] || ! command -v apt-get > /dev/null; then
    fail "Debian's ${missing[*]} are missing. Next, as root: ${install[*]}"
fi
echo "packages: installing what is missing: ${install[*]}"
export DEBIAN_FRONTEND=noninteractive
log=$(mktemp)
trap 'rm -f "$log"' EXIT
"${install[@]}" > "$log" 2>&1 ||
    { apt-get update > "$log" 2>&1 && "${install[@]}" >> "$log" 2>&1; } ||
    { tail -n 20 "$log" && fail "${missing[*]} cannot be installed"; }
