#!/usr/bin/env bash
# The stored test cases and their answers are what the second implementation makes. The program `vectors` runs those of
# the calls (crates/vectors/stdin and stdout), tests/hostile those of the program (tests/vectors). The format is
# described at the head of reference/src/cases.rs.
#
#   tests/vectors.sh          compares the stored files with what is made; exit status 1 where one differs
#   tests/vectors.sh --make   makes the stored files again
set -euo pipefail
cd "$(dirname "$0")/.."
export CARGO_TARGET_DIR=$PWD/target/cargo

vectors=(cargo run --quiet --release --locked -p mlhe_reference --bin vectors --)
case ${1:-} in
--make) "${vectors[@]}" . ;;
'') ;;
*)
    echo "usage: tests/vectors.sh [--make]" >&2
    exit 2
    ;;
esac
"${vectors[@]}" --check . || {
    echo "vectors: if the change is meant, tests/vectors.sh --make stores it, and git diff shows it;" \
        "if not, look at what was changed in reference/src or in the stored files" >&2
    exit 1
}
