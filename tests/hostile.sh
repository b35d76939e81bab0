#!/usr/bin/env bash
# Damaged and hostile input to the program's function, inputs at its limit of length, and its stored cases, against the
# second implementation. Proves and builds the static library first, unless MLHE_FRAMES=path/to/libframes.a names one
# that is there. Offline.
set -euo pipefail
cd "$(dirname "$0")/.."
# shellcheck source=tests/common.sh
. tests/common.sh
export CARGO_TARGET_DIR=$PWD/target/cargo

if [ -z "${MLHE_FRAMES:-}" ]; then
    log=target/hostile.log
    mkdir -p target
    staticlib frames "$log"
    MLHE_FRAMES=$PWD/target/staticlib/libframes.a
fi
MLHE_FRAMES=$(realpath "$MLHE_FRAMES")
export MLHE_FRAMES
cargo test --quiet --release --locked -p mlhe_hostile ||
    fail "the program's function answers otherwise than the second implementation. Next: the input's number and seed stand \
above; tests/hostile/src/inputs.rs makes it; compare crates/frames with reference/src/program.rs"
