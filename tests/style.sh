#!/usr/bin/env bash
# The layout of the Rust sources, and the lints of the Rust packages and of the scripts. Proves nothing and links
# nothing. The layout of the Rattle sources is for `rt ci`, which refuses another.
set -euo pipefail
cd "$(dirname "$0")/.."
# shellcheck source=tests/common.sh
. tests/common.sh
export CARGO_TARGET_DIR=$PWD/target/cargo

cargo fmt --all --check || fail "Rust is not in the layout. Next: cargo fmt --all"
MLHE_LIBRARY=none MLHE_FRAMES=none cargo clippy --quiet --locked --workspace --all-targets -- -D warnings \
    -D clippy::undocumented_unsafe_blocks -D unsafe_op_in_unsafe_fn ||
    fail "clippy warns. Next: MLHE_LIBRARY=none MLHE_FRAMES=none cargo clippy --workspace --all-targets -- \
-W clippy::undocumented_unsafe_blocks -W unsafe_op_in_unsafe_fn"
if command -v shellcheck > /dev/null; then
    shellcheck .ci/run .ci/report .ci/budget tests/*.sh bench/run bench/folder tools/edits tools/next tools/staticlib ||
        fail "shellcheck warns"
fi
echo "style: the layout and the lints are in order"
