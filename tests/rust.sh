#!/usr/bin/env bash
# What is tested from outside the proofs: the second implementation's own tests, the safe Rust crate's tests and the
# examples in its documentation, the C functions against the second implementation, both example programs on a small
# frame, and that docs/EVIDENCE.md is as its program writes it. Stops at the first error. Offline.
#
#   tests/rust.sh            some minutes at most, once the library is proved
#   tests/rust.sh --long     with the long differential test
set -euo pipefail
cd "$(dirname "$0")/.."
# shellcheck source=tests/common.sh
. tests/common.sh
out=target/rust
mkdir -p "$out"
export CARGO_TARGET_DIR=$PWD/target/cargo

# The library is proved and built once, here, unless it is named, and all that follows links it.
library "$out"
cargo=(cargo --quiet --locked)

# tests/hostile.sh has the package that links another library.
"${cargo[@]}" test --release --workspace --exclude mlhe_hostile ||
    fail "a test failed. Next: cargo test --release -p PACKAGE NAME, with the names above"
"${cargo[@]}" run --release -p mlhe_differential -- "$@" ||
    fail "library and second implementation differ. Next: cargo run --release -p mlhe_differential -- --case K --seed S, \
with the numbers above"
"${cargo[@]}" run --release -p mlhe_evidence -- --check ||
    fail "docs/EVIDENCE.md and its pictures are made from tools/evidence, not by hand. Next: \
cargo run --release -p mlhe_evidence, and read the difference"

# From a project elsewhere the crate is used by its path, and nothing is written here.
user=$(mktemp -d)
trap 'rm -rf "$user"' EXIT
mkdir "$user/src"
printf '[package]\nname = "user"\nversion = "0.0.0"\nedition = "2021"\n[dependencies]\nmlhe = { path = "%s/rust" }\n' \
    "$PWD" > "$user/Cargo.toml"
echo 'fn main() { println!("{}", mlhe::Frame::from_p6(b"P6 1 1 255 abc").unwrap().width()) }' > "$user/src/main.rs"
touch "$out/before"
(cd "$user" && CARGO_TARGET_DIR=$user/target cargo --quiet --offline run) | grep -qx 1 ||
    fail "a project that uses the crate does not build and run"
written=$(find rust target/staticlib -newer "$out/before" 2> /dev/null) || true
[ -z "$written" ] || fail "the crate writes outside cargo's build folder: $written"

# Both examples, as their documentation says: frames of the corpus with the house setting and with lists of both
# versions, the same bytes from both; and what is wrong with a file is said, with a status that is not 0.
make --quiet -C examples/c MLHE_LIBRARY="$MLHE_LIBRARY"
"${cargo[@]}" build --release -p mlhe --example enhance
c=examples/c/enhance
rust=target/cargo/release/examples/enhance
frames=(tests/corpus/pil.ppm tests/corpus/imagemagick-4096x4.ppm tests/corpus/column-1x1024.ppm
    tests/corpus/gimp-raw.ppm)
# A limited pass on [0, 255], area 1, clip 10, and an affine one on [0, 127], area 20, 5 segments, slopes 50 to 300.
limited='\0\377\1\0\1\0\0\0\12\0\0\0'
affine='\0\177\2\5\24\0\0\0\62\0\54\1'
printf '%b' 'MLP\1\0\2\0' "$limited" "$affine" > "$out/passes.mlp"
# The same in version 2, and with eight neighbours for the affine one.
printf '%b' 'MLP\2\0\2\0' "$limited" '\4\0\0\0' "$affine" '\4\0\0\0' > "$out/same.mlp"
printf '%b' 'MLP\2\0\2\0' "$limited" '\4\0\0\0' "$affine" '\10\0\0\0' > "$out/eight.mlp"
for frame in "${frames[@]}"; do
    name=$(basename "$frame")
    for list in '' passes same eight; do
        file=${list:+$out/$list.mlp}
        "$c" ${file:+"$file"} "$frame" "$out/c.ppm"
        "$rust" ${file:+"$file"} "$frame" "$out/rust.ppm"
        cmp "$out/c.ppm" "$out/rust.ppm" || fail "$name: examples/c and rust/examples differ, list '$list'"
        cp "$out/c.ppm" "$out/c-$list.ppm"
    done
    cmp "$out/c-passes.ppm" "$out/c-same.ppm" || fail "$name: both versions of a list do not enhance alike"
done

# A command that has to end with status 1 and to name the file and the refusal on standard error.
refused() {
    local file=$1 number=$2 status=0
    shift 2
    "$@" > /dev/null 2> "$out/error.txt" || status=$?
    if [ "$status" != 1 ] || ! grep -q "$file: refused $number: " "$out/error.txt"; then
        fail "$*: not refused with $number, but status $status and: $(cat "$out/error.txt")"
    fi
}
short=tests/corpus/truncated-middle.ppm
refused "$short" 12 "$c" "$short" "$out/c.ppm"
refused "$short" 12 "$rust" "$short" "$out/rust.ppm"
refused "$short" 15 "$c" "$short" "${frames[0]}" "$out/c.ppm"
refused "$short" 15 "$rust" "$short" "${frames[0]}" "$out/rust.ppm"
echo "rust: tests, differential test, examples and evidence are in order"
