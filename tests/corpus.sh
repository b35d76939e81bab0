#!/usr/bin/env bash
# Runs the program on every file of the corpus. Each answer is the one that the manifest names, and byte for byte that
# of the second implementation. Inputs at the limit of length, one that arrives in pieces, and an output that cannot be
# written follow. Proves and builds the program first, unless nothing has changed since or MLHE_PROGRAM=path/to/mlhe
# names one that is there.
set -euo pipefail
cd "$(dirname "$0")/.."
# shellcheck source=tests/common.sh
. tests/common.sh

# the manifest's column for the requirements as they stand
column=expected_after_request_1

out=target/corpus
mkdir -p "$out"
export CARGO_TARGET_DIR=$PWD/target/cargo
program=${MLHE_PROGRAM:-crates/mlhe/out/mlhe}
reference=target/cargo/release/program
manifest=tests/corpus/MANIFEST.tsv

if [ -z "${MLHE_PROGRAM:-}" ]; then
    log=$PWD/$out/check.log
    (cd crates/mlhe && rt run < stdin) 2> "$log" > "$out/answer" ||
        { cat "$log" && tools/next "$log" mlhe && fail "mlhe is not proved"; }
    cmp "$out/answer" crates/mlhe/stdout || fail "the program's stored run"
fi
cargo build --quiet --release --locked -p mlhe_reference

# prints the name, length and expected answer of each file, separated by tabs
entries() {
    awk -F '\t' -v column="$column" '
        NR == 1 { for (i = 1; i <= NF; i++) if ($i == column) at = i; if (!at) exit 1; next }
        { print $1 "\t" $2 "\t" $at }' "$manifest"
}

# runs the program on a file; its answer is that of the second implementation
answer() {
    "$program" < "$1" > "$out/answer"
    "$reference" < "$1" > "$out/reference"
    cmp "$out/answer" "$out/reference" || fail "$1: the program and the second implementation answer otherwise. \
Next: cmp $out/answer $out/reference; look at crates/frames and reference/src/program.rs"
}

# the answer is not the expected one
wrong() {
    fail "$2: expected '$1', answered '$(head -c 14 "$out/answer" | tr '\n' ' ' | tr -cd '[:print:]')'. Next: the requirements decide \
whether column $column of $manifest or crates/headers, crates/netpbm and crates/frames are wrong"
}

# the program answered the line
answered() {
    printf '%s\n' "$1" | cmp -s "$out/answer" - || wrong "$1" "$2"
}

entries > "$out/entries" || fail "$manifest has no column $column"
accepted=0
refused=0
while IFS=$'\t' read -r name length expected; do
    file=tests/corpus/$name
    [ "$(stat -c %s "$file")" = "$length" ] || fail "$name does not have the $length bytes that $manifest says"
    answer "$file"
    case $expected in
    "accept "*)
        sides=${expected#accept }
        printf 'P6\n%s\n255\n' "${sides/x/ }" > "$out/header"
        cmp -n "$(stat -c %s "$out/header")" "$out/answer" "$out/header" > /dev/null 2>&1 || wrong "$expected" "$name"
        accepted=$((accepted + 1))
        ;;
    *)
        answered "$expected" "$name"
        refused=$((refused + 1))
        ;;
    esac
done < "$out/entries"
[ "$((accepted + refused))" -gt 0 ] || fail "$manifest names no file"
echo "corpus: $accepted files accepted and $refused refused, as the manifest and the second implementation say"

# 65,536 bytes are read, and more are refused whatever they are: zeros, and a comment that never ends
{ printf 'P6\n#'; head -c 1000000 /dev/zero; } > "$out/comment"
for bytes in /dev/zero "$out/comment"; do
    head -c 65536 "$bytes" > "$out/longest"
    answer "$out/longest"
    answered "refused 10" longest
    for length in 65537 65538 1000000; do
        head -c "$length" "$bytes" > "$out/long"
        answer "$out/long"
        answered "refused 13" "$length bytes"
    done
done

# a frame that arrives in pieces is read whole
{ head -c 12; sleep 0.2; head -c 5000; sleep 0.2; cat; } < tests/corpus/pil.ppm | "$program" > "$out/answer"
"$program" < tests/corpus/pil.ppm | cmp - "$out/answer" || fail "a frame in pieces"
echo "corpus: inputs at the limit of length, and one in pieces, as they should be"

# an output that is not written whole is told on standard error, and nothing else is
"$program" < samples/dusk.ppm > /dev/full 2> "$out/errors"
printf 'mlhe: output not written whole\n' | cmp "$out/errors" - || fail "an output that cannot be written. \
Next: look at crates/mlhe/src/main.rt"
"$program" < samples/dusk.ppm 2> "$out/errors" > "$out/answer"
[ ! -s "$out/errors" ] || fail "an output that was written whole: $(head -c 80 "$out/errors")"
echo "corpus: an output that cannot be written is told of"
