#!/usr/bin/env bash
# The tool, `zopykue`: its layout and lints, its frames and planes against the second implementation, then a folder as
# people leave it with the report that is stored in tests/tool, targets that are refused, a full disk, a kill in the
# middle, an interrupt, a closed pipe, a terminal, lists of both versions, and eight neighbours. Stops at the first
# error.
#
# The crates that the tool uses are Debian's packages. What is missing is installed, by root; anyone else is told what
# to install. Nothing else is fetched. Proves and builds the library first, unless MLHE_LIBRARY=path/to/libcapi.a names
# one.
set -euo pipefail
cd "$(dirname "$0")/.."
# shellcheck source=tests/common.sh
. tests/common.sh
repository=$PWD
out=$PWD/target/tool-test
mkdir -p "$out"
exec < /dev/null

tests/packages.sh tool
library "$out"
unset CARGO_TARGET_DIR

# A lock that another release of Debian left would name versions that are not there.
cd tool
rm -f Cargo.lock
cargo fmt --check || fail "not in the layout. Next: cd tool && cargo fmt"
cargo clippy --quiet --release --all-targets -- -D warnings ||
    fail "clippy warns. Next: cd tool && cargo clippy --release --all-targets"
cargo test --quiet --release > "$out/cargo-test.log" 2>&1 ||
    { cat "$out/cargo-test.log" && fail "a test failed. Next: cd tool && cargo test --release NAME"; }
cargo build --quiet --release
cd ..
zopykue=$PWD/target/tool/release/zopykue
echo "tool: layout, lints, and frames and planes of the second implementation are in order"

# Everything else happens in a folder of its own, by relative names.
work=$(mktemp -d)
running=
ended() {
    [ -z "$running" ] || kill -KILL "$running" 2> /dev/null || true
    rm -rf "$work"
}
trap ended EXIT
cd "$work"

# A raster of any content is cut from this: that of a frame of the corpus, over and over.
tail -c 18432 "$repository/tests/corpus/pil.ppm" > tile
for _ in $(seq 360); do cat tile; done > rasters

# A frame of these sides, from this byte of the rasters on.
frame() { # W H START FILE
    printf 'P6\n%d %d\n255\n' "$1" "$2" > "$4"
    tail -c "+$(($3 + 1))" rasters | head -c "$((3 * $1 * $2))" >> "$4" || true
}

# A command that ends with this status and says so much on standard error.
ends() { # STATUS WORDS COMMAND...
    local expected=$1 words=$2 status=0
    shift 2
    "$@" > printed 2> told || status=$?
    if [ "$status" != "$expected" ] || ! grep -qF -- "$words" told; then
        fail "$*: status $status, not $expected with '$words', but: $(head -n 5 told)"
    fi
}

# All files below a folder, by name.
files() {
    (cd "$1" && find . ! -type d | LC_ALL=C sort)
}

# Bytes of these values.
dots() { # VALUES...
    printf '%b' "$(printf '\\x%02x' "$@")"
}

# The folder as people leave it.
corpus=$repository/tests/corpus
mkdir -p shot/left/.thumbnails shot/right/old
frame 64 48 0 shot/left/f1.ppm
frame 320 240 0 shot/left/f2.ppm
frame 1024 1024 0 shot/left/f3.ppm
frame 64 48 30 shot/right/f1.ppm
frame 320 240 30 shot/right/f2.ppm
frame 1024 1024 30 shot/right/f3.ppm
frame 640 480 0 shot/right/old/f1.ppm
frame 1920 1080 0 shot/left/f4-large.ppm
frame 5000 2 0 shot/left/f5-wide.ppm
frame 128 96 0 "shot/left/f1 copy of (1).ppm"
frame 96 64 0 shot/left/F6.PPM
frame 96 64 3 shot/left/f6.pnm
frame 80 60 0 shot/left/read-only.ppm
chmod 444 shot/left/read-only.ppm
head -c 5000 shot/left/f1.ppm > shot/left/cut-f1.ppm
head -c 1000000 shot/left/f3.ppm > shot/left/cut-f3.ppm
head -c 7 shot/left/f1.ppm > shot/left/cut-header.ppm
cp "$corpus/thumb-48.png" shot/left/thumb-f1.ppm
cp "$corpus/named-ppm-but-jpeg.ppm" shot/left/thumb-f2.ppm
cp "$corpus/thumb-48.png" shot/left/.thumbnails/f1.ppm
cp "$corpus/gimp-raw.ppm" shot/left/resaved-comment.ppm
cp "$corpus/comment-unended.ppm" shot/left/comment-unended.ppm
cp "$corpus/comment-glued-to-maxval.ppm" shot/left/comment-glued.ppm
cp "$corpus/comment-before-magic.ppm" shot/left/comment-first.ppm
cp "$corpus/resaved-comma.ppm" shot/left/resaved-comma.ppm
cp "$corpus/netpbm-two-frames.ppm" shot/left/two.ppm
cp "$corpus/opencv-16bit.ppm" shot/left/sixteen.ppm
cp "$corpus/netpbm-maxval15.ppm" shot/left/fifteen.ppm
cp "$corpus/netpbm-gray-P5.pgm" shot/left/grey.ppm
cp "$corpus/netpbm-plain-P3.ppm" shot/left/plain.ppm
cp "$corpus/frames.txt" shot/left/notes.ppm
cp "$corpus/trailing-newline.ppm" shot/left/newline.ppm
: > shot/left/empty.ppm
printf 'P6\n4 4\n255\n' > shot/left/long.ppm
truncate -s 5G shot/left/long.ppm
printf 'P6\n#' > shot/left/long-comment.ppm
truncate -s 5M shot/left/long-comment.ppm
printf 'P6 1024%2000000s1024 255\n' '' > shot/left/long-header.ppm
head -c 3145728 rasters >> shot/left/long-header.ppm
mkfifo shot/left/pipe.ppm
ln -s nowhere.ppm shot/left/link-to-nothing.ppm
ln -s f1.ppm shot/left/link-to-f1.ppm
ln -s ../right shot/left/right
cp "$corpus/frames.txt" shot/notes.txt
: > shot/left/Thumbs.db
: > shot/left/.DS_Store
(cd shot && find . -type f ! -name long.ppm -exec cksum {} + | LC_ALL=C sort) > inputs.before

# One command, in memory that does not hold the long file; the report is the stored one.
status=0
(ulimit -v 1500000 && exec "$zopykue" enhance --to enhanced --plane --report report.tsv shot) > printed 2> told ||
    status=$?
[ "$status" = 1 ] || fail "the folder: status $status, and $(cat told)"
cp report.tsv "$out/report.tsv"
diff "$repository/tests/tool/report.tsv" report.tsv ||
    fail "the report is not the stored one. Next: if it is right, cp target/tool-test/report.tsv tests/tool/report.tsv"
tail -n 1 printed | diff "$repository/tests/tool/last-line.txt" - || fail "the last line"
[ "$(wc -l < printed)" = 1 ] || fail "more than the last line is printed: $(head -n 3 printed)"
awk -F '\t' 'NR > 1 && $3 != "enhanced" { print "zopykue: " $1 ": " $3 ": " $6 }' report.tsv | LC_ALL=C sort > expected
grep -v '^zopykue: passed over: 5 ' told | LC_ALL=C sort | diff expected - ||
    fail "what is told is not what is reported"
tr -d '\n\t[:print:]' < told | cmp - /dev/null || fail "a log has a progress line in it"
awk -F '\t' '$3 == "enhanced" { print "./" $1; sub(/\.(ppm|pnm|PPM)$/, ".pgm", $1); print "./" $1 }' report.tsv |
    LC_ALL=C sort > expected
files enhanced | diff expected - || fail "there are other results than the report says"
(cd shot && find . -type f ! -name long.ppm -exec cksum {} + | LC_ALL=C sort) | cmp - inputs.before ||
    fail "an input is changed"
echo "tool: a folder as people leave it: $(tail -n 1 printed)"

# Each frame is what the program and the second implementation make of it: small ones here, large ones in cargo's tests.
cargo build --quiet --release --locked --manifest-path "$repository/Cargo.toml" \
    --target-dir "$repository/target/cargo" -p mlhe_reference
for name in left/f1 right/f1 "left/f1 copy of (1)" left/read-only left/resaved-comment; do
    "$repository/target/cargo/release/program" < "shot/$name.ppm" | cmp - "enhanced/shot/$name.ppm" || fail "$name"
done

# The same by one core and by files; the sides of a pair stay apart, by folders and by files.
"$zopykue" enhance --jobs 1 --to one shot/left/f?.ppm shot/right/f?.ppm > printed
diff <(echo '6 enhanced, 0 refused, 0 failed') printed
for side in left right; do
    for name in f1 f2 f3; do
        cmp "one/$side/$name.ppm" "enhanced/shot/$side/$name.ppm" || fail "$side/$name: by files"
    done
done
"$zopykue" enhance --to pair shot/right shot/right/f1.ppm > printed
[ "$(files pair | xargs)" = './right/f1.ppm ./right/f2.ppm ./right/f3.ppm ./right/old/f1.ppm' ] ||
    fail "a folder: $(files pair)"
(cd shot/right && "$zopykue" enhance --to ../../here . ../left/f1.ppm f1.ppm > /dev/null)
expected='./f1.ppm ./left/f1.ppm ./right/f1.ppm ./right/f2.ppm ./right/f3.ppm ./right/old/f1.ppm'
[ "$(files here | xargs)" = "$expected" ] ||
    fail "names from where one is: $(files here)"

# Refused before any work, with status 2: nothing is written, and no folder made.
mkdir -p other/left lists nothing
cp shot/left/f1.ppm other/left/f1.ppm
cp shot/left/f1.ppm lists/g.ppm
cp shot/left/f1.ppm lists/g.pnm
printf 'MLP\1\0\0\0' > empty.mlp
printf 'MLQ\1\0\0\0' > wrong.mlp
ln -s shot linked
refused() { # WORDS COMMAND...
    ends 2 "$@"
    [ ! -e new ] || fail "$*: a folder is made"
}
refused 'shot/left/f1.ppm and other/left/f1.ppm would both be written to new/left/f1.ppm' \
    "$zopykue" enhance --to new shot/left/f1.ppm other/left/f1.ppm
refused 'lists/g.pnm and lists/g.ppm would both be written to new/lists/g.pgm' "$zopykue" enhance --plane --to new lists
refused 'would be written over the input shot/left/f1.ppm' "$zopykue" enhance --to shot shot/left/f1.ppm
refused 'would be written over the input shot/left/f1.ppm' "$zopykue" enhance --to linked shot/left/f1.ppm
refused 'would be written over the input' "$zopykue" enhance --to . shot
refused 'it is the folder for the results too' "$zopykue" enhance --to linked shot
mkdir hard hard/left
ln shot/left/f1.ppm hard/left/f1.ppm
refused 'would be written over the input shot/left/f1.ppm' "$zopykue" enhance --to hard shot/left/f1.ppm
refused 'would be written over the input empty.mlp' \
    "$zopykue" enhance --to new --list empty.mlp --report empty.mlp lists/g.ppm
refused 'the report would be written over a result' "$zopykue" enhance --to new --report new/lists/g.ppm lists/g.ppm
refused 'it is there and no file' "$zopykue" enhance --to new --report /dev/null lists/g.ppm
refused 'none/report.tsv: No such file' "$zopykue" enhance --to new --report none/report.tsv lists/g.ppm
refused 'absent.ppm: No such file' "$zopykue" enhance --to new lists/g.ppm absent.ppm
refused 'File exists' "$zopykue" enhance --to empty.mlp lists/g.ppm
refused 'there is no file named .ppm or .pnm' "$zopykue" enhance --to new nothing
refused 'wrong.mlp: refused 15' "$zopykue" enhance --to new --list wrong.mlp lists/g.ppm
refused 'refused 9' "$zopykue" enhance --to new --last 8 lists/g.ppm
refused 'refused 7' "$zopykue" enhance --to new --plain 5 4 lists/g.ppm
refused 'refused 18' "$zopykue" enhance --to new --affine 0 5 6 lists/g.ppm
refused 'refused 18' "$zopykue" enhance --to new --affine 257 5 6 lists/g.ppm
refused 'refused 18' "$zopykue" enhance --to new --affine 2 6 5 lists/g.ppm
refused '2 were provided' "$zopykue" enhance --to new --affine 2 5 --jobs 1 lists/g.ppm
refused 'refused 19: the number of neighbours is neither 4 nor 8' "$zopykue" enhance --to new --neighbours 6 lists/g.ppm
refused 'refused 19' "$zopykue" enhance --to new --neighbours 260 lists/g.ppm
refused 'refused 18' "$zopykue" enhance --to new --neighbours 6 --affine 0 5 6 lists/g.ppm
refused 'cannot be used with' "$zopykue" enhance --to new --neighbours 8 --list empty.mlp lists/g.ppm
refused 'cannot be used with' "$zopykue" enhance --to new --limited 4 --list empty.mlp lists/g.ppm
refused 'cannot be used with' "$zopykue" enhance --to new --affine 2 5 6 --list empty.mlp lists/g.ppm
refused 'cannot be used with' "$zopykue" enhance --to new --affine 2 5 6 --limited 4 lists/g.ppm
refused 'required' "$zopykue" enhance lists/g.ppm
refused 'required' "$zopykue" enhance --to new
[ -z "$(find . -name '.zopykue-*')" ] || fail "a part is left"
[ -c /dev/null ] || fail "/dev/null is replaced"
cmp shot/left/f1.ppm other/left/f1.ppm || fail "an input is changed"
echo "tool: what would be lost is refused beforehand"

# Results in a folder of the input are not taken for frames by the next run.
cp -r shot/right inside
"$zopykue" enhance --to inside/results inside > first
"$zopykue" enhance --to inside/results inside | diff first - || fail "results are taken for frames"

# Rights: those of a new file are as for any other, and those of a file that is replaced stay.
(umask 027 && "$zopykue" enhance --to rights lists/g.ppm > /dev/null)
[ "$(stat -c %a rights/lists/g.ppm)" = 640 ] || fail "the rights of a new file"
chmod 604 rights/lists/g.ppm
"$zopykue" enhance --to rights lists/g.ppm > /dev/null
[ "$(stat -c %a rights/lists/g.ppm)" = 604 ] || fail "the rights of a file that is replaced"

# Earlier results, made with other settings, and those of the house setting.
mkdir many
for number in $(seq 10 33); do frame 512 512 "$((3 * number))" "many/f$number.ppm"; done
"$zopykue" enhance --last 0 --to earlier many > /dev/null
"$zopykue" enhance --to later many > /dev/null

# Every file of a folder is as it was earlier or as it is to be later, and no file has gone; how many are new.
whole() { # FOLDER
    local new=0 file
    [ "$(files "$1" | grep -v '/\.zopykue-')" = "$(files earlier)" ] || fail "$2: files are gone or new: $(files "$1")"
    for file in $(files earlier); do
        if cmp -s "$1/$file" "later/$file"; then
            new=$((new + 1))
        else
            cmp "$1/$file" "earlier/$file" || fail "$2: $file is cut"
        fi
    done
    echo "$new"
}
parts() { # FOLDER
    files "$1" | grep -c '/\.zopykue-' || true
}

# A limit on the size of files, and a full disk: all fail, nothing is lost, and nothing is left over.
cp -r earlier limited
ends 1 'File too large' bash -c "trap '' XFSZ && ulimit -f 300 && exec '$zopykue' enhance --to limited many"
diff <(echo '0 enhanced, 0 refused, 24 failed') printed
[ "$(whole limited 'a limit on the size')/$(parts limited)" = 0/0 ] || fail "a limit on the size of files"
full() {
    mount -t tmpfs -o size=18900k none full
    cp -r earlier/many full
    status=0
    "$zopykue" enhance --to full many > printed 2> told || status=$?
    [ "$status" = 1 ] || fail "a full disk: status $status"
    grep -q 'failed: it cannot be written: No space left on device' told || fail "a full disk: $(head -n 3 told)"
    new=$(whole full 'a full disk')
    [ "$(cat printed)" = "$new enhanced, 0 refused, $((24 - new)) failed" ] ||
        fail "a full disk: $(cat printed), $new are new"
    [ "$(parts full)" = 0 ] || fail "a full disk: parts are left"
}
mkdir full
export -f full fail whole files parts
export zopykue
if unshare --mount --map-root-user mount -t tmpfs none full 2> /dev/null; then
    unshare --mount --map-root-user bash -euc full
    echo "tool: a full disk and a limit on the size of files lose nothing"
else
    echo "tool: a limit on the size of files loses nothing; a full disk is not tried, for no file system can be mounted"
fi

# Begins a run in a folder with earlier results, and waits until some frames of it are there.
begun() { # FOLDER
    cp -r earlier "$1"
    "$zopykue" enhance --jobs 1 --to "$1" many > printed 2> told &
    running=$!
    while kill -0 "$running" 2> /dev/null && cmp -s "$1/many/f11.ppm" earlier/many/f11.ppm; do sleep 0.01; done
}
begun killed
kill -KILL "$running"
wait "$running" 2> /dev/null || true
running=
new=$(whole killed 'a kill')
[ "$new" -gt 0 ] || fail "a kill: it came too early"
echo "tool: a kill in the middle, after $new of 24 frames, loses nothing"
begun interrupted
kill -INT "$running"
status=0
wait "$running" || status=$?
running=
new=$(whole interrupted 'an interrupt')
[ "$status/$(parts interrupted)" = 1/0 ] || [ "$new" = 24 ] ||
    fail "an interrupt: status $status, $(parts interrupted) parts"
[ "$(cat printed)" = "$new enhanced, 0 refused, 0 failed" ] || fail "an interrupt: $(cat printed), $new are new"
grep -q "interrupted: $((24 - new)) not begun" told || [ "$new" = 24 ] || fail "an interrupt: $(cat told)"
"$zopykue" enhance --to interrupted many > /dev/null
diff -r interrupted later || fail "a run after an interrupt"
echo "tool: an interrupt, after $new of 24 frames, leaves whole files only"

# A reader that has gone is no panic and no failure; an output that cannot be written is told.
for command in 'enhance --to closed lists/g.ppm' 'list' 'list empty.mlp' 'list convert empty.mlp other.mlp' '--help'; do
    # shellcheck disable=SC2086
    { status=0 && { "$zopykue" $command 2> told || status=$?; } && echo "$status" > status; } | true
    [ "$(cat status)" = 0 ] || fail "a closed pipe: $command: status $(cat status)"
    [ ! -s told ] || fail "a closed pipe: $command: $(cat told)"
done
"$zopykue" enhance --to closed shot/left/cut-f1.ppm lists/g.ppm > printed 2>&- || [ $? = 1 ] ||
    fail "standard error is closed"
diff <(echo '1 enhanced, 1 refused, 0 failed') printed
ends 1 'No space left' bash -c "exec '$zopykue' list > /dev/full" || fail "an output that cannot be written"

# A terminal gets a progress line; the last line is the same.
if command -v script > /dev/null; then
    script --quiet --return --command "$zopykue enhance --to terminal shot/right" terminal.log > /dev/null
    grep -q ' of 4 files, ' terminal.log || fail "no progress line on a terminal"
    grep -q '4 enhanced, 0 refused, 0 failed' terminal.log || fail "no last line on a terminal"
fi

# Lists: printed, made from what is printed, and what is wrong with them.
"$zopykue" list --to house.mlp
"$zopykue" list house.mlp > house.txt
head -n 3 house.txt | diff - "$repository/tests/tool/list.txt" || fail "a list as text"
"$zopykue" list --text - --to again.mlp < house.txt
cmp house.mlp again.mlp || fail "text and list differ"
ends 1 'wrong.mlp: refused 15' "$zopykue" list wrong.mlp
printf '%s\n' '# 3 passes: first value, last value, least area, rule' '0 255 1 plain 80 300' '0 127 20 limited 40' \
    '128 255 20 affine 5 50 300' > rules.txt
"$zopykue" list --text rules.txt --to rules.mlp
"$zopykue" list rules.mlp | diff rules.txt - || fail "a list of all rules as text"
"$zopykue" list --last 1 --affine 16 0 10000 | diff - <(printf '%s\n' \
    '# 3 passes: first value, last value, least area, rule' '0 255 1 affine 16 0 10000' '0 127 20 affine 16 0 10000' \
    '128 255 20 affine 16 0 10000') || fail "the list of settings with the affine rule"
ends 1 'lines.txt, line 2: the rule is plain, limited or affine, not other' \
    bash -c "printf '# passes\n1 2 3 other 4\n' > lines.txt && exec '$zopykue' list --text lines.txt"
ends 1 'lines.txt, line 1: refused 18' \
    bash -c "echo '0 9 1 affine 17 0 100' > lines.txt && exec '$zopykue' list --text lines.txt"
ends 2 'it is there and no file' "$zopykue" list --to /dev/null

# A list has at most 320 passes, from text and from a file of the right length.
lines() { # COUNT: so many times a line of text
    seq "$1" | sed 's/.*/0 255 1 plain 80 300/'
}
for count in 319 320; do
    lines "$count" | "$zopykue" list --text - --to most.mlp
    "$zopykue" list most.mlp |
        diff <(echo "# $count passes: first value, last value, least area, rule" && lines "$count") - ||
        fail "a list of $count passes as text"
done
"$zopykue" list convert most.mlp again.mlp |
    diff <(echo 'again.mlp: version 2, 320 passes, 5,127 bytes') - || fail "the longest list in version 2"
"$zopykue" enhance --to most --list again.mlp lists/g.ppm > /dev/null || fail "a run of the longest list"
for _ in 1 2 3 4; do tail -c +8 most.mlp; done > records
for count in 321 1,024; do
    number=${count/,/}
    too_many="refused 16: it is to have $count passes, and 320 fit"
    lines "$number" > many.txt
    ends 1 "many.txt: $too_many" "$zopykue" list --text many.txt
    { printf 'MLP\1\0' && dots $((number % 256)) $((number / 256)) && head -c $((12 * number)) records; } > many.mlp
    ends 1 "many.mlp: $too_many" "$zopykue" list many.mlp
    ends 1 "many.mlp: $too_many" "$zopykue" list convert many.mlp other.mlp
    refused "many.mlp: $too_many" "$zopykue" enhance --to new --list many.mlp lists/g.ppm
done

# Eight neighbours: in lists as text, and in files of version 2.
printf '%s\n' '# 2 passes: first value, last value, least area, rule' '0 255 1 plain 80 300' \
    '0 127 20 limited 40 neighbours 8' > wires.txt
"$zopykue" list --text wires.txt | diff wires.txt - || fail "a list with eight neighbours as text"
sed 's/300$/300 neighbours 4/' wires.txt | "$zopykue" list --text - | diff wires.txt - || fail "neighbours 4 in a line"
"$zopykue" list --last 1 --neighbours 8 | diff - <(printf '%s\n' \
    '# 3 passes: first value, last value, least area, rule' '0 255 1 plain 80 300 neighbours 8' \
    '0 127 20 plain 80 300 neighbours 8' '128 255 20 plain 80 300 neighbours 8') ||
    fail "the list of settings with eight neighbours"
"$zopykue" list --neighbours 4 --to four.mlp
cmp house.mlp four.mlp || fail "four neighbours are the house setting"
"$zopykue" list --text wires.txt --to wires.mlp
{ printf 'MLP\2\0\2\0' && dots 0 255 0 0 1 0 0 0 80 0 44 1 4 0 0 0 && dots 0 127 1 0 20 0 0 0 40 0 0 0 8 0 0 0; } |
    cmp - wires.mlp || fail "a list with eight neighbours as a file"
"$zopykue" list wires.mlp | diff wires.txt - || fail "a list of version 2 as text"
"$zopykue" list wires.mlp --to again.mlp
cmp wires.mlp again.mlp || fail "a list of version 2 from a file"
ends 1 'lines.txt, line 1: refused 19' \
    bash -c "echo '0 9 1 limited 5 neighbours 5' > lines.txt && exec '$zopykue' list --text lines.txt"
ends 2 'refused 19' "$zopykue" list --neighbours 5
ends 2 'cannot be used with' "$zopykue" list --neighbours 8 house.mlp
ends 2 'cannot be used with' "$zopykue" list --neighbours 8 --text wires.txt

# Both versions: either is converted to the other and back, they enhance alike, and --to writes version 1 where it can.
"$zopykue" list convert house.mlp second.mlp > printed
diff <(echo 'second.mlp: version 2, 255 passes, 4,087 bytes') printed || fail "a list converted to version 2"
"$zopykue" list convert second.mlp first.mlp > printed
diff <(echo 'first.mlp: version 1, 255 passes, 3,067 bytes') printed || fail "a list converted to version 1"
cmp house.mlp first.mlp || fail "a list that is converted twice"
[ "$(stat -c %s second.mlp)" = 4087 ] || fail "the length of a list of version 2"
"$zopykue" list second.mlp | diff house.txt - || fail "a list of version 2 is not the same as text"
"$zopykue" list second.mlp --to again.mlp
cmp house.mlp again.mlp || fail "a list of version 2 with four neighbours is not written in version 1"
for list in house second; do
    "$zopykue" enhance --plane --list "$list.mlp" --to "by-$list" --report "by-$list.tsv" lists/g.ppm > /dev/null
done
diff -r by-house by-second || fail "both versions do not enhance alike"
diff by-house.tsv by-second.tsv || fail "both versions do not count alike"
"$zopykue" list --last 0 --to one.mlp
"$zopykue" list convert one.mlp again.mlp | diff <(echo 'again.mlp: version 2, 1 pass, 23 bytes') - || fail "one pass"
"$zopykue" list convert empty.mlp again.mlp | diff <(echo 'again.mlp: version 2, 0 passes, 7 bytes') - ||
    fail "a list of no passes"
cp house.mlp convert
"$zopykue" list ./convert | diff house.txt - || fail "a list that is named convert"

# What is not converted is not written, whether a file is there or not.
no_place='wires.mlp: refused 20: pass 2 has eight neighbours, for which version 1 has no place'
ends 1 "$no_place" "$zopykue" list convert wires.mlp first.mlp
cmp house.mlp first.mlp || fail "a list that is not converted replaces a file"
ends 1 'File too large' \
    bash -c "trap '' XFSZ && ulimit -f 1 && exec '$zopykue' list convert house.mlp first.mlp"
cmp house.mlp first.mlp || fail "a limit on the size of files: the earlier list is lost"
rm first.mlp
ends 1 "$no_place" "$zopykue" list convert wires.mlp first.mlp
ends 1 'wrong.mlp: refused 15: no pass list' "$zopykue" list convert wrong.mlp first.mlp
ends 1 'house.txt: refused 15: no pass list but text' "$zopykue" list convert house.txt first.mlp
damaged() { # WORDS PLACE BYTE: the list with eight neighbours, with another byte at a place from 1 on
    { head -c "$(($2 - 1))" wires.mlp && dots "$3" && tail -c "+$(($2 + 1))" wires.mlp; } > damaged.mlp
    ends 1 "damaged.mlp: refused $1" "$zopykue" list convert damaged.mlp first.mlp
    ends 1 "damaged.mlp: refused $1" "$zopykue" list damaged.mlp
}
damaged '15: its version is 3, and lists of version 1 and 2 are read' 4 3
damaged '16: 31 bytes are due for 2 passes in version 1, and 39 are there' 4 1
damaged '16: 55 bytes are due for 3 passes in version 2, and 39 are there' 6 3
damaged '17: pass 2 has the rule 3, at byte 26' 26 3
damaged '17: pass 2 has 1 at byte 39, where 0 is due' 39 1
damaged '19: pass 1 has 6 neighbours, at byte 20' 20 6
damaged '6: pass 1: the least area is 0' 12 0
ends 1 'absent.mlp: No such file' "$zopykue" list convert absent.mlp first.mlp
ends 1 'none/first.mlp: No such file' "$zopykue" list convert house.mlp none/first.mlp
ln house.mlp hard.mlp
ln -s house.mlp soft.mlp
cp house.mlp house.before
for name in house hard soft; do
    ends 2 'would be written over the input house.mlp' "$zopykue" list convert house.mlp "$name.mlp"
done
ends 2 'would be written over the input second.mlp' "$zopykue" list second.mlp --to second.mlp
ends 2 'would be written over the input house.txt' "$zopykue" list --text house.txt --to house.txt
cmp house.mlp house.before || fail "an input is changed"
ends 2 'it is there and no file' "$zopykue" list convert house.mlp /dev/null
ends 2 'required' "$zopykue" list convert house.mlp
ends 2 'wasn'"'"'t expected' "$zopykue" list --last 3 convert house.mlp first.mlp
[ ! -e first.mlp ] || fail "a list that is not converted is written"
[ -z "$(find . -maxdepth 1 -name '.zopykue-*')" ] || fail "a part of a list is left"

# A thin diagonal wire falls apart by four neighbours, and is retoned as one component by eight.
mkdir wire
for value in 10 200 200 200 20 200 200 200 30; do dots "$value" "$value" "$value"; done > raster
{ printf 'P6 3 3 255\n' && cat raster; } > wire/w.ppm
wire=("$zopykue" enhance --to wired --plane --report wire.tsv --plain 0 25500 --area 3 --last 1)
"${wire[@]}" wire > /dev/null
[ "$(tail -n 1 wire.tsv | cut -f 4,5 | xargs)" = '1 2' ] || fail "a wire by four neighbours: $(tail -n 1 wire.tsv)"
{ printf 'P5\n3 3\n255\n' && dots 28 255 255 255 57 255 255 255 85; } | cmp - wired/wire/w.pgm ||
    fail "a wire by four neighbours"
"${wire[@]}" --neighbours 8 wire > /dev/null
[ "$(tail -n 1 wire.tsv | cut -f 4,5 | xargs)" = '2 1' ] || fail "a wire by eight neighbours: $(tail -n 1 wire.tsv)"
{ printf 'P5\n3 3\n255\n' && dots 42 255 255 255 85 255 255 255 127; } > wire.pgm
cmp wire.pgm wired/wire/w.pgm || fail "a wire by eight neighbours"
"$zopykue" list --plain 0 25500 --area 3 --last 1 --neighbours 8 --to wire.mlp
"$zopykue" enhance --to listed --plane --list wire.mlp wire > /dev/null
cmp wire.pgm listed/wire/w.pgm || fail "a wire by a list with eight neighbours"
echo "tool: pipes, terminals, lists and neighbours are in order"
