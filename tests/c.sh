#!/usr/bin/env bash
# The headers in C and C++, the library under the name to link it by, the rules, neighbours, lists, counts and stack of
# a call, sections handed out to threads, and what the example in C does to files, devices and links. Stops at the first
# error. Offline.
#
# Proves and builds the library first, unless MLHE_LIBRARY=path/to/libcapi.a names one that is there.
set -euo pipefail
cd "$(dirname "$0")/.."
# shellcheck source=tests/common.sh
. tests/common.sh
out=$PWD/target/c
rm -rf "$out"
mkdir -p "$out"

library "$out"

# Each header stands alone, without warnings.
strict=(-Wall -Wextra -Wpedantic -Wconversion -Werror)
for header in include/*.h; do
    gcc -std=c99 "${strict[@]}" -fsyntax-only -x c "$header" || fail "$header is no strict C99"
    g++ -std=c++11 "${strict[@]}" -fsyntax-only -x c++ "$header" || fail "$header is no strict C++11"
done

# Installed into a folder, header and library are all that a program needs.
make --quiet -C examples/c CFLAGS="-O2 ${strict[*]}"
make --quiet -C examples/c install PREFIX=/folder DESTDIR="$out/root"
make --quiet -C examples/c install PREFIX="$out/prefix"
diff -r "$out/root/folder/include" "$out/prefix/include" || fail "DESTDIR changes what is installed"
printf '%s\n' include include/mlhe.h lib lib/libmlhe.a lib/pkgconfig lib/pkgconfig/mlhe.pc > "$out/expected"
(cd "$out/prefix" && find . -mindepth 1 | sed 's/^..//' | LC_ALL=C sort) | diff "$out/expected" - ||
    fail "make install does not install what it says"
flags=("-I$out/prefix/include" "-L$out/prefix/lib" -lmlhe)
if command -v pkg-config > /dev/null; then
    told=$(PKG_CONFIG_PATH=$out/prefix/lib/pkgconfig pkg-config --cflags --libs mlhe)
    [ "$(echo "$told" | xargs)" = "${flags[*]}" ] || fail "pkg-config says '$told'"
fi
gcc -std=c99 "${strict[@]}" -o "$out/linked" tests/c/linked.c "${flags[@]}"
g++ -std=c++11 "${strict[@]}" -o "$out/linked++" -x c++ tests/c/linked.c -x none "${flags[@]}"
version=$(sed -n 's/^version = "\(.*\)"/\1/p' rust/Cargo.toml)
printf '%s\n' "$version, $version" 'refused 10: the P6 header is malformed, or the file ends in it' \
    'it was not refused; there is no such refusal; there is no such refusal' > "$out/expected"
"$out/linked" | diff "$out/expected" - || fail "a program in C with the installed library"
"$out/linked++" | diff "$out/expected" - || fail "a program in C++ with the installed library"
echo "c: headers and installed library are in order"

gcc -std=c99 "${strict[@]}" -o "$out/rules" tests/c/rules.c "${flags[@]}"
"$out/rules" || fail "the rules that a call is lent. Next: tests/c/rules.c, with what is printed above"
gcc -std=c99 "${strict[@]}" -o "$out/neighbours" tests/c/neighbours.c "${flags[@]}"
"$out/neighbours" || fail "the neighbours that a call is lent. Next: tests/c/neighbours.c, with what is printed above"
gcc -std=c99 "${strict[@]}" -o "$out/lists" tests/c/lists.c "${flags[@]}"
"$out/lists" || fail "lists of both versions. Next: tests/c/lists.c, with what is printed above"
gcc -std=c99 "${strict[@]}" -o "$out/counts" tests/c/counts.c "${flags[@]}"
"$out/counts" || fail "the counts that a call is lent. Next: tests/c/counts.c, with what is printed above"
gcc -std=c99 -O2 "${strict[@]}" -o "$out/stack" tests/c/stack.c "${flags[@]}"
"$out/stack" || fail "a call takes more stack than MLHE_STACK of include/mlhe.h"

# Sections on threads: plane and counts of each level are the enhancement's, whoever takes which section.
make --quiet -C examples/threads CFLAGS="-O2 ${strict[*]}" MLHE_LIBRARY="$MLHE_LIBRARY"
sections=examples/threads/sections
for call in 'pil.ppm 1' 'pil.ppm 2' 'pil.ppm 3 8' 'pil.ppm 200' 'imagemagick-4096x4.ppm 2' 'column-1x1024.ppm 5 8'; do
    read -r frame threads neighbours <<< "$call"
    "$sections" "tests/corpus/$frame" "$threads" ${neighbours:+"$neighbours"} > "$out/sections.txt" ||
        fail "sections on threads: $call. Next: examples/threads/sections.c"
    [ "$(grep -c 'as the enhancement$' "$out/sections.txt")" = 8 ] || fail "sections on threads: $call: no 8 levels"
done
status=0
"$sections" tests/corpus/pil.ppm 2 6 2> "$out/sections.txt" || status=$?
if [ "$status" != 1 ] || ! grep -q 'refused 19' "$out/sections.txt"; then
    fail "sections on threads by 6 neighbours: status $status and: $(cat "$out/sections.txt")"
fi
for words in 'pil.ppm 0' 'pil.ppm 257' 'pil.ppm -1' 'pil.ppm 2 x' ''; do
    status=0
    # shellcheck disable=SC2086 # words of a command line
    "$sections" $words 2> /dev/null || status=$?
    [ "$status" = 2 ] || fail "sections on threads: '$words' ends with status $status, not 2"
done
echo "c: sections on threads are the enhancement, level by level"

# What the example does to files. Everything stands in a folder that another user can reach, since rights do not bind
# root.
work=$(mktemp -d)
trap 'chmod -R u+w "$work" && rm -rf "$work"' EXIT
chmod 755 "$work"
cp examples/c/enhance tests/corpus/pil.ppm "$work"
out=$work/out
mkdir "$out"
example=$work/enhance
frame=$work/pil.ppm
"$example" "$frame" "$out/good.ppm" > "$work/line"
echo "$frame: 96 x 64, 119 components retoned, 21 kept, $out/good.ppm" | diff - "$work/line" ||
    fail "the line on what was done"
cp "$out/good.ppm" "$work/enhanced.ppm"

# The folder has these files, whose content is that of the good one unless said otherwise, and no others.
has() {
    (cd "$out" && find . -mindepth 1 | sed 's/^..//' | LC_ALL=C sort | xargs) > "$work/has"
    [ "$(cat "$work/has")" = "$*" ] || fail "in the folder are '$(cat "$work/has")', not '$*'"
}

# The command ends with status 1 and says so much of the error.
errs() {
    local word=$1 status=0
    shift
    "$@" > /dev/null 2> "$work/error" || status=$?
    if [ "$status" != 1 ] || ! grep -q "$word" "$work/error"; then
        fail "$*: not the error '$word' with status 1, but status $status and: $(cat "$work/error")"
    fi
}

# A command as a user whom rights bind.
bound() {
    if [ "$(id -u)" = 0 ]; then
        setpriv --reuid=65534 --regid=65534 --clear-groups "$@"
    else
        "$@"
    fi
}
has good.ppm

# A file that is there is replaced, with its rights, also through a link.
printf old > "$out/good.ppm"
chmod 640 "$out/good.ppm"
ln -s good.ppm "$out/link.ppm"
"$example" "$frame" "$out/link.ppm" > /dev/null
cmp "$out/good.ppm" "$work/enhanced.ppm" || fail "a file through a link"
[ "$(stat -c %a "$out/good.ppm")" = 640 ] || fail "the rights of a file that is replaced"
[ "$(readlink "$out/link.ppm")" = good.ppm ] || fail "a link is replaced"
(umask 027 && "$example" "$frame" "$out/new.ppm" > /dev/null)
[ "$(stat -c %a "$out/new.ppm")" = 640 ] || fail "the rights of a new file"
(cd "$out" && "$example" "$frame" here.ppm > /dev/null)
cmp "$out/here.ppm" "$work/enhanced.ppm" || fail "a name without folder"
longest=$(printf '%0255d' 0)
"$example" "$frame" "$out/$longest" > /dev/null || fail "a name of 255 bytes"
rm "$out/$longest" "$out/link.ppm" "$out/new.ppm" "$out/here.ppm"
ln -s nothing "$out/link.ppm"
errs 'No such file' "$example" "$frame" "$out/link.ppm"
[ "$(readlink "$out/link.ppm")" = nothing ] || fail "a link to nothing is replaced"
rm "$out/link.ppm"
has good.ppm

# An output that is an input is refused, under any name.
ln "$frame" "$out/second.ppm"
ln -s "$frame" "$out/third.ppm"
for name in "$frame" "$out/second.ppm" "$out/third.ppm"; do
    errs 'it is an input' "$example" "$frame" "$name"
done
cmp "$frame" tests/corpus/pil.ppm || fail "an input is changed"
printf 'MLP\1\0\0\0' > "$work/empty.mlp"
errs 'it is an input' "$example" "$work/empty.mlp" "$frame" "$work/empty.mlp"
rm "$out/second.ppm" "$out/third.ppm"
has good.ppm

# A full disk, and a limit on the size of files: the earlier file stays, and nothing else.
errs 'File too large' bash -c "ulimit -f 4 && exec '$example' '$frame' '$out/good.ppm'"
errs 'File too large' bash -c "ulimit -f 4 && exec '$example' '$frame' '$out/new.ppm'"
cmp "$out/good.ppm" "$work/enhanced.ppm" || fail "a limit on the size of files: the earlier file is lost"
has good.ppm
full() {
    mount -t tmpfs -o size=28k none "$out"
    cp "$work/enhanced.ppm" "$out/good.ppm"
    errs 'No space left' "$example" "$frame" "$out/good.ppm"
    errs 'No space left' "$example" "$frame" "$out/new.ppm"
    cmp "$out/good.ppm" "$work/enhanced.ppm" || fail "a full disk: the earlier file is lost"
    has good.ppm
}
export -f full fail has errs
export work out example frame
if unshare --mount --map-root-user mount -t tmpfs none "$out" 2> /dev/null; then
    unshare --mount --map-root-user bash -euc full
else
    echo "c: a full disk is not tried, for no file system can be mounted"
fi

# A folder and a file without the right to write.
chmod 555 "$out"
errs 'Permission denied' bound "$example" "$frame" "$out/new.ppm"
errs 'Permission denied' bound "$example" "$frame" "$out/good.ppm"
chmod 777 "$out"
chmod 444 "$out/good.ppm"
errs 'Permission denied' bound "$example" "$frame" "$out/good.ppm"
cmp "$out/good.ppm" "$work/enhanced.ppm" || fail "a file without the right to write is replaced"
errs 'No such file' "$example" "$frame" "$out/none/new.ppm"
errs 'Is a directory' "$example" "$frame" "$out"
has good.ppm

# Devices and pipes are written to, and stay. In /dev the example runs without the right to remove anything, so that a
# mistake in it costs nobody a device; a device of the test's own shows that it does not try.
errs 'No space left' bound "$example" "$frame" /dev/full
bound "$example" "$frame" /dev/null 2> /dev/null
if mknod "$out/full" c 1 7 2> /dev/null; then
    errs 'No space left' "$example" "$frame" "$out/full"
    [ -c "$out/full" ] || fail "a device is removed"
    rm "$out/full"
else
    echo "c: whether a device stays is not tried, for none can be made"
fi
mkfifo "$out/pipe"
cat "$out/pipe" > "$work/answer" &
"$example" "$frame" "$out/pipe" 2> /dev/null
wait $!
cmp "$work/answer" "$work/enhanced.ppm" || fail "a named pipe"
[ -p "$out/pipe" ] || fail "a named pipe is removed"
bound "$example" "$frame" /dev/stdout 2> /dev/null | cmp - "$work/enhanced.ppm" || fail "standard output, a pipe"
printf before > "$out/appended"
bound "$example" "$frame" /dev/stdout 2> /dev/null >> "$out/appended"
printf before | cat - "$work/enhanced.ppm" | cmp - "$out/appended" || fail "standard output, a file that is appended to"
"$example" /dev/stdin "$out/new.ppm" < "$frame" > /dev/null
cmp "$out/new.ppm" "$work/enhanced.ppm" || fail "standard input"
has appended good.ppm new.ppm pipe
errs 'the line on what was done' bash -c "exec '$example' '$frame' '$out/new.ppm' > /dev/full"
echo "c: the example keeps what it did not make"
