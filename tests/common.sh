# shellcheck shell=bash
# For the scripts that source it from the top of the repository.
#
#   fail MESSAGE            says what is wrong, and ends
#   staticlib NAME LOG      proves and builds target/staticlib/libNAME.a; what is said meanwhile stands in the file LOG
#   library FOLDER          has the static library of capi, unless MLHE_LIBRARY names one; it does then. What is said
#                           meanwhile stands in the folder

fail() {
    echo "$(basename "$0" .sh): $1" >&2
    exit 1
}

staticlib() {
    tools/staticlib "$1" > "$2" 2>&1 || { cat "$2" && tools/next "$2" "$1" && fail "$1 is not proved"; }
}

library() {
    if [ -z "${MLHE_LIBRARY:-}" ]; then
        staticlib capi "$1/staticlib.log"
        MLHE_LIBRARY=$PWD/target/staticlib/libcapi.a
    fi
    MLHE_LIBRARY=$(realpath "$MLHE_LIBRARY")
    export MLHE_LIBRARY
}
