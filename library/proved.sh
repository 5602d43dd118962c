# proved.sh - how library/build and linux/build find the toolchain and the crates that were proved here.
# shellcheck shell=bash
#
# A crate that `rt ci` has proved has its library in its folder `out`. `top` is the repository, `tools` the toolchain's folder
# of programs and C libraries, and `room` a folder that goes at the end.
set -euo pipefail

top=$(cd "$(dirname "${BASH_SOURCE[0]}")/.." && pwd)
kit=$(command -v rt) || {
    echo "$0: there is no command rt, which comes with the toolchain" >&2
    exit 1
}
kit=$(dirname "$(dirname "$(readlink -f "$kit")")")
# shellcheck disable=SC2034
tools=$kit/toolchain
room=$(mktemp -d)
trap 'rm -rf "$room"' EXIT

# Does something silently, and shows all that it has written where it fails.
quietly() {
    "$@" >"$room/log" 2>&1 </dev/null || {
        cat "$room/log" >&2
        exit 1
    }
}

# Prints the words of a crate's line in crates.txt, those after its colon.
words_of() {
    sed -n "s/^$1\( [a-z]*\)\{0,1\}: *//p" "$top/crates.txt"
}

# Prints the crates of the repository that a crate stands on, with those below them, each once.
below() {
    for name in $(words_of "$1"); do
        [ ! -d "$top/crates/$name" ] || { below "$name"; echo "$name"; }
    done | awk '!seen[$0]++'
}

# Looks whether the crates below a crate were proved here.
find_libraries() {
    for name in $(below "$1"); do
        [ -d "$top/crates/$name/out/rlib/$name.rlib" ] || {
            echo "$0: crates/$name is not proved here: run 'rt ci'" >&2
            exit 1
        }
    done
}

# Copies the parts of a crate that are proved.
copy_crate() {
    mkdir -p "$room/crates/$1/specs" "$room/crates/$1/proofs"
    for part in src specs proofs; do
        [ ! -d "$top/crates/$1/$part" ] || cp -R "$top/crates/$1/$part" "$room/crates/$1"
    done
}

# Prints the words for `rattle build` that name the libraries below a crate.
named_libraries() {
    for name in std $(words_of "$1"); do
        if [ -d "$top/crates/$name" ]; then
            echo "--extern $name=$top/crates/$name/out/rlib/$name.rlib"
        else
            echo "--extern $name=$kit/rlibs/$name.rlib"
        fi
    done
    echo "-L dependency=$kit/rlibs"
    for name in $(below "$1"); do
        echo "-L dependency=$top/crates/$name/out/rlib"
    done
}

# Proves and compiles a crate, from its copy, with more words for `rattle build`.
prove() {
    copy_crate "$1"
    cd "$room/crates/$1"
    # shellcheck disable=SC2046
    quietly "$kit/bin/rattle" build --crate-name "$1" "$2" $(named_libraries "$1") \
        --antt-project "$kit/rattle/logic/antt-project.json" --logic-built "$kit/logic_built" --jobs 2 --links "$1=" \
        "${@:3}"
}
