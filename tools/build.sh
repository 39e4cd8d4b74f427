#!/bin/sh
# Proves and makes what is used outside this repository: target/bin/sheet, the program, held to its stored output, and
# target/staticlib/libcobalnis.a, the library for C and Rust.
#
# usage: tools/build.sh [sheet | cobalnis]      with no word, both
set -eu
cd "$(dirname "$0")/.."

make_sheet() {
    (cd crates/sheet && mkdir -p out && rt run <stdin >out/printed && cmp out/printed stdout)
    mkdir -p target/bin
    cp crates/sheet/out/sheet target/bin/sheet
}

make_cobalnis() {
    (cd crates/cobalnis_c && rt lib)
    mkdir -p target/staticlib
    cp crates/cobalnis_c/out/libcobalnis_c.a target/staticlib/libcobalnis.a
}

case "${1:-both}" in
    sheet) make_sheet ;;
    cobalnis) make_cobalnis ;;
    both) make_sheet; make_cobalnis ;;
    *) echo "usage: tools/build.sh [sheet | cobalnis]" >&2; exit 2 ;;
esac
