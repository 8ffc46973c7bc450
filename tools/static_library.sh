#!/bin/sh
# tools/static_library.sh CRATE OUT.a: proves the exports for C of a library crate, which are the crate CRATE_c, and writes their static library, as `rt lib` makes it.
set -eu
[ $# -eq 2 ] || { echo 'usage: tools/static_library.sh CRATE OUT.a' >&2; exit 2; }
crate=$1
case $2 in /*) out=$2 ;; *) out=$PWD/$2 ;; esac
[ -d "$(dirname "$out")" ] || { echo "static_library.sh: $(dirname "$out"), where $2 is to be written, is not a folder" >&2; exit 2; }
[ ! -d "$out" ] || { echo "static_library.sh: $2 is a folder" >&2; exit 2; }
cd "$(dirname "$0")/.."
[ -f "crates/${crate}_c/src/lib.rt" ] || { echo "static_library.sh: $crate has no exports for C (no crates/${crate}_c/src/lib.rt)" >&2; exit 2; }
command -v rt >/dev/null || { echo 'static_library.sh: rt, the Rattle kit, is not on the path' >&2; exit 1; }
cd "crates/${crate}_c"
rt lib
mv "out/lib${crate}_c.a" "$out"
