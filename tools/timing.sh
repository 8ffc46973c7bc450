#!/bin/sh
# tools/timing.sh [REPETITIONS]: times the proved library against the reference. Builds the five archives, and the reference for the same processors,
# runs `compare` and `compare groups`, which must find no difference, then `timing` in four processes, and prints a table of their
# medians, and last `timing words`, `timing class` and `timing group`. No time is held to anything, and no other work should run beside it (docs/SPEED.md).
set -eu
usage() { echo 'usage: tools/timing.sh [REPETITIONS]   (how often each machine runs each kernel in a process, 1 to 65535; 201 if not given)' >&2; exit 2; }
[ $# -le 1 ] || usage
repetitions=${1-201}
case $repetitions in '' | *[!0-9]* | ??????*) usage ;; esac
[ "$repetitions" -ge 1 ] && [ "$repetitions" -le 65535 ] || usage
command -v cargo >/dev/null || { echo 'timing.sh: cargo, which builds the reference, is not on the path' >&2; exit 1; }
cd "$(dirname "$0")/.."
mkdir -p target
work=$(mktemp -d)
trap 'rm -rf "$work"' EXIT

# what a build prints is kept in a file, and looked at only where it fails
build() { "$@" >>target/timing.log 2>&1 || { echo "timing.sh: this failed, and target/timing.log says why: $*" >&2; exit 1; }; }
: >target/timing.log
echo 'timing.sh: proving and building the five archives' >&2
for crate in capi capi_words capi_sheet capi_group group_row; do
    build tools/static_library.sh "$crate" "linked/lib$crate.a"
done
build env RUSTFLAGS='-C target-cpu=x86-64-v2' cargo build --release --manifest-path linked/Cargo.toml
programs=linked/target/release
for what in '' groups; do
    "$programs/compare" $what >"$work/compare" || { cat "$work/compare"; exit 1; }
    tail -n 1 "$work/compare"
done
for process in 1 2 3 4; do
    "$programs/timing" "$repetitions" >"$work/$process" || { cat "$work/$process"; exit 1; }
done

# a kernel's row has its name in column 2, then its steps; library, reference and ratio are columns 4, 6 and 8
awk -F ' *[|] *' '
    function median(kernel, column,    n, x, sum, least, most) {    # of four: the mean of the middle two
        for (n = 1; n <= 4; n++) {
            x = values[kernel, column, n]
            sum += x
            if (n == 1 || x < least) least = x
            if (n == 1 || x > most) most = x
        }
        return (sum - least - most) / 2
    }
    /^[|] [a-z0-9]/ {
        if (!seen[$2]++) { kernels[++count] = $2; steps[$2] = $3 }
        for (column = 4; column <= 8; column += 2) values[$2, column, seen[$2]] = $column + 0
    }
    END {
        print "| Kernel | Steps | Library, ns a step | Reference, ns a step | Ratio |\n|---|---|---|---|---|"
        for (i = 1; i <= count; i++) {
            k = kernels[i]
            printf "| %s | %s | %.1f | %.1f | %.2f |\n", k, steps[k], median(k, 4), median(k, 6), median(k, 8)
        }
    }' "$work/1" "$work/2" "$work/3" "$work/4"
for what in words class group; do
    echo
    "$programs/timing" "$what" "$repetitions"
done
