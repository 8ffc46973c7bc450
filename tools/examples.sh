#!/bin/sh
# The last part of ./check: runs ./bench on every folder of examples/ and crates/test_bench/data/, ./group on the examples of groups and on those of
# crates/run_group/cases/, and compares what is printed with the folder's expected.txt, ./mark and ./sheet on the class of sheets, and each on wrong arguments.
set -u
cd "$(dirname "$0")/.." || exit 2
same=0 wrong=0
work=$(mktemp -d)
trap 'rm -rf "$work"' EXIT
# where a program is yet to be built, what is said meanwhile is shown and not compared
./bench examples/end >/dev/null || exit 1
./mark examples/class examples/class/full.bin >/dev/null || exit 1
./sheet examples/class >/dev/null || exit 1
./group examples/group_sum >/dev/null || exit 1

# NAME, what was printed, what was expected
compare() {
    if [ "$2" = "$3" ]; then
        same=$((same + 1))
    else
        wrong=$((wrong + 1))
        printf 'examples: %s printed:\n%s\nand not:\n%s\n' "$1" "$2" "$3"
    fi
}

# NAME, the expected lines' file, the expected status, then a command
expect() {
    name=$1 file=$2 status=$3
    shift 3
    compare "$name" "$("$@" 2>&1; echo "status $?")" "$(cat "$file"; echo "status $status")"
}

for expected in examples/*/expected.txt crates/test_bench/data/*/expected.txt crates/run_group/cases/*/expected.txt; do
    folder=$(dirname "$expected")
    program=./bench
    case $folder in examples/group_* | crates/run_group/*) program=./group ;; esac
    expect "$folder" "$expected" 0 "$program" "$folder"
done

class=examples/class
sheets() { for sheet; do echo "$class/$sheet.bin"; done; }
all=$(sheets full one_bit short long empty missing)
head -n 4 "$class/marked.txt" >"$work/marked"
expect 'the class' "$class/marked.txt" 1 ./mark "$class" $all
expect 'the class, shown' "$class/shown.txt" 1 ./mark --show "$class" $all
expect 'the sheets that are marked' "$work/marked" 0 ./mark "$class/" $(sheets full one_bit short long)
expect 'the model sheet as a table' "$class/table.txt" 0 ./sheet "$class"
echo "$work/out: 12 steps, 161 bytes" >"$work/written"
expect 'the model sheet as a file' "$work/written" 0 ./sheet "$class" "$work/out"
compare 'the file written' "$(cmp "$work/out" "$class/full.bin" 2>&1)" ''
echo 'refused 17: the run has no steps' >"$work/no-steps"
expect 'the model sheet of no steps' "$work/no-steps" 1 ./sheet crates/test_bench/data/unknown-word

for program in bench group mark sheet; do
    sed -n "s/^ *echo '\(usage: .*\)' >&2$/\1/p" "$program" >"$work/usage"
    expect "./$program with no argument" "$work/usage" 2 "./$program"
    case $program in bench | group) set -- ;; *) set -- "$work/out" ;; esac
    expect "./$program on a missing folder" "$work/usage" 2 "./$program" examples/missing "$@"
done
echo "examples: $same as expected, $wrong not"
[ "$wrong" -eq 0 ] && [ "$same" -gt 2 ]
