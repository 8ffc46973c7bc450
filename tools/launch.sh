#!/bin/sh
# tools/launch.sh NAME PROGRAM [WORD...]: starts the program of the crate PROGRAM with the words as its arguments, in the folder that it is called in.
# The program is proved and built by rt first, once, and again where it is older than its text; what is said meanwhile goes to standard error, after NAME.
set -u
name=$1 crate=$2
shift 2
root=$(cd "$(dirname "$0")/.." && pwd -P)
rt=$(command -v rt) || { echo "$name: rt, the Rattle kit, is not on the path" >&2; exit 1; }
program=$root/crates/$crate/out/$crate
log=target/$crate.log
begun=target/$crate.begun
stale() {
    [ ! -x "$program" ] || [ -n "$(find "$root/crates" "$root/crates.txt" -type d \( -name must-fail -o -name out \) -prune -o \
        -type f -newer "$program" -print | head -n 1)" ]
}

# how many crates the program is made of: crates.txt from its end, since a crate uses only those above it
needed() {
    awk -F: -v program="$crate" '
        { sub(/#.*/, ""); name[NR] = $1; uses[NR] = $2 }
        END {
            need[program]
            for (i = NR; i > 0; i--)
                if (name[i] in need) { n++; split(uses[i], used, " "); for (k in used) need[used[k]] }
            print n
        }' crates.txt
}

# rt's lines go to the log as they come, and of each crate that ends one line to standard error. `rt run` also runs what it has built: here on no input,
# and nothing of what the program writes is taken.
prove() {
    crates=$(needed) proved=0 which=$crate since=$(date +%s) built=''
    echo "$name: proving and building the program with rt, at most $crates crates (once; this takes minutes)" >&2
    (cd "crates/$crate" && "$rt" run 2>&1 >/dev/null </dev/null 3>/dev/null) | {
        while IFS= read -r line; do
            printf '%s\n' "$line"
            case $line in
            'rt: chose --jobs '*' for '*) which=${line##* } since=$(date +%s) ;;
            'logic=proved'*)
                proved=$((proved + 1))
                echo "$name: proved $which ($proved of at most $crates, $(($(date +%s) - since)) s)" >&2
                ;;
            'logic='*) echo "$name: $which NOT PROVED" >&2 ;;
            "rt: running out/$crate;"*) built=yes ;;
            esac
        done >"$log"
        [ "$built" ]
    }
}
if stale; then
    # the program is as old as the moment when its proof began: an edit made meanwhile is newer
    if ! (cd "$root" && mkdir -p target && touch "$begun" && prove && touch -r "$begun" "$program"); then
        echo "$name: rt did not build the program; $log says why" >&2
        exit 1
    fi
fi
exec "$program" "$@"
