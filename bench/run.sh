#!/bin/sh
# Octets a second and peak memory of the dumper, beside xxd and a limit, over nine streams:
# bench/run.sh [OCTETS [DUMPER]]
#   mixed      messages of every type, without a signature file
#   typed      calls of about 380 octets whose parameters are typed
#   anys       events with anys of structs, strings, numbers and truth values, by --types
#   fragments  calls with octet sequences of 262,144 octets, in Fragments
#   openers    sixteen calls at a time, whose Fragments come in turn
#   many       the same with 4,096 calls at a time, by --open 4096
#   large      one call with one octet sequence
#   doubles    calls with sequences of 8,192 doubles
#   captured   real calls to a naming service, again and again
# It proves and builds the dumper first, unless one is named, and needs python3, xxd and GNU time. Fragments and large,
# over which the programs are quickest, have four times as many octets. The programs run by turns, five times each, and
# each figure is the best of these runs: by the clock, and by the processor time that the program took, which says more
# on a machine that does other work too.
#
# The limit is bench/limit.c, a plain C program that writes the same lines over all of these streams but mixed and anys,
# and knows nothing else. It is compiled where a C compiler for x86-64 is there; where none is, that is said and its rows
# are left out. Over a short stream of each sort its lines are compared with the dumper's.
set -eu

octets=${1:-100000000}
top=$(cd "$(dirname "$0")/.." && pwd)
dumper=${2:-$top/crates/giopdump/out/giopdump}
work=$(mktemp -d)
trap 'rm -rf "$work"' EXIT
export PYTHONDONTWRITEBYTECODE=1

for tool in python3 xxd /usr/bin/time; do
    command -v "$tool" >/dev/null || { echo "$tool is missing: apt-get install python3 xxd time" >&2; exit 1; }
done
[ $# -gt 1 ] || (cd "$top/crates/giopdump" && rt run <stdin >"$work/build" 2>&1) || { cat "$work/build" >&2; exit 1; }

# The limit runs where it could be compiled.
limit=$work/limit
cc -O3 -march=x86-64-v2 -o "$limit" "$top/bench/limit.c" 2>"$work/compiled" ||
    { printf 'no limit, since cc did not compile bench/limit.c: %s\n\n' "$(head -n 1 "$work/compiled")"; limit=; }

# Runs a program over the stream once, and notes its figures. Faults that the dumper counts are no failure.
run() {
    /usr/bin/time -a -o "$work/$(basename "$1").runs" -f 'run %e %U %S %M' "$@" <"$work/stream" >/dev/null || [ $? -eq 1 ]
}

# Whether the limit writes the lines of the dumper, which has these words: over a stream of 200,000 octets.
compared() {
    python3 "$top/bench/$name.py" 200000 >"$work/short"
    "$dumper" "$@" <"$work/short" >"$work/lines"
    "$limit" "$open" <"$work/short" | cmp - "$work/lines" >&2
}

# Prints the figures of a program's runs over so many octets.
figures() {
    awk -v name="$1" -v octets="$2" '
        $1 == "run" {
            if (clock == "" || $2 < clock) clock = $2
            if (cpu == "" || $3 + $4 < cpu) cpu = $3 + $4
            if ($5 > memory) memory = $5
        }
        END { printf "%-10s %12.0f %12.0f %9d\n", name, octets / clock, octets / cpu, memory }
    ' "$work/$1.runs"
}

for name in mixed typed anys fragments openers many large doubles captured; do
    case $name in
        mixed) set -- ;;
        anys) set -- --types "$top/bench/anys.sig" ;;
        captured) set -- --signatures "$top/examples/naming.sig" ;;
        many) set -- --signatures "$top/bench/calls.sig" --open 4096 ;;
        *) set -- --signatures "$top/bench/calls.sig" ;;
    esac
    case $name in
        fragments | large) many=$((4 * octets)) ;;
        *) many=$octets ;;
    esac
    python3 "$top/bench/$name.py" "$many" >"$work/stream"
    size=$(wc -c <"$work/stream")
    open=16
    [ "$name" != many ] || open=4096
    case $name in
        mixed | anys) beside= ;;
        *) beside=$limit ;;
    esac
    [ -z "$beside" ] || compared "$@" || { echo "$name: the limit has other lines than the dumper" >&2; exit 1; }
    rm -f "$work"/*.runs
    for _ in 1 2 3 4 5; do
        run "$dumper" "$@"
        run xxd
        [ -z "$beside" ] || run "$beside" "$open"
    done
    printf '%s: %s octets\n%-10s %12s %12s %9s\n' \
        "$name" "$size" program 'by clock' 'by processor' 'peak KiB'
    for program in "$(basename "$dumper")" xxd ${beside:+limit}; do
        figures "$program" "$size"
    done >"$work/figures"
    cat "$work/figures"
    awk '
        { name[NR] = $1; clock[NR] = $2; cpu[NR] = $3 }
        END {
            for (i = 2; i <= NR; i++)
                printf "%-10s %12.2f %12.2f\n", "of " name[i], clock[1] / clock[i], cpu[1] / cpu[i]
            print ""
        }
    ' "$work/figures"
done
