#!/bin/sh
# How many requests for memory the dumper makes, over streams of different lengths: bench/memory.sh [DUMPER]. They must be
# as many for each, since all are made before the first read. The streams are an empty one, those of bench/run.sh in two
# lengths, and each of those cut in its middle.
# It proves and builds the dumper first, unless one is named, and needs python3 and valgrind.
set -eu

top=$(cd "$(dirname "$0")/.." && pwd)
dumper=${1:-$top/crates/giopdump/out/giopdump}
work=$(mktemp -d)
trap 'rm -rf "$work"' EXIT
export PYTHONDONTWRITEBYTECODE=1

for tool in python3 valgrind; do
    command -v "$tool" >/dev/null || { echo "$tool is missing: apt-get install python3 valgrind" >&2; exit 1; }
done
[ $# -gt 0 ] || (cd "$top/crates/giopdump" && rt run <stdin >"$work/build" 2>&1) || { cat "$work/build" >&2; exit 1; }

# Prints the requests for memory of a run over the stream. Faults that the dumper counts are no failure.
requests() {
    valgrind --tool=memcheck --leak-check=no --log-file="$work/log" \
        "$dumper" --signatures "$top/bench/calls.sig" <"$work/stream" >"$work/lines" || [ $? -eq 1 ]
    sed -n 's/.*total heap usage: \([0-9,]*\) allocs.*/\1/p' "$work/log"
}

: >"$work/stream"
most=$(requests)
printf 'empty: %s requests\n' "$most"
for name in mixed typed fragments openers; do
    for octets in 2000 200000; do
        python3 "$top/bench/$name.py" "$octets" >"$work/whole"
        size=$(wc -c <"$work/whole")
        for length in "$size" $((size / 2)); do
            head -c "$length" "$work/whole" >"$work/stream"
            count=$(requests)
            printf '%s of %s octets, %s lines: %s requests\n' "$name" "$length" "$(wc -l <"$work/lines")" "$count"
            [ "$count" = "$most" ] || { echo "memory is taken while the stream is read" >&2; exit 1; }
        done
    done
done
