#!/bin/sh
# Octets a second and memory of the reading of captures of small packets, pcap and pcapng, beside tcpdump:
# bench/packets.sh [OCTETS [COUNTER]]. The first program is packet_bench, which reads a capture and finds the TCP segment
# of each packet; the other is `tcpdump -r FILE -w /dev/null`, which reads and copies it.
# It proves and builds packet_bench first, unless a program is named, and needs python3, tcpdump and GNU time. The two
# programs run by turns, five times each, and each figure is the best of these runs: by the clock, and by the processor
# time that the program took, which says more on a machine that does other work too. The memory is that of a run which has
# read a whole capture from a pipe and waits for more: what it has taken, and what it maps of files, which is the program
# itself and the libraries.
set -eu

octets=${1:-1000000000}
top=$(cd "$(dirname "$0")/.." && pwd)
counter=${2:-$top/crates/packet_bench/out/packet_bench}
work=$(mktemp -d)
trap 'rm -rf "$work"' EXIT
export PYTHONDONTWRITEBYTECODE=1

for tool in python3 tcpdump /usr/bin/time; do
    command -v "$tool" >/dev/null || { echo "$tool is missing: apt-get install python3 tcpdump time" >&2; exit 1; }
done
[ $# -gt 1 ] || (cd "$top/crates/packet_bench" && rt run <stdin >"$work/build" 2>&1) || { cat "$work/build" >&2; exit 1; }

# Runs a program over the capture, and notes its figures.
run() {
    name=$1
    shift
    /usr/bin/time -a -o "$work/$name.runs" -f '%e %U %S' "$@" <"$work/capture" >"$work/said" 2>&1
}

# Notes the memory of a program that has read a capture of some octets.
hold() {
    name=$1
    shift
    mkfifo "$work/pipe"
    "$@" <"$work/pipe" >"$work/held" 2>&1 &
    exec 3>"$work/pipe"
    cat "$work/some" >&3
    sleep 0.5
    awk '/^RssAnon/ { anon = $2 } /^RssFile/ { file = $2 } END { print anon, file }' "/proc/$!/status" >"$work/$name.memory"
    exec 3>&-
    wait
    rm "$work/pipe"
}

# Prints the figures of a program's runs, and begins anew.
figures() {
    awk -v name="$1" -v octets="$size" -v memory="$(cat "$work/$1.memory")" '
        {
            if (clock == "" || $1 < clock) clock = $1
            if (cpu == "" || $2 + $3 < cpu) cpu = $2 + $3
        }
        END {
            split(memory, kib, " ")
            printf "%-14s %12.0f %12.0f %10d %10d\n", name, octets / clock, octets / cpu, kib[1], kib[2]
        }
    ' "$work/$1.runs"
    rm "$work/$1.runs"
}

for format in pcap pcapng; do
    python3 "$top/bench/packets.py" "$octets" "$format" >"$work/capture"
    python3 "$top/bench/packets.py" 10000000 "$format" >"$work/some"
    size=$(wc -c <"$work/capture")
    for _ in 1 2 3 4 5; do
        run tcpdump tcpdump -r "$work/capture" -w /dev/null
        run packet_bench "$counter"
    done
    hold tcpdump tcpdump -r - -w /dev/null
    hold packet_bench "$counter"
    printf '%s, %s octets: %s\n' "$format" "$size" "$(cat "$work/said")"
    printf '%-14s %12s %12s %10s %10s\n' program 'by clock' 'by processor' 'taken KiB' 'mapped KiB'
    figures packet_bench
    figures tcpdump
done
