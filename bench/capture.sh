#!/bin/sh
# Octets of capture a second, and memory, of giopcap: bench/capture.sh [OCTETS [GIOPCAP [GIOPDUMP]]].
#   long       one connection, both directions, typed; beside giopdump on the octets of each direction apart, one after the
#              other, with a request list, where packets, times and answers are known already
#   late       the same, with packets that come too late
#   short      5,000 connections of twelve messages each
#   256, 65000 one connection with so many calls outstanding, whose replies come oldest first
#   segments   ten times as many octets in small segments of 200 connections by turns, in order, of messages that have no
#              lines: what packets, segments and flows take
#   beside     a capture that is twenty times smaller, on which the giopcap of the first line and `tshark -V` run, where
#              tshark is there; where it isn't, that is said
# It proves and builds the programs first, unless both are named, and needs python3 and GNU time. The programs run by turns, five
# times each (tshark once), and each figure is the best of these runs: by the clock, and by the processor time that the program
# took, which says more on a machine that does other work too. The memory is the greatest that was touched.
set -eu

octets=${1:-100000000}
top=$(cd "$(dirname "$0")/.." && pwd)
giopcap=${2:-$top/crates/giopcap/out/giopcap}
giopdump=${3:-$top/crates/giopdump/out/giopdump}
work=$(mktemp -d)
trap 'rm -rf "$work"' EXIT
export PYTHONDONTWRITEBYTECODE=1

for tool in python3 /usr/bin/time; do
    command -v "$tool" >/dev/null || { echo "$tool is missing: apt-get install python3 time" >&2; exit 1; }
done
if [ $# -lt 3 ]; then
    for program in giopdump giopcap; do
        (cd "$top/crates/$program" && rt run -- --version >"$work/build" 2>&1) || { cat "$work/build" >&2; exit 1; }
    done
fi

# Runs a program over a file, and notes its figures under a name: run NAME FILE PROGRAM..
run() {
    figure=$1 file=$2
    shift 2
    /usr/bin/time -q -a -o "$work/$figure.runs" -f '%e %U %S %M' "$@" <"$file" >"$work/lines"
}

# Prints the figures of the runs under a name, over so many octets.
figures() {
    awk -v name="$1" -v octets="$2" '
        {
            if (clock == "" || $1 < clock) clock = $1
            if (cpu == "" || $2 + $3 < cpu) cpu = $2 + $3
            if ($4 > memory) memory = $4
        }
        END {
            printf "%-10s %12.0f %12.0f %9d\n", name, octets / (clock ? clock : 0.01), octets / (cpu ? cpu : 0.01), memory
        }
    ' "$work/$1.runs"
    rm "$work/$1.runs"
}

# Says what the figures are of.
heading() {
    printf '%s: capture of %s octets, %s lines\n%-10s %12s %12s %9s\n' \
        "$1" "$size" "$(wc -l <"$work/lines")" program 'by clock' 'by processor' 'peak KiB'
}

types=$top/examples/naming.sig
export giopdump types work top # for the script of both directions

for sort in long late short; do
    case $sort in
        short) number=5000 ;;
        *) number=$octets ;;
    esac
    python3 "$top/bench/exchanges.py" "$sort" "$number" >"$work/capture"
    size=$(wc -c <"$work/capture")
    if [ "$sort" = long ]; then
        python3 "$top/bench/exchanges.py" requests "$octets" >"$work/requests"
        python3 "$top/bench/exchanges.py" replies "$octets" >"$work/replies"
        cat >"$work/both" <<'END'
#!/bin/sh
"$giopdump" --signatures "$types" "$work/requests"
"$giopdump" --signatures "$types" --requests "$top/examples/naming.req" "$work/replies"
END
        chmod +x "$work/both"
    fi
    for _ in 1 2 3 4 5; do
        [ "$sort" != long ] || run giopdump /dev/null "$work/both"
        run giopcap "$work/capture" "$giopcap" --signatures "$types"
    done
    heading "$sort"
    figures giopcap "$size"
    [ "$sort" != long ] || figures giopdump "$size"
    echo
done

for calls in 256 65000; do
    python3 "$top/bench/outstanding.py" oldest "$calls" $((octets / 200)) >"$work/capture"
    size=$(wc -c <"$work/capture")
    for _ in 1 2 3 4 5; do
        run giopcap "$work/capture" "$giopcap" --connections 1 --calls 65536
    done
    heading "$calls"
    figures giopcap "$size"
    echo
done

python3 "$top/bench/segments.py" $((octets * 10)) >"$work/capture"
size=$(wc -c <"$work/capture")
for _ in 1 2 3 4 5; do
    run giopcap "$work/capture" "$giopcap" || [ $? -eq 1 ] # each of its streams has faults
done
heading segments
figures giopcap "$size"
echo

python3 "$top/bench/exchanges.py" long $((octets / 20)) >"$work/capture"
size=$(wc -c <"$work/capture")
run giopcap "$work/capture" "$giopcap" --signatures "$types"
heading beside
figures giopcap "$size"
if command -v tshark >/dev/null; then
    run tshark "$work/capture" tshark -V -r - -d tcp.port==2809,giop
    figures tshark "$size"
else
    echo "tshark isn't there: apt-get install tshark"
fi
