#!/usr/bin/env bash
# The manual pages have no fault that mandoc finds, name each option of their programs and each of their exit statuses, and
# their examples run. All programs have one version, which CHANGES.md begins with.
# Installs mandoc, jq, mscgen, omniidl, libjs-chart.js and python3-jinja2 where they are missing.
set -euo pipefail
cd "$(dirname "$0")/.."
. checks/packages.sh

need_program mandoc mandoc
need_program jq jq
need_program mscgen mscgen
need_program omniidl omniidl
need_file /usr/share/javascript/chart.js/chart.min.js libjs-chart.js
need_file /usr/lib/python3/dist-packages/jinja2 python3-jinja2
need_giopdump
need_giopcap
need_giop_json
need_giop_stat
export PATH=$(dirname "$giopdump"):$(dirname "$giopcap"):$PWD/scripts:$PATH PYTHONDONTWRITEBYTECODE=1
folder=$(mktemp -d)
trap 'rm -rf "$folder"' EXIT
cp examples/naming* "$folder"
cp examples/session.pcap "$folder"
gzip -k "$folder/session.pcap"
cp scripts/tests/session.lines "$folder/orders.lines"

# examples_of PAGE: the commands of its examples that need no other program than these. A line that ends with a pipe goes on.
examples_of() {
    sed -n '/^.Sh EXAMPLES/,/^.Sh/p' "$1" |
        sed -nE '/^(\.Dl )?(zcat|giop(dump|cap|-[a-z]+)) /{s/^\.Dl //; :a; /\|$/{N; ba}; s/\\e/\\/g; p}'
}

# check_page PROGRAM STATUS..
check_page() {
    local program=$1 page=man/$1.1 faults option status options examples
    shift
    # Pages that it refers to need not be installed here.
    faults=$(mandoc -Tlint -W style "$page" 2> /dev/null | grep -v 'referenced manual not found' || true)
    [ -z "$faults" ] || { echo "$faults" >&2; exit 1; }
    options=$("$program" --help | grep -oE -- '--[a-z]+(-[a-z]+)*' | sort -u || true)
    for option in $options; do
        grep -qE "Fl -${option#--}( |$)" "$page" || { echo "$page: no $option" >&2; exit 1; }
    done
    for status in "$@"; do
        grep -qx ".It $status" "$page" || { echo "$page: no status $status" >&2; exit 1; }
    done
    examples=$(examples_of "$page")
    (cd "$folder" && bash -euo pipefail -c "$examples" > lines)
    echo "$page: $(echo "$options" | wc -l) options, $# statuses," \
        "$(grep -cE '^(zcat|giop)' <<< "$examples") examples with $(wc -l < "$folder/lines") lines"
}

statuses=$(sed -nE 's/^\| ([0-5]) \|.*/\1/p' docs/FORMATS.md | sort -u)
[ "$(echo $statuses)" = "0 1 2 3 4 5" ]
check_page giopdump $statuses
check_page giopcap $statuses
check_page giop-json 0 1 2 3 4 5
check_page giop-stat 0 2 3 4 5
check_page giop-chart 0 2 3 4
check_page giop-report 0 2 3 4
check_page giop-keys 0 2 3 4
ls "$folder"/naming.svg "$folder"/orders.png > /dev/null

version=$(sed -nE '/^## /{s/^## ([^ ]+).*/\1/p; q}' CHANGES.md)
for program in giopdump giopcap giop-stat giop-chart giop-report giop-keys; do
    [ "$("$program" --version)" = "$program $version" ] || { echo "$program --version isn't $version" >&2; exit 1; }
done
omniidl -p idl -bgiopdump_signatures -u | grep -cx "giopdump_signatures $version" > /dev/null
echo "version $version"
