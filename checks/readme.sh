#!/usr/bin/env bash
# Each command in the blocks of README.md and docs/USE.md runs, and prints what stands beside it; the files that the pages link to
# are there, and the code of docs/LIBRARY.md and docs/READING.md is that of the source.
# Installs what these commands use where it is missing.
set -euo pipefail
cd "$(dirname "$0")/.."
. checks/packages.sh

for program in jq mscgen omniidl parallel pv tcpdump; do
    need_program "$program" "$program"
done
need_program objdump binutils
need_file /usr/share/javascript/chart.js/chart.min.js libjs-chart.js
need_file /usr/lib/python3/dist-packages/jinja2 python3-jinja2
need_giopdump
need_giopcap
need_giop_json
need_giop_stat
exec env PYTHONDONTWRITEBYTECODE=1 python3 checks/readme.py
