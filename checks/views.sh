#!/usr/bin/env bash
# giop-json, giop-stat, giop-chart and giop-keys: what they print of rows and lines that were written by hand, of the dumps of
# generated streams, and of these when they are cut or changed; the picture of docs/USE.md; and the pages of giop-report in a
# browser without network. Installs mscgen, chromium, libjs-chart.js and python3-jinja2 where they are missing.
set -euo pipefail
cd "$(dirname "$0")/.."
. checks/packages.sh

need_program mscgen mscgen
need_program chromium chromium
need_file /usr/share/javascript/chart.js/chart.min.js libjs-chart.js
need_file /usr/lib/python3/dist-packages/jinja2 python3-jinja2
need_giopdump
need_giopcap
need_giop_json
need_giop_stat
export PYTHONDONTWRITEBYTECODE=1
python3 scripts/tests/test_views.py
python3 scripts/tests/test_keys.py
python3 checks/views.py
python3 checks/report.py
