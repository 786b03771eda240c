#!/usr/bin/env bash
# Dumps streams that are made by seeds from the examples and for signature files with interfaces, for so many seconds: whole, if
# the lines are those of reference/, with the reads cut, in parts that are saved and gone on from, and ended early; and captures
# that are made by seeds, for a sixth of that time. First it tries the reference over the rows of crates/giop_stream_rows and checks/data.
#
#     checks/generated.sh [SECONDS [FIRST_SEED]]
set -euo pipefail
cd "$(dirname "$0")/.."
. checks/packages.sh

need_giopdump
need_giopcap
need_failing
export PYTHONDONTWRITEBYTECODE=1
seconds=${1:-180}
python3 -m reference.tests
python3 checks/generated.py "$failing" "$((seconds * 5 / 6))" "${2:-1}"
python3 checks/wires.py "$giopcap" "$((seconds / 6))" "${2:-1}"
