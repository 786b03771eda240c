#!/usr/bin/env bash
# Refuses each of giopdump's requests for memory in turn, and all from it on, by a library that stands in front of
# the C library: the program writes what it always does, or says that it is out of memory and writes no line. And how much
# memory giopcap takes, whatever comes (checks/captures.sh refuses its requests).
set -euo pipefail
cd "$(dirname "$0")/.."
. checks/packages.sh

need_giopdump
need_giopcap
need_failing
export PYTHONDONTWRITEBYTECODE=1
python3 checks/bounded.py
python3 checks/memory.py "$failing"
