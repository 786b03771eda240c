#!/usr/bin/env bash
# Fails each of the program's calls of open, read, write, fsync and rename in turn, and all from it on, interrupts it and
# cuts it short: what is written is a front of what it always is, and what failed is told. A file that can't be saved is
# what it was.
set -euo pipefail
cd "$(dirname "$0")/.."
. checks/packages.sh

need_giopdump
need_failing
env PYTHONDONTWRITEBYTECODE=1 python3 checks/calls.py "$failing"
