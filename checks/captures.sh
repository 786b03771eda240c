#!/usr/bin/env bash
# Runs giopcap on captures whose lines are known, in files, on standard input and in pieces on a pipe that stays open; and with
# each of its calls and each of its requests for memory failing.
set -euo pipefail
cd "$(dirname "$0")/.."
. checks/packages.sh

need_giopcap
need_failing
env PYTHONDONTWRITEBYTECODE=1 python3 checks/captures.py "$failing"
