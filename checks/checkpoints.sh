#!/usr/bin/env bash
# Saves the examples after each octet and goes on from there: the joined lines are those of the whole. Damages
# checkpoints, and goes on from them by other files: they are refused by name, or gone on from.
set -euo pipefail
cd "$(dirname "$0")/.."
. checks/packages.sh

need_giopdump
exec env PYTHONDONTWRITEBYTECODE=1 python3 checks/checkpoints.py
