#!/usr/bin/env bash
# checks/edits.py tells each edit that shows nothing, by name and with status 1.
# It uses the libraries that `rt ci` leaves in out/.
set -euo pipefail
cd "$(dirname "$0")/.."
exec env PYTHONDONTWRITEBYTECODE=1 python3 checks/edits_faults.py
