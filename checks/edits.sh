#!/usr/bin/env bash
# The wrong bodies of crates/*/wrong: each is refused by a goal of the function that it changes.
# It uses the libraries that `rt ci` leaves in out/.
set -euo pipefail
cd "$(dirname "$0")/.."
exec env PYTHONDONTWRITEBYTECODE=1 python3 checks/edits.py
