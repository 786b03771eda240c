#!/usr/bin/env bash
# Nothing stands in the code unused, and no line of definitions, clauses and proofs goes beyond 100 columns.
set -euo pipefail
cd "$(dirname "$0")/.."
exec env PYTHONDONTWRITEBYTECODE=1 python3 checks/words.py
