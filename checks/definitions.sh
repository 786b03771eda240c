#!/usr/bin/env bash
# The index of definitions: it has each one that a contract cites, and those that docs/DEFINITIONS.md names stand in the files
# that stand beside them. And what the pages on the code name of it is there.
set -euo pipefail
cd "$(dirname "$0")/.."

exec env PYTHONDONTWRITEBYTECODE=1 scripts/definitions --check
