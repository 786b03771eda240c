#!/usr/bin/env bash
# Runs all scripts of this folder over the built programs, which it builds where they are missing. The status is 1 where one
# of them failed. One whose packages are missing and can't be installed is told as not run.
set -uo pipefail
cd "$(dirname "$0")/.."

scripts/build || exit 1

passed=0 failed=0 not_run=0
for script in edits edits_faults words definitions python program idl views package manual readme memory calls checkpoints captures streams generated; do
    echo "== checks/$script.sh"
    "checks/$script.sh"
    case $? in
        0) passed=$((passed + 1)) ;;
        77) not_run=$((not_run + 1)); echo "checks/$script.sh was not run" ;;
        *) failed=$((failed + 1)); echo "checks/$script.sh failed" ;;
    esac
done
echo "scripts: $passed passed, $failed failed, $not_run not run"
[ "$failed" = 0 ]
