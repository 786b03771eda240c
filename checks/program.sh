#!/usr/bin/env bash
# Runs the program on files, and on standard input: its words, the files that are missing, refused or can't be saved, streams
# in parts, and checkpoints that are refused. What it writes and says, its status and the files that it leaves are compared.
# Then saves over files of other modes, owners and links, and over those that a run has open, as root and as a user.
set -euo pipefail
cd "$(dirname "$0")/.."
. checks/packages.sh

need_giopdump
need_giopcap
export PYTHONDONTWRITEBYTECODE=1
python3 checks/program.py
python3 checks/saves.py
