#!/usr/bin/env bash
# The streams of giopcap beside the octets that tshark and tcpflow put together of the same captures. Installs tshark and tcpflow
# where they are missing.
set -euo pipefail
cd "$(dirname "$0")/.."
. checks/packages.sh

need_giopdump
need_giopcap
need_program tshark tshark
need_program tcpflow tcpflow
exec env PYTHONDONTWRITEBYTECODE=1 python3 checks/streams.py
