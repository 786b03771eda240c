#!/usr/bin/env bash
# The converter from IDL: what it writes for small IDL texts, for the services' IDL files that omniORB ships, and for
# examples/, each of which the built program takes; and conversations that were encoded by hand.
# Installs omniidl and omniorb-idl where they are missing.
set -euo pipefail
cd "$(dirname "$0")/.."
. checks/packages.sh

need_program omniidl omniidl
need_file /usr/share/idl/omniORB/COS/CosNaming.idl omniorb-idl
need_giopdump
exec env PYTHONDONTWRITEBYTECODE=1 python3 idl/tests/test_signatures.py
