#!/usr/bin/env bash
# The Python of idl/, reference/, checks/, bench/ and scripts/: mypy finds no fault in its types, black none in its form,
# and pip makes of idl/ a package by which omniidl finds the converter without -p.
# Installs mypy, black, omniidl, python3-pip, python3-setuptools and python3-wheel where they are missing.
set -euo pipefail
cd "$(dirname "$0")/.."
. checks/packages.sh

need_program mypy mypy
need_program black black
need_program omniidl omniidl
need_file /usr/lib/python3/dist-packages/pip python3-pip
need_file /usr/lib/python3/dist-packages/setuptools python3-setuptools
need_file /usr/lib/python3/dist-packages/wheel python3-wheel

mapfile -t sources < <({ git ls-files '*.py'; git grep -lE '^#!.*python3$' -- scripts; } | sort -u)
work=$(mktemp -d)
trap 'rm -rf "$work"' EXIT
mypy --cache-dir "$work/types" "${sources[@]}" > "$work/said" || { cat "$work/said"; exit 1; }
black --quiet --check "${sources[@]}" || { black --quiet --diff "${sources[@]}"; exit 1; }

# pip builds in the folder that it is given, so it gets a copy.
mkdir "$work/copy"
cp -r pyproject.toml LICENSE idl "$work/copy"
/usr/bin/python3 -m pip --quiet --disable-pip-version-check install --no-index --no-deps --no-build-isolation \
    --root-user-action ignore --target "$work/packages" "$work/copy"
echo 'interface Clock { long now(in string zone); };' > "$work/clock.idl"
(cd "$work" && PYTHONPATH=$work/packages omniidl -bgiopdump_signatures clock.idl) > "$work/clock.sig" 2> /dev/null
grep -qx 'operation long now(in string zone);' "$work/clock.sig"
echo "${#sources[@]} files of Python: $(sed -n 's/^Success: \(.*\) in .*/\1/p' "$work/said"), form as wanted," \
    "$(find "$work/packages" -maxdepth 1 -name '*.dist-info' -printf '%f\n')"
