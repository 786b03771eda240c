#!/usr/bin/env bash
# The Debian package: lintian finds no error, and dpkg installs it into an empty folder, where the programs dump an example
# and a capture, the five that read dumps read these, and omniidl finds the converter among Python's packages.
# Completion in bash offers the words of the programs. And what is released of a tag: its checksums hold, and the package is the
# one of the tag's sources, which are in the archive.
# Installs lintian, omniidl, binutils, bash-completion, libjs-chart.js and python3-jinja2 where they are missing.
set -euo pipefail
cd "$(dirname "$0")/.."
. checks/packages.sh

need_program lintian lintian
need_program objdump binutils
need_program omniidl omniidl
need_file /usr/share/bash-completion/bash_completion bash-completion
need_file /usr/share/javascript/chart.js/chart.min.js libjs-chart.js
need_file /usr/lib/python3/dist-packages/jinja2 python3-jinja2
need_giopdump
need_giopcap
need_giop_json
need_giop_stat

work=$(mktemp -d)
trap 'rm -rf "$work"' EXIT
mkdir "$work/again"
package=$(scripts/package "$work")
cmp "$package" "$(scripts/package "$work/again")"
lintian --allow-root --fail-on error --tag-display-limit 0 "$package"
for page in giopdump giopcap giop-json giop-stat giop-chart giop-report giop-keys; do
    dpkg-deb --fsys-tarfile "$package" | tar -t | grep -c "^./usr/share/man/man1/$page.1.gz$" > /dev/null
done

# completed WORD..: what completion makes of the last word.
cat > "$work/completed.sh" <<'END'
set -eo pipefail
. /usr/share/bash-completion/bash_completion
. "$root/usr/share/bash-completion/completions/$1"
PATH=$root/usr/bin:$PATH
COMP_WORDS=("$@") COMP_CWORD=$(($# - 1)) COMP_LINE="$*" COMP_POINT=$((${#COMP_LINE})) COMPREPLY=()
_giopdump "$1" "${@: -1}" "${@: -2:1}" || true
echo "${COMPREPLY[*]}"
END

# What a user does with the installed package. It says so in one line at its end.
cat > "$work/use.sh" <<'END'
set -euo pipefail
root=${1:-}
cd "$root/usr/share/doc/giopdump"
PATH=$root/usr/bin:$PATH
folder=$(mktemp -d)
giopdump --signatures examples/naming.sig examples/naming.giop > "$folder/lines"
grep -qx 'm6 body.n\[0\].id string @0 "shop"' "$folder/lines"
giopdump examples/naming.giop > "$folder/lines"
grep -q '"operation":"resolve"' <(giop-json "$folder/lines")
grep -q '^resolve ' <(giop-stat "$folder/lines")
grep -q '=> "server" \[label="resolve"\]' <(giop-chart "$folder/lines")
grep -q '<canvas id="latency">' <(giop-report "$folder/lines")
giopcap --signatures examples/naming.sig examples/session.pcap > "$folder/lines"
grep -qE '^s6 m2 answers s5 m2 resolve after 0\.[0-9]{9}$' "$folder/lines"
grep -q '^key "4e616d6553657276696365" of "IDL:' <(giop-keys "$folder/lines")
grep -q '"operation":"resolve"' <(giop-json "$folder/lines")
gzip -cd "$root/usr/share/man/man1/giopdump.1.gz" > "$folder/page"
grep -q '^.Dt GIOPDUMP' "$folder/page"
echo 'interface Clock { long now(in string zone); };' > "$folder/clock.idl"
omniidl -bgiopdump_signatures "$folder/clock.idl" > "$folder/clock.sig"
grep -qx 'operation long now(in string zone);' "$folder/clock.sig"
giopdump --types "$folder/clock.sig" examples/naming.giop > "$folder/lines"
rm -r "$folder"
echo "$(basename "$0" .sh): $(giopdump --version), $(giopcap --version), $(find "$root/usr/share/doc/giopdump" -type f | wc -l) documents"
END

mkdir -p "$work/root/var/lib/dpkg"
touch "$work/root/var/lib/dpkg/status"
dpkg --force-not-root --force-depends --root="$work/root" --log=/dev/null -i "$package" > /dev/null
mv "$work/use.sh" "$work/unpacked.sh"
PYTHONPATH=$work/root/usr/lib/python3/dist-packages bash "$work/unpacked.sh" "$work/root"

cd "$work/root/usr/share/doc/giopdump/examples"
completed() { root=$work/root bash "$work/completed.sh" "$@"; }
[ "$(completed giopcap --p)" = "--port --pool" ]
[ "$(completed giopcap --f)" = --first-stream ]
[ "$(completed giopcap --signatures n)" = "naming.sig notification.sig" ]
[ "$(completed giopdump --resume naming.r)" = naming.req ]
[ -z "$(completed giopcap --port '')" ]
[ "$(completed giopcap s)" = session.pcap ]
cd "$OLDPWD"

# What is released, of a tag in a clone, where rt takes the programs that are built.
git clone --quiet . "$work/clone"
git -C "$work/clone" tag "v$("$giopcap" --version | cut -d' ' -f2)"
mkdir "$work/rt" "$work/released"
printf '#!/bin/sh\nmkdir -p out && cp "%s/crates/$(basename "$PWD")/out/$(basename "$PWD")" out\n' "$PWD" > "$work/rt/rt"
chmod +x "$work/rt/rt"
PATH=$work/rt:$PATH "$work/clone/scripts/release" "$(git -C "$work/clone" tag)" "$work/released" > /dev/null 2>&1
(cd "$work/released" && sha256sum --quiet -c SHA256SUMS)
tar -tzf "$work"/released/*.tar.gz | grep -cxE 'giopdump-[0-9.]+/scripts/release' > /dev/null
tar -xOzf "$work"/released/*.tar.gz --wildcards '*/README.md' | cmp - <(dpkg-deb --fsys-tarfile "$work"/released/*.deb | tar -xO ./usr/share/doc/giopdump/README.md)
echo "released: $(ls "$work/released" | tr '\n' ' ')"
