# shellcheck shell=bash
# What the scripts of this folder need: programs of other packages, which are installed where they are missing, and the
# built programs. Read by them from the top of the repository. A script ends with status 77 where a package is missing that
# can't be installed.

# need_program PROGRAM PACKAGE
need_program() {
    command -v "$1" > /dev/null || install_package "$2"
    command -v "$1" > /dev/null || { echo "$0: $1 is missing: install $2" >&2; exit 77; }
}

# need_file FILE PACKAGE
need_file() {
    [ -e "$1" ] || install_package "$2"
    [ -e "$1" ] || { echo "$0: $1 is missing: install $2" >&2; exit 77; }
}

install_package() {
    local as_root=()
    if [ "$(id -u)" != 0 ]; then
        command -v sudo > /dev/null || return 0
        as_root=(sudo)
    fi
    command -v apt-get > /dev/null || return 0
    echo "installing $1"
    export DEBIAN_FRONTEND=noninteractive
    "${as_root[@]}" apt-get install -y --no-install-recommends "$1" > /dev/null 2>&1 && return 0
    "${as_root[@]}" apt-get update > /dev/null 2>&1 || true
    "${as_root[@]}" apt-get install -y --no-install-recommends "$1" > /dev/null || true
}

# The built program, as $giopdump.
need_giopdump() {
    giopdump=$PWD/crates/giopdump/out/giopdump
    [ -x "$giopdump" ] && return 0
    echo "$0: $giopdump is missing: scripts/build makes it" >&2
    exit 1
}

# The built reader of captures, as $giopcap.
need_giopcap() {
    giopcap=$PWD/crates/giopcap/out/giopcap
    [ -x "$giopcap" ] && return 0
    echo "$0: $giopcap is missing: scripts/build makes it" >&2
    exit 1
}

# The built giop-json, which scripts/giop-json starts.
need_giop_json() {
    giop_json=$PWD/crates/giop_json/out/giop_json
    [ -x "$giop_json" ] && return 0
    echo "$0: $giop_json is missing: scripts/build makes it" >&2
    exit 1
}

# The built giop-stat, which scripts/giop-stat starts.
need_giop_stat() {
    giop_stat=$PWD/crates/giop_stat/out/giop_stat
    [ -x "$giop_stat" ] && return 0
    echo "$0: $giop_stat is missing: scripts/build makes it" >&2
    exit 1
}

# The library of checks/failing.c, as $failing. It is made in a folder of its own, which goes when the script ends.
need_failing() {
    need_program cc gcc
    need_file /usr/include/errno.h libc6-dev
    local folder
    folder=$(mktemp -d)
    trap 'rm -rf "'"$folder"'"' EXIT
    failing=$folder/failing.so
    cc -shared -fPIC -O2 -Wall -Wextra -Werror -o "$failing" checks/failing.c
}
