#!/usr/bin/env bash
# Installs the built program with its manual page and the completions of bash, zsh and fish: scripts/install.sh [--prefix FOLDER]
# FOLDER is /usr/local where none is said; DESTDIR, where it is set, stands before it. It wants bash, coreutils and python3; the program
# wants Linux on x86-64 with glibc 2.34 or later, and no rt, so FOLDER may be copied to another machine.
set -euo pipefail
top=$(dirname -- "$(dirname -- "$(readlink -f -- "${BASH_SOURCE[0]}")")")
program=${REMUX:-$top/crates/remux/out/remux}
prefix=/usr/local
case $# in
    0) ;;
    2) [ "$1" = --prefix ] && prefix=$2 || { sed -n '2,3s/^# //p' "${BASH_SOURCE[0]}" >&2; exit 2; } ;;
    *) sed -n '2,3s/^# //p' "${BASH_SOURCE[0]}" >&2; exit 2 ;;
esac
if [ ! -x "$program" ]; then
    echo "install.sh: the program isn't built: ./remux --help builds it" >&2
    exit 1
fi
pages=$(mktemp -d)
trap 'rm -rf -- "$pages"' EXIT
python3 "$top/scripts/pages.py" "$program" "$pages"
at=${DESTDIR:-}$prefix
install -D -m 755 -- "$program" "$at/bin/remux"
install -D -m 644 -- "$pages/remux.1" "$at/share/man/man1/remux.1"
install -D -m 644 -- "$pages/remux" "$at/share/bash-completion/completions/remux"
install -D -m 644 -- "$pages/_remux" "$at/share/zsh/site-functions/_remux"
install -D -m 644 -- "$pages/remux.fish" "$at/share/fish/vendor_completions.d/remux.fish"
echo "installed in $at: bin/remux, its manual page, and the completions of bash, zsh and fish"
