#!/usr/bin/env bash
# Installs the program of dist/. See `tools/install.sh --help`.
set -euo pipefail

usage() {
    cat <<'TEXT'
usage: tools/install.sh PREFIX

Installs the program of dist/ for Linux on x86-64 as PREFIX/bin/countygroups, with its man page and
the completions for bash, zsh and fish below PREFIX/share.
Statuses: 0 all is installed, 1 something can't be, 2 these words can't be followed.
TEXT
}

case ${1:-} in
    --help | -h) usage; exit 0 ;;
    '' | -*) usage >&2; echo "install.sh: it takes a folder" >&2; exit 2 ;;
esac
share=$1/share
top=$(cd "$(dirname "$0")/.." && pwd)
put() { # MODE FROM TO
    install -D -m "$1" "$top/$2" "$3"
}
put 755 dist/countygroups-x86_64-linux "$1/bin/countygroups"
put 644 docs/countygroups.1 "$share/man/man1/countygroups.1"
put 644 completions/countygroups.bash "$share/bash-completion/completions/countygroups"
put 644 completions/_countygroups "$share/zsh/site-functions/_countygroups"
put 644 completions/countygroups.fish "$share/fish/vendor_completions.d/countygroups.fish"
