#!/usr/bin/env bash
# Checks the types and the layout of the Python files. See `tools/check_python.sh --help`.
set -euo pipefail

usage() {
    cat <<'TEXT'
usage: tools/check_python.sh

Checks the Python files of cases/, tools/, bench/, web/test/ and web/page/test/ by the settings of
pyproject.toml. It takes some ten seconds.

- the layout by `black` of release 23, with lines of 100 columns;
- the types by `mypy --strict`.

If one of the two isn't installed, a line says which Debian package has it, and its part is passed
over. `python/test.sh` checks the package for Python.
Statuses: 0 nothing is wrong, 1 something is, 2 these words can't be followed.
TEXT
}

refuse() {
    echo "check_python.sh: $1" >&2
    exit 2
}

for word in "$@"; do
    case $word in
        --help | -h) usage; exit 0 ;;
        *) usage >&2; refuse "it takes no word \`$word\`" ;;
    esac
done
cd "$(dirname "$0")/.."

folders=(cases tools bench web/test web/page/test)

# Returns whether a program is installed. If it isn't, says which package has it.
is_there() { # PROGRAM WHAT
    if ! command -v "$1" >/dev/null; then
        tools/pass_over.sh "the check of $2: there is no \`$1\`, Debian has it as the package $1"
        return 1
    fi
}

# Returns whether this is the release of black by which the files are laid out. If not, says so.
is_known_black() {
    case $(black --version) in
        "black, 23."*) ;;
        *)
            tools/pass_over.sh "the check of the layout, which is that of black 23"
            return 1
            ;;
    esac
}

# Returns whether `black` would change no file. If it would, says which.
is_laid_out() {
    local told
    if told=$(black --check "${folders[@]}" 2>&1); then
        echo "the layout is that of black"
    else
        echo "$told" >&2
        return 1
    fi
}

status=0
if is_there black "the layout" && is_known_black; then
    is_laid_out || status=1
fi
if is_there mypy "types"; then
    mypy || status=1
fi
exit "$status"
