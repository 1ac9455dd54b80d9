#!/usr/bin/env bash
# Tests the Python package. See `python/test.sh --help`.
set -euo pipefail

usage() {
    cat <<'TEXT'
usage: python/test.sh [--plain]

Tests the package `countygroups` for Python with the program that COUNTYGROUPS names, or that of
dist/. It takes a minute.

- all that needs the standard library alone, by `python3` and each of Python 3.9 to 3.13 that is
  installed;
- tables, shapes and graphs, and the documents' examples, by the first of `python3` and
  /usr/bin/python3 that has geopandas, networkx and matplotlib;
- types by mypy, and the layout of lines by black of release 23.

What isn't there is said, and what needs it is passed over. `tools/test_needs.sh` installs it.
--plain: the tests by `python3` alone. What needs packages that it doesn't have is skipped.
Statuses: 0 all passed, 1 something failed, 2 it can't be run.
TEXT
}

refuse() {
    echo "python/test.sh: $1" >&2
    exit 2
}

fail() {
    echo "python/test.sh: $1" >&2
    exit 1
}

# The tests, which unittest finds by their names.
found=(discover -s tests -t .)
is_plain=no
for word in "$@"; do
    case $word in
        --plain) is_plain=yes ;;
        --help | -h) usage; exit 0 ;;
        *) usage >&2; refuse "it takes no word \`$word\`" ;;
    esac
done
command -v python3 >/dev/null || refuse "there is no \`python3\` on the path"
cd "$(dirname "$0")"

# Prints an installed Python of the release 3.MINOR: that of the path, or one that pyenv has.
python_of() { # MINOR
    local one
    for one in "python3.$1" "$(pyenv root 2>/dev/null || true)"/versions/"3.$1".*/bin/python; do
        if "$one" -c '' 2>/dev/null; then
            echo "$one"
            return
        fi
    done
    return 1
}

# Runs the tests by each release of Python that is promised and installed. What needs packages that a
# release doesn't have is skipped.
test_releases() {
    local minor python
    for minor in 9 10 11 12 13; do
        if python=$(python_of "$minor"); then
            echo "the tests by $("$python" --version)"
            "$python" -m unittest "${found[@]}"
        else
            echo "Python 3.$minor isn't installed, so the tests didn't run by it"
        fi
    done
}

# Says what isn't run, and which package of Debian it needs.
pass_over() { # WHAT PACKAGE ..
    ../tools/pass_over.sh "$1: Debian has it as ${*:2}"
}

# Returns whether this is the release of black by which the files are laid out. If not, says so.
is_known_black() {
    case $(black --version) in
        "black, 23."*) ;;
        *)
            ../tools/pass_over.sh "the test of the layout of lines, which is that of black 23"
            return 1
            ;;
    esac
}

python3 -c 'import countygroups; print("the program:", *countygroups.find_program().command)' ||
    refuse "the tests need the program"
if [ "$is_plain" = yes ]; then
    exec python3 -m unittest "${found[@]}"
fi
test_releases
if python=$(../tools/python_with.sh geopandas matplotlib networkx); then
    "$python" -m unittest "${found[@]}"
else
    pass_over "tables, shapes, graphs and the documents" \
        python3-geopandas python3-networkx python3-matplotlib
fi
if command -v mypy >/dev/null; then
    mypy --strict countygroups tests examples building
else
    pass_over "the test of types" mypy
fi
if ! command -v black >/dev/null; then
    pass_over "the test of the layout of lines" black
elif is_known_black; then
    black --quiet --check . || fail "\`black .\` in python/ would change a file"
fi
