#!/usr/bin/env bash
# Prints the first Python that has some modules. See `tools/python_with.sh --help`.
set -euo pipefail

usage() {
    cat <<'TEXT'
usage: tools/python_with.sh MODULE ..

Prints the first Python that can import every MODULE: the `python3` on the path, or else
/usr/bin/python3, for which Debian's packages are. Tests use it, since the two can differ.
Statuses: 0 one was printed, 1 none has them all, 2 these words can't be followed.
TEXT
}

case ${1:-} in
    --help | -h) usage; exit 0 ;;
    '' | -*) usage >&2; echo "python_with.sh: it takes names of modules" >&2; exit 2 ;;
esac
for one in python3 /usr/bin/python3; do
    if "$one" -c 'import importlib, sys; [importlib.import_module(m) for m in sys.argv[1:]]' "$@" \
        2>/dev/null; then
        echo "$one"
        exit 0
    fi
done
exit 1
