#!/usr/bin/env bash
# Says that a test can't run here. See `tools/pass_over.sh --help`.
set -euo pipefail

usage() {
    cat <<'TEXT'
usage: tools/pass_over.sh WHAT ..

Prints that WHAT isn't run. If the variable COUNTYGROUPS_NOT_RUN names a file, the line is added to
that file, too: `./test.sh` prints these lines at its end, and fails by them with --require-all.
Statuses: 0 it was said, 2 these words can't be followed.
TEXT
}

case ${1:-} in
    --help | -h) usage; exit 0 ;;
    '') usage >&2; echo "pass_over.sh: it takes what isn't run" >&2; exit 2 ;;
esac
echo "not run: $*"
if [ -n "${COUNTYGROUPS_NOT_RUN:-}" ]; then
    echo "$*" >>"$COUNTYGROUPS_NOT_RUN"
fi
