#!/usr/bin/env bash
# Tests the R package. See `r/test.sh --help`.
set -euo pipefail

usage() {
    cat <<'TEXT'
usage: r/test.sh

Tests the package `countygroups` for R with the program that COUNTYGROUPS names, or that of dist/.
It takes some 20 seconds. The package is installed to a folder that is removed in the end.

- named vectors, data frames and small problems, with R alone;
- shapes, with sf;
- help pages, and the documents' examples, which are run as they stand.

What isn't there is said, and what needs it is passed over. `tools/test_needs.sh` installs it.
Statuses: 0 all passed, 1 something failed, 2 it can't be run.
TEXT
}

refuse() {
    echo "r/test.sh: $1" >&2
    exit 2
}

for word in "$@"; do
    case $word in
        --help | -h) usage; exit 0 ;;
        *) usage >&2; refuse "it takes no word \`$word\`" ;;
    esac
done
top=$(cd "$(dirname "$0")/.." && pwd)
cd "$top"

# Whether R has the package sf.
has_sf() {
    Rscript -e 'if (!requireNamespace("sf", quietly = TRUE)) quit(status = 1)' 2>/dev/null
}

if ! command -v Rscript >/dev/null; then
    tools/pass_over.sh "the package for R: Debian has R as r-base-core"
    exit 0
fi

room=$(mktemp -d)
trap 'rm -rf "$room"' EXIT
R CMD INSTALL --library="$room" r >"$room/log" 2>&1 || { cat "$room/log" >&2; exit 1; }
export R_LIBS="$room" COUNTYGROUPS_DATA="$top/data/nc2020"
COUNTYGROUPS=$(Rscript -e 'cat(tail(countygroups::find_program(), 1))') ||
    refuse "the tests need the program"
export COUNTYGROUPS
echo "the program: $COUNTYGROUPS"
(cd r/tests && Rscript plain.R)
if has_sf; then
    (cd r/tests && Rscript shapes.R && Rscript documents.R)
else
    tools/pass_over.sh "shapes and the documents for R: Debian has sf as r-cran-sf"
fi
