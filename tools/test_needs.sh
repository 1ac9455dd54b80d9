#!/usr/bin/env bash
# Names the packages of Debian that the tests use. See `tools/test_needs.sh --help`.
set -euo pipefail

usage() {
    cat <<'TEXT'
usage: tools/test_needs.sh [--install]

Names what the tests use and what isn't there, one line each, with the package of Debian that has
it. The last line is the command that installs all of it. If nothing is missing, it prints nothing.
pytest and xdist are named, too, but nothing is missing without them: tools/run_tests.py then runs
the same tests by unittest.
--install: first installs what is missing, by apt-get. That takes root, a network and minutes, and
it ends after 20 minutes at most. What can't be installed is named as without the word.
The program `rt` isn't named. It comes with the Rattle kit, and `./test.sh --proved` asks for it.
Statuses: 0 nothing is missing, 1 something is, 2 these words can't be followed.
TEXT
}

refuse() {
    echo "test_needs.sh: $1" >&2
    exit 2
}

is_installing=no
for word in "$@"; do
    case $word in
        --install) is_installing=yes ;;
        --help | -h) usage; exit 0 ;;
        *) usage >&2; refuse "it takes no word \`$word\`" ;;
    esac
done
here=$(cd "$(dirname "$0")" && pwd)

# The programs that tests run: a name, or several of which one is enough, and the package.
programs="
R r-base-core
checkbashisms devscripts
qpdf qpdf
pandoc pandoc
pdflatex texlive-latex-recommended
chromium|chromium-browser chromium
firefox-esr|firefox firefox-esr
tsc node-typescript
mypy mypy
npm npm
dpkg-deb dpkg
objdump|strip binutils
bash bash
fish fish
zsh zsh
git git
jq jq
make make
man man-db
groff groff
setsid util-linux
valgrind valgrind
wasm-opt binaryen
"

# The modules of which each line has to be there in one Python. The package of NAME is python3-NAME.
modules="
distributed
geopandas matplotlib networkx
"

# Returns whether one of the programs `NAME|NAME ..` is installed.
has_program() {
    local name
    for name in ${1//|/ }; do
        ! command -v "$name" >/dev/null || return 0
    done
    return 1
}

has_node_20() {
    command -v node >/dev/null &&
        node -e 'process.exit(parseInt(process.versions.node) < 20 ? 1 : 0)'
}

has_black_23() {
    command -v black >/dev/null && [[ $(black --version) == "black, 23."* ]]
}

# Returns whether R has a package.
has_r_package() { # NAME
    Rscript -e 'if (!requireNamespace(commandArgs(TRUE), quietly = TRUE)) quit(status = 1)' "$1" \
        >/dev/null 2>&1
}

# Prints `PACKAGE what` for each of the modules that the Python of Debian's packages lacks, if no
# Python has them all.
list_missing_modules() { # NAME ..
    local name
    ! "$here/python_with.sh" "$@" >/dev/null || return 0
    for name in "$@"; do
        /usr/bin/python3 -c "import $name" 2>/dev/null ||
            echo "python3-$name the Python module $name"
    done
}

# Prints `PACKAGE what` for pytest and xdist, without which the same tests run.
list_helpful() {
    "$here/python_with.sh" pytest xdist >/dev/null || {
        echo "python3-pytest the Python module pytest"
        echo "python3-pytest-xdist the Python module xdist"
    }
}

# Prints `PACKAGE what` for each thing that isn't there.
list_missing() {
    local name package names
    while read -r name package; do
        [ -z "$name" ] || has_program "$name" || echo "$package the program ${name%%|*}"
    done <<<"$programs"
    has_node_20 || echo "nodejs Node 20 or later (Debian 13 has it)"
    python3 -c 'import ensurepip, venv' 2>/dev/null || echo "python3-venv venv of Python"
    python3 -m pip --version >/dev/null 2>&1 || echo "python3-pip pip of Python"
    [ -n "$(kpsewhich ptmr8t.tfm 2>/dev/null)" ] ||
        echo "texlive-fonts-recommended the font Times of LaTeX"
    [ -r /usr/lib/x86_64-linux-musl/libc.a ] || echo "musl-dev the C library musl"
    has_black_23 || echo "black the program black of release 23 (Debian 12 has it)"
    while read -r -a names; do
        [ "${#names[@]}" = 0 ] || list_missing_modules "${names[@]}"
    done <<<"$modules"
    for name in sf igraph generics jsonlite; do
        has_r_package "$name" || echo "r-cran-$name the R package $name"
    done
}

# Returns whether something isn't there. Leaves the lines in `missing`, the packages in `wanted`, and
# in `status` 1 if a test can't run.
is_missing() {
    local helpful
    missing=$(list_missing)
    helpful=$(list_helpful)
    status=0
    [ -z "$missing" ] || status=1
    missing+=${missing:+${helpful:+$'\n'}}$helpful
    mapfile -t wanted < <(cut -d' ' -f1 <<<"$missing")
    [ -n "$missing" ]
}

install_wanted() {
    [ "$(id -u)" = 0 ] || { echo "test_needs.sh: only root can install packages" >&2; return 1; }
    command -v apt-get >/dev/null || { echo "test_needs.sh: there is no apt-get" >&2; return 1; }
    export DEBIAN_FRONTEND=noninteractive
    # (old lists may do, and another apt-get may be at work)
    timeout 120 apt-get update -qq >/dev/null || true
    timeout 1080 apt-get install -y -qq --no-install-recommends \
        -o DPkg::Lock::Timeout=600 "${wanted[@]}" >/dev/null
}

is_missing || exit 0
if [ "$is_installing" = yes ]; then
    install_wanted || echo "test_needs.sh: apt-get didn't install ${wanted[*]}" >&2
    is_missing || exit 0
fi
while read -r package what; do
    echo "not there: $what, in Debian's package $package"
done <<<"$missing"
echo "to get it: apt-get install --no-install-recommends ${wanted[*]}"
exit "$status"
