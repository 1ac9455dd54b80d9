#!/usr/bin/env bash
# Makes dist/ of a program that is proved and built, and the page of dist/. See `tools/release.sh --help`.
set -euo pipefail

usage() {
    cat <<'TEXT'
usage: tools/release.sh
       tools/release.sh --room FOLDER --log FILE --module FILE --object FILE

Proves every crate as committed, tries every edit, those of `tried/` too, builds the program, tests
it, and makes dist/ of it:

    countygroups-x86_64-linux         the program for Linux on x86-64, as LLVM builds it
    countygroups-x86_64-linux-static  the same object linked with musl, for any C library
    countygroups.wasm                 the program as WebAssembly, of the same LLVM module
    countygroups.mjs, .cmd            what starts it by Node
    BUILD                             the git tree of crates/, the kit, the last line of `rt ci`
    SHA256SUMS                        the sums of these files

Then it makes docs/page.html and the maps of docs/ with these programs, and tries for the page how
few people change the answers, and which single borders do. Nothing else writes to dist/
or makes them. It needs the Rattle kit, musl, git, python3 and Node, and takes hours.
--room, --log, --module, --object: takes what `tools/prove.sh FOLDER LOG --all-edits --module FILE
--object FILE` left. Its crates have to be those of this commit, with every edit.
Statuses: 0 dist/ is made, 1 something isn't proved or fails, 2 these words can't be followed.
TEXT
}

refuse() { # STATUS WHY
    echo "release.sh: $2" >&2
    exit "$1"
}

room=
log=
module=
object=
while [ $# -gt 0 ]; do
    case $1 in
        --help | -h) usage; exit 0 ;;
        --room | --log | --module | --object)
            [ $# -gt 1 ] || refuse 2 "$1 takes a name"
            declare "${1#--}=$(realpath -m "$2")"
            shift
            ;;
        *) usage >&2; refuse 2 "it takes no word \`$1\`" ;;
    esac
    shift
done
case ${room:+room}${log:+log}${module:+module}${object:+object} in
    "" | roomlogmoduleobject) ;;
    *) refuse 2 "--room, --log, --module and --object go together" ;;
esac
cd "$(dirname "$0")/.."
made=$(mktemp -d)
trap 'rm -rf "$made"' EXIT

if [ -z "$room" ]; then
    room=$made/room
    log=$made/log
    module=$made/module.bc
    object=$made/program.o
    tools/prove.sh "$room" "$log" --all-edits --module "$module" --object "$object"
fi
python3 tools/dist_folder.py check-proof "$room" "$log"
program=$room/crates/countygroups/out/countygroups
static=$made/dist/countygroups-x86_64-linux-static
wasm=$made/dist/countygroups.wasm

mkdir "$made/dist"
cp "$program" "$made/dist/countygroups-x86_64-linux"
tools/static_program.sh "$object" "$static"
tools/wasm.sh "$module" "$wasm" "$made/refusing.wasm"
python3 tools/launcher.py "$made/dist"
./test.sh --program "$program" --wasm "$wasm" --refusing "$made/refusing.wasm"
python3 cases/cases.py --program "$static"
COUNTYGROUPS_STATIC=$static python3 tools/test_packages.py StaticProgram
python3 tools/dist_folder.py seal "$made/dist" "$log"
mkdir -p dist
find dist -mindepth 1 -delete
cp -p "$made/dist/"* dist/
python3 tools/compare_dist.py --program "$program" --static "$static" --wasm "$wasm"
python3 tools/make_page.py --program dist/countygroups-x86_64-linux --build-file dist/BUILD \
    --maps docs --tables "$made/tables"
python3 tools/test_page_in_browser.py --program dist/countygroups-x86_64-linux
echo "dist/ is made:"
cat dist/BUILD
