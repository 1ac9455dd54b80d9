#!/usr/bin/env bash
# Proves and builds every crate, in a copy of the crates. See `tools/prove.sh --help`.
set -euo pipefail

usage() {
    cat <<'TEXT'
usage: tools/prove.sh FOLDER LOG [--all-edits | --no-edits] [--module FILE [--object FILE]]

Copies the crates to FOLDER, which is empty or missing, with the must-fail edits that are due, and
runs `rt ci` there: it proves each crate, tries the edits, and runs the programs. What it passed on
this machine before, with the same files, it takes as passed. The built programs are in
FOLDER/crates/NAME/out, and what `rt ci` said is in LOG. As many checks run side by side as
there are processors, four at most, each with one job: a check with several jobs takes more time of
the processors.
--all-edits: tries all edits, those of `tried/` too (`tools/gate_room.py`).
--no-edits: tries none.
--module FILE: stores the LLVM module of which the kit's clang made the program as FILE.
--object FILE: with --module, stores the object of which the kit linked the program, too.
Statuses: 0 all is proved and refused as it must be, 1 something isn't, 2 it can't be run.
TEXT
}

refuse() { # STATUS WHY
    echo "prove.sh: $2" >&2
    exit "$1"
}

module=
object=
edits=()
names=()
while [ $# -gt 0 ]; do
    case $1 in
        --help | -h) usage; exit 0 ;;
        --all-edits | --no-edits) edits+=("$1") ;;
        --module | --object)
            [ $# -gt 1 ] || refuse 2 "$1 takes a file"
            declare "${1#--}=$(realpath -m "$2")"
            shift
            ;;
        -*) usage >&2; refuse 2 "it takes no word \`$1\`" ;;
        *) names+=("$1") ;;
    esac
    shift
done
if [ ${#names[@]} != 2 ]; then
    usage >&2
    refuse 2 "it takes a folder and a log"
fi
[ -n "$module" ] || [ -z "$object" ] || refuse 2 "--object goes with --module"
command -v rt >/dev/null || refuse 2 "there is no \`rt\` on the path; it comes with the Rattle kit"
top=$(cd "$(dirname "$0")/.." && pwd)
folder=${names[0]}
: >"${names[1]}"
log=$(realpath "${names[1]}")
processors=$(nproc)
python3 "$top/tools/gate_room.py" "${edits[@]}" "$folder"
(cd "$folder" && env RT_JOBS=$((processors < 4 ? processors : 4)) rt ci) 2>&1 | tee "$log"
if grep -q 'BAD EDIT' "$log"; then
    refuse 1 "an edit can't be applied, compiled or read, so that it shows nothing"
fi
if [ -n "$module" ]; then
    python3 "$top/tools/program_module.py" "$folder" "$module" ${object:+"$object"}
fi
