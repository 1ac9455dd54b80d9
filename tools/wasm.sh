#!/usr/bin/env bash
# Makes WebAssembly of a program's LLVM module. See `tools/wasm.sh --help`.
set -euo pipefail

usage() {
    cat <<'TEXT'
usage: tools/wasm.sh MODULE.bc OUT.wasm [REFUSING.wasm]

Compiles the LLVM module of the program, which tools/module.sh keeps, and web/heap.c for 64-bit
WebAssembly, and links both, by the clang and the linker of the kit alone (some two minutes on one
core). What is still missing then has to be a host call of web/host/calls.txt. Then Binaryen
(`wasm-opt` of Debian's package `binaryen`, version 108) lowers the memory to 32-bit addresses,
which every browser and every Node has, and optimizes.
REFUSING.wasm is the same program over web/test/refusing_heap.c, which refuses the request that a
test names.
Statuses: 0 all is stored, 1 it can't be compiled or linked, 2 these words can't be run.
TEXT
}

refuse() {
    echo "wasm.sh: $1" >&2
    exit 2
}

case ${1-} in --help | -h) usage; exit 0 ;; esac
if [ $# -lt 2 ] || [ $# -gt 3 ]; then
    usage >&2
    exit 2
fi
[ -r "$1" ] || refuse "$1 can't be read"
command -v wasm-opt >/dev/null || refuse "there is no \`wasm-opt\`: install Debian's \`binaryen\`"
command -v rt >/dev/null || refuse "there is no \`rt\` on the path; it comes with the Rattle kit"
web=$(cd "$(dirname "$0")/../web" && pwd)
clang=$(dirname "$(rt doc)")/toolchain/bin/clang
room=$(mktemp -d)
trap 'rm -rf "$room"' EXIT

# The kit's clang is its linker too, if it is called by that name.
ln -s "$clang" "$room/wasm-ld"
target=(--target=wasm64-unknown-unknown -mbulk-memory --no-default-config)
# (with -O2 clang finds in the heap's own product what it would call that function for)
for_heap=(-O1 -fno-builtin -nostdlib)

link() { # HEAP.o OUT.wasm LINKER-WORD..
    local heap=$1 out=$2
    shift 2
    "$room/wasm-ld" -mwasm64 --no-entry --export=main \
        --allow-undefined-file="$web/host/calls.txt" --gc-sections --strip-all \
        -z stack-size=16777216 "$@" -o "$room/linked.wasm" "$room/program.o" "$heap" || exit 1
    "$(dirname "$0")/lowered_wasm.sh" "$room/linked.wasm" "$room/lowered.wasm" || exit 1
    mv "$room/lowered.wasm" "$out"
}

"$clang" "${target[@]}" -Os -fintegrated-cc1 -Wno-override-module \
    -ffunction-sections -fdata-sections -c -x ir "$1" \
    -o "$room/program.o" 2>"$room/said" || { cat "$room/said" >&2; exit 1; }
"$clang" "${target[@]}" "${for_heap[@]}" -c "$web/heap.c" -o "$room/heap.o" || exit 1
link "$room/heap.o" "$2"
if [ $# = 3 ]; then
    "$clang" "${target[@]}" "${for_heap[@]}" -c "$web/test/refusing_heap.c" \
        -o "$room/refusing_heap.o" || exit 1
    link "$room/refusing_heap.o" "$3" --export=refuse_request --export=count_requests
fi
