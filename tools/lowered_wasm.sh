#!/usr/bin/env bash
# Lowers the memory of a WebAssembly module to 32-bit addresses. See `tools/lowered_wasm.sh --help`.
set -euo pipefail

usage() {
    cat <<'TEXT'
usage: tools/lowered_wasm.sh MODULE.wasm OUT.wasm

Stores MODULE.wasm, whose memory has 64-bit addresses, as OUT.wasm with 32-bit addresses, and
optimizes it. Its imports and exports stay: a pointer is still a word of 64 bits there. The memory
can have 4 GiB at most, and what asks for more is refused memory. The same version of `wasm-opt`
(Debian's package `binaryen`) makes the same bytes.
Statuses: 0 OUT.wasm is stored, 1 `wasm-opt` fails, 2 these words can't be run.
TEXT
}

case ${1-} in --help | -h) usage; exit 0 ;; esac
if [ $# != 2 ]; then
    usage >&2
    exit 2
fi
if ! command -v wasm-opt >/dev/null; then
    echo "lowered_wasm.sh: there is no \`wasm-opt\`: install Debian's \`binaryen\`" >&2
    exit 2
fi
features=(--enable-memory64 --enable-bulk-memory --enable-sign-ext --enable-mutable-globals
    --enable-nontrapping-float-to-int --enable-multivalue --enable-reference-types)
wasm-opt "${features[@]}" --memory64-lowering -O3 "$1" -o "$2" || exit 1
