#!/usr/bin/env bash
# Links the program statically, for any C library. See `tools/static_program.sh --help`.
set -euo pipefail

usage() {
    cat <<'TEXT'
usage: tools/static_program.sh OBJECT PROGRAM

Links OBJECT, of which the kit links the program (tools/prove.sh --object), with musl in the place
of the C library of GNU, and stores it as PROGRAM. So it is the same code of the program and of the
kit, and it starts with any C library and with none. packaging/static/musl.c has what musl lacks.
It needs the Rattle kit, whose clang and linker it runs, and musl (Debian's package musl-dev).
Statuses: 0 the program is stored, 1 it can't be linked, 2 these words can't be followed.
TEXT
}

refuse() { # STATUS WHY
    echo "static_program.sh: $2" >&2
    exit "$1"
}

case ${1:-} in
    --help | -h) usage; exit 0 ;;
esac
if [ $# != 2 ]; then
    usage >&2
    refuse 2 "it takes an object and the name of the program"
fi
[ -r "$1" ] || refuse 2 "$1 can't be read"
command -v rt >/dev/null || refuse 2 "there is no \`rt\` on the path; it comes with the Rattle kit"
musl=/usr/lib/x86_64-linux-musl
[ -r "$musl/libc.a" ] || refuse 2 "there is no musl: Debian has it as the package musl-dev"
top=$(cd "$(dirname "$0")/.." && pwd)
kit=$(dirname "$(rt doc)")
room=$(mktemp -d)
trap 'rm -rf "$room"' EXIT

"$kit/toolchain/bin/clang" --target=x86_64-unknown-linux-musl --no-default-config \
    -O1 -fPIE -ffreestanding -nostdinc -c "$top/packaging/static/musl.c" -o "$room/musl.o" ||
    refuse 1 "packaging/static/musl.c can't be compiled"
# (as the kit's own linker is called, but for the static words and `main`)
"$kit/toolchain/bin/ld.lld" -m elf_x86_64 -static -pie --no-dynamic-linker -z text -z relro -z now \
    -z noexecstack --eh-frame-hdr --gc-sections --build-id=sha1 --threads=1 --wrap=main \
    -o "$room/program" "$musl/rcrt1.o" "$musl/crti.o" "$1" "$room/musl.o" \
    "$kit/c/libos_c.a" "$kit/c/liblibc_c.a" "$musl/libc.a" "$kit/toolchain/lib/libgcc.a" \
    "$musl/crtn.o" || refuse 1 "the program can't be linked"
mkdir -p "$(dirname "$2")"
mv "$room/program" "$2"
