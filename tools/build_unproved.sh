#!/usr/bin/env bash
# Builds the program without proof, fast. See `tools/build_unproved.sh --help`.
set -euo pipefail

usage() {
    cat <<'TEXT'
usage: tools/build_unproved.sh PROGRAM

Builds the program without any proof, and stores it as PROGRAM. `rt try` makes the program's LLVM
module. The kit's clang compiles it at -O1, in the place of the slow form with checks that `rt try`
asks for, and the kit links it. It takes two minutes on one free processor. Nothing is known of the
program, and it takes up to twice as long as a proved one, because the module of `rt try` still
tests what a proof shows. `cases/cases.py --build FILE --checked` builds the form that tells bad
accesses and sums that wrap.
Statuses: 0 the program is stored, 1 it can't be built, 2 these words can't be followed.
TEXT
}

refuse() { # STATUS WHY
    echo "build_unproved.sh: $2" >&2
    exit "$1"
}

case ${1:-} in
    --help | -h) usage; exit 0 ;;
esac
if [ $# != 1 ]; then
    usage >&2
    refuse 2 "it takes the name of the program"
fi
command -v rt >/dev/null || refuse 2 "there is no \`rt\` on the path; it comes with the Rattle kit"
program=$(realpath -m "$1")
top=$(cd "$(dirname "$0")/.." && pwd)
kit=$(dirname "$(rt doc)")
room=$(mktemp -d)
trap 'rm -rf "$room"' EXIT

# Stands in the place of the kit's clang. The small modules by which `rt try` learns about the machine
# are compiled as ever. The program's is compiled at -O1 without checks, and then `rt try` is ended.
cat >"$room/clang" <<SCRIPT
#!/usr/bin/env bash
clang=$(printf %q "$kit/toolchain/bin/clang")
room=$(printf %q "$room")
SCRIPT
cat >>"$room/clang" <<'SCRIPT'
is_program=no
words=()
for word in "$@"; do
    case $word in
        *.bc) [ "$(stat -c %s "$word")" -lt 100000 ] || is_program=yes ;;
        -O0) word=-O1 ;;
        *.o) word=$room/program.o ;;
        -fsanitize=*) continue ;;
    esac
    words+=("$word")
done
[ "$is_program" = yes ] || exec -a "${0%-script}" "$clang" "$@"
"$clang" "${words[@]}" || rm -f "$room/program.o"
exit 1
SCRIPT

"$top/tools/kit_links.sh" "$room/kit" "$room/clang"
# Beside it `rt try` has the prover look for names that a check would refuse. That is left out.
ln -sf "$(command -v true)" "$room/kit/bin/rattle"
mkdir "$room/cases"
printf -- '--version\n' >"$room/cases/version"
cd "$top/crates/countygroups"
TMPDIR=$room python3 "$room/kit/bin/rt" try --cases "$room/cases" >"$room/said" 2>&1 || true
if [ ! -s "$room/program.o" ]; then
    cat "$room/said" >&2
    refuse 1 "\`rt try\` made no module of the program, or it can't be compiled"
fi
"$kit/bin/rattle-link" --target x86_64-unknown-linux-gnu --toolchain "$kit/toolchain" \
    -o "$room/program" "$room/program.o" "$kit/c/libos_c.a" "$kit/c/liblibc_c.a" 2>"$room/said" || {
    cat "$room/said" >&2
    refuse 1 "the program can't be linked"
}
mkdir -p "$(dirname "$program")"
mv "$room/program" "$program"
