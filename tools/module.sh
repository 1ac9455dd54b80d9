#!/usr/bin/env bash
# Keeps the LLVM module of a program that `rt` builds. See `tools/module.sh --help`.
set -euo pipefail

usage() {
    cat <<'TEXT'
usage: tools/module.sh MODULE.bc RT-WORD..

Runs `rt RT-WORD..` in the current folder, a crate's, and stores the LLVM module of which it built
the program as MODULE.bc. With `run` the program is proved, as ever; with `try` it is not. The last
module that is compiled counts. If `rt run` finds its program built already, it compiles none: then
remove out/NAME.stamp first.

The toolchain is the kit's own, but for a script in the place of its clang, which keeps a copy of
each module and then calls the kit's.
Statuses: 0 the module is stored, 1 `rt` compiled no module or didn't end with 0, 2 these words
can't be run.
TEXT
}

refuse() {
    echo "module.sh: $2" >&2
    exit "$1"
}

case ${1-} in --help | -h) usage; exit 0 ;; esac
if [ $# -lt 2 ]; then
    usage >&2
    exit 2
fi
command -v rt >/dev/null || refuse 2 "there is no \`rt\` on the path; it comes with the Rattle kit"
module=$1
shift
tools=$(cd "$(dirname "$0")" && pwd)
kit=$(dirname "$(rt doc)")
room=$(mktemp -d)
trap 'rm -rf "$room"' EXIT
mkdir "$room/modules"

# (clang is called without an environment, so the paths are written into the script)
cat >"$room/clang" <<SCRIPT
#!/usr/bin/env bash
for word in "\$@"; do
    case \$word in *.bc) [ ! -f "\$word" ] || cp "\$word" "$room/modules/\$(date +%s%N).bc" ;; esac
done
exec -a "\${0%-script}" "$kit/toolchain/bin/clang" "\$@"
SCRIPT
"$tools/kit_links.sh" "$room/kit" "$room/clang"

python3 "$room/kit/bin/rt" "$@" || refuse 1 "\`rt $*\` ended with status $?"
last=$(find "$room/modules" -name '*.bc' | sort | tail -n 1)
told="if the program is built already, remove out/NAME.stamp"
[ -n "$last" ] || refuse 1 "\`rt $*\` compiled no module: $told"
cp "$last" "$module"
