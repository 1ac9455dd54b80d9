#!/usr/bin/env bash
# Makes a folder of links to the kit, with a script in the place of its clang.
# See `tools/kit_links.sh --help`.
set -euo pipefail

usage() {
    cat <<'TEXT'
usage: tools/kit_links.sh FOLDER SCRIPT

Makes FOLDER, which has to be missing, a folder of links to the kit of the `rt` on the path. In it
FOLDER/toolchain/bin/clang runs a copy of SCRIPT, and FOLDER/bin/rt is the kit's command, which takes
everything else from the kit. The kit calls its clang without any environment. It calls it as
`llvm-nm`, too, to list names: then the kit's own clang runs. Nothing of the kit is changed.
Statuses: 0 the folder is made, 1 it can't be made, 2 these words can't be followed.
TEXT
}

refuse() {
    echo "kit_links.sh: $1" >&2
    exit 2
}

# Links to all that lies in one folder, except for the names that follow.
link_all() { # FROM TO NAME ..
    local from=$1 to=$2 file
    shift 2
    mkdir -p "$to"
    for file in "$from"/*; do
        case " $* " in
            *" ${file##*/} "*) ;;
            *) ln -s "$file" "$to/" ;;
        esac
    done
}

case ${1:-} in
    --help | -h) usage; exit 0 ;;
esac
if [ $# != 2 ]; then
    usage >&2
    refuse "it takes a folder and a script"
fi
command -v rt >/dev/null || refuse "there is no \`rt\` on the path"
[ -r "$2" ] || refuse "$2 can't be read"
mkdir "$1"
folder=$(cd "$1" && pwd)
kit=$(dirname "$(rt doc)")

link_all "$kit" "$folder" bin toolchain
link_all "$kit/bin" "$folder/bin" rt rtlib.py
# These two look for the kit beside their own file, behind any link.
cp "$kit/bin/rt" "$kit/bin/rtlib.py" "$folder/bin/"
link_all "$kit/toolchain" "$folder/toolchain" bin
link_all "$kit/toolchain/bin" "$folder/toolchain/bin" clang
cp "$2" "$folder/toolchain/bin/clang-script"
# (a script doesn't see by which name it is called; only a list of names has one of these words)
cat >"$folder/toolchain/bin/clang" <<SCRIPT
#!/usr/bin/env bash
for word in "\$@"; do
    case \$word in
        --defined-only | --undefined-only)
            exec -a llvm-nm $(printf %q "$kit/toolchain/bin/clang") "\$@" ;;
    esac
done
exec $(printf %q "$folder/toolchain/bin/clang-script") "\$@"
SCRIPT
chmod +x "$folder/toolchain/bin/clang" "$folder/toolchain/bin/clang-script"
