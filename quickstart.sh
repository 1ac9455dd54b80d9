#!/usr/bin/env bash
# Finds the best county groups of North Carolina's House (120 seats) and Senate (50 seats) by the
# 2020 census, with their certificates, checks both, lists every best grouping of each, and makes a
# page of each. See `./quickstart.sh --help`.
set -euo pipefail

usage() {
    cat <<'TEXT'
usage: ./quickstart.sh [--build | --proved]

Solves House and Senate by the files in data/nc2020, checks both certificates, lists every best
grouping of each, and makes a page of each to look at. Without python3 it makes no page.
Without a word: takes the proved program of dist/, once its bytes are those of dist/SHA256SUMS. It
needs Linux on x86-64, and takes seconds.
--build: builds the program without proof, and takes that. It needs the Rattle kit, and takes some
two minutes the first time.
--proved: proves the program and all that it stands on, as many crates side by side as there are
processors, and takes the program that was proved. It needs the Rattle kit, and takes half an hour
to an hour on four processors the first time.
Built programs, certificates, groupings, tables, lists, records, pages and the log are stored in
results/.
TEXT
}

refuse() {
    echo "quickstart.sh: $1" >&2
    exit 2
}

heading() {
    printf '\n== %s\n' "$1" >&2
}

way=dist
for word in "$@"; do
    case $word in
        --build | --proved)
            [ "$way" = dist ] || refuse "it takes one of --build and --proved"
            way=${word#--}
            ;;
        --help | -h) usage; exit 0 ;;
        *) usage >&2; refuse "it takes no word \`$word\`" ;;
    esac
done
has_python=yes
command -v python3 >/dev/null || has_python=no
if [ "$way" != dist ]; then
    told="it comes with the Rattle kit that the README names under \"What is trusted\""
    command -v rt >/dev/null || refuse "there is no \`rt\` on the path; $told"
fi

# The names of files are relative, so that no record and no page has a path of this machine.
top=$(cd "$(dirname "$0")" && pwd)
cd "$top"
data=data/nc2020
stored=results
for file in nc2020geo.pl nc000012020.pl county_borders.txt county_outlines.geojson \
    borders_source.txt {senate,house}2023.grouping; do
    [ -r "$data/$file" ] || refuse "$data/$file can't be read"
done
mkdir -p "$stored"

# The crates that the program stands on, and the program itself.
crates_below() {
    awk -v top=countygroups '
        { name = $1; sub(":", "", name); $1 = ""; uses[name] = $0 }
        END {
            queue[1] = top; seen[top] = 1; n = 1
            for (i = 1; i <= n; i++) {
                print queue[i]
                m = split(uses[queue[i]], more, " ")
                for (j = 1; j <= m; j++)
                    if (more[j] in uses && !(more[j] in seen)) {
                        seen[more[j]] = 1
                        queue[++n] = more[j]
                    }
            }
        }' "$top/crates.txt"
}

# Copies these crates without their edits, with nothing that an earlier run made, to a folder.
copy_crates() { # FOLDER
    local crate
    mkdir -p "$1/crates"
    cp "$top/HANDLES" "$1/"
    while read -r crate; do
        mkdir "$1/crates/$crate"
        find "$top/crates/$crate" -mindepth 1 -maxdepth 1 \
            ! -name out ! -name must-fail ! -name tried -exec cp -r {} "$1/crates/$crate/" \;
        grep "^$crate:" "$top/crates.txt" >>"$1/crates.txt"
    done < <(crates_below)
}

# Says which crate is proved now, as the log tells it, while a process runs.
follow() { # PROCESS LOG
    local all shown=0 now crate ended='^rt: [a-z0-9_]+ (proved$|is kept:)'
    all=$(crates_below | wc -l)
    while kill -0 "$1" 2>/dev/null; do
        now=$(grep -cE "$ended" "$2" || true)
        if [ "$now" -gt "$shown" ]; then
            shown=$now
            crate=$(grep -E "$ended" "$2" | tail -n 1 | cut -d' ' -f2)
            echo "crate $shown of $all: $crate" >&2
        fi
        sleep 2
    done
}

# Whether a program is there that no source is newer than.
is_built() { # PROGRAM
    local newer
    [ -x "$1" ] || return 1
    newer=$(find "$top/crates.txt" "$top/crates" -name out -prune -o -type f \
        \( -name '*.rt' -o -name '*.antt' -o -name crates.txt \) -newer "$1" -print -quit)
    [ -z "$newer" ]
}

# Ends the prover with all that it started, if it runs, and removes its folder.
end_proving() {
    if [ -n "$prover" ]; then
        # (one that has only just started leads no session yet)
        while kill -0 "$prover" 2>/dev/null && ! kill -- "-$prover" 2>/dev/null; do sleep 0.05; done
        wait "$prover" 2>/dev/null || true
    fi
    rm -rf "$room"
}

prove() { # PROGRAM
    local log=$stored/quickstart.log
    # (not locals of this function: the trap runs after it)
    prover=
    room=$(mktemp -d)
    trap end_proving EXIT
    copy_crates "$room"
    heading "proving and building the program; the log is $log"
    # (Ctrl-C doesn't end a background command. A session of its own can be ended whole.)
    (cd "$room" && RT_JOBS=$(nproc) exec setsid rt ci) >"$log" 2>&1 &
    prover=$!
    follow "$prover" "$log"
    wait "$prover" || refuse "the program was not proved or not built: see $log"
    prover=
    cp "$room/crates/countygroups/out/countygroups" "$1"
}

# Says what to do where the program of dist/ can't run, and ends.
refuse_machine() { # WHY
    echo "the same program runs by Node 20 or later: \`node dist/countygroups.mjs --help\`" >&2
    refuse "$1 (docs/reference/commands.md says how to run it, system by system)"
}

# Checks that the program of dist/ is what was built, and that it runs here.
take_program_of_dist() {
    local system
    system="$(uname -s) on $(uname -m)"
    [ "$system" = "Linux on x86_64" ] ||
        refuse_machine "the program of dist/ is for Linux on x86-64, and this is $system"
    [ -r dist/SHA256SUMS ] ||
        refuse "there is no dist/SHA256SUMS; \`./quickstart.sh --build\` builds the program"
    (cd dist && sha256sum --quiet -c SHA256SUMS) >&2 ||
        refuse "a file of dist/ isn't what dist/SHA256SUMS says"
    "$program" --version >/dev/null ||
        refuse_machine "the program of dist/ needs the C library of GNU, and doesn't start here"
}

case $way in
    dist)
        program=dist/countygroups-x86_64-linux
        take_program_of_dist
        what="the program is proved"
        ;;
    proved)
        program=$stored/countygroups
        is_built "$program" || prove "$program"
        what="the program is proved"
        ;;
    build)
        program=$stored/unproved.countygroups
        if ! is_built "$program"; then
            heading "building the program without proof (some two minutes)"
            tools/build_unproved.sh "$program"
        fi
        what="THIS BUILD ISN'T PROVED"
        ;;
esac

problem() { # SEATS
    words=(--geo "$data/nc2020geo.pl" --segment "$data/nc000012020.pl" --chamber "$1")
    words+=(--adjacency "$data/county_borders.txt")
}

# Lists every best grouping, and makes a page of table, list and record.
list_and_page() { # NAME
    heading "every best grouping of the $1, by its certificate ($what)"
    "$program" list "${words[@]}" --certificate "$stored/$1.certificate" >"$stored/$1.list"
    cat "$stored/$1.list"
    if [ "$has_python" = yes ]; then
        python3 tools/page.py "$stored/$1.csv" "$stored/$1.list" "$data/county_outlines.geojson" \
            "$stored/$1.record" "$stored/$1.html" \
            --enacted 2023 "$data/${1}2023.grouping" --borders "$data/borders_source.txt"
        pages+=("$top/$stored/$1.html")
    fi
}

pages=()
for chamber in house:120 senate:50; do
    name=${chamber%:*}
    problem "${chamber#*:}"
    heading "the best county groups of the $name, ${chamber#*:} seats ($what)"
    "$program" solve "${words[@]}" --certificate "$stored/$name.certificate" \
        --out "$stored/$name.grouping" --table "$stored/$name.csv" --record "$stored/$name.record"
    heading "the certificate of the $name, checked ($what)"
    "$program" check "${words[@]}" --certificate "$stored/$name.certificate"
    list_and_page "$name"
done

told="certificates, groupings, tables, lists and records are in $top/$stored"
heading "$told, and the program is $top/$program"
if [ "$way" = build ]; then
    heading "this build isn't proved: \`./quickstart.sh\` takes the proved program of dist/"
fi
if [ "$has_python" = yes ]; then
    heading "pages to look at, which a browser opens:"
    printf '%s\n' "${pages[@]}" >&2
else
    heading "there is no python3, so no page was made: with it, run this script again"
fi
