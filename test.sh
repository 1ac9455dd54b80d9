#!/usr/bin/env bash
# Runs the tests of the built program, or proves and builds it first. See `./test.sh --help`.
set -euo pipefail

usage() {
    cat <<'TEXT'
usage: ./test.sh [--require-all] [--program FILE [--wasm FILE [--refusing FILE]]]
       ./test.sh [--require-all] --proved [--all]

Without a word: runs all tests with the programs of dist/, in minutes. It needs Linux on x86-64 and
python3. The tests are those of the scripts and pages, all cases, the second checker, cases that are
changed at random for a minute, and those of the WebAssembly build, which need Node. It installs
nothing. Where something isn't there, such as a browser, R or mypy, the tests that need it are
passed over. The last lines say which, and how to get it.
--require-all: a test that can't run fails. `tools/test_needs.sh` names what isn't there.
--program FILE: the same with another build of the program. The WebAssembly build is tested if it
is named too (--wasm; --refusing: the one over a heap that refuses, which tools/wasm.sh makes).
--proved: the gate. It proves every crate, tries the must-fail edits that are due, and runs these
tests with the programs that were proved and built. Then it refuses allocations and calls
of each case: of each run the first 20, the last 20 and 60 between them. It needs the Rattle kit,
and takes hours on two processors.
--all: with --proved, tries all edits, those of `tried/` too, changes cases for ten minutes, and
refuses all allocations and calls.
Statuses: 0 all passed, 1 something failed, 2 it can't be run.
TEXT
}

refuse() {
    echo "test.sh: $1" >&2
    exit 2
}

heading() {
    printf '\n== %s\n' "$1"
}

program=dist/countygroups-x86_64-linux
is_proved=no
is_all=no
is_given=no
is_requiring=no
wasm=
refusing=
while [ $# -gt 0 ]; do
    case $1 in
        --program)
            [ $# -gt 1 ] || refuse "--program takes a file"
            program=$(realpath -m "$2")
            is_given=yes
            shift
            ;;
        --wasm | --refusing)
            [ $# -gt 1 ] || refuse "$1 takes a file"
            declare "${1#--}=$(realpath -m "$2")"
            shift
            ;;
        --proved) is_proved=yes ;;
        --require-all) is_requiring=yes ;;
        --all) is_all=yes ;;
        --help | -h) usage; exit 0 ;;
        *) usage >&2; refuse "it takes no word \`$1\`" ;;
    esac
    shift
done
[ "$is_proved$is_given" != yesyes ] || refuse "--proved tests the program that it builds"
[ -z "$wasm$refusing" ] || [ "$is_given" = yes ] || refuse "--wasm and --refusing go with --program"
[ "$is_all$is_proved" != yesno ] || refuse "--all goes with --proved"
command -v python3 >/dev/null || refuse "there is no \`python3\` on the path"
if [ "$is_proved" = yes ]; then
    command -v rt >/dev/null || refuse "there is no \`rt\` on the path; it comes with the Rattle kit"
fi
cd "$(dirname "$0")"

processors=$(nproc)
jobs=$((processors < 4 ? processors : 4))
# How many classes of the tests of the page and of the WebAssembly build run at once. Each starts
# browsers or programs of its own.
few=$(((jobs + 1) / 2))
room=$(mktemp -d)
found=$(mktemp -d)
declare -A beside=()
finish() {
    local one
    for one in "${beside[@]}"; do
        # (one that has only just started is in no session of its own yet)
        while kill -0 "$one" 2>/dev/null && ! kill -- "-$one" 2>/dev/null; do sleep 0.05; done
    done
    rm -rf "$room"
    rmdir "$found" 2>/dev/null || echo "test.sh: what was found is kept in $found" >&2
}
trap finish EXIT
# To this file a test adds the line that says what it passes over.
export COUNTYGROUPS_NOT_RUN=$room/not_run
touch "$COUNTYGROUPS_NOT_RUN"

# Says which tests were passed over, if some were, and how to get what they need.
end_tests() {
    if [ ! -s "$COUNTYGROUPS_NOT_RUN" ]; then
        heading "all passed"
        return
    fi
    heading "passed over"
    sort -u "$COUNTYGROUPS_NOT_RUN"
    tools/test_needs.sh | tail -n 1 || true
    if [ "$is_requiring" = yes ]; then
        heading "FAILED: these tests could not run"
        return 1
    fi
    heading "all passed that could run"
}

# Tests the scripts, which need no program.
test_scripts() {
    heading "the scripts"
    tools/check_python.sh
    python3 tools/trust_lines.py
    python3 tools/crate_table.py
    python3 tools/prose.py
    python3 tools/doc_links.py
    python3 tools/run_tests.py --jobs "$few" --scripts
}

# Tests what dist/ says of itself, and that it is what was proved and built.
compare_dist() { # [OPTION ..]
    if [ -d dist ]; then
        heading "dist/"
        python3 tools/compare_dist.py "$@"
    fi
}

# Tests the WebAssembly build and what calls it.
test_web() { # [OPTION ..]
    heading "the program as WebAssembly"
    python3 tools/test_web.py --jobs "$few" "$@"
}

# Tests docs/page.html, or a page that is made of a build.
test_page() { # PROGRAM [WASM]
    local words=(--program "$1")
    heading "the page in a browser"
    if [ $# -gt 1 ]; then
        if [ -f docs/page.html ]; then
            python3 tools/test_page_in_browser.py --only made_of_these_sources
        fi
        words+=(--wasm "$2" --page "$room/page.html")
    fi
    python3 tools/test_page_in_browser.py --jobs "$few" "${words[@]}"
}

# Tests the packages for Python and R, and all packages of what dist/ has.
test_packages() { # PROGRAM
    heading "the packages for Python and R"
    COUNTYGROUPS=$(realpath "$1") python/test.sh
    COUNTYGROUPS=$(realpath "$1") r/test.sh
    python3 tools/test_packages.py
}

# Tests programs that are built.
test_programs() { # PROGRAM ..
    local words=() one
    for one in "$@"; do
        words+=(--program "$one")
    done
    heading "all cases"
    python3 cases/cases.py --jobs "$jobs" "${words[@]}"
    heading "the second checker"
    python3 tools/compare_checkers.py
    heading "the guides"
    python3 tools/test_guides.py --program "$1"
    heading "what tools make, terminals, shared proofs, and other tests of the program"
    python3 tools/run_tests.py --jobs "$few" --program "$1"
}

# Counts what small chambers take, beside their bars.
test_speed() { # PROGRAM
    heading "bars of speed"
    python3 bench/speed_bars.py --jobs "$few" "$1"
}

# Changes cases at random for a time.
change_cases() { # SECONDS SEED PROGRAM
    heading "cases changed at random, $1 seconds with seed $2"
    python3 cases/fuzz.py --seconds "$1" --seed "$2" --program "$3" --keep "$found"
}

# Tries every edit, beside the proofs and the tests. Of two runs of the kit that are to prove a crate,
# one proves it and the other takes what was proved. The last crates are proved one after the other,
# which leaves processors free for edits.
try_edits() {
    heading "every edit is tried"
    tools/prove.sh "$room/edited" "$room/edited.log" --all-edits
}

# Runs a function beside the parts that follow, in a session of its own, so that it can be ended
# with all that it started. The session reads the functions from a file. `end_beside` waits for it.
start_beside() { # NAME FUNCTION ..
    (declare -f && declare -p room found jobs few) >"$room/$1.functions"
    setsid bash -euo pipefail -c 'source "$1"; "${@:2}"' "$0" "$room/$1.functions" "${@:2}" \
        </dev/null >"$room/$1" 2>&1 &
    beside[$1]=$!
}

# Waits for the parts beside, one after the other, and prints what each said. Returns the status of
# the first that fails, and then waits for no further one.
end_beside() { # NAME ..
    local name status=0
    for name in "$@"; do
        wait "${beside[$name]}" || status=$?
        unset "beside[$name]"
        cat "$room/$name"
        [ "$status" = 0 ] || return "$status"
    done
}

# Starts the tests of the WebAssembly build and of the page, which mostly wait, beside the rest.
start_web() { # PROGRAM [WASM [OPTION ..]]
    start_beside web test_web --native "$1" ${2:+--wasm "$2"} "${@:3}"
    start_beside page test_page "$1" ${2:+"$2"}
}

# Copies each program that was proved and built, and what it wrote, to its crate here.
take_programs() { # FOLDER
    local crate name
    for crate in "$1"/crates/*; do
        name=${crate##*/}
        if [ -x "$crate/out/$name" ]; then
            mkdir -p "crates/$name/out"
            rm -f "crates/$name/out/$name" "crates/$name/out/$name.by-rattle"
            cp "$crate/out/$name" "crates/$name/out/"
            if [ -x "$crate/out/$name.by-rattle" ]; then
                cp "$crate/out/$name.by-rattle" "crates/$name/out/"
            fi
        fi
    done
}

# Refuses allocations and calls of the proved program and of the program of worked calls.
sweep() { # [OPTION ..]
    local swept
    mapfile -t swept < <(find cases -mindepth 1 -maxdepth 1 -type d \
        ! -name carolina ! -name huge ! -name __pycache__ | sort)
    heading "each case with allocations and calls refused ${*:-}"
    python3 cases/cases.py --jobs "$jobs" --sweep all "$@" "${swept[@]}"
}

prove_and_test() {
    local built=crates/countygroups/out/countygroups
    local programs edits=() all=() seconds=60 seed=1
    if [ "$is_all" = yes ]; then
        edits=(--no-edits)
        all=(--all)
        seconds=600
        seed=$(date +%-j)
    fi
    [ "$is_all" = no ] || start_beside edits try_edits
    heading "every crate is proved"
    tools/prove.sh "$room/proved" "$room/log" "${edits[@]}" --module "$room/module.bc" \
        --object "$room/program.o"
    take_programs "$room/proved"
    wasm=$room/countygroups.wasm
    refusing=$room/refusing.wasm
    tools/wasm.sh "$room/module.bc" "$wasm" "$refusing"
    programs=("$built")
    static=("$room/static")
    if [ -r /usr/lib/x86_64-linux-musl/libc.a ]; then
        tools/static_program.sh "$room/program.o" "${static[0]}"
        export COUNTYGROUPS_STATIC=${static[0]}
        programs+=("${static[0]}")
    else
        tools/pass_over.sh "the program that is linked with musl: Debian has musl as musl-dev"
        static=()
    fi
    compare_dist --program "$built" --wasm "$wasm" ${static:+--static "${static[0]}"}
    if [ -x "$built.by-rattle" ]; then
        programs+=("$built.by-rattle")
    fi
    start_beside changes change_cases "$seconds" "$seed" "$built"
    test_programs "${programs[@]}"
    test_speed "$built"
    test_packages "$built"
    test_web --native "$built" --wasm "$wasm" --refusing "$refusing" "${all[@]}"
    test_page "$built" "$wasm"
    if [ "$is_all" = yes ]; then
        sweep
        heading "the real files, with the first calls refused"
        python3 cases/cases.py --jobs "$jobs" --sweep all --most 100 cases/carolina
        end_beside edits
    else
        sweep --sample "$RANDOM"
    fi
    end_beside changes
}

if [ "$is_requiring" = yes ]; then
    tools/test_needs.sh >&2 || { echo "test.sh: --require-all asks for these" >&2; exit 1; }
fi
if [ "$is_proved" = yes ]; then
    test_scripts
    prove_and_test
else
    [ -x "$program" ] || refuse "there is no program $program; --program names another build"
    compare_dist
    start_beside changes change_cases 60 1 "$program"
    start_beside packages test_packages "$program"
    parts=(packages)
    if [ "$is_given" = no ] || [ -n "$wasm" ]; then
        start_web "$program" "$wasm" ${refusing:+--refusing "$refusing"}
        parts+=(web page)
    fi
    test_scripts
    test_programs "$program"
    [ "$is_given" = yes ] || test_speed "$program"
    end_beside "${parts[@]}" changes
fi
end_tests
