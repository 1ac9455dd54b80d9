#!/usr/bin/env bash
# Seconds and peak memory of `size` on the real files and on a generated state of full size, beside
# awk doing the same join, on one machine in one run.
# Usage: size.sh PROGRAM FOLDER (the folder of full_state.py)
set -euo pipefail
if [ $# -ne 2 ]; then
    echo "usage: size.sh PROGRAM FOLDER, the folder made by full_state.py" >&2
    exit 2
fi
program=$(realpath "$1")
folder=$(realpath "$2")
data=$(realpath "$(dirname "$0")/../data/nc2020")

awk_size() { # GEO SEGMENT
    awk -F'|' 'NR == FNR { people[$5 + 0] = $6 + 0; next }
        $3 == "050" && $5 == "00" && $13 == "37" { print $13 $15 "|" people[$8 + 0] }' \
        "$2" "$1" | sort
}
export -f awk_size

measure() { # NAME COMMAND..
    local name=$1
    shift
    for _ in 1 2 3; do
        python3 - "$name" "$@" <<'PY'
import os, resource, subprocess, sys, time
name, command = sys.argv[1], sys.argv[2:]
start = time.perf_counter()
with open(os.devnull, "wb") as sink:
    subprocess.run(command, stdout=sink, check=True)
seconds = time.perf_counter() - start
used = resource.getrusage(resource.RUSAGE_CHILDREN)
processor = used.ru_utime + used.ru_stime
peak = used.ru_maxrss // 1024
print(f"{name}: {seconds:.3f} s wall, {processor:.3f} s processor, {peak} MB peak")
PY
    done
}

compare() { # NAME GEO SEGMENT
    local geo=$2 segment=$3 words=(size --geo "$2" --segment "$3" --chamber 120)
    measure "size $1" "$program" "${words[@]}"
    measure "awk  $1" bash -c "awk_size '$geo' '$segment'"
    diff <("$program" "${words[@]}" | tail -n +4 | cut -d'|' -f1,2) <(awk_size "$geo" "$segment") &&
        echo "$1: the same counties and people"
}

compare "North Carolina 2020" "$data/nc2020geo.pl" "$data/nc000012020.pl"
compare "full size" "$folder/geo.pl" "$folder/segment1.pl"
