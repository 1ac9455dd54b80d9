#!/usr/bin/env bash
# Prints the pairs of counties of an adjacency file by awk, the lesser code first, each once. The pairs that
# `worked_calls` writes with the word `files` are compared with these. All counties of the file have to be listed.
# Usage: adjacency_pairs.sh FILE
set -euo pipefail
[ $# -eq 1 ] || { echo "usage: adjacency_pairs.sh FILE" >&2; exit 2; }
awk -F'|' 'NR > 1 && $2 < $4 { print $2 "|" $4 } NR > 1 && $4 < $2 { print $4 "|" $2 }' "$1" | LC_ALL=C sort -u
