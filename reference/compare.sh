#!/usr/bin/env bash
# Puts generated batches to labelrun and to reference/labelrun.py, and says how many are answered differently.
#   reference/compare.sh [COUNT [FIRST]]      COUNT batches (100), numbered from FIRST (1)
# LABELRUN names the program to try; without it that is the ./labelrun of the repository. A path that is not absolute
# counts from the repository's root. Ends with status 1 when some batch differs.
set -u
cd "$(dirname "$0")/.." || exit 2
count=${1:-100}
first=${2:-1}
program=${LABELRUN:-./labelrun}
[ -x "$program" ] || { echo "no program at $program"; exit 2; }
work=$(mktemp -d) || exit 2
trap 'rm -rf "$work"' EXIT
different=0
for ((n = first; n < first + count; n++)); do
    python3 reference/generate.py "$n" > "$work/in" || exit 2
    python3 reference/labelrun.py < "$work/in" > "$work/expected" || exit 2
    if ! "$program" < "$work/in" > "$work/found" || ! cmp -s "$work/expected" "$work/found"; then
        different=$((different + 1))
        echo "batch $n differs; < expected, > found:"
        diff "$work/expected" "$work/found" | tr -d '\r' | head -n 6
    fi
done
echo "$count batches, $different differ"
[ "$different" = 0 ]
