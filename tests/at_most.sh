#!/usr/bin/env bash
# Holds measured numbers to those that a text states, so that the text cannot become false unnoticed.
#
# at_most.sh TEXT <MEASURED
#
# MEASURED has a name and a number in each line. TEXT has one row of a table for each, | NAME | NUMBER |, whose number is the most
# that it may be. Prints both.
set -euo pipefail

# held TEXT NAME NUMBER
held() {
    local stated
    stated=$(awk -F ' *[|] *' -v name="$2" '$2 == name && $3 ~ /^[0-9,]+$/ { gsub(",", "", $3); print $3 }' "$1")
    [[ $stated =~ ^[0-9]+$ ]] || { echo "$2: $3, and $1 has not one row for it"; return 1; }
    echo "$2: $3, at most $stated"
    [ "$3" -le "$stated" ]
}

sample=$(mktemp)
trap 'rm -f "$sample"' EXIT
printf '| its size | 1,024 |\n| twice | 1 |\n| twice | 2 |\n' >"$sample"
held "$sample" 'its size' 1024 >/dev/null || { echo "at_most.sh: 1024 is refused, of at most 1,024" >&2; exit 1; }
for wrong in 'its size 1025' 'size 0' 'twice 0'; do
    if held "$sample" "${wrong% *}" "${wrong##* }" >/dev/null; then echo "at_most.sh: $wrong is not refused" >&2; exit 1; fi
done

failed=0
count=0
while read -r line; do
    held "$1" "${line% *}" "${line##* }" || failed=1
    count=$((count + 1))
done
[ "$count" -gt 0 ] || { echo "at_most.sh: nothing was measured" >&2; exit 1; }
[ "$failed" = 0 ] || { echo "at_most.sh: more was measured than $1 states" >&2; exit 1; }
