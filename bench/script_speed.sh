#!/bin/sh
# Measures how fast a script's text is parsed and printed, and prints the middle and the best of each.
#
#     bench/script_speed.sh [ROUNDS]        5 rounds where no number is given
#
# The text has as many operations as a script may have, and is just below the most bytes that one may have: writes of a
# data unit by `hex`, and after them reads. Each round takes the best of a few times. It needs `rt` or a
# crates/bc_speed/out/bc_speed that is built, and GNU time for the peak of memory: the program holds the text, the script
# and the text that is printed. Run it on a machine that does nothing else. MB are millions of bytes.
set -u
cd "$(dirname "$0")/.." || exit 1
rounds=${1:-5}
writes=15461
reads=50075
program=crates/bc_speed/out/bc_speed
[ -x /usr/bin/time ] || { echo "script_speed: no /usr/bin/time here" >&2; exit 1; }
# one that was built before there was a word for scripts is built again
if ! "$program" script 1 1 >/dev/null 2>&1; then
    (cd crates/bc_speed && rt run -- script 1 1) >/dev/null || exit 1
fi
scratch=$(mktemp -d) || exit 1
trap 'rm -rf "$scratch"' EXIT

# rate WORD: MB/s, of what the program printed last
rate() {
    sed -n "s/^$1: \([0-9]*\) MB\/s\$/\1/p" "$scratch/printed"
}

# the one in the middle of a file's numbers
middle() {
    sort -n "$scratch/$1" | sed -n "$(((rounds + 1) / 2))p"
}

# the largest of them
most() {
    sort -n "$scratch/$1" | tail -n 1
}

round=0
while [ "$round" -lt "$rounds" ]; do
    /usr/bin/time -f %M -a -o "$scratch/memory" "$program" script "$writes" "$reads" >"$scratch/printed" || exit 1
    rate parse >>"$scratch/parse"
    rate print >>"$scratch/print"
    round=$((round + 1))
done

head -n 1 "$scratch/printed"
printf 'parse            %6s MB/s in the middle, %s at best\n' "$(middle parse)" "$(most parse)"
printf 'print            %6s MB/s in the middle, %s at best\n' "$(middle print)" "$(most print)"
awk -v kibibytes="$(most memory)" -v text="$(sed -n 's/^script: \([0-9]*\) bytes.*/\1/p' "$scratch/printed")" 'BEGIN {
    bytes = kibibytes * 1024
    printf "peak of memory   %6.1f MB: %.1f times the text\n", bytes / 1e6, bytes / text
}'
