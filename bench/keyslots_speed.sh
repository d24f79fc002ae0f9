#!/bin/sh
# Measures the keyslot manager for one caller: a million holds and puts over 32 slots, of 4096 keys in no order. Prints the
# least and the middle time, and the highest peak of memory.
#
#     bench/keyslots_speed.sh [ROUNDS]        9 rounds where no number is given
#
# It needs `rt` or a crates/bc_speed/out/bc_speed that is built, and GNU time for the peak of memory, most of which is the
# journal of two million events. Run it on a machine that does nothing else; beside other work the least says more.
set -u
cd "$(dirname "$0")/.." || exit 1
rounds=${1:-9}
holds=1000000
program=crates/bc_speed/out/bc_speed
[ -x /usr/bin/time ] || { echo "keyslots_speed: no /usr/bin/time here" >&2; exit 1; }
# one that was built before there was a word for keyslots is built again
if ! "$program" keyslots 1 >/dev/null 2>&1; then
    (cd crates/bc_speed && rt run -- keyslots 1) >/dev/null || exit 1
fi
scratch=$(mktemp -d) || exit 1
trap 'rm -rf "$scratch"' EXIT

round=0
while [ "$round" -lt "$rounds" ]; do
    /usr/bin/time -f %M -a -o "$scratch/memory" "$program" keyslots "$holds" >"$scratch/printed" || exit 1
    sed -n 's/^keyslots: .* events: \([0-9]*\) microseconds$/\1/p' "$scratch/printed" >>"$scratch/time"
    round=$((round + 1))
done

sed 's/: [0-9]* microseconds$//' "$scratch/printed"
awk -v least="$(sort -n "$scratch/time" | head -n 1)" \
    -v middle="$(sort -n "$scratch/time" | sed -n "$(((rounds + 1) / 2))p")" \
    -v kibibytes="$(sort -n "$scratch/memory" | tail -n 1)" 'BEGIN {
    printf "least            %6.0f ms\nmiddle           %6.0f ms\n", least / 1e3, middle / 1e3
    printf "peak of memory   %6.1f MB\n", kibibytes * 1024 / 1e6
}'
