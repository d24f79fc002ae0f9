#!/bin/sh
# Measures the keyslot manager for many callers: holds of one key that stands in a slot by one caller, and holds of 64 keys in
# no order over 32 slots by four callers at once, each in a thread of its own. Prints the least and the middle time of a hold
# and its put.
#
#     bench/profile_speed.sh [ROUNDS]        15 rounds where no number is given
#
# It needs `rt` or a crates/bc_speed/out/bc_speed that is built. Run it on a machine that does nothing else; beside other work
# the least says more.
set -u
cd "$(dirname "$0")/.." || exit 1
rounds=${1:-15}
holds=1000
program=crates/bc_speed/out/bc_speed
# one that was built before there was a word for it is built again
if ! "$program" profile 1 >/dev/null 2>&1; then
    (cd crates/bc_speed && rt run -- profile 1) >/dev/null || exit 1
fi
scratch=$(mktemp -d) || exit 1
trap 'rm -rf "$scratch"' EXIT

round=0
while [ "$round" -lt "$rounds" ]; do
    "$program" profile "$holds" >"$scratch/printed" || exit 1
    sed -n 's/^profile: .* by one caller: \([0-9]*\) nanoseconds each$/\1/p' "$scratch/printed" >>"$scratch/alone"
    sed -n 's/^profile: .* callers: \([0-9]*\) nanoseconds each$/\1/p' "$scratch/printed" >>"$scratch/together"
    round=$((round + 1))
done

for which in alone together; do
    printf '%-10s least %5d ns   middle %5d ns\n' "$which" "$(sort -n "$scratch/$which" | head -n 1)" \
        "$(sort -n "$scratch/$which" | sed -n "$(((rounds + 1) / 2))p")"
done
