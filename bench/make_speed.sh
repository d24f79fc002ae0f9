#!/bin/sh
# Measures `make 2048` beside its ciphers alone, and an image of 64 MiB that is got and put beside `cp`, by turns; prints the
# ratio of the middle times.
#
#     bench/make_speed.sh [ROUNDS]        15 rounds where no number is given
#
# `make 2048` writes 32,768 data units and reads them back, a third under each of its keys: AES-256-XTS of 4096 and of 512 bytes,
# and AES-128-CBC-ESSIV of 4096 bytes. It needs `rt`, or blkcrypt and bc_speed that are built. Run it on a machine that does
# nothing else.
set -u
cd "$(dirname "$0")/.." || exit 1
rounds=${1:-15}
third=10923
program=crates/blkcrypt/out/blkcrypt
ciphers=crates/bc_speed/out/bc_speed
./blkcrypt serial <examples/empty.txt >/dev/null || exit 1
if ! [ -x "$ciphers" ]; then
    (cd crates/bc_speed && rt run -- digest xts 512 1) >/dev/null || exit 1
fi
scratch=$(mktemp -d) || exit 1
trap 'rm -rf "$scratch"' EXIT
head -c 67108864 /dev/urandom >"$scratch/disk"
printf 'blkcrypt 1\ndisk 16384\nfallback on\nend\n' >"$scratch/script"

# timed NAME COMMAND...: microseconds of a command
timed() {
    name=$1
    shift
    start=$(date +%s%N)
    "$@" >"$scratch/out" <"$scratch/script" || exit 1
    echo $((($(date +%s%N) - start) / 1000)) >>"$scratch/$name"
}

# cipher WAY MODE SIZE: microseconds for a third of the data units
cipher() {
    "$ciphers" "$1" "$2" "$3" "$third" | awk -v bytes=$(($3 * third)) '/MB\/s$/ { printf "%d\n", bytes / $(NF - 1) }'
}

# the one in the middle of a file's numbers
middle() {
    sort -n "$scratch/$1" | sed -n "$(((rounds + 1) / 2))p"
}

round=0
while [ "$round" -lt "$rounds" ]; do
    timed make "$program" make 2048
    sum=0
    for way in encrypt decrypt; do
        for unit in "xts 4096" "xts 512" "essiv 4096"; do
            # shellcheck disable=SC2086 # two words each
            sum=$((sum + $(cipher $way $unit)))
        done
    done
    echo "$sum" >>"$scratch/alone"
    timed image "$program" serial --image "$scratch/disk" --out "$scratch/left"
    timed copy cp --reflink=never --sparse=never "$scratch/disk" "$scratch/copied"
    round=$((round + 1))
done

awk -v make="$(middle make)" -v alone="$(middle alone)" -v image="$(middle image)" -v copy="$(middle copy)" 'BEGIN {
    printf "make 2048        %6.0f ms\n", make / 1e3
    printf "ciphers alone    %6.0f ms\n", alone / 1e3
    printf "ratio            %6.2f\n", make / alone
    printf "image of 64 MiB  %6.0f ms, got and put\n", image / 1e3
    printf "cp               %6.0f ms\n", copy / 1e3
    printf "ratio            %6.2f: the speed of the run to that of cp\n", copy / image
}'
