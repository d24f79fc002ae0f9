#!/bin/sh
# Measures what many keys cost a run: the same operations over the same disk, all of them under one key, and under 4096
# keys by turns. It runs the two by turns and prints the middle time of each, and their ratio.
#
#     bench/keys_speed.sh [ROUNDS]        15 rounds where no number is given
#
# Each run has as many operations as a script may have, half of them writes and half reads, over 1024 blocks. All keys
# are AES-256-XTS keys, and with 4096 of them neighbouring operations have keys far apart. It needs `rt`, or blkcrypt
# that is built. Run it on a machine that does nothing else.
set -u
cd "$(dirname "$0")/.." || exit 1
rounds=${1:-15}
blocks=1024
pairs=32768
program=crates/blkcrypt/out/blkcrypt
./blkcrypt serial <examples/empty.txt >/dev/null || exit 1
scratch=$(mktemp -d) || exit 1
trap 'rm -rf "$scratch"' EXIT

# script KEYS: each data unit has its own number and byte, and is written and then read
script() {
    awk -v keys="$1" -v blocks="$blocks" -v pairs="$pairs" 'BEGIN {
        print "blkcrypt 1\ndisk " blocks "\nfallback on"
        for (k = 0; k < keys; k++) {
            printf "key k%d aes-256-xts 512 8 ", k
            for (i = 0; i < 32; i++) printf "%04x", i == 0 ? k : i
            print ""
        }
        print "thread"
        for (i = 0; i < pairs; i++) {
            sector = int(i * 8 * blocks / pairs)
            key = i * 2731 % keys
            printf "write k%d %d 1 %x fill %02x\nread k%d %d 1 %x\n", key, sector, 4 * i, i % 256, key, sector, 4 * i
        }
        print "end"
    }'
}

# run KEYS: microseconds
run() {
    start=$(date +%s%N)
    "$program" serial <"$scratch/$1" >"$scratch/report" || exit 1
    echo $((($(date +%s%N) - start) / 1000)) >>"$scratch/$1_time"
    if [ "$(grep -c '^done fill' "$scratch/report")" -ne "$pairs" ]; then
        echo "keys_speed: a read gave another text" >&2
        exit 1
    fi
}

# the one in the middle of a file's numbers
middle() {
    sort -n "$scratch/$1" | sed -n "$(((rounds + 1) / 2))p"
}

script 1 >"$scratch/1"
script 4096 >"$scratch/4096"
round=0
while [ "$round" -lt "$rounds" ]; do
    run 1
    run 4096
    round=$((round + 1))
done

awk -v one="$(middle 1_time)" -v many="$(middle 4096_time)" \
    -v one_text="$(wc -c <"$scratch/1")" -v many_text="$(wc -c <"$scratch/4096")" 'BEGIN {
    printf "one key      %6.0f ms, a text of %.2f MB\n", one / 1e3, one_text / 1e6
    printf "4096 keys    %6.0f ms, a text of %.2f MB\n", many / 1e3, many_text / 1e6
    printf "ratio        %6.2f\n", many / one
}'
