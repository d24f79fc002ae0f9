#!/bin/sh
# Measures a run of the program beside the ciphers alone, by turns, and prints the middle time of each.
#
#     bench/run_speed.sh [ROUNDS]        15 rounds where no number is given
#
# The run has as many operations as a script may have, half of them writes and half reads, spread over the largest disk.
# A second run has as many over a disk of one block, so that the image costs it nothing. A third run has as many data units
# of 4096 bytes, in bios of 32, so that it has the most data units of a script too: half of them are written, which goes over
# the largest disk twice, and each is read after it. A fourth run has the same over a device of 32 keyslots, so that each unit goes
# inline. A fifth and a sixth run have as many writes of 512 bytes under 4096 keys by turns, so that with a device of 32 keyslots
# no slot ever has the key; the sixth one has no device. The ciphers alone take as many data units of 512 and of 4096 bytes one
# way and the other. It needs `rt`, or blkcrypt and bc_speed that are built, and GNU time for the peak of memory. Run it on a
# machine that does nothing else. MB are millions of bytes.
set -u
cd "$(dirname "$0")/.." || exit 1
rounds=${1:-15}
blocks=16384
pairs=32768
large_units=32
large_pairs=$((pairs / large_units))
program=crates/blkcrypt/out/blkcrypt
ciphers=crates/bc_speed/out/bc_speed
[ -x /usr/bin/time ] || { echo "run_speed: no /usr/bin/time here" >&2; exit 1; }
./blkcrypt serial <examples/empty.txt >/dev/null || exit 1
if ! [ -x "$ciphers" ]; then
    (cd crates/bc_speed && rt run -- digest xts 512 1) >/dev/null || exit 1
fi
scratch=$(mktemp -d) || exit 1
trap 'rm -rf "$scratch"' EXIT

# script BLOCKS: each data unit has its own number and byte, and is written and then read
script() {
    awk -v blocks="$1" -v pairs="$pairs" 'BEGIN {
        print "blkcrypt 1\ndisk " blocks "\nfallback on"
        printf "key a aes-256-xts 512 8 "
        for (i = 0; i < 64; i++) printf "%02x", i
        print "\nthread"
        for (i = 0; i < pairs; i++) {
            sector = int(i * 8 * blocks / pairs)
            printf "write a %d 1 %x fill %02x\nread a %d 1 %x\n", sector, 4 * i, i % 256, sector, 4 * i
        }
        print "end"
    }'
}
script "$blocks" >"$scratch/script"
script 1 >"$scratch/small_script"

# the script with data units of 4096 bytes: each bio has its own numbers and byte, and is written and then read
large_script() {
    awk -v blocks="$blocks" -v pairs="$large_pairs" -v units="$large_units" 'BEGIN {
        print "blkcrypt 1\ndisk " blocks "\nfallback on"
        printf "key a aes-256-xts 4096 8 "
        for (i = 0; i < 64; i++) printf "%02x", i
        print "\nthread"
        for (i = 0; i < pairs; i++) {
            sector = i * units % blocks * 8
            printf "write a %d %d %x fill %02x\nread a %d %d %x\n", sector, units, i * units, i % 256, sector, units, i * units
        }
        print "end"
    }'
}
large_script >"$scratch/large_script"
sed "3s/.*/&\ndevice 0 $blocks 32 8 0 8/" "$scratch/large_script" >"$scratch/inline_script"

# many_keys: each data unit is written under the next one of 4096 keys
many_keys() {
    awk -v writes=$((2 * pairs)) 'BEGIN {
        print "blkcrypt 1\ndisk 1\nfallback on"
        for (key = 0; key < 4096; key++) {
            printf "key k%d aes-256-xts 512 8 ", key
            for (i = 0; i < 64; i++) printf "%02x", (i < 2 ? int(key / 256 ^ i) % 256 : i)
            print ""
        }
        print "thread"
        for (i = 0; i < writes; i++) printf "write k%d 0 1 %x fill %02x\n", i % 4096, i, i % 256
        print "end"
    }'
}
many_keys >"$scratch/many_keys"
sed '3s/.*/&\ndevice 0 1 32 1 0 8/' "$scratch/many_keys" >"$scratch/misses"

# run SCRIPT PAIRS: microseconds, and a line with the peak of memory
run() {
    start=$(date +%s%N)
    /usr/bin/time -f %M -a -o "$scratch/$1_memory" "$program" serial <"$scratch/$1" >"$scratch/report" || exit 1
    echo $((($(date +%s%N) - start) / 1000)) >>"$scratch/$1_time"
    if [ "$(grep -c '^done fill' "$scratch/report")" -ne "$2" ]; then
        echo "run_speed: a read gave another text" >&2
        exit 1
    fi
}

# cipher WAY SIZE: microseconds for all data units of so many bytes one way
cipher() {
    "$ciphers" "$1" xts "$2" "$pairs" | awk -v bytes=$(($2 * pairs)) '/MB\/s$/ { printf "%d\n", bytes / $(NF - 1) }'
}

# the one in the middle of a file's numbers
middle() {
    sort -n "$scratch/$1" | sed -n "$(((rounds + 1) / 2))p"
}

round=0
while [ "$round" -lt "$rounds" ]; do
    cipher encrypt 512 >>"$scratch/encipher"
    run script "$pairs"
    run small_script "$pairs"
    cipher decrypt 512 >>"$scratch/decipher"
    cipher encrypt 4096 >>"$scratch/large_encipher"
    run large_script "$large_pairs"
    run inline_script "$large_pairs"
    run many_keys 0
    run misses 0
    cipher decrypt 4096 >>"$scratch/large_decipher"
    round=$((round + 1))
done

awk -v run="$(middle script_time)" -v small="$(middle small_script_time)" \
    -v encipher="$(middle encipher)" -v decipher="$(middle decipher)" -v large="$(middle large_script_time)" \
    -v inline="$(middle inline_script_time)" -v keys="$(middle many_keys_time)" -v misses="$(middle misses_time)" \
    -v writes=$((2 * pairs)) -v large_encipher="$(middle large_encipher)" -v large_decipher="$(middle large_decipher)" \
    -v kibibytes="$(sort -n "$scratch/script_memory" | tail -n 1)" -v image=$((4096 * blocks)) \
    -v text="$(wc -c <"$scratch/script")" 'BEGIN {
    alone = encipher + decipher
    printf "the run          %6.0f ms\n", run / 1e3
    printf "ciphers alone    %6.0f ms: %.0f and %.0f for the two ways\n", alone / 1e3, encipher / 1e3, decipher / 1e3
    printf "all else         %6.0f ms: %.2f of the run\n", (run - alone) / 1e3, (run - alone) / run
    printf "the second run   %6.0f ms\n", small / 1e3
    printf "all else         %6.0f ms: %.2f of the second run\n", (small - alone) / 1e3, (small - alone) / small
    large_alone = large_encipher + large_decipher
    printf "the third run    %6.0f ms\n", large / 1e3
    printf "ciphers alone    %6.0f ms: %.0f and %.0f for the two ways\n",
        large_alone / 1e3, large_encipher / 1e3, large_decipher / 1e3
    printf "ratio            %6.2f: the third run to its ciphers\n", large / large_alone
    printf "inline           %6.2f: the fourth run to its ciphers\n", inline / large_alone
    printf "a miss           %6.2f microseconds: the fifth run beyond the sixth, for each write\n", (misses - keys) / writes
    printf "peak of memory   %6.1f MB\n", kibibytes * 1024 / 1e6
    printf "image and text   %6.1f MB and %.2f MB; twice the one and 16 times the other are %.1f MB\n",
        image / 1e6, text / 1e6, (2 * image + 16 * text) / 1e6
}'
