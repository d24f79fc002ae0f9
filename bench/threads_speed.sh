#!/bin/sh
# Measures runs by threads beside runs by one caller of the same script, by turns, and prints how much sooner the former end.
#
#     bench/threads_speed.sh [ROUNDS [SECTIONS..]]        7 rounds where no number is given
#
# A script has 65,536 data units of 4096 bytes, in bios of one, half of them writes and half reads, in 1, 2, 4, 8 or 16
# sections (or in as many as are asked for) which have equal shares and no block in common. By the first way the
# sections go over shards of their own, as many as there are sections; by the second all go over one shard, and by the
# third over 64. Each way is measured inline, over a device of 32 keyslots, and by software. What reading the script,
# the disk's opening and closing and writing the report take is measured by a script of as many bios that are all
# refused, and subtracted. It needs `rt`, or blkcrypt that is built. Run it on a machine that does nothing else.
set -u
cd "$(dirname "$0")/.." || exit 1
rounds=${1:-7}
[ $# -gt 0 ] && shift
counts=${*:-1 2 4 8 16}
blocks=1024
pairs=32768
program=crates/blkcrypt/out/blkcrypt
./blkcrypt threads <examples/empty.txt >/dev/null || exit 1
scratch=$(mktemp -d) || exit 1
trap 'rm -rf "$scratch"' EXIT

# script SECTIONS WAY FROM: sections of writes, each read after it, each section over every so manieth block; the blocks are
# counted from FROM on, so that all bios are refused where that is the number of blocks
script() {
    awk -v blocks="$blocks" -v pairs="$pairs" -v sections="$1" -v way="$2" -v from="$3" 'BEGIN {
        print "blkcrypt 1\ndisk " blocks "\nfallback on"
        if (way == "inline") print "device 0 " blocks " 32 8 0 8"
        printf "key a aes-256-xts 4096 8 "
        for (i = 0; i < 64; i++) printf "%02x", i
        print ""
        for (section = 0; section < sections; section++) {
            print "thread"
            for (i = 0; i < pairs / sections; i++) {
                unit = i * sections + section
                sector = 8 * (from + unit % blocks)
                printf "write a %d 1 %x fill %02x\nread a %d 1 %x\n", sector, unit, unit % 256, sector, unit
            }
        }
        print "end"
    }'
}

# run NAME SCRIPT COMMAND SHARDS DONE: microseconds
run() {
    start=$(date +%s%N)
    "$program" "$3" --shards "$4" <"$scratch/$2" >"$scratch/report" || exit 1
    echo $((($(date +%s%N) - start) / 1000)) >>"$scratch/$1"
    if [ "$(grep -c '^done fill' "$scratch/report")" -ne "$5" ]; then
        echo "threads_speed: a read gave another text" >&2
        exit 1
    fi
}

# the one in the middle of a file's numbers
middle() {
    sort -n "$scratch/$1" | sed -n "$(((rounds + 1) / 2))p"
}

for way in inline soft; do
    for sections in $counts; do
        script "$sections" "$way" 0 >"$scratch/script"
        script "$sections" "$way" "$blocks" >"$scratch/refused"
        for shards in "$sections" 1 64; do
            rm -f "$scratch"/*_time
            round=0
            while [ "$round" -lt "$rounds" ]; do
                for command in serial threads; do
                    run "${command}_time" script "$command" "$shards" "$pairs"
                    run "${command}_refused_time" refused "$command" "$shards" 0
                done
                round=$((round + 1))
            done
            awk -v way="$way" -v sections="$sections" -v shards="$shards" -v serial="$(middle serial_time)" \
                -v threads="$(middle threads_time)" -v serial_refused="$(middle serial_refused_time)" \
                -v threads_refused="$(middle threads_refused_time)" 'BEGIN {
                one = serial - serial_refused
                many = threads - threads_refused
                printf "%-6s %2d sections, %2d shards: serial %5.0f ms, threads %5.0f ms, %5.2f times as fast\n",
                    way, sections, shards, one / 1e3, many / 1e3, one / many
            }'
        done
    done
done
