#!/bin/sh
# Measures the unit ciphers beside OpenSSL on this machine, by turns, and prints the middle and the best of each; and of ours
# to OpenSSL's without hardware AES the ratio in each round, the middle one, and the ratio of the best.
#
#     bench/speed.sh [ROUNDS]        15 rounds where no number is given
#
# It needs `rt` or a crates/bc_speed/out/bc_speed that is built, and `openssl`. Run it on a machine that does nothing else:
# the ratios are worth no more than its quiet, and where it isn't quiet those of the best say more. OpenSSL runs twice: as it
# is, and with hardware AES masked off, which is the yardstick for a cipher that has no hardware AES. Each time OpenSSL takes a
# second, and ours four times 32 MiB, which is a third of a second or so: shorter ones scatter more. MB are millions of bytes.
set -u
cd "$(dirname "$0")/.." || exit 1
rounds=${1:-15}
program=crates/bc_speed/out/bc_speed
if ! [ -x "$program" ]; then
    (cd crates/bc_speed && rt run -- digest xts 512 1) >/dev/null || exit 1
fi
command -v openssl >/dev/null || { echo "speed: no openssl here" >&2; exit 1; }
scratch=$(mktemp -d) || exit 1
trap 'rm -rf "$scratch"' EXIT

# ours MODE WAY SIZE: MB/s over four runs
ours() {
    for _ in 1 2 3 4; do
        "$program" "$2" "$1" "$3" $((33554432 / $3)) | sed -n 's/^.*: \([0-9]*\) MB\/s$/\1/p'
    done | awk '{ time += 1 / $1 } END { printf "%d\n", NR / time }'
}

# theirs MODE WAY SIZE: MB/s of the cipher that is nearest
theirs() {
    case $1 in
        xts) cipher=aes-256-xts ;;
        *) cipher=aes-128-cbc ;;
    esac
    case $2 in
        decrypt) flag=-decrypt ;;
        *) flag= ;;
    esac
    openssl speed -elapsed -seconds 1 $flag -evp "$cipher" -bytes "$3" 2>/dev/null |
        sed -n 's/^AES-[A-Z0-9-]* *\([0-9]*\).*k$/\1/p' | awk '{ printf "%d\n", $1 / 1000 }'
}

# the one in the middle of a file's numbers, and the largest
middle() {
    sort -n "$scratch/$1" | sed -n "$(((rounds + 1) / 2))p"
}

best() {
    sort -n "$scratch/$1" | tail -1
}

printf '%-6s %-8s %5s  %14s  %22s  %18s  %14s\n' mode way bytes "ours" "without hardware AES" "with hardware AES" ratio
for mode in xts essiv; do
    for size in 4096 512; do
        for way in encrypt decrypt; do
            rm -f "$scratch"/*
            round=0
            while [ "$round" -lt "$rounds" ]; do
                ours "$mode" "$way" "$size" >>"$scratch/ours"
                OPENSSL_ia32cap='~0x200000200000000' theirs "$mode" "$way" "$size" >>"$scratch/soft"
                theirs "$mode" "$way" "$size" >>"$scratch/hard"
                round=$((round + 1))
            done
            paste "$scratch/ours" "$scratch/soft" | awk '{ printf "%.4f\n", $1 / $2 }' >"$scratch/ratios"
            awk -v mode="$mode" -v way="$way" -v size="$size" -v om="$(middle ours)" -v ob="$(best ours)" \
                -v sm="$(middle soft)" -v sb="$(best soft)" -v hm="$(middle hard)" -v hb="$(best hard)" \
                -v ratio="$(middle ratios)" 'BEGIN {
                printf "%-6s %-8s %5s  %6d, %6d  %14d, %6d  %10d, %6d  %6.2f, %6.2f\n",
                    mode, way, size, om, ob, sm, sb, hm, hb, ratio, ob / sb
            }'
        done
    done
done
for mode in xts essiv; do
    rm -f "$scratch"/*
    round=0
    while [ "$round" -lt "$rounds" ]; do
        "$program" expand "$mode" 50000 | sed -n 's/^.*: \([0-9]*\) thousand keys\/s$/\1/p' >>"$scratch/keys"
        round=$((round + 1))
    done
    echo "expand $mode: $(middle keys), $(best keys) thousand keys/s"
done
