#!/bin/sh
# Measures calls of the static library on 1 MiB of data units of 4096 bytes beside bc_speed on as many, by turns, and prints the
# least time of each, and their ratio; then the instructions of both, which other work on the machine doesn't change.
#
#     bench/library_speed.sh [ROUNDS]        151 rounds where no number is given
#
# It needs `rt`, or bc_speed and the library built, and `cc`; and `valgrind` for the instructions.
set -u
cd "$(dirname "$0")/.." || exit 1
rounds=${1:-151}
units=256
program=crates/bc_speed/out/bc_speed
library=crates/bc_c/out/libbc_c.a
[ -x "$program" ] || (cd crates/bc_speed && rt run -- digest xts 512 1) >/dev/null || exit 1
[ -f "$library" ] || (cd crates/bc_c && rt lib) >/dev/null || exit 1
scratch=$(mktemp -d) || exit 1
trap 'rm -rf "$scratch"' EXIT
cat >"$scratch/call.c" <<'C'
#define _POSIX_C_SOURCE 199309L
#include "blkcrypt.h"
#include <stdio.h>
#include <string.h>
#include <time.h>

static uint8_t data[256 * 4096], key[64];

/* words: xts or essiv, encrypt or decrypt. Prints MB a second, as bc_speed does. */
int main(int argc, char **argv)
{
    int xts = argc == 3 && !strcmp(argv[1], "xts");
    struct blkcrypt_number first = {{0, 0, 0, 0}};
    struct timespec start, end;
    for (size_t i = 0; i < sizeof data; i++)
        data[i] = (uint8_t)(31 * (i % 2048) / 8);
    for (int i = 0; i < 64; i++)
        key[i] = (uint8_t)i;
    clock_gettime(CLOCK_MONOTONIC, &start);
    uint32_t status = strcmp(argv[2], "encrypt") == 0
        ? blkcrypt_encrypt_units(xts ? 1 : 2, 4096, key, xts ? 64 : 16, &first, data, sizeof data)
        : blkcrypt_decrypt_units(xts ? 1 : 2, 4096, key, xts ? 64 : 16, &first, data, sizeof data);
    clock_gettime(CLOCK_MONOTONIC, &end);
    long micros = (end.tv_sec - start.tv_sec) * 1000000 + (end.tv_nsec - start.tv_nsec) / 1000;
    printf("%.0f\n", (double)sizeof data / (micros > 0 ? micros : 1));
    return (int)status;
}
C
cc -O2 -I include "$scratch/call.c" "$library" -o "$scratch/call" || exit 1

best() {
    sort -n "$scratch/$1" | tail -1
}

# count FUNCTION PROGRAM WORDS..: instructions within the function
count() {
    function=$1
    shift
    valgrind --tool=callgrind --callgrind-out-file="$scratch/out" "$@" >/dev/null 2>&1 || exit 1
    callgrind_annotate --inclusive=yes --threshold=100 "$scratch/out" |
        awk -v function_name="$function" 'index($0, function_name) { gsub(",", "", $1); print $1; exit }'
}

printf '%-6s %-8s %10s %10s %7s\n' mode way "library" "bc_speed" ratio
for mode in xts essiv; do
    for way in encrypt decrypt; do
        rm -f "$scratch/ours" "$scratch/theirs"
        round=0
        while [ "$round" -lt "$rounds" ]; do
            "$scratch/call" "$mode" "$way" >>"$scratch/ours" || exit 1
            "$program" "$way" "$mode" 4096 "$units" | sed -n 's/^.*: \([0-9]*\) MB\/s$/\1/p' >>"$scratch/theirs"
            round=$((round + 1))
        done
        awk -v mode="$mode" -v way="$way" -v o="$(best ours)" -v t="$(best theirs)" \
            'BEGIN { printf "%-6s %-8s %5d MB/s %5d MB/s %7.3f\n", mode, way, o, t, o / t }'
    done
done
command -v valgrind >/dev/null || exit 0
echo "instructions of a data unit"
for mode in xts essiv; do
    for way in encrypt decrypt; do
        ours=$(count "blkcrypt_${way}_units" "$scratch/call" "$mode" "$way")
        theirs=$(count ':bc_speed::units::carry_units ' "$program" "$way" "$mode" 4096 "$units")
        [ -n "$theirs" ] || theirs=$(($(count ':bc_speed::units::carry_unit ' "$program" "$way" "$mode" 4096 "$units")))
        awk -v mode="$mode" -v way="$way" -v o="$ours" -v t="$theirs" -v n="$units" \
            'BEGIN { printf "%-6s %-8s %10d %10d %7.3f\n", mode, way, o / n, t / n, o / t }'
    done
done
