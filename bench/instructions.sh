#!/bin/sh
# Counts the instructions of one data unit each way, which other work on the machine doesn't change: ours, and those of
# OpenSSL with hardware AES masked off.
#
#     bench/instructions.sh
#
# It needs `rt` or a crates/bc_speed/out/bc_speed that is built, `valgrind`, `cc` and OpenSSL's headers.
set -u
cd "$(dirname "$0")/.." || exit 1
units=40
program=crates/bc_speed/out/bc_speed
if ! [ -x "$program" ]; then
    (cd crates/bc_speed && rt run -- digest xts 512 1) >/dev/null || exit 1
fi
scratch=$(mktemp -d) || exit 1
trap 'rm -rf "$scratch"' EXIT
cat >"$scratch/evp.c" <<'C'
#include <openssl/evp.h>
#include <stdlib.h>
#include <string.h>

static unsigned char text[4096];

__attribute__((noinline)) void evp_unit(EVP_CIPHER_CTX *cipher, unsigned char *iv, int size)
{
    int out;
    EVP_CipherInit_ex(cipher, 0, 0, 0, iv, -1);
    EVP_CipherUpdate(cipher, text, &out, text, size);
}

/* words: the mode, the way, bytes and how many units */
int main(int argc, char **argv)
{
    const EVP_CIPHER *mode = strcmp(argv[1], "xts") ? EVP_aes_128_cbc() : EVP_aes_256_xts();
    unsigned char key[64], iv[16] = {0};
    for (int i = 0; i < 64; i++)
        key[i] = i;
    EVP_CIPHER_CTX *cipher = EVP_CIPHER_CTX_new();
    EVP_CipherInit_ex(cipher, mode, 0, key, iv, !strcmp(argv[2], "encrypt"));
    EVP_CIPHER_CTX_set_padding(cipher, 0);
    for (int unit = 0; unit < atoi(argv[4]); unit++) {
        iv[0] = unit;
        evp_unit(cipher, iv, atoi(argv[3]));
    }
    return 0;
}
C
cc -O2 "$scratch/evp.c" -o "$scratch/evp" -lcrypto || exit 1

# count FUNCTION PROGRAM WORDS..: instructions within the function, for one unit
count() {
    function=$1
    shift
    valgrind --tool=callgrind --callgrind-out-file="$scratch/out" "$@" >/dev/null 2>&1 || exit 1
    callgrind_annotate --inclusive=yes --threshold=100 "$scratch/out" |
        awk -v function_name="$function" -v units="$units" \
            'index($0, function_name) { gsub(",", "", $1); printf "%.0f", $1 / units; exit }'
}

printf '%-6s %-8s %5s %10s %10s %7s\n' mode way bytes ours OpenSSL ratio
for mode in xts essiv; do
    for size in 4096 512; do
        for way in encrypt decrypt; do
            our=$(count ':bc_speed::units::carry_units ' "$program" "$way" "$mode" "$size" "$units")
            soft=$(OPENSSL_ia32cap='~0x200000200000000' count ':evp_unit ' "$scratch/evp" "$mode" "$way" "$size" "$units")
            awk -v mode="$mode" -v way="$way" -v size="$size" -v our="$our" -v soft="$soft" \
                'BEGIN { printf "%-6s %-8s %5s %10d %10d %7.2f\n", mode, way, size, our, soft, soft / our }'
        done
    done
done
