/*
 * Enciphers or deciphers a file by data units of 4096 bytes, the first under the number 0.
 *
 *     units encrypt|decrypt KEYFILE FROM TO
 *
 * KEYFILE has 64 bytes for AES-256-XTS, or 16 for AES-128-CBC-ESSIV. FROM has whole data units.
 */
#include "blkcrypt.h"

#include <stdio.h>
#include <string.h>

#define UNIT 4096
#define UNITS_A_CALL 256
#define MOST_KEY 64

static int fail(const char *what, const char *why)
{
    fprintf(stderr, "units: %s: %s\n", what, why);
    return 1;
}

/* A progress line for each 64 MiB. */
static void tell(uint64_t bytes)
{
    if (bytes % (64 << 20) == 0)
        fprintf(stderr, "units: %llu MiB\n", (unsigned long long)(bytes >> 20));
}

/* Reads data units, takes them one way, and writes them. */
static int carry(int encrypt, const uint8_t *key, size_t key_len, FILE *from, FILE *to)
{
    static uint8_t data[UNITS_A_CALL * UNIT];
    uint32_t mode = key_len == 16 ? BLKCRYPT_AES_128_CBC_ESSIV : BLKCRYPT_AES_256_XTS;
    struct blkcrypt_number first = {{0, 0, 0, 0}};
    uint64_t bytes = 0;
    size_t n;

    while ((n = fread(data, 1, sizeof data, from)) > 0) {
        uint32_t status = encrypt
            ? blkcrypt_encrypt_units(mode, UNIT, key, key_len, &first, data, n)
            : blkcrypt_decrypt_units(mode, UNIT, key, key_len, &first, data, n);
        if (status != BLKCRYPT_OK)
            return fail("a data unit", blkcrypt_status_text(status));
        if (fwrite(data, 1, n, to) != n)
            return fail("writing", "failed");
        first.words[0] += n / UNIT;
        bytes += n;
        tell(bytes);
    }
    return ferror(from) ? fail("reading", "failed") : 0;
}

int main(int argc, char **argv)
{
    uint8_t key[MOST_KEY + 1];
    if (argc != 5 || (strcmp(argv[1], "encrypt") && strcmp(argv[1], "decrypt")))
        return fail("words", "encrypt|decrypt KEYFILE FROM TO");
    FILE *key_file = fopen(argv[2], "rb"), *from = fopen(argv[3], "rb");
    if (!key_file || !from)
        return fail(key_file ? argv[3] : argv[2], "can't be opened");
    size_t key_len = fread(key, 1, sizeof key, key_file);
    uint32_t mode = key_len == 16 ? BLKCRYPT_AES_128_CBC_ESSIV : BLKCRYPT_AES_256_XTS;
    uint32_t status = blkcrypt_check_key(mode, UNIT, 16, key, key_len);
    if (status != BLKCRYPT_OK)
        return fail(argv[2], blkcrypt_status_text(status));
    FILE *to = fopen(argv[4], "wb");
    if (!to)
        return fail(argv[4], "can't be opened");
    int failed = carry(strcmp(argv[1], "encrypt") == 0, key, key_len, from, to);
    return fclose(to) == 0 ? failed : fail("writing", "failed");
}
