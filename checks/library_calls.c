/*
 * Calls of the library. Without words, each call that it refuses: its status, and that no byte of the data changed. With
 * words, one call over standard input and output, for comparisons:
 *
 *     library_calls encrypt|decrypt MODE UNIT KEY WORD0 WORD1 WORD2 WORD3      KEY and words in hexadecimal digits
 */
#include "blkcrypt.h"

#include <stdio.h>
#include <stdlib.h>
#include <string.h>

static uint8_t key[64], data[2 * 4096 + 1], before[sizeof data];
static int wrong;

/* One call each way, whose status is given, over data that a refusal leaves alone. */
static void refuses(const char *what, uint32_t wanted, uint32_t mode, uint32_t unit, size_t key_len, uint64_t w0,
                    uint64_t w1, uint64_t w2, size_t data_len)
{
    struct blkcrypt_number first = {{w0, w1, w2, 0}};
    uint32_t status = blkcrypt_encrypt_units(mode, unit, key, key_len, &first, data, data_len);
    uint32_t back = blkcrypt_decrypt_units(mode, unit, key, key_len, &first, data, data_len);
    if (status != wanted || back != wanted || memcmp(data, before, sizeof data)) {
        printf("library_calls: %s: %u and %u, not %u, or the data changed\n", what, status, back, wanted);
        wrong = 1;
    }
}

static void key_is(const char *what, uint32_t wanted, uint32_t mode, uint32_t unit, uint8_t number_bytes, size_t key_len)
{
    uint32_t status = blkcrypt_check_key(mode, unit, number_bytes, key, key_len);
    if (status != wanted) {
        printf("library_calls: %s: %u, not %u\n", what, status, wanted);
        wrong = 1;
    }
}

static int refusals(void)
{
    for (size_t i = 0; i < sizeof data; i++)
        data[i] = before[i] = (uint8_t)(i * 7 + i / 256);
    for (size_t i = 0; i < sizeof key; i++)
        key[i] = (uint8_t)i;
    key_is("a key", 0, 1, 4096, 8, 64);
    key_is("a key of the other mode", 0, 2, 512, 16, 16);
    key_is("a key of 63 bytes", 1, 1, 4096, 8, 63);
    key_is("a key of no bytes", 1, 2, 4096, 8, 0);
    key_is("a unit of 768 bytes", 2, 1, 768, 8, 64);
    key_is("numbers of 0 bytes", 3, 1, 512, 0, 64);
    key_is("numbers of 17 bytes", 3, 1, 512, 17, 64);
    key_is("a wrong length before a wrong unit", 1, 1, 0, 0, 65);
    key_is("no mode", 5, 0, 4096, 8, 64);
    key_is("no mode either", 5, 3, 4096, 8, 64);
    refuses("a key of 16 bytes", 1, 1, 4096, 16, 0, 0, 0, 8192);
    refuses("a key of 64 bytes", 1, 2, 4096, 64, 0, 0, 0, 8192);
    refuses("a unit of 4097 bytes", 2, 1, 4097, 64, 0, 0, 0, 8192);
    refuses("a unit of no bytes", 2, 1, 0, 64, 0, 0, 0, 8192);
    refuses("no mode", 5, 7, 4096, 64, 0, 0, 0, 8192);
    refuses("a byte too many", 6, 1, 4096, 64, 0, 0, 0, 8193);
    refuses("a sector of a block", 6, 1, 4096, 64, 0, 0, 0, 512);
    refuses("two numbers from the last one on", 7, 1, 4096, 64, UINT64_MAX, UINT64_MAX, 0, 8192);
    refuses("a number of 17 bytes", 7, 1, 512, 64, 0, 0, 1, 512);
    refuses("no data", 0, 1, 4096, 64, 0, 0, 0, 0);
    memcpy(key + 32, key, 32);
    key_is("equal halves", 4, 1, 4096, 8, 64);
    refuses("equal halves", 4, 1, 4096, 64, 0, 0, 0, 8192);
    key[63] ^= 1;
    struct blkcrypt_number last = {{UINT64_MAX, UINT64_MAX, 0, 0}};
    if (blkcrypt_encrypt_units(1, 4096, key, 64, &last, data, 4096) != 0 || !memcmp(data, before, 4096)) {
        printf("library_calls: the last number is refused\n");
        wrong = 1;
    }
    if (memcmp(data + 4096, before + 4096, sizeof data - 4096)) {
        printf("library_calls: bytes after the data changed\n");
        wrong = 1;
    }
    return wrong;
}

int main(int argc, char **argv)
{
    if (argc == 1)
        return refusals();
    if (argc != 9)
        return 2;
    static uint8_t text[1 << 20];
    size_t key_len = strlen(argv[4]) / 2, n = fread(text, 1, sizeof text, stdin);
    struct blkcrypt_number first;
    for (size_t i = 0; i < key_len && i < sizeof key; i++) {
        char digits[3] = {argv[4][2 * i], argv[4][2 * i + 1], 0};
        key[i] = (uint8_t)strtoul(digits, NULL, 16);
    }
    for (int i = 0; i < 4; i++)
        first.words[i] = strtoull(argv[5 + i], NULL, 16);
    uint32_t mode = (uint32_t)atoi(argv[2]), unit = (uint32_t)atoi(argv[3]);
    uint32_t status = strcmp(argv[1], "encrypt") == 0
        ? blkcrypt_encrypt_units(mode, unit, key, key_len, &first, text, n)
        : blkcrypt_decrypt_units(mode, unit, key, key_len, &first, text, n);
    return status != 0 || fwrite(text, 1, n, stdout) != n;
}
