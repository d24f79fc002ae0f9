/*
 * blkcrypt's unit ciphers for programs in C: data units as a block device with inline encryption keeps them.
 *
 * A data unit is 512, 1024, 2048 or 4096 bytes that are enciphered under a key and a number. Both ciphers keep its length,
 * so it is enciphered in place. There is no authentication: a data unit that is deciphered under another key or number
 * gives other bytes and no error.
 *
 * Units. Every size here is in bytes. A number is a data unit number below 2^256, in four words of 64 bits, the least
 * significant first. Only numbers below 2^128 are used: the number is the cipher's initialization vector of 16 bytes.
 *
 * Threads. The calls keep no state, allocate nothing and wait for nothing. Any number of threads may call them at once, each
 * with a buffer of its own. Key and number may be shared, as long as nobody writes them meanwhile.
 *
 * A caller has to keep these, and nothing checks them:
 *   - No pointer is null, not even where a length is 0.
 *   - `raw` points to `raw_len` bytes, `first` to a number and `data` to `data_len` bytes, all of them initialized, and none
 *     is longer than PTRDIFF_MAX.
 *   - While a call runs, nobody else reads or writes `data`, and nobody writes what `raw` and `first` point to. So `data`
 *     overlaps neither of them.
 *
 * An example. It enciphers two data units of 4096 bytes under the numbers 7 and 8:
 *
 *     uint8_t key[64];                                   // 64 random bytes
 *     uint8_t data[2 * 4096];
 *     struct blkcrypt_number first = {{7, 0, 0, 0}};
 *     uint32_t status = blkcrypt_encrypt_units(BLKCRYPT_AES_256_XTS, 4096, key, sizeof key, &first, data, sizeof data);
 *     if (status != BLKCRYPT_OK)
 *         fprintf(stderr, "%s\n", blkcrypt_status_text(status));
 *
 * Link libbc_c.a. docs/LIBRARY.md tells what is proved of these calls, and what isn't.
 */
#ifndef BLKCRYPT_H
#define BLKCRYPT_H

#include <stddef.h>
#include <stdint.h>

#ifdef __cplusplus
extern "C" {
#endif

/* Modes, by Linux's numbers. */
enum blkcrypt_mode {
    /* AES-256-XTS (IEEE 1619): a key has 64 bytes, whose two halves differ. */
    BLKCRYPT_AES_256_XTS = 1,
    /* AES-128-CBC with ESSIV by SHA-256: a key has 16 bytes. */
    BLKCRYPT_AES_128_CBC_ESSIV = 2
};

/*
 * What a call answers: 0, or the first test that fails. The key is tested before the data: first its mode, then in the order
 * of the numbers 1 to 4; then the data's length, then the numbers.
 */
enum blkcrypt_status {
    BLKCRYPT_OK = 0,
    /* The key hasn't as many bytes as its mode asks for. */
    BLKCRYPT_KEY_SIZE = 1,
    /* No data unit has this size. */
    BLKCRYPT_UNIT_SIZE = 2,
    /* Data unit numbers of so many bytes aren't 1 to 16 bytes long. */
    BLKCRYPT_NUMBER_BYTES = 3,
    /* The two halves of an XTS key are equal. */
    BLKCRYPT_EQUAL_HALVES = 4,
    /* No mode has this number. */
    BLKCRYPT_NO_MODE = 5,
    /* The data isn't whole data units. */
    BLKCRYPT_NOT_WHOLE = 6,
    /* The number of some data unit would be 2^128 or more. */
    BLKCRYPT_NUMBERS_RUN_OUT = 7
};

/* A data unit number: word i stands for words[i] times 2^(64 i). */
struct blkcrypt_number {
    uint64_t words[4];
};

/*
 * Whether a key can be used in this mode, for data units of `unit` bytes whose numbers have at most `number_bytes` bytes.
 * Answers one of 0 to 5.
 */
uint32_t blkcrypt_check_key(uint32_t mode, uint32_t unit, uint8_t number_bytes, const uint8_t *raw, size_t raw_len);

/*
 * Enciphers the data in place: whole consecutive data units of `unit` bytes, unit i under the number `first` plus i. Data of
 * length 0 is no data unit, and is answered BLKCRYPT_OK where the key is one. The key is expanded once a call, which takes
 * less than a data unit of 512 bytes does: hand over many data units at once where you can.
 *
 * Answers 0, or 1, 2 or 4 to 7; then the data is as it was.
 */
uint32_t blkcrypt_encrypt_units(uint32_t mode, uint32_t unit, const uint8_t *raw, size_t raw_len,
                                const struct blkcrypt_number *first, uint8_t *data, size_t data_len);

/* Deciphers them, with the same answers. It undoes blkcrypt_encrypt_units under the same mode, unit, key and first number. */
uint32_t blkcrypt_decrypt_units(uint32_t mode, uint32_t unit, const uint8_t *raw, size_t raw_len,
                                const struct blkcrypt_number *first, uint8_t *data, size_t data_len);

/* A sentence for a status. */
static inline const char *blkcrypt_status_text(uint32_t status)
{
    switch (status) {
    case BLKCRYPT_OK: return "done";
    case BLKCRYPT_KEY_SIZE: return "a key has 64 bytes for AES-256-XTS, or 16 for AES-128-CBC-ESSIV";
    case BLKCRYPT_UNIT_SIZE: return "a data unit has 512, 1024, 2048 or 4096 bytes";
    case BLKCRYPT_NUMBER_BYTES: return "a data unit number has 1 to 16 bytes";
    case BLKCRYPT_EQUAL_HALVES: return "the two halves of an XTS key are equal";
    case BLKCRYPT_NO_MODE: return "the mode is 1 for AES-256-XTS, or 2 for AES-128-CBC-ESSIV";
    case BLKCRYPT_NOT_WHOLE: return "the data isn't whole data units";
    case BLKCRYPT_NUMBERS_RUN_OUT: return "the number of a data unit would be 2^128 or more";
    default: return "no status of blkcrypt";
    }
}

#ifdef __cplusplus
}
#endif

#endif
