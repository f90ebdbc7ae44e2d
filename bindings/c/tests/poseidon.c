/* circomlib's hash from C. It prints how many checks passed, and ends with 1 where one failed. The numbers are circomlib's own, and
 * those of tools/poseidon-model. */
#include "paxidore.h"

#include <stdio.h>
#include <string.h>

static int passed, failed;

static void check(int holds, const char *what, int line) {
    if (holds) {
        passed++;
    } else {
        failed++;
        fprintf(stderr, "poseidon.c:%d: %s\n", line, what);
    }
}
#define CHECK(holds) check((holds) != 0, #holds, __LINE__)

static const uint8_t MODULUS[32] = {0x30, 0x64, 0x4e, 0x72, 0xe1, 0x31, 0xa0, 0x29, 0xb8, 0x50, 0x45, 0xb6, 0x81, 0x81, 0x58, 0x5d,
                                    0x28, 0x33, 0xe8, 0x48, 0x79, 0xb9, 0x70, 0x91, 0x43, 0xe1, 0xf5, 0x93, 0xf0, 0x00, 0x00, 0x01};

static uint8_t table[PAXIDORE_POSEIDON_TABLEBYTES(16)], inputs[17 * 32];

static void reversed(uint8_t *bytes) {
    for (int i = 0; i < 16; i++) {
        uint8_t low = bytes[i];
        bytes[i] = bytes[31 - i];
        bytes[31 - i] = low;
    }
}

static int is_hex(const uint8_t *bytes, const char *hex) {
    char text[65];
    for (int i = 0; i < 32; i++)
        snprintf(text + 2 * i, 3, "%02x", bytes[i]);
    return strcmp(text, hex) == 0;
}

/* The hash of so many numbers, each one above the one before, in both byte orders. */
static void hashes_of(unsigned first, size_t count, const char *hex) {
    uint8_t digest[32];
    size_t len;
    memset(inputs, 0, sizeof inputs);
    for (size_t i = 0; i < count; i++)
        inputs[32 * i + 31] = (uint8_t)(first + i);
    CHECK(paxidore_poseidon_table(table, PAXIDORE_POSEIDON_TABLEBYTES(count), &len, count) == PAXIDORE_OK);
    CHECK(len <= PAXIDORE_POSEIDON_TABLEBYTES(count) && table[0] == count);
    CHECK(paxidore_poseidon(digest, PAXIDORE_BIG_ENDIAN, table, len, inputs, 32 * count) == PAXIDORE_OK && is_hex(digest, hex));
    for (size_t i = 0; i < count; i++)
        reversed(inputs + 32 * i);
    CHECK(paxidore_poseidon(digest, PAXIDORE_LITTLE_ENDIAN, table, len, inputs, 32 * count) == PAXIDORE_OK);
    reversed(digest);
    CHECK(is_hex(digest, hex));
}

static void refusals(void) {
    uint8_t digest[32], before[32], small[64];
    size_t len = 7;
    memset(before, 0xaa, sizeof before);
    memset(small, 0xbb, sizeof small);
    CHECK(paxidore_poseidon_table(small, sizeof small, &len, 0) == PAXIDORE_E_COUNT && len == 7);
    CHECK(paxidore_poseidon_table(small, sizeof small, &len, 17) == PAXIDORE_E_COUNT && len == 7);
    CHECK(paxidore_poseidon_table(small, sizeof small, &len, SIZE_MAX) == PAXIDORE_E_COUNT && len == 7);
    CHECK(paxidore_poseidon_table(small, sizeof small, &len, 2) == PAXIDORE_E_ROOM && len == 1 + 32 * 106 + 8 && small[0] == 0xbb);
    CHECK(paxidore_poseidon_table(table, sizeof table, &len, 2) == PAXIDORE_OK);
    memset(inputs, 0, sizeof inputs);
#define REFUSED(code, order, given, given_len, count) \
    do { \
        memcpy(digest, before, sizeof digest); \
        CHECK(paxidore_poseidon(digest, order, given, given_len, inputs, count) == (code)); \
        CHECK(memcmp(digest, before, sizeof digest) == 0); \
    } while (0)
    REFUSED(PAXIDORE_E_INVALID, 0, table, len, 64);
    REFUSED(PAXIDORE_E_INVALID, 3, table, len, 64);
    REFUSED(PAXIDORE_E_COUNT, 1, table, len, 0);
    REFUSED(PAXIDORE_E_COUNT, 1, table, len, 32);
    REFUSED(PAXIDORE_E_COUNT, 1, table, len, 17 * 32);
    REFUSED(PAXIDORE_E_TRUNCATED, 1, table, len, 63);
    REFUSED(PAXIDORE_E_TRUNCATED, 1, NULL, 0, 64);
    REFUSED(PAXIDORE_E_TRUNCATED, 1, table, len - 1, 64);
    REFUSED(PAXIDORE_E_TRUNCATED, 1, table, 1 + 32 * 48, 64);
    REFUSED(PAXIDORE_E_TRUNCATED, 1, table, len - 8, 64); /* as it was before there was a check sum */
    REFUSED(PAXIDORE_E_TRUNCATED, 1, table, len - 32, 64);
    memset(table + len, 0, 32);
    REFUSED(PAXIDORE_E_INVALID, 1, table, len + 1, 64);
    REFUSED(PAXIDORE_E_INVALID, 1, table, len + 32, 64);
    for (size_t at = 1; at < len; at += 97) {
        table[at] ^= 1;
        REFUSED(PAXIDORE_E_INVALID, 1, table, len, 64);
        table[at] ^= 1;
    }
    table[len - 1] ^= 0x80;
    REFUSED(PAXIDORE_E_INVALID, 1, table, len, 64);
    table[len - 1] ^= 0x80;
    memcpy(inputs + 32, MODULUS, 32);
    REFUSED(PAXIDORE_E_INVALID, PAXIDORE_BIG_ENDIAN, table, len, 64);
    inputs[63]--;
    CHECK(paxidore_poseidon(digest, PAXIDORE_BIG_ENDIAN, table, len, inputs, 64) == PAXIDORE_OK);
    memset(inputs, 0xff, 32);
    REFUSED(PAXIDORE_E_INVALID, PAXIDORE_LITTLE_ENDIAN, table, len, 64);
    memset(inputs, 0, sizeof inputs);
    table[0] = 17;
    REFUSED(PAXIDORE_E_INVALID, 1, table, len, 64);
    table[0] = 3;
    REFUSED(PAXIDORE_E_TRUNCATED, 1, table, len, 64);
    table[0] = 1;
    REFUSED(PAXIDORE_E_INVALID, 1, table, len, 64);
    table[0] = 2;
    memset(table + 1, 0xff, 32);
    REFUSED(PAXIDORE_E_INVALID, 1, table, len, 64);
}

int main(void) {
    hashes_of(1, 1, "29176100eaa962bdc1fe6c654d6a3c130e96a4d1168b33848b897dc502820133");
    hashes_of(1, 2, "115cc0f5e7d690413df64c6b9662e9cf2a3617f2743245519e19607a4417189a");
    hashes_of(1, 3, "0e7732d89e6939c0ff03d5e58dab6302f3230e269dc5b968f725df34ab36d732");
    hashes_of(1, 6, "2d1a03850084442813c8ebf094dea47538490a68b05f2239134a4cca2f6302e1");
    hashes_of(1, 14, "1278779aaafc5ca58bf573151005830cdb4683fb26591c85a7464d4f0e527776");
    hashes_of(0, 16, "1b733f2ff41971b23819a16bc8c16bbe13d98173358429fcc12f6f0826407a56");
    hashes_of(1, 16, "16159a551cbb66108281a48099fff949ae08afd7f1f2ec06de2ffb96b919b765");
    refusals();
    printf("%d passed, %d failed\n", passed, failed);
    return failed != 0;
}
