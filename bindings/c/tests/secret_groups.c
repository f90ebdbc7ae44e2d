/* One call of crates/secret_calls with its secrets marked as undefined, as secrets.c has those of the library.

   usage: secret_groups CALL */
#include <stdint.h>
#include <stdio.h>
#include <string.h>
#include <valgrind/memcheck.h>

#define SECRET(of) (void)VALGRIND_MAKE_MEM_UNDEFINED(&(of), sizeof(of))
#define PUBLIC(of) (void)VALGRIND_MAKE_MEM_DEFINED(&(of), sizeof(of))

/* crates/secret_calls */
void secret_key(uint8_t key[64], const uint8_t secret[32]);
int32_t secret_key_by_table(uint8_t key[64], const uint8_t secret[32]);
void secret_response(uint8_t response[32], const uint8_t nonce[32], const uint8_t secret[32], const uint8_t challenge[32]);
void secret_encrypted(uint8_t part[64], const uint8_t randomness[32]);
void secret_decrypted(uint8_t message[64], const uint8_t secret[32]);
void secret_signature(uint8_t signature[64], const uint8_t seed[32]);
int32_t secret_same_digest(const uint8_t a[32], const uint8_t b[32]);
void secret_key_word(uint8_t word[44], const uint8_t bytes[33]);
int32_t secret_key_bytes(uint8_t bytes[33], const uint8_t word[44]);
int32_t secret_eddsa(uint8_t signature[64], const uint8_t private_key[32]);
int32_t secret_commitment(uint8_t commitment[64], const uint8_t randomness[32]);
int32_t planted_commitment(uint8_t commitment[64], const uint8_t randomness[32]);
void planted_multiple(uint8_t key[64], const uint8_t secret[32]);

static const uint8_t ONE[32] = {1};

/* Whether a call gives one answer for a small scalar in bytes that are undefined and in bytes that are not. */
static int same(void (*call)(uint8_t out[64], const uint8_t scalar[32]), uint8_t lowest, uint8_t highest) {
    uint8_t open[64], hidden[64], scalar[32] = {0};
    scalar[0] = lowest;
    scalar[31] = highest;
    call(open, scalar);
    SECRET(scalar);
    call(hidden, scalar);
    PUBLIC(hidden);
    return memcmp(open, hidden, 64) == 0;
}

static void key_by_table(uint8_t key[64], const uint8_t secret[32]) {
    if (secret_key_by_table(key, secret) != 0)
        memset(key, 0, 64);
}

/* The key by the table is the key without one. */
static int by_table(void) {
    uint8_t one[64], other[64], scalar[32] = {255, 1, 2, 3};
    secret_key(one, scalar);
    key_by_table(other, scalar);
    return memcmp(one, other, 64) == 0 && same(key_by_table, 7, 0) && same(key_by_table, 255, 14);
}

static int key(void) { return same(secret_key, 7, 0) && same(secret_key, 255, 14); }
static int encrypted(void) { return same(secret_encrypted, 7, 0) && same(secret_encrypted, 255, 14); }
static int decrypted(void) { return same(secret_decrypted, 7, 0) && same(secret_decrypted, 255, 14); }
static int signature(void) { return same(secret_signature, 7, 0) && same(secret_signature, 255, 255); }

/* A digest beside itself, and beside others whose first byte or whose last one differs. */
static int same_digest(void) {
    static const int PLACES[] = {0, 31};
    uint8_t one[32], other[32];
    int32_t answers[3];
    size_t i;
    memset(one, 7, 32);
    for (i = 0; i < 3; i++) {
        memset(other, 7, 32);
        if (i > 0)
            other[PLACES[i - 1]] = 8;
        SECRET(one);
        SECRET(other);
        answers[i] = secret_same_digest(one, other);
    }
    PUBLIC(answers);
    return answers[0] == 1 && answers[1] == 0 && answers[2] == 0;
}

/* The word of a key of all values of symbols is that of RFC 4648, section 4, and the key's alone. */
static int key_text(void) {
    static const char WORD[] = "ABCDEFGHIJKLMNOPQRSTUVWXYZabcdefghijklmnopqr", OTHER[] = "stuvwxyz0123456789+/AAAA====AAAA*AAA\377AAAAAAA";
    uint8_t bytes[33], again[33], word[44];
    int32_t answers[2];
    memcpy(word, WORD, 44);
    SECRET(word);
    answers[0] = secret_key_bytes(bytes, word);
    secret_key_word(word, bytes);
    PUBLIC(word);
    memcpy(word + 20, OTHER, 24);
    SECRET(word);
    answers[1] = secret_key_bytes(again, word);
    secret_key_word(word, again);
    PUBLIC(word);
    PUBLIC(answers);
    if (answers[0] != 1 || answers[1] != 1 || memcmp(word, WORD, 20) != 0 || memcmp(word + 20, OTHER, 24) != 0)
        return 0;
    memcpy(word, OTHER, 44);
    SECRET(word);
    answers[0] = secret_key_bytes(again, word);
    PUBLIC(answers);
    PUBLIC(bytes);
    return answers[0] == 0 && bytes[0] == 0 && bytes[1] == 16 && bytes[2] == 131;
}

static void eddsa_signature(uint8_t signature[64], const uint8_t private_key[32]) {
    if (secret_eddsa(signature, private_key) != 0)
        memset(signature, 0, 64);
}

static int eddsa(void) { return same(eddsa_signature, 7, 0) && same(eddsa_signature, 255, 255); }

static void commitment_by_table(uint8_t commitment[64], const uint8_t randomness[32]) {
    if (secret_commitment(commitment, randomness) != 0)
        memset(commitment, 0, 64);
}

/* The commitment by a table is the one by bits. */
static int commitment(void) {
    uint8_t one[64], other[64], randomness[32] = {255, 1, 2, 3};
    commitment_by_table(one, randomness);
    return planted_commitment(other, randomness) == 0 && memcmp(one, other, 64) == 0
        && same(commitment_by_table, 7, 0) && same(commitment_by_table, 255, 14);
}

/* 9 - 2 3 = 3 */
static int response(void) {
    uint8_t nonce[32] = {9}, secret[32] = {2}, challenge[32] = {3}, answer[32], three[32] = {3};
    SECRET(nonce);
    SECRET(secret);
    secret_response(answer, nonce, secret, challenge);
    PUBLIC(answer);
    return memcmp(answer, three, 32) == 0;
}

/* 1 times the generator, and a branch on the first byte of a secret key. */
static int planted_branch(void) {
    uint8_t secret[32], out[64];
    memcpy(secret, ONE, 32);
    SECRET(secret);
    if (secret[0] & 1)
        secret[1] ^= 1;
    secret_key(out, secret);
    return 1;
}

/* Two calls of the library that branch on what is secret here. */
static int planted_in_commitment(void) {
    uint8_t randomness[32], out[64];
    memcpy(randomness, ONE, 32);
    SECRET(randomness);
    return planted_commitment(out, randomness) == 0;
}

static int planted_in_multiple(void) {
    uint8_t secret[32], out[64];
    memcpy(secret, ONE, 32);
    SECRET(secret);
    planted_multiple(out, secret);
    return 1;
}

static const struct {
    const char *name;
    int (*call)(void);
} CALLS[] = {
    {"key", key},
    {"by_table", by_table},
    {"response", response},
    {"encrypted", encrypted},
    {"decrypted", decrypted},
    {"signature", signature},
    {"same_digest", same_digest},
    {"key_text", key_text},
    {"eddsa", eddsa},
    {"commitment", commitment},
    {"planted_branch", planted_branch},
    {"planted_in_commitment", planted_in_commitment},
    {"planted_in_multiple", planted_in_multiple},
};

int main(int argc, char **argv) {
    size_t i;
    for (i = 0; i < sizeof(CALLS) / sizeof(CALLS[0]); i++) {
        if (argc == 1)
            puts(CALLS[i].name);
        else if (strcmp(argv[1], CALLS[i].name) == 0)
            return CALLS[i].call() ? 0 : 1;
    }
    return argc == 1 ? 0 : 2;
}
