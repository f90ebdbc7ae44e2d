/* One call of the library with its secrets marked as undefined, for valgrind's memcheck: it reports each conditional
   jump and each address that depends on one. What a call gives is public, and is marked so before it is compared.

   usage: secrets CALL
          secrets --cpu      prints which build of the library runs
   The calls that begin with `planted` depend on a secret: there memcheck has to report it. */
#include <paxidore.h>
#include <stdio.h>
#include <string.h>
#include <valgrind/memcheck.h>

#define SECRET(of) (void)VALGRIND_MAKE_MEM_UNDEFINED(&(of), sizeof(of))
#define PUBLIC(of) (void)VALGRIND_MAKE_MEM_DEFINED(&(of), sizeof(of))

/* The first vector of RFC 8032, section 7.1. */
static const uint8_t SEED[32] = {
    157, 97, 177, 157, 239, 253, 90, 96, 186, 132, 74, 244, 146, 236, 44, 196,
    68, 73, 197, 105, 123, 50, 105, 25, 112, 59, 172, 3, 28, 174, 127, 96,
};
static const uint8_t KEY[32] = {
    215, 90, 152, 1, 130, 177, 10, 183, 213, 75, 254, 211, 201, 100, 7, 58,
    14, 225, 114, 243, 218, 166, 35, 37, 175, 2, 26, 104, 247, 7, 81, 26,
};
static const uint8_t SIGNATURE[64] = {
    229, 86, 67, 0, 195, 96, 172, 114, 144, 134, 226, 204, 128, 110, 130, 138,
    132, 135, 127, 30, 184, 229, 217, 116, 216, 115, 224, 101, 34, 73, 1, 85,
    95, 184, 130, 21, 144, 163, 59, 172, 198, 30, 57, 112, 28, 249, 180, 107,
    210, 91, 245, 240, 89, 91, 190, 36, 101, 81, 65, 67, 142, 122, 16, 11,
};

static int ed25519_public_key(void) {
    uint8_t seed[32], key[32];
    memcpy(seed, SEED, 32);
    SECRET(seed);
    paxidore_ed25519_public_key(key, seed);
    PUBLIC(key);
    return memcmp(key, KEY, 32) == 0;
}

static int ed25519_sign(void) {
    uint8_t seed[32], signature[64];
    memcpy(seed, SEED, 32);
    SECRET(seed);
    paxidore_ed25519_sign(signature, seed, NULL, 0);
    PUBLIC(signature);
    return memcmp(signature, SIGNATURE, 64) == 0;
}

/* A message of several blocks of SHA-512. */
static int ed25519_sign_long(void) {
    uint8_t seed[32], key[32], signature[64], message[300];
    memcpy(seed, SEED, 32);
    memset(message, 7, sizeof(message));
    SECRET(seed);
    paxidore_ed25519_sign(signature, seed, message, sizeof(message));
    PUBLIC(signature);
    memcpy(key, KEY, 32);
    return paxidore_ed25519_verify(key, message, sizeof(message), signature) == PAXIDORE_OK;
}

static int blake2s(void) {
    uint8_t text[200], digest[32], again[32];
    paxidore_blake2s_state state;
    memset(text, 7, sizeof(text));
    SECRET(text);
    paxidore_blake2s(digest, text, sizeof(text));
    paxidore_blake2s_init(&state);
    paxidore_blake2s_update(&state, text, 65);
    paxidore_blake2s_update(&state, text + 65, sizeof(text) - 65);
    paxidore_blake2s_final(again, &state);
    PUBLIC(digest);
    PUBLIC(again);
    return memcmp(digest, again, 32) == 0;
}

static int blake2s_commitment(void) {
    uint8_t value[100], nonce[32], commitment[32];
    int32_t opens, opens_not;
    memset(value, 7, sizeof(value));
    memset(nonce, 9, sizeof(nonce));
    SECRET(value);
    SECRET(nonce);
    paxidore_blake2s_commit(commitment, value, sizeof(value), nonce);
    PUBLIC(commitment);
    opens = paxidore_blake2s_opens(commitment, value, sizeof(value), nonce);
    commitment[31] ^= 1;
    opens_not = paxidore_blake2s_opens(commitment, value, sizeof(value), nonce);
    PUBLIC(opens);
    PUBLIC(opens_not);
    return opens == PAXIDORE_OK && opens_not == PAXIDORE_NOT_SHOWN;
}

/* A check of a signature branches on the key and on the signature, which are public. */
static int planted_call(void) {
    uint8_t key[32], signature[64];
    memcpy(key, KEY, 32);
    memcpy(signature, SIGNATURE, 64);
    SECRET(key);
    return paxidore_ed25519_verify(key, NULL, 0, signature) == PAXIDORE_OK;
}

static int planted_branch(void) {
    uint8_t seed[32], key[32];
    memcpy(seed, SEED, 32);
    SECRET(seed);
    if (seed[5] & 1)
        seed[6] ^= 1;
    paxidore_ed25519_public_key(key, seed);
    return 1;
}

static int planted_address(void) {
    static volatile uint8_t table[256];
    uint8_t seed[32], key[32];
    memcpy(seed, SEED, 32);
    SECRET(seed);
    seed[6] ^= table[seed[5]];
    paxidore_ed25519_public_key(key, seed);
    return 1;
}

static const struct {
    const char *name;
    int (*call)(void);
} CALLS[] = {
    {"ed25519_public_key", ed25519_public_key},
    {"ed25519_sign", ed25519_sign},
    {"ed25519_sign_long", ed25519_sign_long},
    {"blake2s", blake2s},
    {"blake2s_commitment", blake2s_commitment},
    {"planted_call", planted_call},
    {"planted_branch", planted_branch},
    {"planted_address", planted_address},
};

int main(int argc, char **argv) {
    size_t i;
    if (argc == 1)
        for (i = 0; i < sizeof(CALLS) / sizeof(CALLS[0]); i++)
            puts(CALLS[i].name);
    if (argc == 2 && strcmp(argv[1], "--cpu") == 0)
        return puts(paxidore_cpu()) < 0;
    for (i = 0; argc == 2 && i < sizeof(CALLS) / sizeof(CALLS[0]); i++)
        if (strcmp(argv[1], CALLS[i].name) == 0)
            return CALLS[i].call() ? 0 : 1;
    return argc == 1 ? 0 : 2;
}
