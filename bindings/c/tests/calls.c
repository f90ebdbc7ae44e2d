/* Every call from C, over both hashings. It prints how many checks passed, and ends with 1 where one failed. */
#include "paxidore.h"

#include <stdio.h>
#include <stdlib.h>
#include <string.h>

static int passed, failed;

static void check(int holds, const char *what, int line) {
    if (holds) {
        passed++;
    } else {
        failed++;
        fprintf(stderr, "calls.c:%d: %s\n", line, what);
    }
}
#define CHECK(holds) check((holds) != 0, #holds, __LINE__)

/* A hashing. */
struct hashing {
    uint32_t number;
    const char *roots[9]; /* by the count of leaves */
};

static const struct hashing sha256 = {
    PAXIDORE_PLAIN,
    /* by Python's hashlib */
    {[8] = "03b3e0e5b23746036c9c7185c1fc12bc6f8ff41cc2b97b24fb451f2cc291d2b4"}};

static const struct hashing rfc6962 = {
    PAXIDORE_RFC6962,
    /* those that implementations of RFC 6962 are tested with */
    {[2] = "fac54203e7cc696cf0dfcb42c92a1d9dbaf70ad9e621f4bd8d98662f00e3c125",
     [4] = "d37ee418976dd95753c1c73862b9398fa2a2cf9b4ff0fdfe8b30cd95209614b7",
     [8] = "5dc9da79a70659a9ad559cb701ded9a2ab9d823aad2f4960cfe370eff4604328"}};

/* The entries of those vectors, one behind the other. The first has no bytes. */
static const uint8_t LEAVES[] = "\x00\x10\x20\x21\x30\x31\x40\x41\x42\x43\x50\x51\x52\x53\x54\x55\x56\x57`abcdefghijklmno";
static const size_t LENGTHS[8] = {0, 1, 1, 2, 2, 4, 8, 16};
enum { LEAVES_LEN = 34, SIZE = 8, PATH = 112 };

static size_t length_of(size_t count) {
    size_t sum = 0;
    for (size_t i = 0; i < count; i++)
        sum += LENGTHS[i];
    return sum;
}

static int is_hex(const uint8_t *bytes, const char *hex) {
    char text[65];
    for (int i = 0; i < 32; i++)
        snprintf(text + 2 * i, 3, "%02x", bytes[i]);
    return strcmp(text, hex) == 0;
}

static int is_filled(const uint8_t *bytes, size_t len, uint8_t with) {
    for (size_t i = 0; i < len; i++)
        if (bytes[i] != with)
            return 0;
    return 1;
}

static void roots(const struct hashing *h) {
    for (size_t count = 0; count <= SIZE; count++) {
        uint8_t root[32];
        memset(root, 0xaa, 32);
        int32_t answer = paxidore_root(root, h->number, LEAVES, length_of(count), LENGTHS, count);
        if (count == 2 || count == 4 || count == 8) {
            CHECK(answer == PAXIDORE_OK);
            if (h->roots[count])
                CHECK(is_hex(root, h->roots[count]));
        } else {
            CHECK(answer == PAXIDORE_E_SIZE);
            CHECK(is_filled(root, 32, 0xaa));
        }
    }
    uint8_t root[32];
    size_t lengths[8];
    memset(root, 0xaa, 32);
    CHECK(paxidore_root(root, h->number, NULL, 0, NULL, 0) == PAXIDORE_E_SIZE);
    CHECK(paxidore_root(root, h->number, LEAVES, LEAVES_LEN - 1, LENGTHS, SIZE) == PAXIDORE_E_LENGTHS);
    CHECK(paxidore_root(root, h->number, LEAVES, LEAVES_LEN + 1, LENGTHS, SIZE) == PAXIDORE_E_LENGTHS);
    memcpy(lengths, LENGTHS, sizeof lengths);
    lengths[3] = SIZE_MAX;
    CHECK(paxidore_root(root, h->number, LEAVES, LEAVES_LEN, lengths, SIZE) == PAXIDORE_E_LENGTHS);
    CHECK(is_filled(root, 32, 0xaa));
    memset(lengths, 0, sizeof lengths);
    CHECK(paxidore_root(root, h->number, NULL, 0, lengths, SIZE) == PAXIDORE_OK);
}

static void paths(const struct hashing *h) {
    uint8_t root[32], path[PATH + 8], other[PATH + 8];
    size_t len, at = 0;
    CHECK(paxidore_root(root, h->number, LEAVES, LEAVES_LEN, LENGTHS, SIZE) == PAXIDORE_OK);
    for (size_t index = 0; index < SIZE; at += LENGTHS[index++]) {
        const uint8_t *leaf = LENGTHS[index] ? LEAVES + at : NULL;
        memset(path, 0xaa, sizeof path);
        CHECK(paxidore_path(path, sizeof path, &len, h->number, LEAVES, LEAVES_LEN, LENGTHS, SIZE, index) == PAXIDORE_OK);
        CHECK(len == PATH && len == PAXIDORE_PATHBYTES(3) && is_filled(path + len, sizeof path - len, 0xaa));
        CHECK(paxidore_verify(h->number, root, SIZE, index, leaf, LENGTHS[index], path, len) == PAXIDORE_OK);
        /* another leaf, root, index or size */
        CHECK(paxidore_verify(h->number, root, SIZE, index, (const uint8_t *)"other", 5, path, len) == PAXIDORE_NOT_SHOWN);
        CHECK(paxidore_verify(h->number, path, SIZE, index, leaf, LENGTHS[index], path, len) == PAXIDORE_NOT_SHOWN);
        CHECK(paxidore_verify(h->number, root, SIZE, index ^ 1, leaf, LENGTHS[index], path, len) == PAXIDORE_E_INVALID);
        CHECK(paxidore_verify(h->number, root, SIZE, index + SIZE, leaf, LENGTHS[index], path, len) == PAXIDORE_E_INDEX);
        CHECK(paxidore_verify(h->number, root, SIZE, SIZE_MAX, NULL, 0, NULL, 0) == PAXIDORE_E_INDEX);
        CHECK(paxidore_verify(h->number, root, SIZE - 1, SIZE, NULL, 0, NULL, 0) == PAXIDORE_E_SIZE);
        CHECK(paxidore_verify(h->number, root, 2 * SIZE, index, leaf, LENGTHS[index], path, len) == PAXIDORE_E_HEIGHT);
        CHECK(paxidore_verify(h->number, root, SIZE / 2, index, leaf, LENGTHS[index], path, len) ==
              (index < SIZE / 2 ? PAXIDORE_E_HEIGHT : PAXIDORE_E_INDEX));
        CHECK(paxidore_verify(h->number, root, SIZE - 1, index, leaf, LENGTHS[index], path, len) == PAXIDORE_E_SIZE);
        CHECK(paxidore_verify(h->number, root, 0, index, leaf, LENGTHS[index], path, len) == PAXIDORE_E_SIZE);
        CHECK(paxidore_verify(h->number, root, 1, index, leaf, LENGTHS[index], path, len) == PAXIDORE_E_SIZE);
        /* each front, and a byte behind */
        for (size_t front = 0; front < len; front++)
            CHECK(paxidore_verify(h->number, root, SIZE, index, leaf, LENGTHS[index], front ? path : NULL, front) == PAXIDORE_E_TRUNCATED);
        CHECK(paxidore_verify(h->number, root, SIZE, index, leaf, LENGTHS[index], path, len + 1) == PAXIDORE_E_INVALID);
        /* each bit: none may be other */
        for (size_t bit = 0; bit < 8 * len; bit++) {
            memcpy(other, path, len);
            other[bit / 8] ^= (uint8_t)(1 << bit % 8);
            CHECK(paxidore_verify(h->number, root, SIZE, index, leaf, LENGTHS[index], other, len) != PAXIDORE_OK);
        }
        /* a buffer that fits, and one too short by one */
        memset(path, 0xaa, sizeof path);
        CHECK(paxidore_path(path, PATH, &len, h->number, LEAVES, LEAVES_LEN, LENGTHS, SIZE, index) == PAXIDORE_OK);
        memset(path, 0xaa, sizeof path);
        len = 7;
        CHECK(paxidore_path(path, PATH - 1, &len, h->number, LEAVES, LEAVES_LEN, LENGTHS, SIZE, index) == PAXIDORE_E_ROOM && len == PATH);
        CHECK(is_filled(path, sizeof path, 0xaa));
    }
    len = 7;
    CHECK(paxidore_path(NULL, 0, &len, h->number, LEAVES, LEAVES_LEN, LENGTHS, SIZE, 0) == PAXIDORE_E_ROOM && len == PATH);
    len = 7;
    CHECK(paxidore_path(path, PATH, &len, h->number, LEAVES, LEAVES_LEN, LENGTHS, SIZE, SIZE) == PAXIDORE_E_INDEX && len == 7);
    CHECK(paxidore_path(path, PATH, &len, h->number, LEAVES, LEAVES_LEN, LENGTHS, SIZE, SIZE_MAX) == PAXIDORE_E_INDEX && len == 7);
    CHECK(paxidore_path(path, PATH, &len, h->number, LEAVES, 4, LENGTHS, 5, 0) == PAXIDORE_E_SIZE && len == 7);
    CHECK(paxidore_path(path, PATH, &len, h->number, LEAVES, 4, LENGTHS, 8, 0) == PAXIDORE_E_LENGTHS && len == 7);
    CHECK(is_filled(path, sizeof path, 0xaa));
    /* leaf, root and path may be the same bytes */
    CHECK(paxidore_verify(h->number, root, 2, 0, root, 32, root, 32) == PAXIDORE_E_TRUNCATED);
}

static void multi_paths(const struct hashing *h) {
    uint8_t root[32], proof[1024], other[1024], leaves[LEAVES_LEN];
    CHECK(paxidore_root(root, h->number, LEAVES, LEAVES_LEN, LENGTHS, SIZE) == PAXIDORE_OK);
    for (unsigned set = 1; set < 256; set++) {
        size_t indexes[8], lengths[8], count = 0, leaves_len = 0, at = 0, len = 0;
        for (size_t index = 0; index < SIZE; at += LENGTHS[index++])
            if (set >> index & 1) {
                memcpy(leaves + leaves_len, LEAVES + at, LENGTHS[index]);
                leaves_len += LENGTHS[index];
                lengths[count] = LENGTHS[index];
                indexes[count++] = index;
            }
        CHECK(paxidore_multi_path(proof, sizeof proof, &len, h->number, LEAVES, LEAVES_LEN, LENGTHS, SIZE, indexes, count) == PAXIDORE_OK);
        CHECK(paxidore_multi_verify(h->number, root, SIZE, indexes, count, leaves, leaves_len, lengths, count, proof, len) == PAXIDORE_OK);
        CHECK(paxidore_multi_verify(h->number, root, 2 * SIZE, indexes, count, leaves, leaves_len, lengths, count, proof, len) ==
              PAXIDORE_E_HEIGHT);
        CHECK(paxidore_multi_verify(h->number, root, SIZE + 1, indexes, count, leaves, leaves_len, lengths, count, proof, len) ==
              PAXIDORE_E_SIZE);
        CHECK(paxidore_multi_verify(h->number, root, SIZE, indexes, count, leaves, leaves_len, lengths, count - 1, proof, len) ==
              PAXIDORE_E_COUNT);
        CHECK(paxidore_multi_verify(h->number, root, SIZE, indexes, count - 1, leaves, leaves_len - lengths[count - 1], lengths, count - 1,
                              proof, len) == (count > 1 ? PAXIDORE_E_INVALID : PAXIDORE_E_INDEX));
        CHECK(paxidore_multi_verify(h->number, root, SIZE, indexes, count, leaves, leaves_len + 1, lengths, count, proof, len) ==
              PAXIDORE_E_LENGTHS);
        CHECK(paxidore_multi_verify(h->number, root, SIZE, indexes, count, leaves, leaves_len, lengths, count, proof, len - 1) ==
              PAXIDORE_E_TRUNCATED);
        CHECK(paxidore_multi_verify(h->number, root, SIZE, indexes, count, leaves, leaves_len, lengths, count, proof, len + 1) ==
              PAXIDORE_E_INVALID);
        if (set % 32 == 5)
            for (size_t bit = 0; bit < 8 * len; bit++) {
                memcpy(other, proof, len);
                other[bit / 8] ^= (uint8_t)(1 << bit % 8);
                CHECK(paxidore_multi_verify(h->number, root, SIZE, indexes, count, leaves, leaves_len, lengths, count, other, len) !=
                      PAXIDORE_OK);
            }
        size_t needed = 0;
        memset(other, 0xaa, sizeof other);
        CHECK(paxidore_multi_path(other, len - 1, &needed, h->number, LEAVES, LEAVES_LEN, LENGTHS, SIZE, indexes, count) == PAXIDORE_E_ROOM);
        CHECK(needed == len && is_filled(other, sizeof other, 0xaa));
    }
    /* in any order, and more than once */
    const size_t given[5] = {6, 1, 6, 3, 1}, rising[3] = {1, 3, 6};
    size_t len = 0, short_len = 0;
    CHECK(paxidore_multi_path(proof, sizeof proof, &len, h->number, LEAVES, LEAVES_LEN, LENGTHS, SIZE, given, 5) == PAXIDORE_OK);
    CHECK(paxidore_multi_path(other, sizeof other, &short_len, h->number, LEAVES, LEAVES_LEN, LENGTHS, SIZE, rising, 3) == PAXIDORE_OK);
    CHECK(len == short_len && memcmp(proof, other, len) == 0);
    const size_t past[2] = {3, SIZE}, none[2] = {0, 0};
    CHECK(paxidore_multi_path(proof, sizeof proof, &len, h->number, LEAVES, LEAVES_LEN, LENGTHS, SIZE, past, 2) == PAXIDORE_E_INDEX);
    CHECK(paxidore_multi_path(proof, sizeof proof, &len, h->number, LEAVES, LEAVES_LEN, LENGTHS, SIZE, NULL, 0) == PAXIDORE_E_INDEX);
    CHECK(paxidore_multi_verify(h->number, root, SIZE, past, 2, LEAVES, 0, none, 2, proof, len) == PAXIDORE_E_INDEX);
    CHECK(paxidore_multi_verify(h->number, root, SIZE, past, 2, LEAVES, 1, none, 2, proof, len) == PAXIDORE_E_LENGTHS);
    CHECK(paxidore_multi_verify(h->number, root, SIZE, NULL, 0, NULL, 0, NULL, 0, proof, len) == PAXIDORE_E_INDEX);
    CHECK(paxidore_multi_verify(h->number, root, SIZE, NULL, 0, NULL, 0, NULL, 0, NULL, 0) == PAXIDORE_E_INDEX);
}

/* The path of entry 3 of seven and the proof that seven continue three, by a recursion over hashlib. */
static const uint8_t ROOT_3[32] =
    "\xae\xb6\xbc\xfe\x27\x4b\x70\xa1\x4f\xb0\x67\xa5\xe5\x57\x82\x64\xdb\x0f\xa9\xb5\x1a\xf5\xe0\xba\x15\x91\x58\xf3\x29\xe0\x6e\x77";
static const uint8_t ROOT_7[32] =
    "\xdd\xb8\x9b\xe4\x03\x80\x9e\x32\x57\x50\xd3\xd2\x63\xcd\x78\x92\x9c\x29\x42\xb7\x94\x2a\x34\xb7\x7e\x12\x2c\x95\x94\xa7\x4c\x8c";
static const uint8_t PROOF_7[128] =
    "\x02\x98\xd1\x22\x90\x6d\xcf\xc1\x08\x92\xcb\x53\xa7\x39\x92\xfc\x5b\x9f\x49\x3e\xa4\xc9\xba\xdb\x27\xb7\x91\xb4\x12\x7a\x7f\xe7"
    "\x07\x50\x6a\x85\xfd\x9d\xd2\xf1\x20\xeb\x69\x4f\x86\x01\x1e\x5b\xb4\x66\x2e\x5c\x41\x5a\x62\x91\x70\x33\xd4\xa9\x62\x44\x87\xe7"
    "\xfa\xc5\x42\x03\xe7\xcc\x69\x6c\xf0\xdf\xcb\x42\xc9\x2a\x1d\x9d\xba\xf7\x0a\xd9\xe6\x21\xf4\xbd\x8d\x98\x66\x2f\x00\xe3\xc1\x25"
    "\x83\x7d\xbb\x15\x2e\x9b\x07\x90\x10\x71\x7e\x84\xe8\x65\xda\x4e\xbc\x0f\xa1\x98\xa8\x06\xd5\x9d\x31\xbf\x15\xac\xce\xf2\x2d\x0e";

static void logs(void) {
    uint8_t path[97], proof[129], other[128];
    memset(path, 0, sizeof path);
    memset(proof, 0, sizeof proof);
    memcpy(path, PROOF_7, 32);
    memcpy(path + 32, PROOF_7 + 64, 64);
    memcpy(proof, PROOF_7, 128);
    const uint8_t *entry = (const uint8_t *)"\x20\x21";
    CHECK(paxidore_log_verify_inclusion(ROOT_7, 7, 3, entry, 2, path, 96) == PAXIDORE_OK);
    CHECK(paxidore_log_verify_inclusion(ROOT_7, 7, 3, entry, 1, path, 96) == PAXIDORE_NOT_SHOWN);
    CHECK(paxidore_log_verify_inclusion(ROOT_7, 7, 2, entry, 2, path, 96) == PAXIDORE_NOT_SHOWN);
    CHECK(paxidore_log_verify_inclusion(ROOT_3, 7, 3, entry, 2, path, 96) == PAXIDORE_NOT_SHOWN);
    CHECK(paxidore_log_verify_inclusion(ROOT_7, 7, 6, entry, 2, path, 96) == PAXIDORE_E_INVALID);
    CHECK(paxidore_log_verify_inclusion(ROOT_7, 9, 3, entry, 2, path, 96) == PAXIDORE_E_TRUNCATED);
    CHECK(paxidore_log_verify_inclusion(ROOT_7, 7, 7, entry, 2, path, 96) == PAXIDORE_E_INDEX);
    CHECK(paxidore_log_verify_inclusion(ROOT_7, 0, 0, entry, 2, path, 96) == PAXIDORE_E_INDEX);
    CHECK(paxidore_log_verify_inclusion(ROOT_7, SIZE_MAX, SIZE_MAX - 1, entry, 2, path, 96) == PAXIDORE_E_TRUNCATED);
    for (size_t front = 0; front < 96; front++)
        CHECK(paxidore_log_verify_inclusion(ROOT_7, 7, 3, entry, 2, front ? path : NULL, front) == PAXIDORE_E_TRUNCATED);
    CHECK(paxidore_log_verify_inclusion(ROOT_7, 7, 3, entry, 2, path, 97) == PAXIDORE_E_INVALID);
    for (size_t bit = 0; bit < 8 * 96; bit++) {
        memcpy(other, path, 96);
        other[bit / 8] ^= (uint8_t)(1 << bit % 8);
        CHECK(paxidore_log_verify_inclusion(ROOT_7, 7, 3, entry, 2, other, 96) == PAXIDORE_NOT_SHOWN);
    }
    CHECK(paxidore_log_verify_consistency(ROOT_3, 3, ROOT_7, 7, proof, 128) == PAXIDORE_OK);
    CHECK(paxidore_log_verify_consistency(ROOT_7, 3, ROOT_7, 7, proof, 128) == PAXIDORE_NOT_SHOWN);
    CHECK(paxidore_log_verify_consistency(ROOT_3, 3, ROOT_3, 7, proof, 128) == PAXIDORE_NOT_SHOWN);
    CHECK(paxidore_log_verify_consistency(ROOT_3, 4, ROOT_7, 7, proof, 128) == PAXIDORE_E_INVALID);
    CHECK(paxidore_log_verify_consistency(ROOT_3, 3, ROOT_7, 9, proof, 128) == PAXIDORE_E_TRUNCATED);
    CHECK(paxidore_log_verify_consistency(ROOT_7, 7, ROOT_7, 7, NULL, 0) == PAXIDORE_OK);
    CHECK(paxidore_log_verify_consistency(ROOT_3, 7, ROOT_7, 7, NULL, 0) == PAXIDORE_NOT_SHOWN);
    CHECK(paxidore_log_verify_consistency(ROOT_7, 7, ROOT_7, 7, proof, 1) == PAXIDORE_E_INVALID);
    CHECK(paxidore_log_verify_consistency(ROOT_3, 0, ROOT_7, 7, proof, 128) == PAXIDORE_E_SIZE);
    CHECK(paxidore_log_verify_consistency(ROOT_3, 8, ROOT_7, 7, proof, 128) == PAXIDORE_E_SIZE);
    for (size_t front = 0; front < 128; front++)
        CHECK(paxidore_log_verify_consistency(ROOT_3, 3, ROOT_7, 7, front ? proof : NULL, front) == PAXIDORE_E_TRUNCATED);
    CHECK(paxidore_log_verify_consistency(ROOT_3, 3, ROOT_7, 7, proof, 129) == PAXIDORE_E_INVALID);
    for (size_t bit = 0; bit < 8 * 128; bit++) {
        memcpy(other, proof, 128);
        other[bit / 8] ^= (uint8_t)(1 << bit % 8);
        CHECK(paxidore_log_verify_consistency(ROOT_3, 3, ROOT_7, 7, other, 128) == PAXIDORE_NOT_SHOWN);
    }
}

static void blake2s(void) {
    static uint8_t text[1000];
    uint8_t once[32], pieces[32];
    paxidore_blake2s_state state, copy;
    for (size_t i = 0; i < sizeof text; i++)
        text[i] = (uint8_t)(i * 167 >> 3);
    /* RFC 7693, appendix B; no bytes by Python's hashlib */
    paxidore_blake2s(once, (const uint8_t *)"abc", 3);
    CHECK(is_hex(once, "508c5e8c327c14e2e1a72ba34eeb452f37458b209ed63a294d999b4c86675982"));
    paxidore_blake2s(once, NULL, 0);
    CHECK(is_hex(once, "69217a3079908094e11121d042354a7c1f55b6482ca1a51e1b250dfd1ed0eef9"));
    paxidore_blake2s_init(&state);
    for (size_t len = 0; len <= sizeof text; len += 37)
        for (size_t piece = 1; piece <= 200; piece += 33) {
            paxidore_blake2s(once, text, len);
            for (size_t at = 0; at < len; at += piece)
                paxidore_blake2s_update(&state, text + at, len - at < piece ? len - at : piece);
            paxidore_blake2s_update(&state, NULL, 0);
            copy = state;
            paxidore_blake2s_final(pieces, &state);
            CHECK(memcmp(once, pieces, 32) == 0);
            paxidore_blake2s_final(pieces, &copy);
            CHECK(memcmp(once, pieces, 32) == 0);
        }
    /* memory that no call made ready: any digest, and no harm */
    memset(&state, 0xff, sizeof state);
    paxidore_blake2s_update(&state, text, sizeof text);
    paxidore_blake2s_final(pieces, &state);
    paxidore_blake2s_final(pieces, &state);
    CHECK(is_hex(pieces, "69217a3079908094e11121d042354a7c1f55b6482ca1a51e1b250dfd1ed0eef9"));
}

static void digests(void) {
    uint8_t digest[32];
    /* FIPS 180-4's example; no bytes by Python's hashlib */
    paxidore_sha256(digest, (const uint8_t *)"abc", 3);
    CHECK(is_hex(digest, "ba7816bf8f01cfea414140de5dae2223b00361a396177a9cb410ff61f20015ad"));
    paxidore_sha256(digest, NULL, 0);
    CHECK(is_hex(digest, "e3b0c44298fc1c149afbf4c8996fb92427ae41e4649b934ca495991b7852b855"));
}

static void commitments(void) {
    uint8_t commitment[32], nonce[32], once[32];
    uint8_t both[35] = "abc";
    for (size_t i = 0; i < sizeof nonce; i++)
        both[3 + i] = nonce[i] = (uint8_t)i;
    const uint8_t *value = both;
    /* by Python's hashlib */
    paxidore_blake2s_commit(commitment, value, 0, nonce);
    CHECK(is_hex(commitment, "05825607d7fdf2d82ef4c3c8c2aea961ad98d60edff7d018983e21204c0d93d1"));
    CHECK(paxidore_blake2s_opens(commitment, NULL, 0, nonce) == PAXIDORE_OK);
    paxidore_blake2s_commit(commitment, NULL, 0, nonce);
    CHECK(is_hex(commitment, "05825607d7fdf2d82ef4c3c8c2aea961ad98d60edff7d018983e21204c0d93d1"));
    paxidore_blake2s_commit(commitment, value, 3, nonce);
    CHECK(is_hex(commitment, "e0f7bc605522dd045ccd1954b126f0900edac1411fe3a003d999438ba30b6434"));
    paxidore_blake2s(once, both, 35);
    CHECK(memcmp(commitment, once, 32) == 0);
    CHECK(paxidore_blake2s_opens(commitment, value, 3, nonce) == PAXIDORE_OK);
    CHECK(paxidore_blake2s_opens(commitment, value, 2, nonce) == PAXIDORE_NOT_SHOWN);
    CHECK(paxidore_blake2s_opens(commitment, value, 4, nonce) == PAXIDORE_NOT_SHOWN);
    CHECK(paxidore_blake2s_opens(commitment, value, 3, commitment) == PAXIDORE_NOT_SHOWN);
    for (size_t bit = 0; bit < 256; bit++) {
        uint8_t other[32];
        memcpy(other, commitment, 32);
        other[bit / 8] ^= (uint8_t)(1 << bit % 8);
        CHECK(paxidore_blake2s_opens(other, value, 3, nonce) == PAXIDORE_NOT_SHOWN);
        memcpy(other, nonce, 32);
        other[bit / 8] ^= (uint8_t)(1 << bit % 8);
        CHECK(paxidore_blake2s_opens(commitment, value, 3, other) == PAXIDORE_NOT_SHOWN);
    }
    /* inputs may be the same bytes */
    paxidore_blake2s_commit(once, nonce, 32, nonce);
    CHECK(paxidore_blake2s_opens(once, nonce, 32, nonce) == PAXIDORE_OK);
}

/* A number that names no hashing is refused before anything else is looked at. */
static void hashings(void) {
    uint8_t root[32], kept[32] = {7}, path[PATH], tree[32 * 15];
    const size_t indexes[1] = {0};
    size_t len = 7;
    memcpy(root, kept, 32);
    memset(path, 7, sizeof path);
    memset(tree, 7, sizeof tree);
    const uint32_t numbers[] = {0, 3, 1u << 31, UINT32_MAX};
    for (size_t i = 0; i < sizeof numbers / sizeof *numbers; i++) {
        uint32_t none = numbers[i];
        CHECK(paxidore_verify(none, root, SIZE, 0, LEAVES, 0, path, PATH) == PAXIDORE_E_INVALID);
        CHECK(paxidore_verify(none, root, 3, 9, LEAVES, 0, path, 1) == PAXIDORE_E_INVALID);
        CHECK(paxidore_multi_verify(none, root, SIZE, indexes, 1, LEAVES, 0, LENGTHS, 1, path, PATH) == PAXIDORE_E_INVALID);
        CHECK(paxidore_root(root, none, LEAVES, LEAVES_LEN, LENGTHS, SIZE) == PAXIDORE_E_INVALID);
        CHECK(paxidore_path(path, PATH, &len, none, LEAVES, LEAVES_LEN, LENGTHS, SIZE, 0) == PAXIDORE_E_INVALID);
        CHECK(paxidore_multi_path(path, PATH, &len, none, LEAVES, LEAVES_LEN, LENGTHS, SIZE, indexes, 1) == PAXIDORE_E_INVALID);
        CHECK(paxidore_tree_build(tree, 15, none, LEAVES, LEAVES_LEN, LENGTHS, SIZE) == PAXIDORE_E_INVALID);
        CHECK(paxidore_tree_rebuild(tree, 15, none) == PAXIDORE_E_INVALID);
        CHECK(paxidore_tree_set(tree, 15, none, 0, LEAVES, 1) == PAXIDORE_E_INVALID);
        CHECK(paxidore_tree_set_many(tree, 15, none, indexes, 1, LEAVES, 0, LENGTHS, 1) == PAXIDORE_E_INVALID);
        CHECK(paxidore_tree_check(none, tree, 15) == PAXIDORE_E_INVALID);
    }
    CHECK(memcmp(root, kept, 32) == 0);
    CHECK(len == 7 && path[0] == 7 && path[PATH - 1] == 7 && tree[0] == 7 && tree[sizeof tree - 1] == 7);
}

/* Transcripts over 2^64 - 2^32 + 1: two full rounds and a partial one of a state of two elements, fifth powers. The values were computed
 * in plain Python. */
static void transcripts(void) {
    static const uint64_t words[22] = {2, 1, 5, 3, 2, 5, 6, 2, 7, 8, 2, 9, 10, 2, 2, 1, 2, 2, 3, 4, 1, 1};
    static const uint64_t elements[2] = {11, 12};
    static const uint64_t squeezed[2] = {5518910787108351795u, 16081646306617943921u};
    static const uint8_t next[9] = {0xb3, 0x05, 0x99, 0x98, 0x39, 0x91, 0x76, 0x5a, 0x6e}, all_ones[8] = {255, 255, 255, 255, 255, 255, 255, 255};
    static uint8_t ready[4424];
    const uint8_t *parameters = (const uint8_t *)words;
    uint8_t state[25], out[16], bytes[9];
    size_t len = 7;
    CHECK(paxidore_transcript_init(state, 25, &len, 0, parameters, sizeof words) == PAXIDORE_E_INVALID);
    CHECK(paxidore_transcript_init(state, 25, &len, 4, parameters, sizeof words) == PAXIDORE_E_TRUNCATED);
    CHECK(paxidore_transcript_init(state, 24, &len, 1, parameters, sizeof words) == PAXIDORE_E_ROOM && len == 25);
    CHECK(paxidore_transcript_init(state, 25, &len, 1, parameters, sizeof words) == PAXIDORE_OK && len == 25);
    CHECK(paxidore_transcript_absorb(state, 25, 1, parameters, sizeof words, (const uint8_t *)elements, 16) == PAXIDORE_OK);
    CHECK(paxidore_transcript_absorb_bytes(state, 25, 1, parameters, sizeof words, (const uint8_t *)"a message", 9) == PAXIDORE_OK);
    CHECK(paxidore_transcript_absorb(state, 25, 1, parameters, sizeof words, all_ones, 7) == PAXIDORE_E_TRUNCATED);
    CHECK(paxidore_transcript_absorb(state, 25, 1, parameters, sizeof words, all_ones, 8) == PAXIDORE_E_INVALID);
    CHECK(paxidore_transcript_absorb(state, 24, 1, parameters, sizeof words, NULL, 0) == PAXIDORE_E_TRUNCATED);
    CHECK(paxidore_transcript_squeeze(out, 16, state, 25, 1, parameters, sizeof words) == PAXIDORE_OK);
    CHECK(memcmp(out, squeezed, 16) == 0);
    CHECK(paxidore_transcript_squeeze_bytes(bytes, 9, state, 25, 1, parameters, sizeof words) == PAXIDORE_OK);
    CHECK(memcmp(bytes, next, 9) == 0);
    CHECK(paxidore_transcript_ready_parameters(ready, sizeof ready, &len, 3, 2) == PAXIDORE_OK && len == sizeof ready);
    CHECK(paxidore_transcript_ready_parameters(ready, sizeof ready, &len, 4, 8) == PAXIDORE_E_ROOM);
    CHECK(paxidore_transcript_ready_parameters(ready, sizeof ready, &len, 4, 1) == PAXIDORE_E_COUNT);
    CHECK(paxidore_transcript_ready_parameters(ready, sizeof ready, &len, 3, 9) == PAXIDORE_E_COUNT);
    CHECK(paxidore_transcript_ready_parameters(ready, sizeof ready, &len, 1, 9) == PAXIDORE_E_INVALID);
    CHECK(paxidore_transcript_ready_parameters(ready, sizeof ready, &len, 1, 2) == PAXIDORE_E_INVALID);
}

/* Under prepared parameters each call answers as under the parameters, and what is damaged is refused. */
static void prepared_parameters(uint32_t field, size_t rate, const uint8_t modulus[32]) {
    static uint8_t given[24000], made[24000], damaged[24000];
    const uint32_t named = field + PAXIDORE_PREPARED;
    uint8_t state[2][PAXIDORE_TRANSCRIPTBYTES(8, 1, 32)], out[2][160], elements[96] = {3};
    size_t len, made_len = 7, state_len[2];
    CHECK(paxidore_transcript_ready_parameters(given, sizeof given, &len, field, rate) == PAXIDORE_OK);
    CHECK(paxidore_transcript_prepare(made, len - 1, &made_len, field, given, len) == PAXIDORE_E_ROOM && made_len == len);
    CHECK(paxidore_transcript_prepare(made, sizeof made, &made_len, field, given, len) == PAXIDORE_OK && made_len == len);
    CHECK(paxidore_transcript_prepare(damaged, sizeof damaged, &made_len, named, given, len) == PAXIDORE_E_INVALID);
    CHECK(paxidore_transcript_prepare(damaged, sizeof damaged, &made_len, field, given, len - 1) == PAXIDORE_E_TRUNCATED);
    CHECK(paxidore_transcript_prepare(damaged, sizeof damaged, &made_len, field, given, len + 1) == PAXIDORE_E_INVALID);
    CHECK(memcmp(made, given, 40) == 0 && memcmp(made + 40, given + 40, 32) != 0);
    for (int i = 0; i < 2; i++) {
        const uint8_t *parameters = i ? made : given;
        const uint32_t name = i ? named : field;
        CHECK(paxidore_transcript_init(state[i], sizeof state[i], &state_len[i], name, parameters, len) == PAXIDORE_OK);
        CHECK(paxidore_transcript_absorb(state[i], state_len[i], name, parameters, len, elements, 96) == PAXIDORE_OK);
        CHECK(paxidore_transcript_absorb_bytes(state[i], state_len[i], name, parameters, len, given, 100) == PAXIDORE_OK);
        CHECK(paxidore_transcript_squeeze(out[i], 96, state[i], state_len[i], name, parameters, len) == PAXIDORE_OK);
        CHECK(paxidore_transcript_squeeze_bytes(out[i] + 96, 64, state[i], state_len[i], name, parameters, len) == PAXIDORE_OK);
    }
    CHECK(state_len[0] == state_len[1] && memcmp(state[0], state[1], state_len[0]) == 0);
    CHECK(memcmp(out[0], out[1], sizeof out[0]) == 0);
    CHECK(paxidore_transcript_absorb(state[1], state_len[1], named, made, len - 1, elements, 32) == PAXIDORE_E_TRUNCATED);
    CHECK(paxidore_transcript_absorb(state[1], state_len[1], named, made, len + 1, elements, 32) == PAXIDORE_E_INVALID);
    memcpy(damaged, made, len);
    memcpy(damaged + 40, modulus, 32);
    CHECK(paxidore_transcript_absorb(state[1], state_len[1], named, damaged, len, elements, 32) == PAXIDORE_E_INVALID);
    damaged[40]--;
    CHECK(paxidore_transcript_absorb(state[1], state_len[1], named, damaged, len, elements, 32) == PAXIDORE_OK);
    memcpy(damaged, made, len);
    damaged[len - 16] = 0; /* a rate of 0 */
    CHECK(paxidore_transcript_init(state[1], sizeof state[1], &state_len[1], named, damaged, len) == PAXIDORE_E_INVALID);
}

int main(void) {
    static const uint8_t bls12_381_fr[32] = {0x01, 0x00, 0x00, 0x00, 0xff, 0xff, 0xff, 0xff, 0xfe, 0x5b, 0xfe, 0xff, 0x02, 0xa4, 0xbd, 0x53,
                                             0x05, 0xd8, 0xa1, 0x09, 0x08, 0xd8, 0x39, 0x33, 0x48, 0x7d, 0x9d, 0x29, 0x53, 0xa7, 0xed, 0x73};
    static const uint8_t bn254_fr[32] = {0x01, 0x00, 0x00, 0xf0, 0x93, 0xf5, 0xe1, 0x43, 0x91, 0x70, 0xb9, 0x79, 0x48, 0xe8, 0x33, 0x28,
                                         0x5d, 0x58, 0x81, 0x81, 0xb6, 0x45, 0x50, 0xb8, 0x29, 0xa0, 0x31, 0xe1, 0x72, 0x4e, 0x64, 0x30};
    const struct hashing *all[2] = {&sha256, &rfc6962};
    for (int i = 0; i < 2; i++) {
        roots(all[i]);
        paths(all[i]);
        multi_paths(all[i]);
    }
    logs();
    digests();
    blake2s();
    commitments();
    hashings();
    transcripts();
    prepared_parameters(PAXIDORE_BLS12_381_FR, 2, bls12_381_fr);
    prepared_parameters(PAXIDORE_BN254_FR, 8, bn254_fr);
    CHECK(strcmp(paxidore_version(), PAXIDORE_VERSION_STRING) == 0);
    char version[32];
    snprintf(version, sizeof version, "%d.%d.%d", PAXIDORE_VERSION_MAJOR, PAXIDORE_VERSION_MINOR, PAXIDORE_VERSION_PATCH);
    CHECK(strcmp(version, PAXIDORE_VERSION_STRING) == 0);
    /* the build that has to run, where the test of the bindings names one */
    const char *build = getenv("PAXIDORE_BUILD");
    CHECK(build ? strcmp(paxidore_cpu(), build) == 0 : paxidore_cpu() != NULL);
    for (int32_t answer = -20; answer <= 2; answer++)
        CHECK((strcmp(paxidore_strerror(answer), "unknown answer") == 0) == (answer < -19 || answer > 1));
    printf("%d passed, %d failed\n", passed, failed);
    return failed != 0;
}
