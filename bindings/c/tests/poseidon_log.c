/* Logs over circomlib's hash from C, against a model that hashes each pair by paxidore_poseidon. It prints how many checks passed, and
 * ends with 1 where one failed. */
#include "paxidore_leanimt.h"

#include <stdio.h>
#include <stdlib.h>
#include <string.h>

static int passed, failed;

static void check(int holds, const char *what, int line) {
    if (holds) {
        passed++;
    } else {
        failed++;
        fprintf(stderr, "poseidon_log.c:%d: %s\n", line, what);
    }
}
#define CHECK(holds) check((holds) != 0, #holds, __LINE__)

enum { MOST = 70 };

static uint8_t table[PAXIDORE_POSEIDON_TABLEBYTES(2)], three[PAXIDORE_POSEIDON_TABLEBYTES(3)];
static size_t table_len, three_len;
static uint8_t elements[MOST][32];

/* The modulus, the least byte first. */
static const uint8_t MODULUS[32] = {0x01, 0x00, 0x00, 0xf0, 0x93, 0xf5, 0xe1, 0x43, 0x91, 0x70, 0xb9, 0x79, 0x48, 0xe8, 0x33, 0x28,
                                    0x5d, 0x58, 0x81, 0x81, 0xb6, 0x45, 0x50, 0xb8, 0x29, 0xa0, 0x31, 0xe1, 0x72, 0x4e, 0x64, 0x30};

/* The root of some elements, and the path of an index, which has as many digests as are returned. */
static size_t model(size_t count, size_t index, uint8_t root[32], uint8_t path[][32]) {
    uint8_t row[MOST][32];
    size_t digests = 0;
    memcpy(row, elements, 32 * count);
    for (; count > 1; count = (count + 1) / 2, index /= 2) {
        if ((index ^ 1) < count)
            memcpy(path[digests++], row[index ^ 1], 32);
        for (size_t i = 0; i < count; i += 2) {
            if (i + 1 < count)
                CHECK(paxidore_poseidon(row[i / 2], PAXIDORE_LITTLE_ENDIAN, table, table_len, row[i], 64) == PAXIDORE_OK);
            else
                memmove(row[i / 2], row[i], 32);
        }
    }
    memcpy(root, row[0], 32);
    return digests;
}

static void lists(void) {
    for (size_t count = 1; count < MOST; count++) {
        uint8_t root[32], expected[32], path[7 * 32], beside[7][32];
        CHECK(paxidore_poseidon_root(root, table, table_len, elements[0], count) == PAXIDORE_OK);
        for (size_t index = 0; index < count; index += count < 10 ? 1 : 7) {
            size_t len = 0, digests = model(count, index, expected, beside);
            CHECK(memcmp(root, expected, 32) == 0);
            CHECK(paxidore_poseidon_path(path, sizeof path, &len, table, table_len, elements[0], count, index) == PAXIDORE_OK);
            CHECK(len == 32 * digests && memcmp(path, beside, len) == 0);
            CHECK(paxidore_poseidon_verify(table, table_len, root, count, index, elements[index], path, len) == PAXIDORE_OK);
            CHECK(paxidore_poseidon_verify(table, table_len, root, count, index, elements[index + 1], path, len) == PAXIDORE_NOT_SHOWN);
            if (len > 0) {
                CHECK(paxidore_poseidon_verify(table, table_len, root, count, index, elements[index], path, len - 1) ==
                      PAXIDORE_E_TRUNCATED);
                path[0] ^= 1;
                CHECK(paxidore_poseidon_verify(table, table_len, root, count, index, elements[index], path, len) == PAXIDORE_NOT_SHOWN);
                path[0] ^= 1;
                int beside_answer = paxidore_poseidon_verify(table, table_len, root, count, index ^ 1, elements[index], path, len);
                CHECK(beside_answer != PAXIDORE_OK);
            }
        }
    }
}

/* A log that grows by so many elements at a time has each root and each path of the lists. */
static void kept(size_t step) {
    static uint8_t stored[2 * MOST][32];
    size_t size = 0, stored_len = 0;
    while (size < MOST - 1) {
        size_t count = size + step < MOST ? step : MOST - 1 - size, more_len = 7, room = paxidore_log_kept(size + count) - stored_len;
        uint8_t before[32];
        memcpy(before, stored[stored_len], 32);
        if (room > 0) {
            CHECK(paxidore_poseidon_log_append(stored[stored_len], room - 1, &more_len, table, table_len, stored[0], stored_len, size,
                                               elements[size], count) == PAXIDORE_E_ROOM);
            CHECK(more_len == room && memcmp(before, stored[stored_len], 32) == 0);
        }
        CHECK(paxidore_poseidon_log_append(stored[stored_len], room, &more_len, table, table_len, stored[0], stored_len, size,
                                           elements[size], count) == PAXIDORE_OK);
        CHECK(more_len == room);
        stored_len += more_len, size += count;
        for (size_t old = 1; old <= size; old += 1 + size / 5) {
            uint8_t root[32], expected[32], path[PAXIDORE_LOG_PATHBYTES_MAX], beside[7][32];
            size_t len, index = (7 * old) % old;
            size_t digests = model(old, index, expected, beside);
            CHECK(paxidore_poseidon_log_root(root, table, table_len, stored[0], stored_len, old) == PAXIDORE_OK);
            CHECK(memcmp(root, expected, 32) == 0);
            CHECK(paxidore_poseidon_log_inclusion(path, sizeof path, &len, table, table_len, stored[0], stored_len, old, index) ==
                  PAXIDORE_OK);
            CHECK(len == 32 * digests && memcmp(path, beside, len) == 0);
        }
    }
}

/* Elements that are changed, each in a log of each size: roots and paths are those of the changed list, and what stands behind stays. */
static void changed(void) {
    static uint8_t stored[2 * MOST][32], again[2 * MOST][32];
    size_t size = 0, stored_len = 0;
    for (uint32_t drawn = 1; size < MOST - 2;) {
        size_t more_len, index;
        CHECK(paxidore_poseidon_log_append(stored[stored_len], 2 * MOST - stored_len, &more_len, table, table_len, stored[0], stored_len, size,
                                           elements[size], 1) == PAXIDORE_OK);
        stored_len += more_len, size++;
        memset(stored[stored_len], 0xee, 32);
        for (int times = 0; times < 3; times++) {
            uint8_t root[32], expected[32], path[PAXIDORE_LOG_PATHBYTES_MAX], beside[7][32];
            size_t len, old;
            drawn = 1664525 * drawn + 1013904223;
            index = (drawn >> 8) % size, old = 1 + (drawn >> 20) % size;
            if (times == 0)
                memset(elements[index], 0, 32); /* a member leaves */
            else
                elements[index][times] ^= (uint8_t)(drawn >> 24);
            CHECK(paxidore_poseidon_log_set(stored[0], stored_len + times % 2, table, table_len, size, index, elements[index]) == PAXIDORE_OK);
            CHECK(stored[stored_len][0] == 0xee && stored[stored_len][31] == 0xee);
            CHECK(paxidore_poseidon_log_append(again[0], 2 * MOST, &len, table, table_len, NULL, 0, 0, elements[0], size) == PAXIDORE_OK);
            CHECK(len == stored_len && memcmp(again, stored, 32 * len) == 0);
            model(size, index, expected, beside);
            CHECK(paxidore_poseidon_log_root(root, table, table_len, stored[0], stored_len, size) == PAXIDORE_OK);
            CHECK(memcmp(root, expected, 32) == 0);
            size_t digests = model(old, index % old, expected, beside);
            CHECK(paxidore_poseidon_log_root(root, table, table_len, stored[0], stored_len, old) == PAXIDORE_OK);
            CHECK(memcmp(root, expected, 32) == 0);
            CHECK(paxidore_poseidon_log_inclusion(path, sizeof path, &len, table, table_len, stored[0], stored_len, old, index % old) ==
                  PAXIDORE_OK);
            CHECK(len == 32 * digests && memcmp(path, beside, len) == 0);
        }
    }
    /* what is refused leaves the memory */
    uint8_t far[32], copy[2 * MOST][32];
    memset(far, 0xff, 32), memcpy(copy, stored, sizeof copy);
#define LEAVES(call, code) CHECK((call) == (code) && memcmp(copy, stored, sizeof copy) == 0)
    LEAVES(paxidore_poseidon_log_set(stored[0], stored_len, table, table_len, size, size, elements[0]), PAXIDORE_E_INDEX);
    LEAVES(paxidore_poseidon_log_set(stored[0], stored_len, table, table_len, size, SIZE_MAX, elements[0]), PAXIDORE_E_INDEX);
    LEAVES(paxidore_poseidon_log_set(stored[0], stored_len, table, table_len, size, (size_t)1 << 63, elements[0]), PAXIDORE_E_INDEX);
    LEAVES(paxidore_poseidon_log_set(stored[0], stored_len, table, table_len, size, size, MODULUS), PAXIDORE_E_INDEX);
    LEAVES(paxidore_poseidon_log_set(stored[0], stored_len, table, table_len, size, size - 1, MODULUS), PAXIDORE_E_INVALID);
    LEAVES(paxidore_poseidon_log_set(stored[0], stored_len, table, table_len, size, 0, far), PAXIDORE_E_INVALID);
    LEAVES(paxidore_poseidon_log_set(stored[0], stored_len - 1, table, table_len, size, 0, elements[0]), PAXIDORE_E_SIZE);
    LEAVES(paxidore_poseidon_log_set(NULL, 0, table, table_len, 1, 0, elements[0]), PAXIDORE_E_SIZE);
    LEAVES(paxidore_poseidon_log_set(NULL, 0, table, table_len, 0, 0, elements[0]), PAXIDORE_E_INDEX);
    LEAVES(paxidore_poseidon_log_set(stored[0], stored_len, table, table_len, (size_t)1 << 63, 0, elements[0]), PAXIDORE_E_SIZE);
    LEAVES(paxidore_poseidon_log_set(stored[0], stored_len, table, table_len, SIZE_MAX, 0, elements[0]), PAXIDORE_E_SIZE);
    LEAVES(paxidore_poseidon_log_set(stored[0], stored_len, three, three_len, size, 0, elements[0]), PAXIDORE_E_COUNT);
    LEAVES(paxidore_poseidon_log_set(stored[0], stored_len, table, table_len - 1, size, 0, elements[0]), PAXIDORE_E_TRUNCATED);
    LEAVES(paxidore_poseidon_log_set(stored[0], stored_len, NULL, 0, size, 0, elements[0]), PAXIDORE_E_TRUNCATED);
    /* a stored digest that is hashed and is no element: high up, so that others would have been written before it */
    memcpy(stored[125], MODULUS, 32), memcpy(copy, stored, sizeof copy);
    LEAVES(paxidore_poseidon_log_set(stored[0], stored_len, table, table_len, size, 3, elements[5]), PAXIDORE_E_INVALID);
    LEAVES(paxidore_poseidon_log_set(stored[0], stored_len, table, table_len, size, 63, MODULUS), PAXIDORE_E_INVALID);
    CHECK(paxidore_poseidon_log_set(stored[0], stored_len, table, table_len, size, 63, elements[5]) == PAXIDORE_OK);
}

/* Elements behind a log of each size, for whoever has its root: the new root is that of the model's longer list. */
static void inserted(void) {
    static uint8_t stored[2 * MOST][32];
    size_t stored_len = 0, len;
    CHECK(paxidore_poseidon_log_append(stored[0], 2 * MOST, &stored_len, table, table_len, NULL, 0, 0, elements[0], MOST - 1) == PAXIDORE_OK);
    for (size_t size = 1; size < MOST - 1; size++) {
        uint8_t root[32], expected[32], new_root[32], proof[PAXIDORE_LOG_PATHBYTES_MAX], beside[7][32];
        size_t ones = 0, at = 0;
        for (size_t left = size; left > 0; left /= 2)
            ones += left % 2;
        len = 7;
        CHECK(paxidore_poseidon_log_insertion(proof, 32 * ones - 1, &len, stored[0], stored_len, size) == PAXIDORE_E_ROOM && len == 32 * ones);
        CHECK(paxidore_poseidon_log_insertion(proof, sizeof proof, &len, stored[0], stored_len, size) == PAXIDORE_OK && len == 32 * ones);
        /* by the rule: each complete tree is a list of its own */
        for (size_t tree = (size_t)1 << 6, digest = 0; tree > 0; tree /= 2) {
            if (size & tree) {
                uint8_t kept_elements[MOST][32];
                memcpy(kept_elements, elements, sizeof elements);
                memmove(elements[0], kept_elements[at], 32 * tree);
                model(tree, 0, expected, beside);
                memcpy(elements, kept_elements, sizeof elements);
                CHECK(memcmp(proof + 32 * digest++, expected, 32) == 0);
                at += tree;
            }
        }
        model(size, 0, root, beside);
        for (size_t count = 0; size + count < MOST; count += 1 + count / 2) {
            model(size + count, 0, expected, beside);
            memset(new_root, 0xaa, 32);
            CHECK(paxidore_poseidon_log_verify_insertion(new_root, table, table_len, root, size, elements[size], count, proof, len) ==
                  PAXIDORE_OK);
            CHECK(memcmp(new_root, expected, 32) == 0);
            if (count == 0)
                continue;
            /* another proof, and another root */
            memset(new_root, 0xaa, 32);
            proof[32 * (count % ones) + count % 31] ^= 1;
            CHECK(paxidore_poseidon_log_verify_insertion(new_root, table, table_len, root, size, elements[size], count, proof, len) ==
                  PAXIDORE_NOT_SHOWN);
            proof[32 * (count % ones) + count % 31] ^= 1;
            CHECK(paxidore_poseidon_log_verify_insertion(new_root, table, table_len, expected, size, elements[size], count, proof, len) ==
                  PAXIDORE_NOT_SHOWN);
            CHECK(new_root[0] == 0xaa && new_root[31] == 0xaa);
        }
        CHECK(paxidore_poseidon_log_verify_insertion(new_root, table, table_len, root, size, elements[0], 2, proof, len - 1) ==
              PAXIDORE_E_TRUNCATED);
    }
    /* what is refused leaves the root */
    uint8_t new_root[32], root[32], proof[3 * 32 + 1], far[2][32];
    const size_t most = (size_t)1 << 63;
    memset(new_root, 0xaa, 32), memset(far, 0, sizeof far), memcpy(far[1], MODULUS, 32);
    CHECK(paxidore_poseidon_log_root(root, table, table_len, stored[0], stored_len, 7) == PAXIDORE_OK);
    CHECK(paxidore_poseidon_log_insertion(proof, sizeof proof, &len, stored[0], stored_len, 7) == PAXIDORE_OK && len == 96);
#define STAYS(call, code) CHECK((call) == (code) && new_root[0] == 0xaa && new_root[31] == 0xaa)
    STAYS(paxidore_poseidon_log_verify_insertion(new_root, three, three_len, root, 0, far[0], 2, proof, 95), PAXIDORE_E_COUNT);
    STAYS(paxidore_poseidon_log_verify_insertion(new_root, table, table_len - 1, root, 7, far[0], 1, proof, 96), PAXIDORE_E_TRUNCATED);
    STAYS(paxidore_poseidon_log_verify_insertion(new_root, table, table_len, root, 0, far[0], 2, NULL, 0), PAXIDORE_E_SIZE);
    STAYS(paxidore_poseidon_log_verify_insertion(new_root, table, table_len, root, most - 2, far[0], 2, proof, 96), PAXIDORE_E_SIZE);
    STAYS(paxidore_poseidon_log_verify_insertion(new_root, table, table_len, root, SIZE_MAX, far[0], 2, proof, 96), PAXIDORE_E_SIZE);
    STAYS(paxidore_poseidon_log_verify_insertion(new_root, table, table_len, root, 7, far[0], 2, proof, 95), PAXIDORE_E_INVALID);
    STAYS(paxidore_poseidon_log_verify_insertion(new_root, table, table_len, root, 7, far[0], 1, proof, 97), PAXIDORE_E_INVALID);
    STAYS(paxidore_poseidon_log_verify_insertion(new_root, table, table_len, root, 7, far[0], 1, NULL, 0), PAXIDORE_E_TRUNCATED);
    STAYS(paxidore_poseidon_log_verify_insertion(new_root, table, table_len, root, most - 3, far[0], 1, proof, 96), PAXIDORE_E_TRUNCATED);
    memcpy(proof + 32, MODULUS, 32);
    STAYS(paxidore_poseidon_log_verify_insertion(new_root, table, table_len, root, 7, far[0], 1, proof, 96), PAXIDORE_E_INVALID);
    len = 7, memset(proof, 0xbb, sizeof proof);
#define EMPTY(call) CHECK((call) == PAXIDORE_E_SIZE && len == 7 && proof[0] == 0xbb)
    EMPTY(paxidore_poseidon_log_insertion(proof, sizeof proof, &len, stored[0], stored_len, 0));
    EMPTY(paxidore_poseidon_log_insertion(proof, sizeof proof, &len, NULL, 0, 1));
    EMPTY(paxidore_poseidon_log_insertion(proof, sizeof proof, &len, stored[0], stored_len - 1, MOST - 1));
    EMPTY(paxidore_poseidon_log_insertion(proof, sizeof proof, &len, stored[0], stored_len, most));
    EMPTY(paxidore_poseidon_log_insertion(proof, sizeof proof, &len, stored[0], stored_len, SIZE_MAX));
}

static void refusals(void) {
    uint8_t root[32], same[32], bad[3][32], path[64], stored[8][32], more[8][32];
    size_t len = 7;
    memset(root, 0xaa, 32), memset(same, 0xaa, 32), memset(path, 0xbb, sizeof path), memset(more, 0xcc, sizeof more);
    memcpy(bad, elements, sizeof bad);
    memcpy(bad[1], MODULUS, 32);
#define KEEPS(call, code) CHECK((call) == (code) && memcmp(root, same, 32) == 0 && len == 7 && path[0] == 0xbb && more[0][0] == 0xcc)
    KEEPS(paxidore_poseidon_root(root, three, three_len, elements[0], 3), PAXIDORE_E_COUNT);
    KEEPS(paxidore_poseidon_root(root, table, table_len, elements[0], 0), PAXIDORE_E_SIZE);
    KEEPS(paxidore_poseidon_root(root, table, table_len, NULL, 0), PAXIDORE_E_SIZE);
    KEEPS(paxidore_poseidon_root(root, table, table_len, bad[0], 3), PAXIDORE_E_INVALID);
    KEEPS(paxidore_poseidon_root(root, table, table_len, bad[1], 1), PAXIDORE_E_INVALID);
    KEEPS(paxidore_poseidon_root(root, table, table_len - 1, elements[0], 3), PAXIDORE_E_TRUNCATED);
    KEEPS(paxidore_poseidon_root(root, NULL, 0, elements[0], 3), PAXIDORE_E_TRUNCATED);
    KEEPS(paxidore_poseidon_path(path, 64, &len, three, three_len, elements[0], 3, 0), PAXIDORE_E_COUNT);
    KEEPS(paxidore_poseidon_path(path, 64, &len, table, table_len, elements[0], 0, 0), PAXIDORE_E_SIZE);
    KEEPS(paxidore_poseidon_path(path, 64, &len, table, table_len, bad[0], 3, 3), PAXIDORE_E_INVALID);
    KEEPS(paxidore_poseidon_path(path, 64, &len, table, table_len, elements[0], 3, 3), PAXIDORE_E_INDEX);
    KEEPS(paxidore_poseidon_path(path, 64, &len, table, table_len, elements[0], 3, SIZE_MAX), PAXIDORE_E_INDEX);
    CHECK(paxidore_poseidon_path(path, 63, &len, table, table_len, elements[0], 3, 0) == PAXIDORE_E_ROOM && len == 64 && path[0] == 0xbb);
    CHECK(paxidore_poseidon_root(root, table, table_len, elements[0], 3) == PAXIDORE_OK);
    CHECK(paxidore_poseidon_path(path, 64, &len, table, table_len, elements[0], 3, 0) == PAXIDORE_OK && len == 64);
#define VERIFY(given, size, index, element, bytes) paxidore_poseidon_verify(given, given##_len, root, size, index, element, path, bytes)
    CHECK(VERIFY(table, 3, 0, elements[0], 64) == PAXIDORE_OK);
    CHECK(VERIFY(three, 3, 0, elements[0], 64) == PAXIDORE_E_COUNT);
    CHECK(VERIFY(table, 3, 3, elements[0], 64) == PAXIDORE_E_INDEX);
    CHECK(VERIFY(table, 0, 0, elements[0], 0) == PAXIDORE_E_SIZE);
    CHECK(VERIFY(table, 4, 0, elements[0], 64) == PAXIDORE_OK); /* the path of a tree of four has as many digests */
    CHECK(VERIFY(table, 5, 0, elements[0], 64) == PAXIDORE_E_TRUNCATED);
    CHECK(VERIFY(table, 2, 0, elements[0], 64) == PAXIDORE_E_INVALID);
    CHECK(VERIFY(table, 1, 0, MODULUS, 0) == PAXIDORE_E_INVALID);
    CHECK(VERIFY(table, 3, 0, MODULUS, 64) == PAXIDORE_E_INVALID);
    memcpy(path + 32, MODULUS, 32);
    CHECK(VERIFY(table, 3, 0, elements[0], 64) == PAXIDORE_E_INVALID);
    CHECK(paxidore_poseidon_verify(table, table_len, elements[5], 1, 0, elements[5], NULL, 0) == PAXIDORE_OK);

    CHECK(paxidore_poseidon_log_append(stored[0], 8, &len, table, table_len, NULL, 0, 0, elements[0], 3) == PAXIDORE_OK && len == 4);
    memset(root, 0xaa, 32), memset(path, 0xbb, sizeof path), len = 7;
    KEEPS(paxidore_poseidon_log_append(more[0], 8, &len, three, three_len, stored[0], 4, 3, elements[3], 1), PAXIDORE_E_COUNT);
    KEEPS(paxidore_poseidon_log_append(more[0], 8, &len, table, table_len, stored[0], 3, 3, elements[3], 1), PAXIDORE_E_SIZE);
    KEEPS(paxidore_poseidon_log_append(more[0], 8, &len, table, table_len, stored[0], 4, 3, bad[1], 1), PAXIDORE_E_INVALID);
    KEEPS(paxidore_poseidon_log_root(root, three, three_len, stored[0], 4, 3), PAXIDORE_E_COUNT);
    KEEPS(paxidore_poseidon_log_root(root, table, table_len, stored[0], 4, 4), PAXIDORE_E_SIZE);
    KEEPS(paxidore_poseidon_log_root(root, table, table_len, stored[0], 4, 0), PAXIDORE_E_SIZE);
    KEEPS(paxidore_poseidon_log_root(root, table, table_len, stored[0], 4, SIZE_MAX), PAXIDORE_E_SIZE);
    KEEPS(paxidore_poseidon_log_inclusion(path, 64, &len, table, table_len, stored[0], 4, 3, 3), PAXIDORE_E_INDEX);
    KEEPS(paxidore_poseidon_log_inclusion(path, 64, &len, table, table_len, stored[0], 4, 5, 0), PAXIDORE_E_SIZE);
    KEEPS(paxidore_poseidon_log_inclusion(path, 64, &len, table, table_len, stored[0], 4, 0, 0), PAXIDORE_E_SIZE);
    memcpy(stored[3], MODULUS, 32);
    KEEPS(paxidore_poseidon_log_root(root, table, table_len, stored[0], 4, 3), PAXIDORE_E_INVALID);
    KEEPS(paxidore_poseidon_log_append(more[0], 8, &len, table, table_len, stored[0], 4, 3, elements[3], 1), PAXIDORE_E_INVALID);
}

int main(void) {
    CHECK(paxidore_poseidon_table(table, sizeof table, &table_len, 2) == PAXIDORE_OK);
    CHECK(paxidore_poseidon_table(three, sizeof three, &three_len, 3) == PAXIDORE_OK);
    for (size_t i = 0; i < MOST; i++) {
        paxidore_sha256(elements[i], (const uint8_t *)&i, sizeof i);
        elements[i][31] &= 0x1f;
    }
    lists();
    for (size_t step = 1; step < 40; step += 6)
        kept(step);
    refusals();
    inserted();
    changed();
    printf("%d passed, %d failed\n", passed, failed);
    return failed != 0;
}
