/* Maps: a keeper whose rows lie in an array, beside the definition; the refusals in their order; damaged trees and proofs, as many as
 * the argument says. It prints how many checks passed, and ends with 1 where one failed. */
#include "paxidore.h"

#include <stdio.h>
#include <stdlib.h>
#include <string.h>

enum { KEYS = 48, ROWS = 4096, TREE = 1 << 16, ROOM = 1 << 17 };

static size_t passed, failed;
static uint64_t state = 6962;

#define CHECK(holds) ((holds) ? (void)passed++ : (void)(failed++, printf("FAILED: line %d: %s\n", __LINE__, #holds)))

static uint64_t drawn(void) {
    state ^= state << 13;
    state ^= state >> 7;
    state ^= state << 17;
    return state * 0x2545f4914f6cdd1d;
}

static size_t below(size_t bound) { return (size_t)(drawn() >> 16) % bound; }

struct entry {
    uint8_t key[32], value[32];
};

static struct entry entries[KEYS];
static size_t count;
static uint8_t rows[ROWS][PAXIDORE_MAP_ROWBYTES], nothing[32], root[32];
static size_t rows_count;

static int bit(const uint8_t *key, size_t level) { return key[level / 8] >> (7 - level % 8) & 1; }

/* Two in three keys are near another one. */
static void near(uint8_t key[32], size_t number) {
    uint8_t first = (uint8_t)(number - number % 3);
    paxidore_sha256(key, &first, 1);
    if (number % 3 != 0)
        key[3 + number % 5] ^= (uint8_t)(1 << number % 8);
}

/* The digest of entries below a place, as the definition has it. */
static void digest_of(uint8_t digest[32], const struct entry **some, size_t some_count, size_t level) {
    uint8_t node[65];
    if (some_count == 0) {
        paxidore_sha256(digest, NULL, 0);
        return;
    }
    if (some_count == 1) {
        node[0] = 0;
        memcpy(node + 1, some[0]->key, 32);
        memcpy(node + 33, some[0]->value, 32);
    } else {
        const struct entry *sides[2][KEYS];
        size_t counts[2] = {0, 0};
        for (size_t i = 0; i < some_count; i++) {
            int side = bit(some[i]->key, level);
            sides[side][counts[side]++] = some[i];
        }
        node[0] = 1;
        digest_of(node + 1, sides[0], counts[0], level + 1);
        digest_of(node + 33, sides[1], counts[1], level + 1);
    }
    paxidore_sha256(digest, node, 65);
}

static void model_root(uint8_t digest[32]) {
    const struct entry *all[KEYS];
    for (size_t i = 0; i < count; i++)
        all[i] = &entries[i];
    digest_of(digest, all, count, 0);
}

static struct entry *entry_at(const uint8_t key[32]) {
    for (size_t i = 0; i < count; i++)
        if (memcmp(entries[i].key, key, 32) == 0)
            return &entries[i];
    return NULL;
}

static const uint8_t *row_of(const uint8_t digest[32]) {
    for (size_t i = 0; i < rows_count; i++)
        if (memcmp(rows[i], digest, 32) == 0)
            return rows[i];
    return NULL;
}

/* Whether a digest is that of an entry. */
static int is_entry(const uint8_t *digest) {
    const uint8_t *row = row_of(digest);
    return row != NULL && row[32] == 0;
}

/* The tree that shows the way of a key, and the top of what stands alone where an entry at its end is removed. */
static size_t tree_for(uint8_t *tree, const uint8_t digest[32], size_t level, const uint8_t *key, int is_shown) {
    if (memcmp(digest, nothing, 32) == 0) {
        tree[0] = 2;
        return 1;
    }
    const uint8_t *row = row_of(digest);
    if (row == NULL || !is_shown) {
        tree[0] = 3;
        memcpy(tree + 1, digest, 32);
        return 33;
    }
    if (row[32] == 0) {
        memcpy(tree, row + 32, 65);
        return 65;
    }
    size_t len = 1;
    tree[0] = row[32];
    for (int side = 0; side < 2; side++) {
        int is_way = key != NULL && bit(key, level) == side;
        int is_alone = key != NULL && is_entry(row + 33 + 32 * !side);
        len += tree_for(tree + len, row + 33 + 32 * side, level + 1, is_way ? key : NULL, is_way || is_alone);
    }
    return len;
}

static uint8_t tree[TREE], made[ROOM], new_root[32], proof[PAXIDORE_MAP_PROOFBYTES_MAX];
static size_t tree_len, made_len, proof_len;

/* A node is kept once. */
static void keep(void) {
    for (size_t at = 0; at < made_len; at += PAXIDORE_MAP_ROWBYTES)
        if (row_of(made + at) == NULL)
            memcpy(rows[rows_count++ % ROWS], made + at, PAXIDORE_MAP_ROWBYTES);
}

static void changes(size_t turns) {
    for (size_t turn = 0; turn < turns; turn++) {
        uint8_t key[32], value[32], wanted[32];
        near(key, below(KEYS));
        near(value, 200 + below(50));
        int is_put = below(5) < 3;
        struct entry *own = entry_at(key);
        tree_len = tree_for(tree, root, 0, key, 1);
        CHECK(paxidore_map_change(new_root, made, sizeof made, &made_len, root, tree, tree_len, key, 1, value, is_put) == PAXIDORE_OK);
        if (is_put) {
            if (own == NULL)
                own = &entries[count++];
            memcpy(own->key, key, 32);
            memcpy(own->value, value, 32);
        } else if (own != NULL) {
            *own = entries[--count];
        }
        keep();
        memcpy(root, new_root, 32);
        model_root(wanted);
        CHECK(memcmp(root, wanted, 32) == 0);
        near(key, below(KEYS + 12));
        own = entry_at(key);
        tree_len = tree_for(tree, root, 0, key, 1);
        CHECK(paxidore_map_prove(proof, sizeof proof, &proof_len, tree, tree_len, key) == PAXIDORE_OK);
        CHECK(paxidore_map_verify(root, key, own == NULL ? value : own->value, proof, proof_len) ==
              (own == NULL ? PAXIDORE_NOT_SHOWN : PAXIDORE_OK));
        CHECK(paxidore_map_verify_absent(root, key, proof, proof_len) == (own == NULL ? PAXIDORE_OK : PAXIDORE_NOT_SHOWN));
        CHECK(paxidore_map_root(wanted, tree, tree_len) == PAXIDORE_OK && memcmp(wanted, root, 32) == 0);
        if (rows_count > ROWS - 400) {
            /* begin anew, from the entries that there are */
            rows_count = 0;
            memcpy(root, nothing, 32);
            for (size_t i = 0; i < count; i++) {
                tree_len = tree_for(tree, root, 0, entries[i].key, 1);
                CHECK(paxidore_map_change(root, made, sizeof made, &made_len, root, tree, tree_len, entries[i].key, 1, entries[i].value, 1) ==
                      PAXIDORE_OK);
                keep();
            }
        }
    }
}

/* Whether a refused change leaves what it was given. */
static int refuses(int32_t wanted, size_t room, const uint8_t *of, const uint8_t *bytes, size_t len, const uint8_t *keys, size_t keys_count,
                   size_t values_count) {
    static const uint8_t values[64] = {7};
    uint8_t before[32];
    memset(new_root, 0x5a, 32);
    memset(before, 0x5a, 32);
    memset(made, 0xa5, ROOM);
    made_len = 77;
    int32_t answer = paxidore_map_change(new_root, made, room, &made_len, of, bytes, len, keys, keys_count, values, values_count);
    int is_kept = memcmp(new_root, before, 32) == 0 && (wanted == PAXIDORE_E_ROOM || made_len == 77);
    for (size_t i = 0; i < ROOM; i++)
        is_kept = is_kept && made[i] == 0xa5;
    return answer == wanted && is_kept;
}

static void refusals(void) {
    uint8_t keys[64], hidden[33] = {3}, out_of_place[65] = {0};
    near(keys, 3);
    near(keys + 32, 4);
    tree_len = tree_for(tree, root, 0, keys, 1);
    CHECK(refuses(PAXIDORE_E_COUNT, ROOM, root, tree, 0, keys, 1, 2));
    CHECK(refuses(PAXIDORE_E_TRUNCATED, ROOM, root, NULL, 0, keys, 1, 1));
    CHECK(refuses(PAXIDORE_E_TRUNCATED, ROOM, root, tree, tree_len - 1, keys, 1, 1));
    tree[tree_len] = 0;
    CHECK(refuses(PAXIDORE_E_INVALID, ROOM, root, tree, tree_len + 1, keys, 1, 1));
    tree[tree_len] = 9;
    CHECK(refuses(PAXIDORE_E_INVALID, ROOM, root, tree + tree_len, 1, keys, 1, 1));
    CHECK(refuses(PAXIDORE_NOT_SHOWN, ROOM, nothing, tree, tree_len, keys, 1, 1));
    memcpy(hidden + 1, root, 32);
    CHECK(refuses(PAXIDORE_E_HIDDEN, ROOM, root, hidden, 33, keys, 1, 1));
    CHECK(refuses(PAXIDORE_E_HIDDEN, ROOM, root, hidden, 33, keys, 1, 0));
    CHECK(refuses(PAXIDORE_NOT_SHOWN, ROOM, nothing, hidden, 33, keys, 1, 1));
    CHECK(refuses(PAXIDORE_E_ROOM, 96, root, tree, tree_len, keys, 1, 1) && made_len >= 97 && made_len % 97 == 0);
    size_t needed = made_len;
    CHECK(refuses(PAXIDORE_E_ROOM, needed - 1, root, tree, tree_len, keys, 1, 1));
    CHECK(paxidore_map_change(new_root, made, needed, &made_len, root, tree, tree_len, keys, 1, keys, 1) == PAXIDORE_OK && made_len == needed);
    /* no key is no change */
    CHECK(paxidore_map_change(new_root, made, ROOM, &made_len, root, tree, tree_len, NULL, 0, NULL, 0) == PAXIDORE_OK &&
          memcmp(new_root, root, 32) == 0);
    /* an entry that is not on its key's way */
    uint8_t fork[1 + 65 + 65] = {1};
    memcpy(fork + 1, out_of_place, 65);
    memcpy(fork + 66, out_of_place, 65);
    CHECK(paxidore_map_root(new_root, fork, sizeof fork) == PAXIDORE_E_INVALID);
    proof_len = 55;
    memset(proof, 0x33, sizeof proof);
    CHECK(paxidore_map_prove(proof, 0, &proof_len, tree, tree_len, keys) == PAXIDORE_E_ROOM && proof_len > 3 && proof[0] == 0x33);
    proof_len = 55;
    CHECK(paxidore_map_prove(proof, sizeof proof, &proof_len, hidden, 33, keys) == PAXIDORE_E_HIDDEN && proof_len == 55 && proof[0] == 0x33);
    CHECK(paxidore_map_verify(root, keys, keys, NULL, 0) == PAXIDORE_E_TRUNCATED);
    /* 256 forks, one below the other, and one more */
    memset(tree, 1, 300);
    CHECK(paxidore_map_root(new_root, tree, 300) == PAXIDORE_E_INVALID);
    CHECK(paxidore_map_root(new_root, tree, 256) == PAXIDORE_E_TRUNCATED);
}

/* Bytes that were changed in drawn places: no answer but those of the header, and nothing shown that is not so. */
static void damages(size_t turns) {
    uint8_t damaged[TREE];
    for (size_t turn = 0; turn < turns; turn++) {
        uint8_t key[32], value[32];
        near(key, below(KEYS + 12));
        near(value, 250);
        struct entry *own = entry_at(key);
        tree_len = tree_for(tree, root, 0, key, 1);
        size_t len = tree_len;
        int of_proof = below(2) == 0;
        if (of_proof && paxidore_map_prove(proof, sizeof proof, &proof_len, tree, tree_len, key) == PAXIDORE_OK)
            len = proof_len;
        memcpy(damaged, of_proof ? proof : tree, len);
        size_t kind = below(3), at = below(len);
        if (kind == 0)
            damaged[at] ^= (uint8_t)(1 << below(8));
        else if (kind == 1)
            len = at;
        else
            for (size_t i = at; i < len && i < at + 40; i++)
                damaged[i] = (uint8_t)drawn();
        /* the bytes end where the memory ends that may be read */
        uint8_t *end = malloc(len);
        if (end == NULL)
            return;
        memcpy(end, damaged, len);
        if (of_proof) {
            int32_t here = paxidore_map_verify(root, key, own == NULL ? value : own->value, end, len);
            int32_t absent = paxidore_map_verify_absent(root, key, end, len);
            int is_same = len == proof_len && memcmp(end, proof, len) == 0;
            CHECK(here == PAXIDORE_NOT_SHOWN || here == PAXIDORE_E_TRUNCATED || here == PAXIDORE_E_INVALID || (is_same && own != NULL));
            CHECK(absent == PAXIDORE_NOT_SHOWN || absent == PAXIDORE_E_TRUNCATED || absent == PAXIDORE_E_INVALID || (is_same && own == NULL));
        } else {
            int32_t answer = paxidore_map_change(new_root, made, ROOM, &made_len, root, end, len, key, 1, value, below(2));
            int is_same = len == tree_len && memcmp(end, tree, len) == 0;
            CHECK(answer == PAXIDORE_NOT_SHOWN || answer == PAXIDORE_E_TRUNCATED || answer == PAXIDORE_E_INVALID || is_same);
        }
        free(end);
    }
}

int main(int argc, char **argv) {
    size_t turns = argc > 1 ? strtoul(argv[1], NULL, 10) : 20000;
    paxidore_sha256(nothing, NULL, 0);
    const uint8_t empty[1] = {2};
    CHECK(paxidore_map_root(root, empty, 1) == PAXIDORE_OK && memcmp(root, nothing, 32) == 0);
    changes(1500);
    refusals();
    damages(turns);
    printf("%zu passed, %zu failed\n", passed, failed);
    return failed != 0;
}
