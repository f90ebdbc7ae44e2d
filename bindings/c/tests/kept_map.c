/* Kept maps beside the definition: changes, older heads, iteration, copies, refusals; memory that holds no map, as many times as the
 * argument says. It prints how many checks passed, and ends with 1 where one failed. */
#include "paxidore_kept_map.h"

#include <stdio.h>
#include <stdlib.h>
#include <string.h>

enum { KEYS = 48, ENTRIES = 1 << 12, FORKS = 1 << 17, HEADS = 64 };

static size_t passed, failed;
static uint64_t state = 6962;

#define CHECK(holds) ((holds) ? (void)passed++ : (void)(failed++, printf("FAILED: line %d: %s\n", __LINE__, #holds)))

static uint64_t drawn(void) {
    state ^= state << 13;
    state ^= state >> 7;
    state ^= state << 17;
    return state * 0x2545f4914f6cdd1d;
}

static size_t below(size_t bound) { return (size_t)(drawn() >> 16) % bound; }

struct entry {
    uint8_t key[32], value[32];
};

/* The entries of the model, by rising keys. */
static struct entry model[KEYS];
static size_t count;

static int bit(const uint8_t *key, size_t level) { return key[level / 8] >> (7 - level % 8) & 1; }

/* Two in three keys are near another one, at places down to the last bit. */
static void near(uint8_t key[32], size_t number) {
    uint8_t first = (uint8_t)(number - number % 3);
    paxidore_sha256(key, &first, 1);
    if (number % 3 != 0)
        key[number % 2 ? 31 : 3 + number % 5] ^= (uint8_t)(1 << number % 8);
}

/* The digest of entries below a place, as the definition has it. */
static void digest_of(uint8_t digest[32], const struct entry *some, size_t some_count, size_t level) {
    uint8_t node[65];
    size_t left = 0;
    if (some_count == 0) {
        paxidore_sha256(digest, NULL, 0);
        return;
    }
    node[0] = some_count > 1;
    if (some_count == 1) {
        memcpy(node + 1, some->key, 32);
        memcpy(node + 33, some->value, 32);
    } else {
        while (left < some_count && !bit(some[left].key, level))
            left++;
        digest_of(node + 1, some, left, level + 1);
        digest_of(node + 33, some + left, some_count - left, level + 1);
    }
    paxidore_sha256(digest, node, 65);
}

/* The place of the first entry whose key is not below this one. */
static size_t place_of(const uint8_t key[32]) {
    size_t at = 0;
    while (at < count && memcmp(model[at].key, key, 32) < 0)
        at++;
    return at;
}

static int by_bytes(const void *a, const void *b) { return memcmp(a, b, 32); }

static int is_there(const uint8_t key[32]) {
    size_t at = place_of(key);
    return at < count && memcmp(model[at].key, key, 32) == 0;
}

static void change_model(const uint8_t key[32], const uint8_t *value) {
    size_t at = place_of(key);
    int is_own = is_there(key);
    if (value != NULL && !is_own)
        memmove(model + at + 1, model + at, sizeof *model * (count++ - at));
    if (value == NULL && is_own)
        memmove(model + at, model + at + 1, sizeof *model * (--count - at));
    if (value != NULL) {
        memcpy(model[at].key, key, 32);
        memcpy(model[at].value, value, 32);
    }
}

static uint8_t entries[ENTRIES][PAXIDORE_KEPT_MAP_ENTRYBYTES], forks[FORKS][PAXIDORE_KEPT_MAP_FORKBYTES];
static uint8_t to_entries[KEYS][PAXIDORE_KEPT_MAP_ENTRYBYTES], to_forks[FORKS][PAXIDORE_KEPT_MAP_FORKBYTES];
static paxidore_kept_map map, to_map;
static uint8_t proof[PAXIDORE_MAP_PROOFBYTES_MAX];
static size_t proof_len;

#define MEMORY *entries, ENTRIES, *forks, FORKS

/* What a map has at a key, with its proof under a root. */
static void has(const paxidore_kept_map *own, const uint8_t root[32], const uint8_t key[32]) {
    uint8_t value[32];
    int32_t answer = paxidore_kept_map_get(value, own, MEMORY, key);
    CHECK(paxidore_kept_map_prove(proof, sizeof proof, &proof_len, own, MEMORY, key) == PAXIDORE_OK);
    if (answer == PAXIDORE_OK)
        CHECK(paxidore_map_verify(root, key, value, proof, proof_len) == PAXIDORE_OK);
    else {
        CHECK(answer == PAXIDORE_NOT_SHOWN);
        CHECK(paxidore_map_verify_absent(root, key, proof, proof_len) == PAXIDORE_OK);
    }
}

/* What a map has at a key where 1 says so, or nothing. */
static int has_value(const paxidore_kept_map *own, const uint8_t key[32], uint8_t is_there, const uint8_t value[32]) {
    uint8_t there[32];
    int32_t answer = paxidore_kept_map_get(there, own, MEMORY, key);
    return is_there ? answer == PAXIDORE_OK && memcmp(there, value, 32) == 0 : answer == PAXIDORE_NOT_SHOWN;
}

/* The difference of two versions: each key of it is told, and no other. */
static void differences(const paxidore_kept_map *old, const paxidore_kept_map *own) {
    uint8_t from[32] = {0}, key[32], old_value[32], new_value[32], has_old, has_new, near_key[32];
    size_t told = 0, wanted = 0;
    for (; paxidore_kept_map_differ(key, old_value, &has_old, new_value, &has_new, old, own, MEMORY, from) == PAXIDORE_OK; told++) {
        CHECK(has_value(old, key, has_old, old_value) && has_value(own, key, has_new, new_value));
        CHECK(memcmp(key, from, 32) >= 0);
        CHECK(has_old != has_new || (has_old && memcmp(old_value, new_value, 32) != 0));
        memcpy(from, key, 32);
        for (size_t i = 32; i-- > 0 && ++from[i] == 0;)
            continue;
    }
    for (size_t i = 0; i < KEYS; i++) {
        near(near_key, i);
        int32_t in_old = paxidore_kept_map_get(old_value, old, MEMORY, near_key), in_new = paxidore_kept_map_get(new_value, own, MEMORY, near_key);
        wanted += in_old != in_new || (in_old == PAXIDORE_OK && memcmp(old_value, new_value, 32) != 0);
    }
    CHECK(told == wanted);
    CHECK(paxidore_kept_map_differ(key, old_value, &has_old, new_value, &has_new, own, own, MEMORY, near_key) == PAXIDORE_NOT_SHOWN);
}

/* The bytes of a tree for keys, and for all keys from one to another, as whoever knows the root reads them. */
static void trees(const paxidore_kept_map *own, const uint8_t root[32]) {
    static uint8_t tree[1 << 16];
    uint8_t keys[4][32], again[32], from[32], next_key[32], next_value[32];
    size_t tree_len = 0, needed = 0, keys_count = below(5);
    for (size_t i = 0; i < keys_count; i++)
        near(keys[i], below(KEYS + 12));
    qsort(keys, keys_count, 32, by_bytes);
    CHECK(paxidore_kept_map_prove_many(tree, sizeof tree, &tree_len, own, MEMORY, *keys, keys_count) == PAXIDORE_OK);
    CHECK(paxidore_kept_map_prove_many(tree, tree_len - 1, &needed, own, MEMORY, *keys, keys_count) == PAXIDORE_E_ROOM);
    CHECK(needed == tree_len);
    CHECK(paxidore_map_root(again, tree, tree_len) == PAXIDORE_OK && memcmp(again, root, 32) == 0);
    for (size_t i = 0; i < keys_count; i++) {
        size_t at = place_of(keys[i]);
        CHECK(paxidore_map_prove(proof, sizeof proof, &proof_len, tree, tree_len, keys[i]) == PAXIDORE_OK);
        CHECK((is_there(keys[i]) ? paxidore_map_verify(root, keys[i], model[at].value, proof, proof_len)
                                 : paxidore_map_verify_absent(root, keys[i], proof, proof_len)) == PAXIDORE_OK);
    }
    if (keys_count > 1 && memcmp(keys[0], keys[1], 32) != 0) {
        memcpy(from, keys[0], 32);
        memcpy(keys[0], keys[1], 32);
        memcpy(keys[1], from, 32);
        CHECK(paxidore_kept_map_prove_many(tree, sizeof tree, &needed, own, MEMORY, *keys, 2) == PAXIDORE_E_INDEX);
        CHECK(needed == tree_len);
    }
    near(keys[0], below(KEYS));
    near(keys[1], below(KEYS));
    CHECK(paxidore_kept_map_prove_range(tree, sizeof tree, &tree_len, own, MEMORY, keys[0], keys[1]) == PAXIDORE_OK);
    CHECK(paxidore_kept_map_prove_range(tree, 0, &needed, own, MEMORY, keys[0], keys[1]) == PAXIDORE_E_ROOM);
    CHECK(needed == tree_len);
    CHECK(paxidore_map_root(again, tree, tree_len) == PAXIDORE_OK && memcmp(again, root, 32) == 0);
    memcpy(from, keys[0], 32);
    for (size_t at = place_of(keys[0]); at < count && memcmp(model[at].key, keys[1], 32) <= 0; at++) {
        CHECK(paxidore_map_next(next_key, next_value, tree, tree_len, from, keys[1]) == PAXIDORE_OK);
        CHECK(memcmp(next_key, model[at].key, 32) == 0 && memcmp(next_value, model[at].value, 32) == 0);
        memcpy(from, next_key, 32);
        for (size_t i = 32; i-- > 0 && ++from[i] == 0;)
            continue;
    }
    CHECK(paxidore_map_next(next_key, next_value, tree, tree_len, from, keys[1]) == PAXIDORE_NOT_SHOWN);
    /* from the least key to the last one the tree answers as the map does, or hides what may come first */
    memset(keys[0], 0, 32);
    memset(keys[1], 255, 32);
    switch (paxidore_map_next(next_key, next_value, tree, tree_len, keys[0], keys[1])) {
    case PAXIDORE_OK:
        CHECK(memcmp(next_key, model[0].key, 32) == 0);
        break;
    case PAXIDORE_NOT_SHOWN:
        CHECK(count == 0);
        break;
    default:
        CHECK(paxidore_map_next(next_key, next_value, tree, tree_len, keys[0], keys[1]) == PAXIDORE_E_HIDDEN && count > 1);
    }
    CHECK(paxidore_map_next(next_key, next_value, tree, tree_len - 1, keys[0], keys[1]) == PAXIDORE_E_TRUNCATED);
}

static void changes(size_t turns) {
    static paxidore_kept_map older[HEADS];
    static uint8_t older_roots[HEADS][32];
    size_t heads = 0;
    for (size_t turn = 0; turn < turns; turn++) {
        uint8_t key[32], value[32], wanted[32], root[32], again[32], next_key[32], next_value[32];
        near(key, below(KEYS));
        near(value, 200 + below(50));
        int is_put = below(5) < 3;
        if (map.entries == ENTRIES || map.forks + PAXIDORE_KEPT_MAP_CHANGEFORKS > FORKS) {
            /* what no longer belongs to the map stays behind, and older heads with it */
            CHECK(paxidore_kept_map_copy(&to_map, *to_entries, KEYS, *to_forks, FORKS, &map, MEMORY) == PAXIDORE_OK);
            CHECK(to_map.entries == count);
            map = to_map;
            memcpy(entries, to_entries, sizeof *entries * map.entries);
            memcpy(forks, to_forks, sizeof *forks * map.forks);
            heads = 0;
        }
        CHECK((is_put ? paxidore_kept_map_put(&map, MEMORY, key, value) : paxidore_kept_map_remove(&map, MEMORY, key)) == PAXIDORE_OK);
        change_model(key, is_put ? value : NULL);
        if (below(3) == 0)
            continue;
        digest_of(wanted, model, count, 0);
        if (below(4) == 0) {
            CHECK(paxidore_kept_map_check(root, &map, MEMORY) == PAXIDORE_OK);
            CHECK(memcmp(root, wanted, 32) == 0);
        }
        CHECK(paxidore_kept_map_root(root, &map, MEMORY) == PAXIDORE_OK);
        CHECK(memcmp(root, wanted, 32) == 0);
        near(key, below(KEYS + 12));
        has(&map, root, key);
        if (turn % 4 == 0)
            trees(&map, root);
        CHECK((paxidore_kept_map_get(value, &map, MEMORY, key) == PAXIDORE_OK) == is_there(key));
        size_t at = place_of(key);
        if (paxidore_kept_map_next(next_key, next_value, &map, MEMORY, key) == PAXIDORE_OK)
            CHECK(at < count && memcmp(next_key, model[at].key, 32) == 0 && memcmp(next_value, model[at].value, 32) == 0);
        else
            CHECK(at == count);
        older[heads % HEADS] = map;
        memcpy(older_roots[heads++ % HEADS], root, 32);
        size_t some = below(heads < HEADS ? heads : HEADS);
        CHECK(paxidore_kept_map_root(again, &older[some], MEMORY) == PAXIDORE_OK);
        CHECK(memcmp(again, older_roots[some], 32) == 0);
        has(&older[some], again, key);
        differences(&older[some], &map);
        differences(&map, &older[some]);
    }
}

static void refusals(void) {
    uint8_t key[32] = {1}, value[32] = {2}, root[32] = {3}, before[32] = {3};
    paxidore_kept_map empty = {0, 0, 0}, other = {0, 0, 0};
    CHECK(paxidore_kept_map_root(root, &empty, NULL, 0, NULL, 0) == PAXIDORE_OK);
    digest_of(before, NULL, 0, 0);
    CHECK(memcmp(root, before, 32) == 0);
    CHECK(paxidore_kept_map_get(value, &empty, NULL, 0, NULL, 0, key) == PAXIDORE_NOT_SHOWN);
    CHECK(paxidore_kept_map_next(root, value, &empty, NULL, 0, NULL, 0, key) == PAXIDORE_NOT_SHOWN);
    CHECK(paxidore_kept_map_put(&other, *entries, 0, *forks, FORKS, key, value) == PAXIDORE_E_ROOM);
    CHECK(paxidore_kept_map_put(&other, *entries, 1, *forks, 255, key, value) == PAXIDORE_E_ROOM);
    CHECK(memcmp(&other, &empty, sizeof other) == 0);
    CHECK(paxidore_kept_map_put(&other, *entries, 1, *forks, 256, key, value) == PAXIDORE_OK);
    CHECK(other.top == 1 && other.entries == 1 && other.forks == 0);
    CHECK(paxidore_kept_map_prove(proof, 1, &proof_len, &other, MEMORY, key) == PAXIDORE_E_ROOM && proof_len > 1);
    CHECK(paxidore_kept_map_copy(&to_map, *to_entries, 0, *to_forks, 0, &other, MEMORY) == PAXIDORE_E_ROOM);
    /* a head of what is not there */
    other.top = 3;
    CHECK(paxidore_kept_map_get(value, &other, MEMORY, key) == PAXIDORE_E_DAMAGED);
    other.top = 2;
    CHECK(paxidore_kept_map_root(root, &other, MEMORY) == PAXIDORE_E_DAMAGED);
    other.top = 1;
    other.entries = (size_t)-1;
    CHECK(paxidore_kept_map_check(root, &other, MEMORY) == PAXIDORE_E_DAMAGED);
}

/* Each call on memory of anything ends, and stays within it. */
static void hostile(size_t turns) {
    enum { FEW = 300 };
    uint8_t (*some_entries)[64] = malloc(8 * sizeof *some_entries), (*some_forks)[48] = malloc(FEW * sizeof *some_forks);
    size_t shown = 0, told = 0;
    if (some_entries == NULL || some_forks == NULL)
        exit(2);
    for (size_t turn = 0; turn < turns; turn++) {
        uint8_t key[32], value[32] = {0}, root[32];
        paxidore_kept_map own = {below(40), below(9), below(41)}, same;
        size_t forks_there = own.forks;
        for (size_t i = 0; i < 8 * 64; i++)
            some_entries[i / 64][i % 64] = (uint8_t)drawn();
        for (size_t i = 0; i < FEW; i++) {
            /* digests that are there and such that are not; numbers that are mostly of what is below */
            memset(some_forks[i], below(2) ? 0 : (int)below(256), 32);
            memset(some_forks[i] + 32, 0, 16);
            some_forks[i][32] = (uint8_t)below(below(8) ? 2 * i + 2 : 256);
            some_forks[i][40] = (uint8_t)below(below(8) ? 2 * i + 2 : 256);
            if (below(50) == 0)
                some_forks[i][47] = 255;
        }
        if (turn % 16 == 0) {
            /* both sides of each fork are the one before it: 2^39 ways */
            for (size_t i = 1; i < 40; i++)
                some_forks[i][32] = some_forks[i][40] = (uint8_t)(2 * i);
            own.top = 80;
            own.forks = forks_there = 40;
        }
        near(key, below(KEYS));
        near(value, below(KEYS));
        same = own;
        shown += paxidore_kept_map_get(root, &own, *some_entries, 8, *some_forks, FEW, key) == PAXIDORE_OK;
        shown += paxidore_kept_map_next(root, value, &own, *some_entries, 8, *some_forks, FEW, key) == PAXIDORE_OK;
        shown += paxidore_kept_map_prove(proof, sizeof proof, &proof_len, &own, *some_entries, 8, *some_forks, FEW, key) == PAXIDORE_OK;
        shown += paxidore_kept_map_prove_many(proof, sizeof proof, &proof_len, &own, *some_entries, 8, *some_forks, FEW, key, 1) == PAXIDORE_OK;
        shown += paxidore_kept_map_prove_range(proof, sizeof proof, &proof_len, &own, *some_entries, 8, *some_forks, FEW, key, value) == PAXIDORE_OK;
        paxidore_kept_map other = {below(40), below(9), below(41)};
        uint8_t other_value[32], has_old, has_new;
        shown += paxidore_kept_map_differ(root, value, &has_old, other_value, &has_new, &own, &other, *some_entries, 8, *some_forks, FEW, key) == PAXIDORE_OK;
        shown += paxidore_kept_map_copy(&to_map, *to_entries, KEYS, *to_forks, 64, &own, *some_entries, 8, *some_forks, FEW) == PAXIDORE_OK;
        told += paxidore_kept_map_check(root, &own, *some_entries, 8, *some_forks, FEW) == PAXIDORE_OK;
        CHECK(memcmp(&own, &same, sizeof own) == 0);
        if (paxidore_kept_map_remove(&own, *some_entries, 8, *some_forks, FEW, key) != PAXIDORE_OK)
            CHECK(memcmp(&own, &same, sizeof own) == 0);
        own = same;
        if (paxidore_kept_map_put(&own, *some_entries, 8, *some_forks, FEW, key, value) != PAXIDORE_OK)
            CHECK(memcmp(&own, &same, sizeof own) == 0);
        own = same;
        shown += paxidore_kept_map_root(root, &own, *some_entries, 8, *some_forks, FEW) == PAXIDORE_OK;
        CHECK(own.forks == forks_there);
    }
    /* a tree of nothing or of one entry is a map */
    CHECK(turns < 1000 || (shown > 0 && told > 0));
    free(some_entries);
    free(some_forks);
}

int main(int words, char **word) {
    size_t turns = words > 1 ? (size_t)strtoul(word[1], NULL, 10) : 3000;
    changes(turns);
    refusals();
    hostile(turns);
    printf("%lu passed, %lu failed\n", (unsigned long)passed, (unsigned long)failed);
    return failed != 0;
}
