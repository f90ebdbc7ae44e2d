/* Each request for memory refused in turn: the answer is PAXIDORE_E_MEMORY, nothing is lost and no buffer is touched. A million
 * calls leave nothing behind. Linked with -Wl,--wrap=malloc,--wrap=realloc,--wrap=free. */
#include "paxidore_join.h"
#include "paxidore_multi_inclusion.h"
#include "paxidore_leanimt.h"

#include <stdio.h>
#include <string.h>

static long calls, left = -1, live;

void *__real_malloc(size_t);
void *__real_realloc(void *, size_t);
void __real_free(void *);

static int is_refused(void) {
    calls++;
    if (left == 0)
        return 1;
    if (left > 0)
        left--;
    return 0;
}

void *__wrap_malloc(size_t size) {
    void *block = is_refused() ? NULL : __real_malloc(size);
    live += block != NULL;
    return block;
}

void *__wrap_realloc(void *old, size_t size) {
    void *block = is_refused() ? NULL : __real_realloc(old, size);
    live += block != NULL && old == NULL;
    return block;
}

void __wrap_free(void *block) {
    live -= block != NULL;
    __real_free(block);
}

static const uint8_t LEAVES[] = "aaabbbcccdddeeefffggghhh";
static const uint8_t ZEROS[64];
static const size_t LENGTHS[8] = {3, 3, 3, 3, 3, 3, 3, 3}, INDEXES[3] = {1, 4, 5}, SHOWN[3] = {3, 3, 3};
static uint8_t root[32], path[112], proof[512], halves[2][32], log_path[96];
static size_t path_len, proof_len;

static uint8_t kept[32 * 15], to_more[32 * 8], tree[PAXIDORE_TREEBYTES(8)];
static uint8_t table[PAXIDORE_POSEIDON_TABLEBYTES(2)], to_table[PAXIDORE_POSEIDON_TABLEBYTES(2)];
static size_t table_len;
static uint8_t to_root[32], to_path[112], to_proof[512];
static size_t to_len;

/* two full rounds and a partial one of a state of two elements; its state after it has absorbed one */
static const uint64_t PARAMETERS[22] = {2, 1, 5, 3, 2, 5, 6, 2, 7, 8, 2, 9, 10, 2, 2, 1, 2, 2, 3, 4, 1, 1};
static const uint8_t *const PARAMETER_BYTES = (const uint8_t *)PARAMETERS;
static uint8_t begun[PAXIDORE_TRANSCRIPTBYTES(1, 1, 8)], to_state[sizeof begun], to_prepared[sizeof PARAMETERS];

/* a map of two entries, whose keys differ in their first bit, and the proofs of one of them and of a third key */
static uint8_t map_tree[131] = {1, 0}, map_root[32], map_proof[64], absent_proof[128], other_key[32] = {1}, to_rows[3 * PAXIDORE_MAP_ROWBYTES];
static size_t map_proof_len, absent_len;

/* the one proof of three entries of the log */
static uint8_t log_proof[32 * 8];
static size_t log_proof_len;

/* four elements, and the log of them in the hash of two */
static uint8_t elements[4 * 32], element_root[32], element_path[64], element_log[7 * 32], to_log[7 * 32];
static size_t element_path_len;

static int32_t call(int which) {
    switch (which) {
    case 0: return paxidore_root(to_root, PAXIDORE_RFC6962, LEAVES, 24, LENGTHS, 8);
    case 1: return paxidore_path(to_path, sizeof to_path, &to_len, PAXIDORE_RFC6962, LEAVES, 24, LENGTHS, 8, 4);
    case 2: return paxidore_multi_path(to_proof, sizeof to_proof, &to_len, PAXIDORE_RFC6962, LEAVES, 24, LENGTHS, 8, INDEXES, 3);
    case 3: return paxidore_verify(PAXIDORE_RFC6962, root, 8, 4, LEAVES + 12, 3, path, path_len);
    case 4:
        return paxidore_multi_verify(PAXIDORE_RFC6962, root, 8, INDEXES, 3, (const uint8_t *)"bbbeeefff", 9, SHOWN, 3, proof, proof_len);
    case 5: return paxidore_log_verify_inclusion(root, 8, 4, LEAVES + 12, 3, log_path, sizeof log_path);
    case 6: return paxidore_log_verify_consistency(halves[0], 4, root, 8, halves[1], 32);
    case 7: return paxidore_log_append(to_more, 8, &to_len, kept, 8, 5, LEAVES + 15, 9, LENGTHS + 5, 3);
    case 8: return paxidore_transcript_prepare(to_prepared, sizeof to_prepared, &to_len, 1, PARAMETER_BYTES, sizeof PARAMETERS);
    case 9:
        return paxidore_transcript_squeeze_bytes(to_root, 32, to_state, sizeof to_state, 1, PARAMETER_BYTES, sizeof PARAMETERS);
    case 10: return paxidore_log_verify_inclusion_digest(root, 8, 4, kept + 32 * 7, log_path, sizeof log_path);
    case 11: return paxidore_transcript_init(to_path, sizeof to_path, &to_len, 1, PARAMETER_BYTES, sizeof PARAMETERS);
    case 12:
        return paxidore_transcript_absorb(to_state, sizeof to_state, 1, PARAMETER_BYTES, sizeof PARAMETERS, begun, 8);
    case 13:
        return paxidore_transcript_absorb_bytes(to_state, sizeof to_state, 1, PARAMETER_BYTES, sizeof PARAMETERS, LEAVES, 24);
    case 14:
        return paxidore_transcript_squeeze(to_root, 32, to_state, sizeof to_state, 1, PARAMETER_BYTES, sizeof PARAMETERS);
    case 15: return paxidore_tree_multi_path(to_proof, sizeof to_proof, &to_len, tree, 15, INDEXES, 3);
    case 16: return paxidore_map_verify(map_root, map_tree + 2, map_tree + 34, map_proof, map_proof_len);
    case 17: return paxidore_map_verify_absent(map_root, other_key, absent_proof, absent_len);
    case 18: return paxidore_map_root(to_root, map_tree, sizeof map_tree);
    case 19: return paxidore_map_prove(to_proof, sizeof to_proof, &to_len, map_tree, sizeof map_tree, other_key);
    case 20:
        return paxidore_map_change(to_root, to_rows, sizeof to_rows, &to_len, map_root, map_tree, sizeof map_tree, map_tree + 2, 1, root, 1);
    case 21: return paxidore_poseidon_table(to_table, sizeof to_table, &to_len, 2);
    case 22: return paxidore_poseidon(to_root, PAXIDORE_LITTLE_ENDIAN, table, table_len, ZEROS, 64);
    case 23: return paxidore_poseidon_root(to_root, table, table_len, elements, 4);
    case 24: return paxidore_poseidon_path(to_path, sizeof to_path, &to_len, table, table_len, elements, 4, 2);
    case 25: return paxidore_poseidon_verify(table, table_len, element_root, 4, 2, elements + 64, element_path, element_path_len);
    case 26: return paxidore_poseidon_log_append(to_more, 8, &to_len, table, table_len, element_log, 3, 2, elements + 64, 2);
    case 27: return paxidore_poseidon_log_root(to_root, table, table_len, element_log, 7, 4);
    case 28: return paxidore_poseidon_log_inclusion(to_path, sizeof to_path, &to_len, table, table_len, element_log, 7, 4, 2);
    case 29: return paxidore_poseidon_log_set(to_log, 7, table, table_len, 4, 2, ZEROS);
    case 30: return paxidore_log_multi_inclusion(to_proof, sizeof to_proof, &to_len, kept, 15, 8, INDEXES, 3);
    case 31:
        return paxidore_poseidon_log_verify_insertion(to_root, table, table_len, element_root, 4, elements, 2, element_root, 32);
    default:
        return paxidore_log_verify_multi_inclusion(root, 8, INDEXES, 3, (const uint8_t *)"bbbeeefff", 9, SHOWN, 3, log_proof, log_proof_len);
    }
}

static int is_filled(const uint8_t *bytes, size_t len) {
    for (size_t i = 0; i < len; i++)
        if (bytes[i] != 0xaa)
            return 0;
    return 1;
}

int main(void) {
    int passed = 0, failed = 0;
    if (paxidore_root(root, PAXIDORE_RFC6962, LEAVES, 24, LENGTHS, 8) != PAXIDORE_OK ||
        paxidore_path(path, sizeof path, &path_len, PAXIDORE_RFC6962, LEAVES, 24, LENGTHS, 8, 4) != PAXIDORE_OK ||
        paxidore_multi_path(proof, sizeof proof, &proof_len, PAXIDORE_RFC6962, LEAVES, 24, LENGTHS, 8, INDEXES, 3) != PAXIDORE_OK)
        failed++;
    for (int half = 0; half < 2; half++)
        if (paxidore_root(halves[half], PAXIDORE_RFC6962, LEAVES + 12 * half, 12, LENGTHS, 4) != PAXIDORE_OK)
            failed++;
    /* a log's path has its digests from the leaf up; the bytes of a tree's path have them behind the sibling, from the root down */
    memcpy(log_path, path, 32);
    memcpy(log_path + 32, path + 72, 32);
    memcpy(log_path + 64, path + 40, 32);
    size_t kept_len;
    if (paxidore_log_append(kept, 15, &kept_len, NULL, 0, 0, LEAVES, 24, LENGTHS, 8) != PAXIDORE_OK || kept_len != 15)
        failed++;
    if (paxidore_log_multi_inclusion(log_proof, sizeof log_proof, &log_proof_len, kept, 15, 8, INDEXES, 3) != PAXIDORE_OK)
        failed++;
    if (paxidore_tree_build(tree, 15, PAXIDORE_RFC6962, LEAVES, 24, LENGTHS, 8) != PAXIDORE_OK)
        failed++;
    if (paxidore_transcript_init(begun, sizeof begun, &to_len, 1, PARAMETER_BYTES, sizeof PARAMETERS) != PAXIDORE_OK ||
        to_len != sizeof begun ||
        paxidore_transcript_absorb(begun, sizeof begun, 1, PARAMETER_BYTES, sizeof PARAMETERS, LEAVES, 8) != PAXIDORE_OK)
        failed++;
    map_tree[67] = 0x80;
    if (paxidore_map_root(map_root, map_tree, sizeof map_tree) != PAXIDORE_OK ||
        paxidore_map_prove(map_proof, sizeof map_proof, &map_proof_len, map_tree, sizeof map_tree, map_tree + 2) != PAXIDORE_OK ||
        paxidore_map_prove(absent_proof, sizeof absent_proof, &absent_len, map_tree, sizeof map_tree, other_key) != PAXIDORE_OK)
        failed++;
    for (int i = 0; i < 4; i++)
        elements[32 * i] = (uint8_t)(i + 1);
    if (paxidore_poseidon_table(table, sizeof table, &table_len, 2) != PAXIDORE_OK ||
        paxidore_poseidon_root(element_root, table, table_len, elements, 4) != PAXIDORE_OK ||
        paxidore_poseidon_path(element_path, sizeof element_path, &element_path_len, table, table_len, elements, 4, 2) != PAXIDORE_OK ||
        paxidore_poseidon_log_append(element_log, 7, &to_len, table, table_len, NULL, 0, 0, elements, 4) != PAXIDORE_OK)
        failed++;
    for (int which = 0; which < 33; which++) {
        memcpy(to_state, begun, sizeof begun);
        memcpy(to_log, element_log, sizeof to_log);
        calls = 0;
        int is_well = call(which) == PAXIDORE_OK && calls > 0 && live == 0;
        long most = calls;
        for (long refused = 0; refused < most; refused++) {
            memset(to_root, 0xaa, sizeof to_root);
            memset(to_path, 0xaa, sizeof to_path);
            memset(to_proof, 0xaa, sizeof to_proof);
            memset(to_more, 0xaa, sizeof to_more);
            memset(to_rows, 0xaa, sizeof to_rows);
            memset(to_table, 0xaa, sizeof to_table);
            memset(to_prepared, 0xaa, sizeof to_prepared);
            memcpy(to_state, begun, sizeof begun);
            memcpy(to_log, element_log, sizeof to_log);
            to_len = 7;
            left = refused;
            int32_t answer = call(which);
            left = -1;
            is_well = is_well && answer == PAXIDORE_E_MEMORY && live == 0 && to_len == 7 &&
                      is_filled(to_root, sizeof to_root) && is_filled(to_path, sizeof to_path) &&
                      is_filled(to_proof, sizeof to_proof) && is_filled(to_more, sizeof to_more) &&
                      is_filled(to_rows, sizeof to_rows) && is_filled(to_table, sizeof to_table) &&
                      is_filled(to_prepared, sizeof to_prepared) &&
                      memcmp(to_state, begun, sizeof begun) == 0 && memcmp(to_log, element_log, sizeof to_log) == 0;
        }
        if (is_well) {
            passed++;
        } else {
            failed++;
            fprintf(stderr, "refused_memory.c: call %d\n", which);
        }
    }
    /* digests, commitments, and a kept log's root, check and proofs allocate nothing */
    calls = 0;
    if (paxidore_log_root(to_root, kept, 15, 8) != PAXIDORE_OK || paxidore_log_check(kept, 15, 8) != PAXIDORE_OK)
        failed++;
    if (paxidore_log_inclusion(to_path, sizeof to_path, &to_len, kept, 15, 8, 4) != PAXIDORE_OK || to_len != sizeof log_path ||
        memcmp(to_path, log_path, sizeof log_path) != 0)
        failed++;
    if (paxidore_log_consistency(to_path, sizeof to_path, &to_len, kept, 15, 4, 8) != PAXIDORE_OK || to_len != 32 ||
        memcmp(to_path, halves[1], 32) != 0)
        failed++;
    if (paxidore_poseidon_log_insertion(to_path, sizeof to_path, &to_len, element_log, 7, 4) != PAXIDORE_OK || to_len != 32 ||
        memcmp(to_path, element_root, 32) != 0)
        failed++;
    paxidore_sha256(to_root, LEAVES, 24);
    paxidore_blake2s(to_root, LEAVES, 24);
    paxidore_blake2s_commit(to_root, LEAVES, 24, root);
    if (paxidore_blake2s_opens(to_root, LEAVES, 24, root) == PAXIDORE_OK && calls == 0)
        passed++;
    else
        failed++;
    /* nor do the calls of kept trees, but for several paths */
    calls = 0;
    if (paxidore_tree_build(tree, 15, PAXIDORE_RFC6962, LEAVES, 24, LENGTHS, 8) == PAXIDORE_OK &&
        paxidore_tree_rebuild(tree, 15, PAXIDORE_RFC6962) == PAXIDORE_OK &&
        paxidore_tree_set(tree, 15, PAXIDORE_RFC6962, 4, LEAVES + 12, 3) == PAXIDORE_OK &&
        paxidore_tree_set_many(tree, 15, PAXIDORE_RFC6962, INDEXES, 3, (const uint8_t *)"bbbeeefff", 9, SHOWN, 3) == PAXIDORE_OK &&
        paxidore_tree_root(to_root, tree, 15) == PAXIDORE_OK && memcmp(to_root, root, 32) == 0 &&
        paxidore_tree_path(to_path, sizeof to_path, &to_len, tree, 15, 4) == PAXIDORE_OK &&
        memcmp(to_path, path, sizeof path) == 0 && paxidore_tree_check(PAXIDORE_RFC6962, tree, 15) == PAXIDORE_OK && calls == 0)
        passed++;
    else
        failed++;
    /* nor do parts that are joined: here two halves, as trees and as logs */
    uint8_t parts[32 * 14], joined[32 * 15];
    memcpy(parts, tree + 32, 32), memcpy(parts + 32, tree + 32 * 3, 64), memcpy(parts + 32 * 3, tree + 32 * 7, 32 * 4);
    memcpy(parts + 32 * 7, tree + 64, 32), memcpy(parts + 32 * 8, tree + 32 * 5, 64), memcpy(parts + 32 * 10, tree + 32 * 11, 32 * 4);
    calls = 0;
    if (paxidore_tree_join(joined, 15, PAXIDORE_RFC6962, parts, 14, 2) == PAXIDORE_OK && memcmp(joined, tree, sizeof joined) == 0 &&
        paxidore_log_join(joined, 15, &to_len, kept, 7, 4, kept + 32 * 7, 7, 4) == PAXIDORE_OK && to_len == 8 &&
        memcmp(joined, kept + 32 * 7, 32 * 8) == 0 && calls == 0)
        passed++;
    else
        failed++;
    for (long i = 0; i < 1000000; i++)
        call(3);
    if (live == 0)
        passed++;
    else
        failed++;
    printf("%d passed, %d failed\n", passed, failed);
    return failed != 0;
}
