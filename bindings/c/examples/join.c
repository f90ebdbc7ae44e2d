/* Builds a tree and a log by four threads. It prints `as by one thread` where both have the bytes that one thread makes. */
#include <paxidore_join.h>
#include <pthread.h>
#include <stdio.h>
#include <string.h>
enum { PARTS = 4, SIZE = 1024, ALL = PARTS * SIZE, LEAF = 8 };
static uint8_t leaves[ALL * LEAF], parts[PARTS * PAXIDORE_TREEBYTES(SIZE)], tree[PAXIDORE_TREEBYTES(ALL)];
static uint8_t logs[PARTS][32 * 2 * SIZE], kept[32 * 2 * ALL], whole[32 * 2 * ALL];
static size_t lengths[ALL], log_lens[PARTS];
static int failed[PARTS];

/* What a thread makes: a part of the tree, and a part of the log. */
static void *hash_part(void *at) {
    size_t part = (size_t)(uintptr_t)at;
    const uint8_t *own = leaves + part * SIZE * LEAF;
    failed[part] =
        paxidore_tree_build(parts + part * PAXIDORE_TREEBYTES(SIZE), PAXIDORE_TREE_DIGESTS(SIZE), PAXIDORE_RFC6962,
            own, SIZE * LEAF, lengths, SIZE) != PAXIDORE_OK ||
        paxidore_log_append(logs[part], 2 * SIZE, &log_lens[part], NULL, 0, 0, own, SIZE * LEAF, lengths, SIZE) != PAXIDORE_OK;
    return NULL;
}

int main(void) {
    pthread_t threads[PARTS];
    size_t kept_len = 0, more_len, whole_len, part;
    for (size_t leaf = 0; leaf < ALL; leaf++) {
        lengths[leaf] = LEAF;
        memcpy(leaves + leaf * LEAF, &leaf, LEAF);
    }
    for (part = 0; part < PARTS; part++)
        if (pthread_create(&threads[part], NULL, hash_part, (void *)(uintptr_t)part) != 0) return 1;
    for (part = 0; part < PARTS; part++)
        if (pthread_join(threads[part], NULL) != 0 || failed[part]) return 1;
    if (paxidore_tree_join(tree, PAXIDORE_TREE_DIGESTS(ALL), PAXIDORE_RFC6962,
            parts, PARTS * PAXIDORE_TREE_DIGESTS(SIZE), PARTS) != PAXIDORE_OK)
        return 1;
    for (part = 0; part < PARTS; kept_len += more_len, part++)
        if (paxidore_log_join(kept + 32 * kept_len, 2 * ALL - kept_len, &more_len,
                kept, kept_len, part * SIZE, logs[part], log_lens[part], SIZE) != PAXIDORE_OK)
            return 1;
    /* what one thread makes */
    if (paxidore_log_append(whole, 2 * ALL, &whole_len, NULL, 0, 0, leaves, sizeof leaves, lengths, ALL) != PAXIDORE_OK ||
        kept_len != whole_len || memcmp(kept, whole, 32 * whole_len) != 0)
        return 1;
    if (paxidore_tree_build(whole, PAXIDORE_TREE_DIGESTS(ALL), PAXIDORE_RFC6962,
            leaves, sizeof leaves, lengths, ALL) != PAXIDORE_OK ||
        memcmp(tree, whole, sizeof tree) != 0)
        return 1;
    puts("as by one thread");
}
