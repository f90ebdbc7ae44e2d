/* Work that hashes one message after the other, beside OpenSSL's SHA-256 in one process, in turn: the check of a path of 16 levels,
 * and an append of one entry to stored digests. It prints nanoseconds of the thread's processor time, the least of 25 rounds. */
#define OPENSSL_SUPPRESS_DEPRECATED
#define _POSIX_C_SOURCE 199309L
#include <openssl/sha.h>
#include <paxidore.h>
#include <stdio.h>
#include <string.h>
#include <time.h>
enum { SIZE = 65536, CHECKS = 300, ENTRIES = 20000, ROUNDS = 25 };
static uint8_t leaves[SIZE * 32], tree[PAXIDORE_TREEBYTES(SIZE)], path[4096], kept[64 * ENTRIES], stack[64][32];
static size_t lengths[SIZE], path_len;

static double now(void) {
    struct timespec t;
    clock_gettime(CLOCK_THREAD_CPUTIME_ID, &t);
    return 1e9 * (double)t.tv_sec + (double)t.tv_nsec;
}

static void hash(uint8_t out[32], uint8_t first, const uint8_t *text, size_t length) {
    SHA256_CTX c;
    SHA256_Init(&c);
    SHA256_Update(&c, &first, 1);
    SHA256_Update(&c, text, length);
    SHA256_Final(out, &c);
}

/* 1 leaf of 32 bytes and 16 pairs, as a check hashes them. */
static void path_by_openssl(void) {
    uint8_t pair[64] = {0};
    hash(pair, 0, leaves, 32);
    for (int level = 0; level < 16; level++) hash(pair + 32 * (level & 1), 1, pair, 64);
    memcpy(stack[0], pair, 32);
}

/* A leaf, and a pair for each complete subtree that it ends. */
static void append_by_openssl(size_t size) {
    size_t level = 0;
    uint8_t pair[64];
    hash(pair + 32, 0, leaves + 32 * size, 32);
    for (; size >> level & 1; level++) {
        memcpy(pair, stack[level], 32);
        hash(pair + 32, 1, pair, 64);
    }
    memcpy(stack[level], pair + 32, 32);
}

int main(void) {
    double least[5] = {1e18, 1e18, 1e18, 1e18, 1e18}, begun, took;
    uint8_t root[32], digest[32], text[65] = {1};
    for (size_t i = 0; i < SIZE; i++) lengths[i] = 32, memcpy(leaves + 32 * i, &i, sizeof i);
    if (paxidore_tree_build(tree, PAXIDORE_TREE_DIGESTS(SIZE), PAXIDORE_RFC6962, leaves, sizeof leaves, lengths, SIZE) ||
        paxidore_tree_root(root, tree, PAXIDORE_TREE_DIGESTS(SIZE)) ||
        paxidore_tree_path(path, sizeof path, &path_len, tree, PAXIDORE_TREE_DIGESTS(SIZE), 12345))
        return 1;
    for (int round = 0; round < ROUNDS; round++)
        for (int what = 0; what < 5; what++) {
            size_t kept_len = 0, more_len;
            begun = now();
            if (what == 0)
                for (int i = 0; i < CHECKS; i++)
                    if (paxidore_verify(PAXIDORE_RFC6962, root, SIZE, 12345, leaves + 32 * 12345, 32, path, path_len)) return 2;
            if (what == 1)
                for (int i = 0; i < CHECKS; i++) path_by_openssl();
            if (what == 2)
                for (size_t i = 0; i < ENTRIES; i++, kept_len += more_len)
                    if (paxidore_log_append(kept + 32 * kept_len, 2 * ENTRIES - kept_len, &more_len, kept, kept_len, i,
                            leaves + 32 * i, 32, lengths, 1))
                        return 3;
            if (what == 3)
                for (size_t i = 0; i < ENTRIES; i++) append_by_openssl(i);
            if (what == 4)
                for (int i = 0; i < CHECKS; i++) paxidore_sha256(digest, text, 65);
            took = (now() - begun) / (what == 2 || what == 3 ? ENTRIES : CHECKS);
            if (took < least[what]) least[what] = took;
        }
    printf("a path of 16 levels %.0f, OpenSSL %.0f: %.2f\n", least[0], least[1], least[0] / least[1]);
    printf("an append of one entry %.0f, OpenSSL %.0f: %.2f\n", least[2], least[3], least[2] / least[3]);
    printf("SHA-256 of the library of 65 bytes %.0f: %.2f of a sixteenth of the path\n", least[4], 16 * least[4] / least[0]);
    return 0;
}
