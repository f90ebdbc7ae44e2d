/* Hashes a log by four processes, each into its part of one shared mapping. It prints `as by one process` where the joined log
 * has the bytes that one process makes. */
#define _DEFAULT_SOURCE
#include <paxidore_join.h>
#include <stdio.h>
#include <string.h>
#include <sys/mman.h>
#include <sys/wait.h>
#include <unistd.h>
enum { PARTS = 4, SIZE = 1024, ALL = PARTS * SIZE, LEAF = 8 };
static uint8_t leaves[ALL * LEAF], kept[32 * 2 * ALL], whole[32 * 2 * ALL];
static size_t lengths[ALL];

/* What the processes share: the digests of each part's log. */
struct shared {
    uint8_t logs[PARTS][32 * 2 * SIZE];
    size_t log_lens[PARTS];
};

static int hash_part(struct shared *shared, size_t part) {
    return paxidore_log_append(shared->logs[part], 2 * SIZE, &shared->log_lens[part], NULL, 0, 0,
        leaves + part * SIZE * LEAF, SIZE * LEAF, lengths, SIZE);
}

int main(void) {
    struct shared *shared = mmap(NULL, sizeof(*shared), PROT_READ | PROT_WRITE, MAP_SHARED | MAP_ANONYMOUS, -1, 0);
    size_t kept_len = 0, more_len, whole_len, part;
    int status, failed = 0;
    if (shared == MAP_FAILED) return 1;
    for (size_t leaf = 0; leaf < ALL; leaf++) {
        lengths[leaf] = LEAF;
        memcpy(leaves + leaf * LEAF, &leaf, LEAF);
    }
    for (part = 0; part < PARTS; part++) {
        pid_t child = fork();
        if (child < 0) return 1;
        if (child == 0) _exit(hash_part(shared, part) == PAXIDORE_OK ? 0 : 1);
    }
    for (part = 0; part < PARTS; part++)
        failed |= wait(&status) < 0 || status != 0;
    if (failed) return 1;
    for (part = 0; part < PARTS; kept_len += more_len, part++)
        if (paxidore_log_join(kept + 32 * kept_len, 2 * ALL - kept_len, &more_len, kept, kept_len, part * SIZE,
                shared->logs[part], shared->log_lens[part], SIZE) != PAXIDORE_OK)
            return 1;
    if (paxidore_log_append(whole, 2 * ALL, &whole_len, NULL, 0, 0, leaves, sizeof(leaves), lengths, ALL) != PAXIDORE_OK)
        return 1;
    if (kept_len != whole_len || memcmp(kept, whole, 32 * whole_len) != 0) return 1;
    puts("as by one process");
    return 0;
}
