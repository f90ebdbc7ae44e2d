/* Damaged proofs, a million of them or as many as the argument says: drawn damages of good ones, and good ones for another root,
 * leaf or index. None is accepted, each has an answer that the header lists, and none asks for more memory than there is. A proof
 * ends where the memory ends that may be read. It prints how many checks passed, and ends with 1 where one failed. */
#define _DEFAULT_SOURCE
#include "paxidore_multi_inclusion.h"

#include <stdio.h>
#include <stdlib.h>
#include <string.h>
#include <sys/mman.h>
#include <unistd.h>

enum { MOST = 512, GOOD = 1200, SHOWN_MOST = 6, PROOF_MOST = 4096, ROOM = 16384 };

/* What can be asked: of both hashings a path and a multi-proof, of a log inclusion, of one entry or of several, and consistency. */
enum kind { SHA256_PATH, SHA256_MULTI, RFC6962_PATH, RFC6962_MULTI, INCLUSION, MULTI_INCLUSION, CONSISTENCY, KINDS };

struct proof {
    enum kind kind;
    uint8_t root[32], old_root[32];
    size_t size, old_size, indexes[SHOWN_MOST], count;
    uint8_t leaves[8 * SHOWN_MOST];
    uint8_t bytes[PROOF_MOST];
    size_t len;
};

static struct proof good[GOOD];
static uint8_t trees[2][10][PAXIDORE_TREEBYTES(MOST)], kept[64 * MOST], entries[8 * MOST];
static size_t lengths[MOST];
static uint64_t state = 6962;

static uint64_t drawn(void) {
    state ^= state << 13;
    state ^= state >> 7;
    state ^= state << 17;
    return state * 0x2545f4914f6cdd1d;
}

static size_t below(size_t bound) {
    return (size_t)(drawn() >> 16) % bound;
}

static void must(int holds, const char *what) {
    if (!holds) {
        fprintf(stderr, "hostile.c: %s\n", what);
        exit(1);
    }
}

/* The entries are the words 0, 1 .., so that no two of them are the same. */
static void make_stores(void) {
    size_t kept_len;
    for (size_t i = 0; i < MOST; i++) {
        lengths[i] = 8;
        for (int at = 0; at < 8; at++)
            entries[8 * i + (size_t)at] = (uint8_t)(i >> (8 * at));
    }
    for (size_t height = 1; height < 10; height++) {
        size_t size = (size_t)1 << height, count = PAXIDORE_TREE_DIGESTS(size);
        must(paxidore_tree_build(trees[0][height], count, PAXIDORE_PLAIN, entries, 8 * size, lengths, size) == PAXIDORE_OK, "a tree");
        must(paxidore_tree_build(trees[1][height], count, PAXIDORE_RFC6962, entries, 8 * size, lengths, size) == PAXIDORE_OK, "a tree");
    }
    must(paxidore_log_append(kept, 2 * MOST, &kept_len, NULL, 0, 0, entries, sizeof entries, lengths, MOST) == PAXIDORE_OK,
         "a log");
}

/* Some rising indexes below a size. */
static size_t draw_indexes(size_t *indexes, size_t size) {
    size_t count = 0, most = 1 + below(SHOWN_MOST), at = below(size);
    while (count < most && at < size) {
        indexes[count++] = at;
        at += 1 + below(1 + size / 4);
    }
    return count;
}

static void make(struct proof *p) {
    int rfc = p->kind == RFC6962_PATH || p->kind == RFC6962_MULTI;
    size_t height = 1 + below(9), digests;
    const uint8_t *tree = trees[rfc][height];
    p->size = p->kind < INCLUSION ? (size_t)1 << height : 1 + below(MOST);
    digests = PAXIDORE_TREE_DIGESTS(p->size);
    p->count = p->kind == SHA256_MULTI || p->kind == RFC6962_MULTI || p->kind == MULTI_INCLUSION ? draw_indexes(p->indexes, p->size) : 1;
    if (p->count == 1)
        p->indexes[0] = below(p->size);
    for (size_t i = 0; i < p->count; i++)
        memcpy(p->leaves + 8 * i, entries + 8 * p->indexes[i], 8);
    switch (p->kind) {
    case SHA256_PATH:
        must(paxidore_tree_path(p->bytes, PROOF_MOST, &p->len, tree, digests, p->indexes[0]) == PAXIDORE_OK, "a path");
        break;
    case RFC6962_PATH:
        must(paxidore_tree_path(p->bytes, PROOF_MOST, &p->len, tree, digests, p->indexes[0]) == PAXIDORE_OK, "a path");
        break;
    case SHA256_MULTI:
        must(paxidore_tree_multi_path(p->bytes, PROOF_MOST, &p->len, tree, digests, p->indexes, p->count) == PAXIDORE_OK,
             "a multi-proof");
        break;
    case RFC6962_MULTI:
        must(paxidore_tree_multi_path(p->bytes, PROOF_MOST, &p->len, tree, digests, p->indexes, p->count) == PAXIDORE_OK,
             "a multi-proof");
        break;
    case INCLUSION:
        must(paxidore_log_inclusion(p->bytes, PROOF_MOST, &p->len, kept, 2 * MOST, p->size, p->indexes[0]) == PAXIDORE_OK,
             "an inclusion proof");
        break;
    case MULTI_INCLUSION:
        must(paxidore_log_multi_inclusion(p->bytes, PROOF_MOST, &p->len, kept, 2 * MOST, p->size, p->indexes, p->count) == PAXIDORE_OK,
             "a proof of several entries");
        break;
    default:
        p->old_size = 1 + below(p->size);
        must(paxidore_log_consistency(p->bytes, PROOF_MOST, &p->len, kept, 2 * MOST, p->old_size, p->size) == PAXIDORE_OK,
             "a consistency proof");
        must(paxidore_log_root(p->old_root, kept, 2 * MOST, p->old_size) == PAXIDORE_OK, "a root");
    }
    if (p->kind < INCLUSION)
        memcpy(p->root, tree, 32);
    else
        must(paxidore_log_root(p->root, kept, 2 * MOST, p->size) == PAXIDORE_OK, "a root");
}

static int32_t ask(const struct proof *p, const uint8_t *bytes, size_t len) {
    switch (p->kind) {
    case SHA256_PATH: return paxidore_verify(PAXIDORE_PLAIN, p->root, p->size, p->indexes[0], p->leaves, 8, bytes, len);
    case RFC6962_PATH: return paxidore_verify(PAXIDORE_RFC6962, p->root, p->size, p->indexes[0], p->leaves, 8, bytes, len);
    case SHA256_MULTI:
        return paxidore_multi_verify(PAXIDORE_PLAIN, p->root, p->size, p->indexes, p->count, p->leaves, 8 * p->count, lengths, p->count,
                                            bytes, len);
    case RFC6962_MULTI:
        return paxidore_multi_verify(PAXIDORE_RFC6962, p->root, p->size, p->indexes, p->count, p->leaves, 8 * p->count, lengths, p->count,
                                             bytes, len);
    case INCLUSION: return paxidore_log_verify_inclusion(p->root, p->size, p->indexes[0], p->leaves, 8, bytes, len);
    case MULTI_INCLUSION:
        return paxidore_log_verify_multi_inclusion(p->root, p->size, p->indexes, p->count, p->leaves, 8 * p->count, lengths, p->count,
                                                   bytes, len);
    default: return paxidore_log_verify_consistency(p->old_root, p->old_size, p->root, p->size, bytes, len);
    }
}

/* Writes a word, the least byte first, to a drawn place: most words of a proof are counts, prefixes and indexes. */
static void put_word(uint8_t *bytes, size_t len) {
    static const uint64_t words[8] = {0, 1, 2, UINT64_MAX, (uint64_t)1 << 63, (uint64_t)1 << 61, (uint64_t)1 << 32, 255};
    size_t at = 8 * below(len / 8 + 1);
    uint64_t word = words[below(8)] + (below(4) ? 0 : below(64));
    for (; word && at < len; word >>= 8)
        bytes[at++] = (uint8_t)word;
}

static size_t damaged(uint8_t *bytes, size_t len, const struct proof *other) {
    size_t at = len ? below(len) : 0, more;
    switch (below(9)) {
    case 0:
    case 1:
        if (len)
            bytes[at] ^= (uint8_t)(1 << below(8));
        return len;
    case 2:
        put_word(bytes, len);
        return len;
    case 3: return at;
    case 4:
        for (more = 1 + below(40); more; more--)
            bytes[len++] = (uint8_t)drawn();
        return len;
    case 5:
        /* without some bytes in the middle */
        more = 8 * (1 + below(8));
        if (more > len - at)
            return len;
        memmove(bytes + at, bytes + at + more, len - at - more);
        return len - more;
    case 6:
        /* with some bytes twice */
        more = 8 * (1 + below(8));
        if (more > len - at)
            return len;
        memmove(bytes + at + more, bytes + at, len - at);
        return len + more;
    case 7:
        /* the rest is another proof's */
        if (at < other->len)
            memcpy(bytes + at, other->bytes + at, other->len - at);
        return other->len > at ? other->len : at;
    default:
        memcpy(bytes, other->bytes, other->len);
        return other->len;
    }
}

/* The question with something else in it: a root, a leaf, or an index. */
static struct proof other_question(const struct proof *p) {
    struct proof other = *p;
    size_t which = below(p->count);
    switch (p->kind == CONSISTENCY ? below(2) : below(4)) {
    case 0: other.root[below(32)] ^= (uint8_t)(1 << below(8)); break;
    case 1:
        if (p->kind == CONSISTENCY)
            other.old_root[below(32)] ^= (uint8_t)(1 << below(8));
        else
            other.indexes[which] = (size_t)(drawn() >> below(64));
        break;
    default: other.leaves[8 * which + below(8)] ^= (uint8_t)(1 << below(8));
    }
    return other;
}

static int is_listed(int32_t answer) {
    switch (answer) {
    case PAXIDORE_NOT_SHOWN:
    case PAXIDORE_E_TRUNCATED:
    case PAXIDORE_E_INVALID:
    case PAXIDORE_E_HEIGHT:
    case PAXIDORE_E_INDEX: return 1;
    default: return 0;
    }
}

int main(int count, char **words) {
    long asked = count > 1 ? atol(words[1]) : 1000000, passed = 0, failed = 0, answers[16] = {0};
    size_t page = (size_t)sysconf(_SC_PAGESIZE), rooms = (ROOM + page - 1) / page * page;
    uint8_t *memory = mmap(NULL, rooms + page, PROT_READ | PROT_WRITE, MAP_PRIVATE | MAP_ANONYMOUS, -1, 0);
    must(memory != MAP_FAILED && mprotect(memory + rooms, page, PROT_NONE) == 0, "memory with an end");
    make_stores();
    for (size_t i = 0; i < GOOD; i++) {
        good[i].kind = (enum kind)(i % KINDS);
        make(&good[i]);
        uint8_t *place = memory + rooms - good[i].len;
        memcpy(place, good[i].bytes, good[i].len);
        must(ask(&good[i], place, good[i].len) == PAXIDORE_OK, "a good proof is accepted");
    }
    while (passed + failed < asked) {
        const struct proof *p = &good[below(GOOD)];
        struct proof question = *p;
        static uint8_t bytes[ROOM];
        size_t len = p->len;
        memcpy(bytes, p->bytes, len);
        if (below(8) == 0) {
            question = other_question(p);
            if (memcmp(question.indexes, p->indexes, sizeof p->indexes) == 0 && memcmp(question.root, p->root, 32) == 0 &&
                memcmp(question.old_root, p->old_root, 32) == 0 && memcmp(question.leaves, p->leaves, sizeof p->leaves) == 0)
                continue;
        } else {
            for (size_t times = 1 + below(2); times; times--)
                len = damaged(bytes, len, &good[below(GOOD)]);
            if (len == p->len && memcmp(bytes, p->bytes, len) == 0)
                continue;
        }
        uint8_t *place = memory + rooms - len;
        memcpy(place, bytes, len);
        int32_t answer = ask(&question, place, len);
        if (is_listed(answer)) {
            passed++;
            answers[answer + 12]++;
        } else {
            failed++;
            fprintf(stderr, "hostile.c: answer %d to a proof of kind %d\n", (int)answer, (int)p->kind);
        }
    }
    printf("%ld passed, %ld failed (other roots %ld, cut short %ld, invalid %ld, another height %ld, another index %ld)\n",
           passed, failed, answers[PAXIDORE_NOT_SHOWN + 12], answers[PAXIDORE_E_TRUNCATED + 12], answers[PAXIDORE_E_INVALID + 12],
           answers[PAXIDORE_E_HEIGHT + 12], answers[PAXIDORE_E_INDEX + 12]);
    return failed != 0;
}
