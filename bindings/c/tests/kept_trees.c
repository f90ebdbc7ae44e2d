/* The calls of kept trees from C, over both hashings. It prints how many checks passed, and ends with 1 where one failed. */
#define _DEFAULT_SOURCE
#include "paxidore.h"

#include <fcntl.h>
#include <stdio.h>
#include <stdlib.h>
#include <string.h>
#include <sys/mman.h>
#include <unistd.h>

static int passed, failed;

static void check(int holds, const char *what, int line) {
    if (holds) {
        passed++;
    } else {
        failed++;
        fprintf(stderr, "kept_trees.c:%d: %s\n", line, what);
    }
}
#define CHECK(holds) check((holds) != 0, #holds, __LINE__)

/* A hashing. */
struct hashing {
    uint32_t number;
    const char *roots[9]; /* by the count of leaves */
};

static const struct hashing sha256 = {
    PAXIDORE_PLAIN,
    /* by Python's hashlib */
    {[8] = "03b3e0e5b23746036c9c7185c1fc12bc6f8ff41cc2b97b24fb451f2cc291d2b4"}};

static const struct hashing rfc6962 = {
    PAXIDORE_RFC6962,
    /* those that implementations of RFC 6962 are tested with */
    {[2] = "fac54203e7cc696cf0dfcb42c92a1d9dbaf70ad9e621f4bd8d98662f00e3c125",
     [4] = "d37ee418976dd95753c1c73862b9398fa2a2cf9b4ff0fdfe8b30cd95209614b7",
     [8] = "5dc9da79a70659a9ad559cb701ded9a2ab9d823aad2f4960cfe370eff4604328"}};

/* The entries of those vectors, one behind the other. The first has no bytes. */
static const uint8_t LEAVES[] = "\x00\x10\x20\x21\x30\x31\x40\x41\x42\x43\x50\x51\x52\x53\x54\x55\x56\x57`abcdefghijklmno";
static const size_t LENGTHS[8] = {0, 1, 1, 2, 2, 4, 8, 16};
enum { LEAVES_LEN = 34, SIZE = 8, DIGESTS = 15, PATH = 112 };

static size_t length_of(size_t count) {
    size_t sum = 0;
    for (size_t i = 0; i < count; i++)
        sum += LENGTHS[i];
    return sum;
}

static int is_hex(const uint8_t *bytes, const char *hex) {
    char text[65];
    for (int i = 0; i < 32; i++)
        snprintf(text + 2 * i, 3, "%02x", bytes[i]);
    return strcmp(text, hex) == 0;
}

static int is_filled(const uint8_t *bytes, size_t len, uint8_t with) {
    for (size_t i = 0; i < len; i++)
        if (bytes[i] != with)
            return 0;
    return 1;
}

/* Memory of exactly so many bytes, so that a sanitizer sees what is read or written beside it. */
static uint8_t *filled(size_t len) {
    uint8_t *bytes = malloc(len ? len : 1);
    if (!bytes)
        exit(2);
    memset(bytes, 0xaa, len);
    return bytes;
}

static void builds(const struct hashing *h) {
    for (size_t count = 0; count <= SIZE; count++)
        for (size_t digests = 0; digests <= DIGESTS + 1; digests++) {
            uint8_t *tree = filled(32 * digests);
            int32_t answer = paxidore_tree_build(tree, digests, h->number, LEAVES, length_of(count), LENGTHS, count);
            if (count != 2 && count != 4 && count != 8) {
                CHECK(answer == PAXIDORE_E_SIZE && is_filled(tree, 32 * digests, 0xaa));
            } else if (digests != PAXIDORE_TREE_DIGESTS(count)) {
                CHECK(answer == PAXIDORE_E_SIZE && is_filled(tree, 32 * digests, 0xaa));
            } else {
                uint8_t root[32];
                CHECK(answer == PAXIDORE_OK && PAXIDORE_TREEBYTES(count) == 32 * digests);
                CHECK(paxidore_tree_root(root, tree, digests) == PAXIDORE_OK && memcmp(root, tree, 32) == 0);
                if (h->roots[count])
                    CHECK(is_hex(root, h->roots[count]));
                CHECK(paxidore_tree_check(h->number, tree, digests) == PAXIDORE_OK);
                memset(tree, 0xaa, 32 * (count - 1));
                CHECK(paxidore_tree_check(h->number, tree, digests) == PAXIDORE_NOT_SHOWN);
                CHECK(paxidore_tree_rebuild(tree, digests, h->number) == PAXIDORE_OK && memcmp(root, tree, 32) == 0);
                CHECK(paxidore_tree_check(h->number, tree, digests) == PAXIDORE_OK);
            }
            free(tree);
        }
    uint8_t *tree = filled(32 * DIGESTS);
    size_t lengths[8];
    CHECK(paxidore_tree_build(NULL, 0, h->number, NULL, 0, NULL, 0) == PAXIDORE_E_SIZE);
    CHECK(paxidore_tree_build(tree, DIGESTS, h->number, LEAVES, LEAVES_LEN - 1, LENGTHS, SIZE) == PAXIDORE_E_LENGTHS);
    CHECK(paxidore_tree_build(tree, DIGESTS, h->number, LEAVES, LEAVES_LEN + 1, LENGTHS, SIZE) == PAXIDORE_E_LENGTHS);
    memcpy(lengths, LENGTHS, sizeof lengths);
    lengths[7] = SIZE_MAX;
    CHECK(paxidore_tree_build(tree, DIGESTS, h->number, LEAVES, LEAVES_LEN, lengths, SIZE) == PAXIDORE_E_LENGTHS);
    CHECK(is_filled(tree, 32 * DIGESTS, 0xaa));
    memset(lengths, 0, sizeof lengths);
    CHECK(paxidore_tree_build(tree, DIGESTS, h->number, NULL, 0, lengths, SIZE) == PAXIDORE_OK && paxidore_tree_check(h->number, tree, DIGESTS) == PAXIDORE_OK);
    free(tree);
}

/* No tree has another count of digests. */
static void sizes(const struct hashing *h) {
    for (size_t digests = 0; digests <= 130; digests++) {
        uint8_t *tree = filled(32 * digests), root[32], path[32 * 8];
        size_t len = 7, sized = digests > 2 && (digests & (digests + 1)) == 0;
        memset(root, 0xaa, 32);
        if (sized) {
            CHECK(paxidore_tree_rebuild(tree, digests, h->number) == PAXIDORE_OK && paxidore_tree_check(h->number, tree, digests) == PAXIDORE_OK);
            CHECK(paxidore_tree_root(root, tree, digests) == PAXIDORE_OK);
            CHECK(paxidore_tree_set(tree, digests, h->number, digests / 2, LEAVES, 3) == PAXIDORE_OK);
            CHECK(paxidore_tree_path(path, sizeof path, &len, tree, digests, digests / 2) == PAXIDORE_OK);
            const size_t last = digests / 2, past = last + 1;
            CHECK(paxidore_tree_multi_path(path, sizeof path, &len, tree, digests, &last, 1) == PAXIDORE_OK);
            CHECK(paxidore_tree_multi_path(path, sizeof path, &len, tree, digests, &past, 1) == PAXIDORE_E_INDEX);
            CHECK(paxidore_tree_set(tree, digests, h->number, digests / 2 + 1, LEAVES, 3) == PAXIDORE_E_INDEX);
            CHECK(paxidore_tree_check(h->number, tree, digests) == PAXIDORE_OK);
        } else {
            uint8_t *at = digests ? tree : NULL;
            CHECK(paxidore_tree_rebuild(at, digests, h->number) == PAXIDORE_E_SIZE && paxidore_tree_check(h->number, at, digests) == PAXIDORE_E_SIZE);
            CHECK(paxidore_tree_root(root, at, digests) == PAXIDORE_E_SIZE && is_filled(root, 32, 0xaa));
            CHECK(paxidore_tree_set(at, digests, h->number, 0, LEAVES, 3) == PAXIDORE_E_SIZE);
            CHECK(paxidore_tree_path(path, sizeof path, &len, at, digests, 0) == PAXIDORE_E_SIZE && len == 7);
            CHECK(paxidore_tree_multi_path(path, sizeof path, &len, at, digests, LENGTHS, 1) == PAXIDORE_E_SIZE && len == 7);
            CHECK(is_filled(tree, 32 * digests, 0xaa));
        }
        free(tree);
    }
}

static void changes(const struct hashing *h) {
    uint8_t *tree = filled(32 * DIGESTS), *path = filled(PATH), *other = filled(PATH), leaves[LEAVES_LEN], root[32];
    size_t len, other_len, at = 0;
    memcpy(leaves, LEAVES, LEAVES_LEN);
    CHECK(paxidore_tree_build(tree, DIGESTS, h->number, leaves, LEAVES_LEN, LENGTHS, SIZE) == PAXIDORE_OK);
    for (size_t index = 0; index < SIZE; at += LENGTHS[index++]) {
        memset(leaves + at, 'x', LENGTHS[index]);
        CHECK(paxidore_tree_set(tree, DIGESTS, h->number, index, LENGTHS[index] ? leaves + at : NULL, LENGTHS[index]) == PAXIDORE_OK);
        CHECK(paxidore_root(root, h->number, leaves, LEAVES_LEN, LENGTHS, SIZE) == PAXIDORE_OK && memcmp(root, tree, 32) == 0);
        CHECK(paxidore_tree_check(h->number, tree, DIGESTS) == PAXIDORE_OK);
        for (size_t i = 0; i < SIZE; i++) {
            CHECK(paxidore_tree_path(path, PATH, &len, tree, DIGESTS, i) == PAXIDORE_OK && len == PAXIDORE_PATHBYTES(3));
            CHECK(paxidore_path(other, PATH, &other_len, h->number, leaves, LEAVES_LEN, LENGTHS, SIZE, i) == PAXIDORE_OK);
            CHECK(memcmp(path, other, PATH) == 0);
        }
    }
    memset(path, 0xaa, PATH);
    len = 7;
    CHECK(paxidore_tree_path(path, PATH - 1, &len, tree, DIGESTS, 0) == PAXIDORE_E_ROOM && len == PATH);
    len = 7;
    CHECK(paxidore_tree_path(NULL, 0, &len, tree, DIGESTS, 0) == PAXIDORE_E_ROOM && len == PATH);
    len = 7;
    CHECK(paxidore_tree_path(path, PATH, &len, tree, DIGESTS, SIZE) == PAXIDORE_E_INDEX && len == 7);
    CHECK(paxidore_tree_path(path, PATH, &len, tree, DIGESTS, SIZE_MAX) == PAXIDORE_E_INDEX && len == 7);
    CHECK(is_filled(path, PATH, 0xaa));
    memcpy(root, tree, 32);
    CHECK(paxidore_tree_set(tree, DIGESTS, h->number, SIZE, leaves, 3) == PAXIDORE_E_INDEX);
    CHECK(paxidore_tree_set(tree, DIGESTS, h->number, SIZE_MAX, leaves, 3) == PAXIDORE_E_INDEX);
    CHECK(memcmp(root, tree, 32) == 0 && paxidore_tree_check(h->number, tree, DIGESTS) == PAXIDORE_OK);
    /* each bit: none may be other */
    for (size_t bit = 0; bit < 8 * 32 * DIGESTS; bit++) {
        tree[bit / 8] ^= (uint8_t)(1 << bit % 8);
        CHECK(paxidore_tree_check(h->number, tree, DIGESTS) == PAXIDORE_NOT_SHOWN);
        tree[bit / 8] ^= (uint8_t)(1 << bit % 8);
    }
    CHECK(paxidore_tree_check(h->number, tree, DIGESTS) == PAXIDORE_OK);
    free(tree);
    free(path);
    free(other);
}

/* Several leaves at once: as one after the other. */
static void several(const struct hashing *h) {
    uint8_t *tree = filled(32 * DIGESTS), *other = filled(32 * DIGESTS);
    static const size_t indexes[4] = {6, 1, 6, 7}, lengths[4] = {3, 0, 9, 22}, beyond[4] = {6, 1, SIZE, 7};
    CHECK(paxidore_tree_build(tree, DIGESTS, h->number, LEAVES, LEAVES_LEN, LENGTHS, SIZE) == PAXIDORE_OK);
    memcpy(other, tree, 32 * DIGESTS);
    CHECK(paxidore_tree_set_many(tree, DIGESTS, h->number, indexes, 4, LEAVES, LEAVES_LEN, lengths, 3) == PAXIDORE_E_COUNT);
    CHECK(paxidore_tree_set_many(tree, DIGESTS, h->number, indexes, 3, LEAVES, LEAVES_LEN, lengths, 3) == PAXIDORE_E_LENGTHS);
    CHECK(paxidore_tree_set_many(tree, DIGESTS, h->number, beyond, 4, LEAVES, LEAVES_LEN, lengths, 4) == PAXIDORE_E_INDEX);
    CHECK(paxidore_tree_set_many(tree, DIGESTS, h->number, NULL, 0, NULL, 0, NULL, 0) == PAXIDORE_E_INDEX);
    CHECK(paxidore_tree_set_many(tree, DIGESTS - 1, h->number, indexes, 4, LEAVES, LEAVES_LEN, lengths, 4) == PAXIDORE_E_SIZE);
    CHECK(memcmp(tree, other, 32 * DIGESTS) == 0);
    CHECK(paxidore_tree_set_many(tree, DIGESTS, h->number, indexes, 4, LEAVES, LEAVES_LEN, lengths, 4) == PAXIDORE_OK);
    for (size_t i = 0, at = 0; i < 4; at += lengths[i++])
        CHECK(paxidore_tree_set(other, DIGESTS, h->number, indexes[i], LEAVES + at, lengths[i]) == PAXIDORE_OK);
    CHECK(memcmp(tree, other, 32 * DIGESTS) == 0 && paxidore_tree_check(h->number, tree, DIGESTS) == PAXIDORE_OK);
    free(tree);
    free(other);
}

/* The proofs of all sets of indexes: those that the leaves give, in whatever order they are asked for. */
static void multi_paths(const struct hashing *h) {
    enum { ROOM = 32 + SIZE * (24 + 32 * 3) };
    uint8_t *tree = filled(32 * DIGESTS), *proof = filled(ROOM), *other = filled(ROOM);
    size_t indexes[2 * SIZE], len, other_len;
    static const size_t past[3] = {2, SIZE, 5}, far[1] = {SIZE_MAX};
    CHECK(paxidore_tree_build(tree, DIGESTS, h->number, LEAVES, LEAVES_LEN, LENGTHS, SIZE) == PAXIDORE_OK);
    for (unsigned set = 1; set < 1u << SIZE; set++) {
        size_t count = 0;
        for (size_t i = 0; i < SIZE; i++)
            if (set >> i & 1)
                indexes[count++] = i;
        CHECK(paxidore_multi_path(other, ROOM, &other_len, h->number, LEAVES, LEAVES_LEN, LENGTHS, SIZE, indexes, count) == PAXIDORE_OK);
        memset(proof, 0xaa, ROOM);
        CHECK(paxidore_tree_multi_path(proof, other_len, &len, tree, DIGESTS, indexes, count) == PAXIDORE_OK && len == other_len);
        CHECK(memcmp(proof, other, len) == 0 && is_filled(proof + len, ROOM - len, 0xaa));
        /* falling, and each twice */
        for (size_t i = 0; i < count; i++)
            indexes[2 * count - 1 - i] = indexes[i];
        memset(proof, 0xaa, ROOM);
        CHECK(paxidore_tree_multi_path(proof, ROOM, &len, tree, DIGESTS, indexes, 2 * count) == PAXIDORE_OK && len == other_len);
        CHECK(memcmp(proof, other, len) == 0);
        memset(proof, 0xaa, ROOM);
        CHECK(paxidore_tree_multi_path(proof, len - 1, &len, tree, DIGESTS, indexes, count) == PAXIDORE_E_ROOM && len == other_len);
        CHECK(is_filled(proof, ROOM, 0xaa));
    }
    len = 7;
    CHECK(paxidore_tree_multi_path(proof, ROOM, &len, tree, DIGESTS, NULL, 0) == PAXIDORE_E_INDEX && len == 7);
    CHECK(paxidore_tree_multi_path(proof, ROOM, &len, tree, DIGESTS, past, 3) == PAXIDORE_E_INDEX && len == 7);
    CHECK(paxidore_tree_multi_path(proof, ROOM, &len, tree, DIGESTS, far, 1) == PAXIDORE_E_INDEX && len == 7);
    CHECK(paxidore_tree_multi_path(proof, ROOM, &len, tree, DIGESTS - 1, past, 1) == PAXIDORE_E_SIZE && len == 7);
    CHECK(paxidore_tree_multi_path(NULL, 0, &len, tree, DIGESTS, past, 1) == PAXIDORE_E_ROOM && len == 32 + 24 + 32 * 3);
    CHECK(is_filled(proof, ROOM, 0xaa));
    /* whatever memory holds, the same digests are copied */
    memset(tree, 0x55, 32 * DIGESTS);
    CHECK(paxidore_tree_multi_path(proof, ROOM, &len, tree, DIGESTS, past, 1) == PAXIDORE_OK && len == 32 + 24 + 32 * 3);
    CHECK(is_filled(proof + 8, 32, 0x55));
    free(tree);
    free(proof);
    free(other);
}

/* A tree in a file, at an odd place of the mapping. */
static void files(const struct hashing *h) {
    char name[] = "/tmp/paxidore-XXXXXX";
    int file = mkstemp(name);
    size_t bytes = PAXIDORE_TREEBYTES(SIZE);
    uint8_t root[32];
    CHECK(file >= 0 && ftruncate(file, (off_t)(bytes + 1)) == 0);
    uint8_t *map = mmap(NULL, bytes + 1, PROT_READ | PROT_WRITE, MAP_SHARED, file, 0);
    CHECK(map != MAP_FAILED);
    CHECK(paxidore_tree_build(map + 1, DIGESTS, h->number, LEAVES, LEAVES_LEN, LENGTHS, SIZE) == PAXIDORE_OK);
    CHECK(paxidore_tree_set(map + 1, DIGESTS, h->number, 5, LEAVES, 9) == PAXIDORE_OK && paxidore_tree_root(root, map + 1, DIGESTS) == PAXIDORE_OK);
    CHECK(munmap(map, bytes + 1) == 0);
    const uint8_t *again = mmap(NULL, bytes + 1, PROT_READ, MAP_SHARED, file, 0);
    CHECK(again != MAP_FAILED && again[0] == 0);
    CHECK(paxidore_tree_check(h->number, again + 1, DIGESTS) == PAXIDORE_OK && memcmp(root, again + 1, 32) == 0);
    CHECK(munmap((void *)(uintptr_t)again, bytes + 1) == 0 && close(file) == 0 && unlink(name) == 0);
}

int main(void) {
    const struct hashing *both[2] = {&sha256, &rfc6962};
    for (int i = 0; i < 2; i++) {
        builds(both[i]);
        sizes(both[i]);
        changes(both[i]);
        several(both[i]);
        multi_paths(both[i]);
        files(both[i]);
    }
    printf("%d passed, %d failed\n", passed, failed);
    return failed != 0;
}
