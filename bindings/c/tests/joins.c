/* Parts of kept trees and logs that are joined, against trees and logs that are built as a whole. It prints how many checks passed, and
 * ends with 1 where one failed. */
#include "paxidore_join.h"

#include <stdio.h>
#include <stdlib.h>
#include <string.h>

static int passed, failed;

static void check(int holds, const char *what, int line) {
    if (holds) {
        passed++;
    } else {
        failed++;
        fprintf(stderr, "joins.c:%d: %s\n", line, what);
    }
}
#define CHECK(holds) check((holds) != 0, #holds, __LINE__)

enum { MOST = 128, DIGESTS = 2 * MOST };

/* Leaves of 0 to 6 bytes, one behind the other. */
static uint8_t leaves[MOST * 6];
static size_t lengths[MOST], starts[MOST + 1];

static int is_filled(const uint8_t *bytes, size_t len, uint8_t with) {
    for (size_t i = 0; i < len; i++)
        if (bytes[i] != with)
            return 0;
    return 1;
}

static int32_t build(uint8_t *tree, uint32_t hashing, size_t first, size_t count) {
    return paxidore_tree_build(tree, 2 * count - 1, hashing, leaves + starts[first], starts[first + count] - starts[first],
        lengths + first, count);
}

/* Memory of so many digests on the heap, where a sanitizer sees each byte behind it that is written. */
static uint8_t *filled(size_t digests) {
    uint8_t *memory = malloc(32 * digests + 1);
    memset(memory, 0xee, 32 * digests + 1);
    return memory;
}

static void joined_trees(uint32_t hashing) {
    for (size_t size = 2; size <= MOST; size *= 2)
        for (size_t count = 1; count * size <= MOST; count *= 2) {
            size_t part_len = 2 * size - 1, tree_len = 2 * count * size - 1;
            uint8_t *whole = filled(tree_len), *parts = filled(count * part_len), *tree = filled(tree_len);
            CHECK(build(whole, hashing, 0, count * size) == PAXIDORE_OK);
            for (size_t part = 0; part < count; part++)
                CHECK(build(parts + 32 * part * part_len, hashing, part * size, size) == PAXIDORE_OK);
            CHECK(paxidore_tree_join(tree, tree_len, hashing, parts, count * part_len, count) == PAXIDORE_OK);
            CHECK(memcmp(tree, whole, 32 * tree_len) == 0);
            /* whatever the parts hold is copied, and hashed above */
            memset(parts, 0x11, 32 * count * part_len);
            CHECK(paxidore_tree_join(tree, tree_len, hashing, parts, count * part_len, count) == PAXIDORE_OK);
            CHECK(is_filled(tree + 32 * (count - 1), 32 * count * part_len, 0x11));
            CHECK(paxidore_tree_check(hashing, tree, tree_len) == PAXIDORE_NOT_SHOWN);
            free(whole), free(parts), free(tree);
        }
}

static void refused_trees(uint32_t hashing) {
    for (size_t parts_len = 0; parts_len <= 35; parts_len++)
        for (size_t tree_len = 0; tree_len <= 36; tree_len++)
            for (size_t count = 0; count <= 9; count++) {
                uint8_t *parts = filled(parts_len), *tree = filled(tree_len);
                size_t size = count ? (parts_len / count + 1) / 2 : 0;
                int good = size >= 2 && (size & (size - 1)) == 0 && (count & (count - 1)) == 0 &&
                    parts_len == count * (2 * size - 1) && tree_len == 2 * count * size - 1;
                int32_t answer = paxidore_tree_join(tree, tree_len, hashing, parts, parts_len, count);
                CHECK(answer == (good ? PAXIDORE_OK : PAXIDORE_E_SIZE));
                CHECK(good || is_filled(tree, 32 * tree_len, 0xee));
                free(parts), free(tree);
            }
    uint8_t parts[32 * 3], tree[32 * 3];
    memset(tree, 0xee, sizeof tree);
    CHECK(build(parts, hashing, 0, 2) == PAXIDORE_OK);
    CHECK(paxidore_tree_join(tree, 3, hashing, parts, 3, SIZE_MAX) == PAXIDORE_E_SIZE);
    CHECK(paxidore_tree_join(tree, 3, 0, parts, 3, 1) == PAXIDORE_E_INVALID);
    CHECK(paxidore_tree_join(tree, 4, 3, parts, 3, 1) == PAXIDORE_E_INVALID);
    CHECK(is_filled(tree, sizeof tree, 0xee));
    CHECK(paxidore_tree_join(tree, 3, hashing, parts, 3, 1) == PAXIDORE_OK && memcmp(tree, parts, sizeof tree) == 0);
}

static int32_t append(uint8_t *more, size_t room, size_t *more_len, const uint8_t *kept, size_t size, size_t count) {
    return paxidore_log_append(more, room, more_len, kept, paxidore_log_kept(size), size, leaves + starts[size],
        starts[size + count] - starts[size], lengths + size, count);
}

/* Whether a power of two that is at least the count divides the size. */
static int aligned(size_t size, size_t count) {
    size_t power = 1;
    while (power < count)
        power *= 2;
    return size % power == 0;
}

static void joined_logs(void) {
    for (size_t size = 0; size < MOST; size++) {
        uint8_t kept[32 * DIGESTS];
        size_t none, kept_len = paxidore_log_kept(size);
        CHECK(append(kept, DIGESTS, &none, NULL, 0, size) == PAXIDORE_OK);
        for (size_t count = 0; count <= 40 && size + count <= MOST; count++) {
            uint8_t part[32 * 80], wanted[32 * DIGESTS];
            size_t part_len, more_len = 77, wanted_len;
            CHECK(paxidore_log_append(part, 80, &part_len, NULL, 0, 0, leaves + starts[size], starts[size + count] - starts[size],
                      lengths + size, count) == PAXIDORE_OK);
            CHECK(append(wanted, DIGESTS, &wanted_len, kept, size, count) == PAXIDORE_OK);
            uint8_t *more = filled(wanted_len + 1);
            int32_t answer = paxidore_log_join(more, wanted_len + 1, &more_len, kept, kept_len, size, part, part_len, count);
            if (!aligned(size, count)) {
                CHECK(answer == PAXIDORE_E_SIZE && more_len == 77 && is_filled(more, 32 * (wanted_len + 1), 0xee));
                free(more);
                continue;
            }
            CHECK(answer == PAXIDORE_OK && more_len == wanted_len && memcmp(more, wanted, 32 * wanted_len) == 0);
            CHECK(is_filled(more + 32 * wanted_len, 32, 0xee));
            /* as much room as is needed, and less */
            free(more), more = filled(wanted_len), more_len = 77;
            CHECK(paxidore_log_join(more, wanted_len, &more_len, kept, kept_len, size, part, part_len, count) == PAXIDORE_OK);
            CHECK(more_len == wanted_len && memcmp(more, wanted, 32 * wanted_len) == 0);
            if (wanted_len) {
                memset(more, 0xee, 32 * wanted_len), more_len = 77;
                answer = paxidore_log_join(more, wanted_len - 1, &more_len, kept, kept_len, size, part, part_len, count);
                CHECK(answer == PAXIDORE_E_ROOM && more_len == wanted_len && is_filled(more, 32 * wanted_len, 0xee));
                more_len = 77;
                CHECK(paxidore_log_join(more, wanted_len, &more_len, kept, kept_len, size, part, part_len - 1, count) ==
                      PAXIDORE_E_SIZE);
                if (size)
                    CHECK(paxidore_log_join(more, wanted_len, &more_len, kept, kept_len - 1, size, part, part_len, count) ==
                          PAXIDORE_E_SIZE);
                CHECK(more_len == 77 && is_filled(more, 32 * wanted_len, 0xee));
            }
            /* a part that is no log's is copied */
            memset(part, 0x11, 32 * part_len);
            CHECK(paxidore_log_join(more, wanted_len, &more_len, kept, kept_len, size, part, part_len, count) == PAXIDORE_OK);
            CHECK(more_len == wanted_len && is_filled(more, 32 * part_len, 0x11));
            free(more);
        }
    }
}

/* Sizes for which nobody has the memory: nothing is read. */
static void large_sizes(void) {
    const size_t top = (size_t)1 << 63;
    uint8_t kept[32] = {0}, more[32];
    size_t more_len = 77;
    memset(more, 0xee, sizeof more);
    CHECK(paxidore_log_join(more, 1, &more_len, kept, 1, top, kept, 1, 1) == PAXIDORE_E_SIZE);
    CHECK(paxidore_log_join(more, 1, &more_len, kept, 1, 0, kept, 1, top) == PAXIDORE_E_SIZE);
    CHECK(paxidore_log_join(more, 1, &more_len, kept, 1, SIZE_MAX, kept, 1, SIZE_MAX) == PAXIDORE_E_SIZE);
    CHECK(paxidore_log_join(more, 1, &more_len, kept, 1, 0, kept, 1, top - 1) == PAXIDORE_E_SIZE);
    CHECK(more_len == 77 && is_filled(more, sizeof more, 0xee));
    CHECK(paxidore_log_join(NULL, 0, &more_len, NULL, 0, 0, NULL, 0, 0) == PAXIDORE_OK && more_len == 0);
}

int main(void) {
    for (size_t i = 0; i < sizeof leaves; i++)
        leaves[i] = (uint8_t)(i * i + i / 7);
    for (size_t i = 0; i < MOST; i++) {
        lengths[i] = i * 5 % 7;
        starts[i + 1] = starts[i] + lengths[i];
    }
    joined_trees(PAXIDORE_PLAIN);
    joined_trees(PAXIDORE_RFC6962);
    refused_trees(PAXIDORE_RFC6962);
    joined_logs();
    large_sizes();
    printf("%d checks passed, %d failed\n", passed, failed);
    return failed != 0;
}
