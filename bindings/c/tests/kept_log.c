/* Logs that are kept in the caller's memory, against the definitions of RFC 6962 (section 2.1). It prints how many checks passed, and
 * ends with 1 where one failed. */
#include "paxidore_multi_inclusion.h"

#include <stdio.h>
#include <stdlib.h>
#include <string.h>

static int passed, failed;

static void check(int holds, const char *what, int line) {
    if (holds) {
        passed++;
    } else {
        failed++;
        fprintf(stderr, "kept_log.c:%d: %s\n", line, what);
    }
}
#define CHECK(holds) check((holds) != 0, #holds, __LINE__)

enum { MOST = 70, STORED = 2 * MOST };

/* Entries of 0 to 129 bytes, one behind the other, and their digests. */
static uint8_t entries[MOST * 130];
static size_t lengths[MOST], starts[MOST + 1];
static uint8_t leaves[MOST][32];

static void leaf_of(uint8_t digest[32], const uint8_t *entry, size_t len) {
    uint8_t bytes[131] = {0};
    if (len)
        memcpy(bytes + 1, entry, len);
    paxidore_sha256(digest, bytes, 1 + len);
}

static void node_of(uint8_t digest[32], const uint8_t left[32], const uint8_t right[32]) {
    uint8_t bytes[65] = {1};
    memcpy(bytes + 1, left, 32);
    memcpy(bytes + 33, right, 32);
    paxidore_sha256(digest, bytes, 65);
}

static size_t split(size_t count) {
    size_t power = 1;
    while (2 * power < count)
        power *= 2;
    return power;
}

/* MTH(D[first:last]) */
static void mth(uint8_t root[32], size_t first, size_t last) {
    uint8_t left[32], right[32];
    if (first == last) {
        paxidore_sha256(root, NULL, 0);
    } else if (last - first == 1) {
        memcpy(root, leaves[first], 32);
    } else {
        size_t middle = first + split(last - first);
        mth(left, first, middle);
        mth(right, middle, last);
        node_of(root, left, right);
    }
}

/* PATH(index, D[first:last]), and how many digests it has. */
static size_t path_of(uint8_t *path, size_t index, size_t first, size_t last) {
    if (last - first == 1)
        return 0;
    size_t middle = first + split(last - first), count;
    if (index < middle) {
        count = path_of(path, index, first, middle);
        mth(path + 32 * count, middle, last);
    } else {
        count = path_of(path, index, middle, last);
        mth(path + 32 * count, first, middle);
    }
    return count + 1;
}

/* SUBPROOF(old - first, D[first:last], known), and how many digests it has. */
static size_t subproof(uint8_t *proof, size_t old, size_t first, size_t last, int known) {
    if (old == last) {
        if (known)
            return 0;
        mth(proof, first, last);
        return 1;
    }
    size_t middle = first + split(last - first), count;
    if (old <= middle) {
        count = subproof(proof, old, first, middle, known);
        mth(proof + 32 * count, middle, last);
    } else {
        count = subproof(proof, old, middle, last, 0);
        mth(proof + 32 * count, first, middle);
    }
    return count + 1;
}

/* The roots of the complete subtrees of the first entries, in the order in which they are completed, and how many there are. */
static size_t stored_of(uint8_t *stored, size_t size) {
    size_t count = 0;
    for (size_t last = 1; last <= size; last++)
        for (size_t width = 1; last % width == 0; width *= 2)
            mth(stored + 32 * count++, last - width, last);
    return count;
}

static int is_filled(const uint8_t *bytes, size_t len, uint8_t with) {
    for (size_t i = 0; i < len; i++)
        if (bytes[i] != with)
            return 0;
    return 1;
}

static uint8_t stored[32 * STORED];

static void appends(void) {
    uint8_t more[32 * STORED], kept[32 * STORED];
    for (size_t first = 0; first <= MOST; first++) {
        size_t before = stored_of(kept, first);
        CHECK(paxidore_log_kept(first) == before && memcmp(kept, stored, 32 * before) == 0);
        for (size_t last = first; last <= MOST; last += 1 + (last - first) / 3) {
            size_t count = last - first, needed = paxidore_log_kept(last) - before, len = 7;
            const uint8_t *bytes = entries + starts[first];
            size_t bytes_len = starts[last] - starts[first];
            memset(more, 0xaa, sizeof more);
            if (needed) {
                CHECK(paxidore_log_append(more, needed - 1, &len, kept, before, first, bytes, bytes_len, lengths + first,
                                          count) == PAXIDORE_E_ROOM);
                CHECK(len == needed);
            }
            len = 7;
            CHECK(paxidore_log_append(more, needed, &len, kept, before, first, bytes, bytes_len + 1, lengths + first,
                                      count) == PAXIDORE_E_LENGTHS);
            if (bytes_len)
                CHECK(paxidore_log_append(more, needed, &len, kept, before, first, bytes, bytes_len - 1, lengths + first,
                                          count) == PAXIDORE_E_LENGTHS);
            if (before)
                CHECK(paxidore_log_append(more, needed, &len, kept, before - 1, first, bytes, bytes_len, lengths + first,
                                          count) == PAXIDORE_E_SIZE);
            CHECK(len == 7 && is_filled(more, sizeof more, 0xaa));
            CHECK(paxidore_log_append(more, STORED, &len, kept, before, first, bytes, bytes_len, lengths + first, count) ==
                  PAXIDORE_OK);
            CHECK(len == needed && memcmp(more, stored + 32 * before, 32 * needed) == 0);
            CHECK(is_filled(more + 32 * needed, sizeof more - 32 * needed, 0xaa));
        }
    }
    size_t len = 7;
    const size_t one = 1;
    CHECK(paxidore_log_append(NULL, 0, &len, NULL, 0, 0, NULL, 0, NULL, 0) == PAXIDORE_OK && len == 0);
    CHECK(paxidore_log_append(NULL, 0, &len, NULL, 0, 0, NULL, 0, lengths, 1) == PAXIDORE_E_ROOM && len == 1);
    CHECK(paxidore_log_append(NULL, 0, &len, NULL, 0, SIZE_MAX, entries, 1, &one, 1) == PAXIDORE_E_SIZE);
    CHECK(paxidore_log_append(NULL, 0, &len, NULL, 0, (size_t)1 << 63, NULL, 0, NULL, 0) == PAXIDORE_E_SIZE);
    CHECK(paxidore_log_append(NULL, 0, &len, NULL, 0, ((size_t)1 << 63) - 1, NULL, 0, NULL, 0) == PAXIDORE_E_SIZE && len == 1);
    /* behind what is kept other digests may stand */
    memcpy(kept, stored, sizeof kept);
    CHECK(paxidore_log_append(more, STORED, &len, kept, STORED, 5, entries + starts[5], starts[9] - starts[5], lengths + 5, 4) ==
          PAXIDORE_OK);
    CHECK(len == 8 && memcmp(more, stored + 32 * 8, 32 * 8) == 0);
}

static void counts(void) {
    CHECK(paxidore_log_kept(0) == 0 && paxidore_log_kept(1) == 1 && paxidore_log_kept(2) == 3 && paxidore_log_kept(3) == 4);
    CHECK(paxidore_log_kept((size_t)1 << 62) == ((size_t)1 << 63) - 1);
    CHECK(paxidore_log_kept(SIZE_MAX >> 1) == SIZE_MAX - 1 - 63);
    CHECK(paxidore_log_kept((size_t)1 << 63) == 0 && paxidore_log_kept(SIZE_MAX) == 0);
}

static void roots_and_proofs(void) {
    uint8_t root[32], other[32], proof[PAXIDORE_LOG_PROOFBYTES_MAX], right[PAXIDORE_LOG_PROOFBYTES_MAX];
    for (size_t size = 0; size <= MOST; size++) {
        size_t kept_len = paxidore_log_kept(size), len, needed;
        mth(other, 0, size);
        CHECK(paxidore_log_root(root, stored, STORED, size) == PAXIDORE_OK && memcmp(root, other, 32) == 0);
        memset(root, 0xaa, 32);
        CHECK(paxidore_log_root(root, stored, kept_len, size) == PAXIDORE_OK && memcmp(root, other, 32) == 0);
        if (size) {
            memset(root, 0xaa, 32);
            CHECK(paxidore_log_root(root, stored, kept_len - 1, size) == PAXIDORE_E_SIZE && is_filled(root, 32, 0xaa));
            memcpy(root, other, 32);
        }
        for (size_t index = 0; index < size; index++) {
            needed = 32 * path_of(right, index, 0, size);
            len = 7;
            memset(proof, 0xaa, sizeof proof);
            CHECK(paxidore_log_inclusion(proof, needed, &len, stored, kept_len - 1, size, index) == PAXIDORE_E_SIZE && len == 7);
            if (needed) {
                CHECK(paxidore_log_inclusion(proof, needed - 1, &len, stored, kept_len, size, index) == PAXIDORE_E_ROOM);
                CHECK(len == needed && is_filled(proof, sizeof proof, 0xaa));
            }
            CHECK(paxidore_log_inclusion(proof, needed, &len, stored, kept_len, size, index) == PAXIDORE_OK);
            CHECK(len == needed && memcmp(proof, right, needed) == 0);
            CHECK(is_filled(proof + needed, sizeof proof - needed, 0xaa));
            CHECK(paxidore_log_verify_inclusion_digest(root, size, index, leaves[index], proof, len) == PAXIDORE_OK);
            CHECK(paxidore_log_verify_inclusion(root, size, index, entries + starts[index], lengths[index], proof, len) ==
                  PAXIDORE_OK);
            CHECK(paxidore_log_verify_inclusion_digest(root, size, index, other, proof, len) ==
                  (size == 1 ? PAXIDORE_OK : PAXIDORE_NOT_SHOWN));
            CHECK(paxidore_log_verify_inclusion_digest(root, size, size, leaves[index], proof, len) == PAXIDORE_E_INDEX);
            CHECK(paxidore_log_verify_inclusion_digest(root, size, index, leaves[index], proof, len + 1) == PAXIDORE_E_INVALID);
            if (len)
                CHECK(paxidore_log_verify_inclusion_digest(root, size, index, leaves[index], proof, len - 1) ==
                      PAXIDORE_E_TRUNCATED);
        }
        len = 7;
        CHECK(paxidore_log_inclusion(proof, sizeof proof, &len, stored, STORED, size, size) == PAXIDORE_E_INDEX && len == 7);
        CHECK(paxidore_log_consistency(proof, sizeof proof, &len, stored, STORED, 0, size) == PAXIDORE_E_SIZE && len == 7);
        CHECK(paxidore_log_consistency(proof, sizeof proof, &len, stored, STORED, size + 1, size) == PAXIDORE_E_SIZE && len == 7);
        for (size_t old = 1; old <= size; old++) {
            needed = 32 * subproof(right, old, 0, size, 1);
            len = 7;
            memset(proof, 0xaa, sizeof proof);
            CHECK(paxidore_log_consistency(proof, needed, &len, stored, kept_len - 1, old, size) == PAXIDORE_E_SIZE && len == 7);
            if (needed) {
                CHECK(paxidore_log_consistency(proof, needed - 1, &len, stored, kept_len, old, size) == PAXIDORE_E_ROOM);
                CHECK(len == needed && is_filled(proof, sizeof proof, 0xaa));
            }
            CHECK(paxidore_log_consistency(proof, needed, &len, stored, kept_len, old, size) == PAXIDORE_OK);
            CHECK(len == needed && memcmp(proof, right, needed) == 0);
            CHECK(is_filled(proof + needed, sizeof proof - needed, 0xaa));
            mth(other, 0, old);
            CHECK(paxidore_log_verify_consistency(other, old, root, size, proof, len) == PAXIDORE_OK);
        }
        CHECK(paxidore_log_check(stored, STORED, size) == PAXIDORE_OK);
        if (size)
            CHECK(paxidore_log_check(stored, kept_len - 1, size) == PAXIDORE_E_SIZE);
    }
    size_t len;
    CHECK(paxidore_log_root(root, NULL, 0, 0) == PAXIDORE_OK);
    CHECK(paxidore_log_root(root, stored, STORED, SIZE_MAX) == PAXIDORE_E_SIZE);
    CHECK(paxidore_log_check(NULL, 0, 0) == PAXIDORE_OK);
    CHECK(paxidore_log_check(stored, STORED, SIZE_MAX) == PAXIDORE_E_SIZE);
    CHECK(paxidore_log_inclusion(proof, sizeof proof, &len, stored, STORED, (size_t)1 << 63, 0) == PAXIDORE_E_SIZE);
    CHECK(paxidore_log_consistency(proof, sizeof proof, &len, stored, STORED, 1, SIZE_MAX) == PAXIDORE_E_SIZE);
}

/* The roots of the largest subtrees of D[first:last] that hold none of some rising indexes, and how many there are. */
static size_t around(uint8_t *proof, const size_t *indexes, size_t count, size_t first, size_t last) {
    if (!count) {
        mth(proof, first, last);
        return 1;
    }
    if (last - first == 1)
        return 0;
    size_t middle = first + split(last - first), before = 0, made;
    while (before < count && indexes[before] < middle)
        before++;
    made = around(proof, indexes, before, first, middle);
    return made + around(proof + 32 * made, indexes + before, count - before, middle, last);
}

/* One proof of the indexes whose bits are set. */
static void one_proof_of(size_t size, uint64_t set) {
    uint8_t root[32], proof[32 * (MOST + 1)], right[32 * (MOST + 1)], given[MOST * 130];
    size_t indexes[MOST], given_lengths[MOST], count = 0, given_len = 0, len = 7, kept_len = paxidore_log_kept(size);
    for (size_t index = 0; index < size; index++)
        if (set >> index % 64 & 1) {
            if (lengths[index])
                memcpy(given + given_len, entries + starts[index], lengths[index]);
            given_len += given_lengths[count] = lengths[index];
            indexes[count++] = index;
        }
    if (!count)
        return;
    size_t needed = 32 * around(right, indexes, count, 0, size);
    mth(root, 0, size);
    memset(proof, 0xaa, sizeof proof);
    CHECK(paxidore_log_multi_inclusion(proof, needed, &len, stored, kept_len - 1, size, indexes, count) == PAXIDORE_E_SIZE);
    CHECK(paxidore_log_multi_inclusion(proof, needed, &len, stored, kept_len, size, indexes, 0) == PAXIDORE_E_INDEX && len == 7);
    if (needed)
        CHECK(paxidore_log_multi_inclusion(proof, needed - 1, &len, stored, kept_len, size, indexes, count) == PAXIDORE_E_ROOM &&
              len == needed && is_filled(proof, sizeof proof, 0xaa));
    CHECK(paxidore_log_multi_inclusion(proof, needed, &len, stored, kept_len, size, indexes, count) == PAXIDORE_OK);
    CHECK(len == needed && memcmp(proof, right, needed) == 0 && is_filled(proof + needed, sizeof proof - needed, 0xaa));
#define SHOWN(root, size, count) \
    paxidore_log_verify_multi_inclusion(root, size, indexes, count, given, given_len, given_lengths, count, proof, len)
    CHECK(SHOWN(root, size, count) == PAXIDORE_OK);
    root[len % 32] ^= 1;
    CHECK(SHOWN(root, size, count) == PAXIDORE_NOT_SHOWN);
    root[len % 32] ^= 1;
    CHECK(SHOWN(root, indexes[count - 1], count) == PAXIDORE_E_INDEX && SHOWN(root, 0, count) == PAXIDORE_E_INDEX);
    CHECK(paxidore_log_verify_multi_inclusion(root, size, indexes, count, given, given_len, given_lengths, count - 1, proof, len) ==
          PAXIDORE_E_COUNT);
    CHECK(paxidore_log_verify_multi_inclusion(root, size, indexes, 0, given, 0, given_lengths, 0, proof, len) == PAXIDORE_E_INDEX);
    len++;
    CHECK(SHOWN(root, size, count) == PAXIDORE_E_INVALID);
    len--;
    given_len++;
    CHECK(SHOWN(root, size, count) == PAXIDORE_E_LENGTHS);
    given_len--;
    if (needed) {
        len--;
        CHECK(SHOWN(root, size, count) == PAXIDORE_E_TRUNCATED);
        len++;
        proof[needed / 2] ^= 4;
        CHECK(SHOWN(root, size, count) == PAXIDORE_NOT_SHOWN);
        proof[needed / 2] ^= 4;
    }
    if (given_len) {
        given[given_len / 2] ^= 32;
        CHECK(SHOWN(root, size, count) == PAXIDORE_NOT_SHOWN);
        given[given_len / 2] ^= 32;
    }
    if (count > 1) {
        indexes[1] = indexes[0];
        CHECK(SHOWN(root, size, count) == PAXIDORE_E_INDEX);
        len = 7;
        CHECK(paxidore_log_multi_inclusion(proof, sizeof proof, &len, stored, STORED, size, indexes, count) == PAXIDORE_E_INDEX);
        CHECK(len == 7);
    }
#undef SHOWN
}

static void multi_proofs(void) {
    uint64_t state = 9162;
    for (size_t size = 1; size <= 9; size++)
        for (uint64_t set = 1; set < (uint64_t)1 << size; set++)
            one_proof_of(size, set);
    for (size_t size = 10; size <= MOST; size++)
        for (int turn = 0; turn < 12; turn++) {
            uint64_t set = 0;
            for (int words = 0; words <= turn % 4; words++) {
                state ^= state << 13, state ^= state >> 7, state ^= state << 17;
                set = words ? set & state : state;
            }
            one_proof_of(size, set);
        }
}

static void damages(void) {
    uint8_t kept[32 * STORED], root[32], proof[PAXIDORE_LOG_PROOFBYTES_MAX];
    for (size_t size = 0; size <= MOST; size++) {
        size_t count = paxidore_log_kept(size), len;
        memcpy(kept, stored, sizeof kept);
        for (size_t place = 0; place < count; place++) {
            kept[32 * place + place % 32] ^= (uint8_t)(1 << place % 8);
            /* the last leaf of an odd number is in no pair */
            int alone = size % 2 == 1 && place == count - 1;
            CHECK(paxidore_log_check(kept, count, size) == (alone ? PAXIDORE_OK : PAXIDORE_NOT_SHOWN));
            kept[32 * place + place % 32] ^= (uint8_t)(1 << place % 8);
        }
        /* whatever is kept, each call answers */
        memset(kept, 0x55, sizeof kept);
        CHECK(paxidore_log_root(root, kept, count, size) == PAXIDORE_OK);
        for (size_t index = 0; index < size; index++) {
            CHECK(paxidore_log_inclusion(proof, sizeof proof, &len, kept, count, size, index) == PAXIDORE_OK && len % 32 == 0);
            CHECK(paxidore_log_consistency(proof, sizeof proof, &len, kept, count, index + 1, size) == PAXIDORE_OK);
            CHECK(paxidore_log_multi_inclusion(proof, sizeof proof, &len, kept, count, size, &index, 1) == PAXIDORE_OK);
        }
    }
}

int main(void) {
    for (size_t i = 0; i < MOST; i++) {
        lengths[i] = i * 53 % 130;
        starts[i + 1] = starts[i] + lengths[i];
        for (size_t at = starts[i]; at < starts[i + 1]; at++)
            entries[at] = (uint8_t)(at * 31 + i);
        leaf_of(leaves[i], entries + starts[i], lengths[i]);
    }
    stored_of(stored, MOST);
    counts();
    appends();
    roots_and_proofs();
    multi_proofs();
    damages();
    printf("%d passed, %d failed\n", passed, failed);
    return failed != 0;
}
