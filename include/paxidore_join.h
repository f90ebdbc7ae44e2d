/* Parts of a kept tree or a kept log that are hashed apart, as by threads, and joined. The rest of the library is in
 * paxidore.h, whose first comment says what holds of buffers, pointers and answers. These calls allocate nothing, and
 * hash only what stands above the parts. Lengths and rooms count digests, not bytes. */
#ifndef PAXIDORE_JOIN_H
#define PAXIDORE_JOIN_H

#include "paxidore.h"

#ifdef __cplusplus
extern "C" {
#endif

/* Writes the tree over all leaves of `parts_count` kept trees of `size` leaves each, which lie one behind the other:
 * the bytes that paxidore_tree_build writes for these leaves. `parts_len` is `parts_count` times
 * PAXIDORE_TREE_DIGESTS(size), `tree_len` is PAXIDORE_TREE_DIGESTS(parts_count * size), and `parts_count` a power of
 * two, which may be 1. Whatever the parts hold is copied: check parts of others. E_INVALID, E_SIZE for other counts. */
PAXIDORE_ANSWERS int32_t paxidore_tree_join(uint8_t *tree, size_t tree_len, uint32_t hashing,
    const uint8_t *parts, size_t parts_len, size_t parts_count);

/* Writes the digests to put behind the stored ones of a log of `size` entries for those of a part: `part` has the
 * stored digests of its `part_size` entries, as a log of their own has them. They are those that paxidore_log_append
 * writes for the entries: the part's, and at most 62 behind them. A power of two that is at least `part_size` has to
 * divide `size`, as it does 0: cut a log into parts of 2^k entries and a shorter last one, and join them in order.
 * E_SIZE, also for too few digests of either and for a new size of 2^63 or more, E_ROOM. */
PAXIDORE_ANSWERS PAXIDORE_NOT_NULL((3)) int32_t paxidore_log_join(uint8_t *more, size_t more_room, size_t *more_len,
    const uint8_t *kept, size_t kept_len, size_t size, const uint8_t *part, size_t part_len, size_t part_size);

#ifdef __cplusplus
}
#endif

#endif
