/* One proof of several entries of a log (over the trees of RFC 9162, section 2.1): the hashes of the largest subtrees
 * that hold none of them, from left to right, and no other byte. The rest of the library is in paxidore.h, whose first
 * comment says what holds of buffers, pointers and answers. */
#ifndef PAXIDORE_MULTI_INCLUSION_H
#define PAXIDORE_MULTI_INCLUSION_H

#include "paxidore.h"

#ifdef __cplusplus
extern "C" {
#endif

/* OK where the bytes of one proof show that each entry stands at its index of the log of `size` entries with this root:
 * then it does, or two different inputs with one SHA-256 are at hand. The entries are handed over as leaves are, and
 * the indexes rise. NOT_SHOWN, E_COUNT, E_INDEX also for no index and for one that does not rise, E_LENGTHS,
 * E_TRUNCATED and E_INVALID for fewer or more digests than a proof of these indexes and this size has, E_MEMORY. */
PAXIDORE_ANSWERS PAXIDORE_NOT_NULL((1)) int32_t paxidore_log_verify_multi_inclusion(const uint8_t root[32], size_t size,
    const size_t *indexes, size_t indexes_count, const uint8_t *entries, size_t entries_len,
    const size_t *lengths, size_t count, const uint8_t *proof, size_t proof_len);

/* Writes the bytes of the proof of some rising indexes in the first `size` entries of a log that is kept: at most as
 * many digests as their inclusion proofs have together. E_SIZE, E_INDEX as above, E_ROOM, E_MEMORY. */
PAXIDORE_ANSWERS PAXIDORE_NOT_NULL((3)) int32_t paxidore_log_multi_inclusion(
    uint8_t *proof, size_t proof_room, size_t *proof_len, const uint8_t *kept, size_t kept_len, size_t size,
    const size_t *indexes, size_t indexes_count);

#ifdef __cplusplus
}
#endif

#endif
