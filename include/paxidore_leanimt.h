/* Kept LeanIMTs whose elements are changed, as where members leave, and insertions of many elements, for whoever has
 * the root alone. The rest of the library is in paxidore.h, whose first comment says what holds of buffers, pointers
 * and answers, and whose part on LeanIMTs says what is kept. */
#ifndef PAXIDORE_LEANIMT_H
#define PAXIDORE_LEANIMT_H

#include "paxidore.h"

#ifdef __cplusplus
extern "C" {
#endif

/* Changes the element at `index` of a log of `size` elements: writes it to its place among the stored digests that are
 * kept, and the hashes of the complete subtrees over it, at most one a level. No other digest is written. The memory is
 * then what paxidore_poseidon_log_append makes of the changed elements, so that roots and paths of earlier sizes are
 * those of the changed ones too. Semaphore writes 0 for a member that leaves. `size` counts all elements of the log: a
 * smaller one leaves the subtrees that end behind it as they were. E_COUNT, E_SIZE for fewer digests than a log of this
 * size has stored, E_INDEX, E_INVALID for an element or a stored digest that is not below the modulus, E_MEMORY. */
PAXIDORE_ANSWERS PAXIDORE_NOT_NULL((7)) int32_t paxidore_poseidon_log_set(uint8_t *kept, size_t kept_len,
    const uint8_t *table, size_t table_len, size_t size, size_t index, const uint8_t element[32]);

/* Writes the bytes of the proof of an insertion behind the first `size` elements of a log that is kept, whatever is
 * inserted: the roots of the complete subtrees into which these elements fall, the largest first, as many as `size` has
 * ones. It hashes nothing. E_SIZE for fewer digests than a log of this size has stored and for no element, E_ROOM. */
PAXIDORE_ANSWERS PAXIDORE_NOT_NULL((3)) int32_t paxidore_poseidon_log_insertion(
    uint8_t *proof, size_t proof_room, size_t *proof_len, const uint8_t *kept, size_t kept_len, size_t size);

/* Writes to `new_root` the root of a log of `size` elements with `count` more behind them, by its root alone: what
 * Semaphore's insertMany comes to. OK: so it is for every list of so many with this root, or two different pairs with
 * one hash are at hand. NOT_SHOWN where the proof does not make the root, E_COUNT, E_SIZE for no element in the log, of
 * which paxidore_poseidon_root makes the first root, and for 2^63 and above together, E_INVALID for an element that is
 * not below the modulus, E_TRUNCATED and E_INVALID for bytes of fewer or more digests than `size` has ones, E_INVALID
 * for a digest that is not below the modulus, E_MEMORY. Each but OK leaves `new_root`. Know the size as you know the
 * root: under another size with as many ones the proof makes the root too, and `new_root` may be of no list. */
PAXIDORE_ANSWERS PAXIDORE_NOT_NULL((1, 4)) int32_t paxidore_poseidon_log_verify_insertion(uint8_t new_root[32],
    const uint8_t *table, size_t table_len, const uint8_t root[32], size_t size,
    const uint8_t *elements, size_t count, const uint8_t *proof, size_t proof_len);

#ifdef __cplusplus
}
#endif

#endif
