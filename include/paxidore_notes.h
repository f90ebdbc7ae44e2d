/* Signed checkpoints of transparency logs, and receipts of their entries. The rest of the library is in paxidore.h,
 * whose first comment says what holds of buffers, pointers and answers. These calls allocate.
 *
 * A log states its size and its root in a checkpoint, a text that it signs; witnesses sign it beside the log, each with
 * the time. Text and signatures are a note (C2SP signed-note, tlog-checkpoint, tlog-cosignature). A receipt is a file
 * with an index, a path and such a note (C2SP tlog-proof): it shows an entry to whoever has the entry and a policy. */
#ifndef PAXIDORE_NOTES_H
#define PAXIDORE_NOTES_H

#include "paxidore.h"

#ifdef __cplusplus
extern "C" {
#endif

/* ---- A policy says who has to sign. It is a text of lines: `log KEY`, `witness NAME KEY`, `group NAME K|all|any
 * MEMBER ..` and `quorum NAME|none` (sigsum's policy file), where KEY is NAME+HASH+BASE64. `log KEY` and `quorum none`
 * ask for the log alone. A key counts once, however often it is listed. A witness has to have signed at `since` or
 * later, in seconds since 1970; 0 takes any time. An empty `origin` is the name of the log's key. */
/* Writes the root and the size that a checkpoint states, which is of the origin, and signed as the policy asks.
 * E_POLICY, E_ORIGIN for an origin that is no text, E_INVALID for bytes that are no note, E_SIGNATURE, E_UNSIGNED,
 * E_INVALID for a text that is no checkpoint, E_ORIGIN, E_MEMORY. */
PAXIDORE_ANSWERS PAXIDORE_NOT_NULL((1, 2)) int32_t paxidore_checkpoint_open(uint8_t root[32], size_t *size,
    const uint8_t *policy, size_t policy_len, uint64_t since, const uint8_t *origin, size_t origin_len,
    const uint8_t *note, size_t note_len);

/* Writes the root, the size and the index that a receipt shows of an entry: in every log of this root and size the
 * entry stands at the index, or two different inputs with one SHA-256 are at hand. E_POLICY, E_ORIGIN for an origin
 * that is no text, E_INVALID for bytes that are no receipt, those of paxidore_checkpoint_open for its note, NOT_SHOWN,
 * E_MEMORY. */
PAXIDORE_ANSWERS PAXIDORE_NOT_NULL((1, 2, 3)) int32_t paxidore_receipt_open(uint8_t root[32], size_t *size,
    size_t *index, const uint8_t *policy, size_t policy_len, uint64_t since, const uint8_t *origin, size_t origin_len,
    const uint8_t *entry, size_t entry_len, const uint8_t *receipt, size_t receipt_len);

/* Writes the note of a checkpoint, signed by the Ed25519 key of a seed, under a name without spaces and plus signs.
 * E_INVALID for a name or an origin that is none, E_ROOM, E_MEMORY. */
PAXIDORE_ANSWERS PAXIDORE_NOT_NULL((3, 4, 9)) int32_t paxidore_checkpoint_sign(
    uint8_t *note, size_t note_room, size_t *note_len, const uint8_t seed[32], const uint8_t *name, size_t name_len,
    const uint8_t *origin, size_t origin_len, const uint8_t root[32], size_t size);

/* Writes the text of an Ed25519 key under a name, NAME+HASH+BASE64, as a policy has it. E_INVALID for a name that is
 * none, E_ROOM, E_MEMORY. */
PAXIDORE_ANSWERS PAXIDORE_NOT_NULL((3, 6)) int32_t paxidore_verifier_text(
    uint8_t *text, size_t text_room, size_t *text_len, const uint8_t *name, size_t name_len, const uint8_t key[32]);

#ifdef __cplusplus
}
#endif

#endif
