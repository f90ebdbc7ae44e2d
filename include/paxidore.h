/* Paxidore: Merkle trees, transparency logs, maps, transcripts, hashes, commitments and signatures.
 *
 * The code behind these calls is proved. No call keeps memory or a pointer, and each may run in any thread at any time.
 * The calls of trees, logs, maps, transcripts and Poseidon allocate by the process's malloc, realloc and free: do not
 * call them in a signal handler, nor in the child of a process with threads between fork and exec. To NULL of malloc
 * they answer E_MEMORY. Those of kept trees but _multi_path, of hashes, commitments and Ed25519 allocate nothing.
 *
 * size_t has 64 bits. Only inputs may overlap. A pointer to a first byte or number is not NULL and may be read, or
 * written where it is not const, for its length; with length 0 it is not looked at and may be NULL. `x`, `x_room`,
 * `x_len` are a buffer, its room, and where the count of what was written to its front goes: where the room is too
 * short the answer is E_ROOM, and the count that is needed goes there.
 *
 * Arguments have one order: what is written; what is changed; the hashing, the field and its parameters, or the byte
 * order and the table; the root, or what is kept, and the size, old before new; the place; what is there; the proof. */
#ifndef PAXIDORE_H
#define PAXIDORE_H

#include <stddef.h>
#include <stdint.h>

#if SIZE_MAX != 0xffffffffffffffff
#error "size_t has not 64 bits"
#endif

#ifdef __cplusplus
extern "C" {
#endif

#define PAXIDORE_VERSION_STRING "1.0.0"
#define PAXIDORE_VERSION_MAJOR 1
#define PAXIDORE_VERSION_MINOR 0
#define PAXIDORE_VERSION_PATCH 0

/* Roots, digests, commitments, and the digests in proofs. */
#define PAXIDORE_DIGESTBYTES 32U

/* For a compiler that has words for it: the answer is to be looked at; these pointers are not NULL. */
#if defined(__GNUC__)
#define PAXIDORE_ANSWERS __attribute__((warn_unused_result))
#define PAXIDORE_NOT_NULL(places) __attribute__((nonnull places))
#else
#define PAXIDORE_ANSWERS
#define PAXIDORE_NOT_NULL(places)
#endif

/* What a call answers, in comments without PAXIDORE_. Only 0 is a yes. After another answer each buffer is as it was.
 * Of several refusals it is the first that the call's comment names; E_MEMORY may come in place of any. */
enum paxidore_answer {
    PAXIDORE_OK = 0,           /* shown, or done */
    PAXIDORE_NOT_SHOWN = 1,    /* a proof or a tree was read, and it does not lead to the root; or a map has nothing */
    PAXIDORE_E_MEMORY = -1,    /* a request for memory was refused */
    PAXIDORE_E_TRUNCATED = -2, /* the bytes of the proof end early */
    PAXIDORE_E_INVALID = -3,   /* the bytes are no proof for these indexes: of others, not canonical, or with more
                                * behind; or a number names no hashing, or no field */
    PAXIDORE_E_HEIGHT = -4,    /* the proof is for a tree of another size */
    PAXIDORE_E_SIZE = -5,      /* no tree has so many leaves, but 2, 4, 8, 16 .. of them, or so many digests; no log has
                                * one of the sizes, or the old one is above the new one; or too few are kept */
    PAXIDORE_E_LENGTHS = -6,   /* the lengths of the leaves do not sum to that of their bytes */
    PAXIDORE_E_COUNT = -7,     /* not as many leaves as indexes; or more values than keys; or no hash takes so many */
    PAXIDORE_E_INDEX = -8,     /* an index is not below the count of leaves, or there is none; or keys do not rise */
    PAXIDORE_E_ROOM = -9,      /* a buffer is too short, and what is needed was written */
    PAXIDORE_E_MORE = -10,     /* pieces of the file of a log are to be read first, and their places were written */
    PAXIDORE_E_NO_LOG = -11,   /* the file is no log's */
    PAXIDORE_E_SHORT = -12,    /* the file of a log ends before the digests of the log's size */
    PAXIDORE_E_HEAD = -13,     /* under the title of a log's file neither slot is whole; or its first sector is lost */
    PAXIDORE_E_DAMAGED = -14,  /* a log's file has a digest that was not stored, or another root; memory holds no map */
    PAXIDORE_E_HIDDEN = -15,   /* the tree of a map hides what the call needs */
    PAXIDORE_E_POLICY = -16,   /* as the next three of paxidore_notes.h: the text is no policy */
    PAXIDORE_E_SIGNATURE = -17, /* a signature that names a key is none by it */
    PAXIDORE_E_UNSIGNED = -18, /* a checkpoint lacks signatures that are asked for */
    PAXIDORE_E_ORIGIN = -19    /* a checkpoint is of another origin, or the one that is asked for is no text */
};

/* A few words on an answer, for people. Never NULL. */
const char *paxidore_strerror(int32_t answer);

/* PAXIDORE_VERSION_STRING of the library that is linked. */
const char *paxidore_version(void);

/* The level of processor for which the code that runs was built: "x86-64-v3" where the processor has all of it and the
 * system saves its registers, else "x86-64-v2", also where PAXIDORE_CPU=x86-64-v2 stands in the environment as the
 * library is loaded. The answers are the same. A library of one build tells its own, such as "aarch64". Never NULL. */
const char *paxidore_cpu(void);

/* ---- Trees of leaves that are handed over, in the hashing that a number names. E_INVALID says of a call with another
 * number that it names none, before anything else is looked at.
 *
 * Leaves are handed over one behind the other, with the length of each: `leaves_len` is the sum of the `count` lengths.
 * In the plain hashing a pair can be taken for a leaf of 64 bytes: take that of RFC 6962 for strangers' leaves. */
/* How trees are hashed (RFC 6962, section 2.1, and plainly). No other number names a hashing. */
enum paxidore_hashing {
    PAXIDORE_PLAIN = 1,  /* SHA-256 of a leaf, and of left followed by right */
    PAXIDORE_RFC6962 = 2 /* as transparency logs do: a zero byte stands before a leaf, a one byte before a pair */
};

/* The canonical bytes of a path in a tree of 2^log2_of_size leaves, and of the longest path there is. */
#define PAXIDORE_PATHBYTES(log2_of_size) (16U + 32U * (size_t)(log2_of_size))
#define PAXIDORE_PATHBYTES_MAX PAXIDORE_PATHBYTES(63U)

/* A multi-proof of some indexes in such a tree has no more. */
#define PAXIDORE_MULTIPATHBYTES_MAX(indexes_count, log2_of_size) \
    (32U + (24U + 32U * (size_t)(log2_of_size)) * (size_t)(indexes_count))

/* OK where the bytes of a path show that `leaf` stands at `index` in the tree of `size` leaves with this root: then it
 * does, or two different inputs with one SHA-256 are at hand. Bytes of another path, of another tree, or with anything
 * behind them are refused. NOT_SHOWN, E_INVALID, E_SIZE, E_INDEX, E_TRUNCATED, E_HEIGHT, E_MEMORY. */
PAXIDORE_ANSWERS PAXIDORE_NOT_NULL((2)) int32_t paxidore_verify(uint32_t hashing, const uint8_t root[32], size_t size,
    size_t index, const uint8_t *leaf, size_t leaf_len, const uint8_t *path, size_t path_len);

/* The same of several leaves, one for each index; the indexes rise. Also E_COUNT, E_LENGTHS, before E_INDEX. */
PAXIDORE_ANSWERS PAXIDORE_NOT_NULL((2)) int32_t paxidore_multi_verify(uint32_t hashing, const uint8_t root[32],
    size_t size, const size_t *indexes, size_t indexes_count, const uint8_t *leaves, size_t leaves_len,
    const size_t *lengths, size_t count, const uint8_t *proof, size_t proof_len);

/* Writes the root of the tree above the leaves. E_INVALID, E_SIZE, E_LENGTHS, E_MEMORY. */
PAXIDORE_ANSWERS PAXIDORE_NOT_NULL((1)) int32_t paxidore_root(uint8_t root[32], uint32_t hashing,
    const uint8_t *leaves, size_t leaves_len, const size_t *lengths, size_t count);

/* Writes the path of `index` there, PAXIDORE_PATHBYTES. E_INVALID, E_SIZE, E_LENGTHS, E_INDEX, E_ROOM, E_MEMORY. */
PAXIDORE_ANSWERS PAXIDORE_NOT_NULL((3)) int32_t paxidore_path(uint8_t *path, size_t path_room, size_t *path_len,
    uint32_t hashing, const uint8_t *leaves, size_t leaves_len, const size_t *lengths, size_t count, size_t index);

/* Writes the bytes of the multi-proof of some indexes, in any order: it shows them rising and each once. As above. */
PAXIDORE_ANSWERS PAXIDORE_NOT_NULL((3)) int32_t paxidore_multi_path(
    uint8_t *proof, size_t proof_room, size_t *proof_len, uint32_t hashing, const uint8_t *leaves, size_t leaves_len,
    const size_t *lengths, size_t count, const size_t *indexes, size_t indexes_count);

/* ---- Trees that are kept: their digests lie in memory of the caller's, which may be a mapped file. A path is copied
 * out of it, a changed leaf writes the digests above it.
 *
 * A tree of `size` leaves is `tree_len` = PAXIDORE_TREE_DIGESTS(size) digests, one behind the other, at any alignment:
 * the root first, then the two below it, and so on, the digests of the leaves last. The two below the digest at place i
 * stand at 2 i + 1 and 2 i + 2; the digest of leaf j stands at size - 1 + j. Name the hashing that it was built in:
 * memory does not. E_INVALID where the number names none, E_SIZE where no tree has `tree_len` digests.
 *
 * While a call that writes runs, no other may read or write the same memory. A crash in it leaves a digest that is not
 * the hash of the two below it: paxidore_tree_check finds it and paxidore_tree_rebuild mends it. Where memory holds no
 * tree the calls take whatever digests are there: check memory of others, and keep the root elsewhere. */
/* The digests of a kept tree of so many leaves, and their bytes. */
#define PAXIDORE_TREE_DIGESTS(size) (2U * (size_t)(size) - 1U)
#define PAXIDORE_TREEBYTES(size) (PAXIDORE_DIGESTBYTES * PAXIDORE_TREE_DIGESTS(size))

/* Writes the tree above the leaves: first the digest of each leaf, from the first on, then the digests above them, from
 * the lowest up. E_INVALID, E_SIZE also where the tree has not `tree_len` digests, E_LENGTHS. */
PAXIDORE_ANSWERS int32_t paxidore_tree_build(uint8_t *tree, size_t tree_len, uint32_t hashing,
    const uint8_t *leaves, size_t leaves_len, const size_t *lengths, size_t count);

/* Writes the digests above the last `size` ones, those of the leaves, from the lowest up. E_INVALID, E_SIZE. */
PAXIDORE_ANSWERS int32_t paxidore_tree_rebuild(uint8_t *tree, size_t tree_len, uint32_t hashing);

/* Changes the leaf at `index`: writes its digest, then each above it as the hash of the two below it, the root last,
 * and no other byte. If memory held a tree, it then holds that of the changed leaves. E_INVALID, E_SIZE, E_INDEX. */
PAXIDORE_ANSWERS int32_t paxidore_tree_set(uint8_t *tree, size_t tree_len, uint32_t hashing, size_t index,
    const uint8_t *leaf, size_t leaf_len);

/* The same of several leaves, so that the last of an index counts; level by level. Where the indexes rise, each digest
 * is hashed once. E_INVALID, E_SIZE, E_COUNT, E_LENGTHS, E_INDEX also for none. */
PAXIDORE_ANSWERS int32_t paxidore_tree_set_many(uint8_t *tree, size_t tree_len, uint32_t hashing, const size_t *indexes,
    size_t indexes_count, const uint8_t *leaves, size_t leaves_len, const size_t *lengths, size_t count);

/* Writes the first digest of the memory, the root of a tree. E_SIZE. */
PAXIDORE_ANSWERS PAXIDORE_NOT_NULL((1)) int32_t paxidore_tree_root(uint8_t root[32],
    const uint8_t *tree, size_t tree_len);

/* Writes the bytes of the path of `index`, as paxidore_path. E_SIZE, E_INDEX, E_ROOM. */
PAXIDORE_ANSWERS PAXIDORE_NOT_NULL((3)) int32_t paxidore_tree_path(uint8_t *path, size_t path_room, size_t *path_len,
    const uint8_t *tree, size_t tree_len, size_t index);

/* The same of some indexes, in any order, as paxidore_multi_path. E_SIZE, E_INDEX also for none, E_MEMORY, E_ROOM. */
PAXIDORE_ANSWERS PAXIDORE_NOT_NULL((3)) int32_t paxidore_tree_multi_path( uint8_t *proof, size_t proof_room,
    size_t *proof_len, const uint8_t *tree, size_t tree_len, const size_t *indexes, size_t indexes_count);

/* OK where each digest above the leaves' is the hash of the two below it, else NOT_SHOWN. E_INVALID, E_SIZE. */
PAXIDORE_ANSWERS int32_t paxidore_tree_check(uint32_t hashing, const uint8_t *tree, size_t tree_len);

/* ---- Clients of a transparency log of any size (RFC 6962 and RFC 9162, section 2.1), which hashes as the trees above.
 * A log publishes its root and its size. Its proofs are their digests alone, in the order of the standard. */
/* No inclusion proof and no consistency proof of a log has more bytes. */
#define PAXIDORE_LOG_PATHBYTES_MAX (63U * 32U)
#define PAXIDORE_LOG_PROOFBYTES_MAX (64U * 32U)

/* OK where the bytes of an inclusion proof show that `entry` stands at `index` in the log of `size` entries with this
 * root: then it does, or two different inputs with one SHA-256 are at hand. NOT_SHOWN, E_INDEX, E_TRUNCATED and
 * E_INVALID for fewer or more digests than a proof of this index and size has, E_MEMORY. */
PAXIDORE_ANSWERS PAXIDORE_NOT_NULL((1)) int32_t paxidore_log_verify_inclusion(const uint8_t root[32], size_t size,
    size_t index, const uint8_t *entry, size_t entry_len, const uint8_t *path, size_t path_len);

/* The same of an entry that is known by its digest: the SHA-256 of a zero byte and the entry. */
PAXIDORE_ANSWERS PAXIDORE_NOT_NULL((1, 4)) int32_t paxidore_log_verify_inclusion_digest(const uint8_t root[32],
    size_t size, size_t index, const uint8_t digest[32], const uint8_t *path, size_t path_len);

/* OK where the bytes of a consistency proof show that the log with the new root and size continues the one with the old
 * root and size: then each list of the new size and root begins with each list of the old ones, or two different inputs
 * with one SHA-256 are at hand. Of equal sizes the proof has no bytes and the roots are to be equal. NOT_SHOWN, E_SIZE
 * for the old size 0 and for one above the new size, E_TRUNCATED, E_INVALID, E_MEMORY. */
PAXIDORE_ANSWERS PAXIDORE_NOT_NULL((1, 3)) int32_t paxidore_log_verify_consistency(const uint8_t old_root[32],
    size_t old_size, const uint8_t new_root[32], size_t new_size, const uint8_t *proof, size_t proof_len);

/* ---- Keepers of a transparency log of any size. What is kept are the stored digests: of each complete subtree of 2^k
 * entries the root, in the order in which the subtrees are completed. What is stored is never written again, so it can
 * lie in a mapped file. `kept_len` and `more_room` count digests, not bytes. A call looks at the stored digests of the
 * size that is asked about, below 2^63, and takes others than a log's: paxidore_log_check tells. */
/* How many digests a log of so many entries has stored, 2 n less the count of ones of n; 0 for a size of 2^63 and
 * above. It allocates nothing, nor do paxidore_log_root and paxidore_log_check. */
size_t paxidore_log_kept(size_t size);

/* Writes the digests to put behind the stored ones of a log of `size` entries for `count` entries more, at most 2 *
 * count + 62. The entries are handed over as leaves are. Where the answer is E_ROOM nothing is hashed. E_SIZE for too
 * few digests and for a new size of 2^63 or more, E_ROOM, E_LENGTHS, E_MEMORY. */
PAXIDORE_ANSWERS PAXIDORE_NOT_NULL((3)) int32_t paxidore_log_append(uint8_t *more, size_t more_room, size_t *more_len,
    const uint8_t *kept, size_t kept_len, size_t size, const uint8_t *entries, size_t entries_len,
    const size_t *lengths, size_t count);

/* Writes the root of the first `size` entries; of none it is the SHA-256 of nothing. E_SIZE for too few digests. */
PAXIDORE_ANSWERS PAXIDORE_NOT_NULL((1)) int32_t paxidore_log_root(uint8_t root[32],
    const uint8_t *kept, size_t kept_len, size_t size);

/* Writes the bytes of the inclusion proof of `index` in the first `size` entries. E_SIZE, E_INDEX, E_ROOM. */
PAXIDORE_ANSWERS PAXIDORE_NOT_NULL((3)) int32_t paxidore_log_inclusion(
    uint8_t *path, size_t path_room, size_t *path_len, const uint8_t *kept, size_t kept_len, size_t size, size_t index);

/* Writes the bytes of the proof that the first `size` entries continue the first `old_size` ones; of equal sizes there
 * are none. E_SIZE, also for the old size 0 and for one above the size, E_ROOM. */
PAXIDORE_ANSWERS PAXIDORE_NOT_NULL((3)) int32_t paxidore_log_consistency( uint8_t *proof, size_t proof_room,
    size_t *proof_len, const uint8_t *kept, size_t kept_len, size_t old_size, size_t size);

/* OK where each stored digest of two others is their hash: they are a log's. Else NOT_SHOWN. All are hashed. E_SIZE. */
PAXIDORE_ANSWERS int32_t paxidore_log_check(const uint8_t *kept, size_t kept_len, size_t size);

/* ---- Logs in files of the caller's. No call reads or writes a file: the calls say what is to be read and written.
 * C.md and paxidore(3) say more, FORMATS.md what the file has. Lock the file before anything is read.
 * Begin with no piece. After E_MORE read the pieces that were put behind the others, put their bytes behind those of
 * the others, and make the same call again: three times at most. Write a step, sync the file, and only then go on; one
 * of no bytes is a sync alone. Whatever stops this, the file has the log as it was or with the entries.
 *
 * The answers of each, in this order: E_ROOM where the pieces have no room; E_LENGTHS where they have not as many bytes
 * as their places say; E_MORE; then its own. E_DAMAGED says that the digests do not lead to the root that the head
 * states, or that a proof of them does not hold; a head of an earlier version states none. */
#define PAXIDORE_LOG_PIECES_MAX 384U /* no call has more */
#define PAXIDORE_LOG_STEPS_MAX 8U
typedef struct paxidore_piece { size_t at, len; } paxidore_piece; /* some bytes of a file: where, and how many */

/* What was read of a file, or is to be read: pieces, and the bytes of them one behind the other. No pointer is NULL. */
typedef struct paxidore_log_pieces {
    paxidore_piece *places;
    size_t places_room, places_len;
    const uint8_t *bytes;
    size_t bytes_len, file_len;
} paxidore_log_pieces;

/* What is to be written: the places of steps, and the bytes of them one behind the other. No pointer is NULL. */
typedef struct paxidore_log_steps {
    paxidore_piece *places;
    size_t places_room, places_len;
    uint8_t *bytes;
    size_t bytes_room, bytes_len;
} paxidore_log_steps;

/* How many bytes are enough for what is to be written to make a file, and for so many entries. It allocates nothing. */
size_t paxidore_log_file_room(size_t count);

/* What is to be done before a file is appended to, each time that it is opened: one of no bytes, or of a part of a new
 * log's head, gets that head (sync its folder too), one that lost a sector that, else its own head. E_HEAD, E_ROOM. */
PAXIDORE_ANSWERS PAXIDORE_NOT_NULL((1, 2)) int32_t paxidore_log_file_make(
    paxidore_log_steps *steps, paxidore_log_pieces *pieces);

/* Writes how many entries there are. E_NO_LOG, E_HEAD, E_SHORT. */
PAXIDORE_ANSWERS PAXIDORE_NOT_NULL((1, 2)) int32_t paxidore_log_file_size(size_t *size, paxidore_log_pieces *pieces);

/* What is to be written for more entries, handed over as leaves, if any; and the new size. E_LENGTHS, E_NO_LOG,
 * E_HEAD, E_SHORT, E_DAMAGED, E_SIZE for a new size of 2^63 or more, E_MEMORY, E_ROOM for `steps`. */
PAXIDORE_ANSWERS PAXIDORE_NOT_NULL((1, 2, 3)) int32_t paxidore_log_file_append( paxidore_log_steps *steps, size_t *size,
    paxidore_log_pieces *pieces, const uint8_t *entries, size_t entries_len, const size_t *lengths, size_t count);

/* Writes the root of the first `size` entries. E_NO_LOG, E_HEAD, E_SHORT, E_DAMAGED, E_SIZE for more than there are. */
PAXIDORE_ANSWERS PAXIDORE_NOT_NULL((1, 2)) int32_t paxidore_log_file_root(uint8_t root[32],
    paxidore_log_pieces *pieces, size_t size);

/* As paxidore_log_inclusion. E_NO_LOG, E_HEAD, E_SHORT, E_DAMAGED, E_SIZE, E_INDEX, E_DAMAGED, E_ROOM, E_MEMORY. */
PAXIDORE_ANSWERS PAXIDORE_NOT_NULL((3, 4)) int32_t paxidore_log_file_inclusion(
    uint8_t *path, size_t path_room, size_t *path_len, paxidore_log_pieces *pieces, size_t size, size_t index);

/* As paxidore_log_consistency. E_NO_LOG, E_HEAD, E_SHORT, E_DAMAGED, E_SIZE, E_DAMAGED, E_ROOM, E_MEMORY. */
PAXIDORE_ANSWERS PAXIDORE_NOT_NULL((3, 4)) int32_t paxidore_log_file_consistency(
    uint8_t *proof, size_t proof_room, size_t *proof_len, paxidore_log_pieces *pieces, size_t old_size, size_t size);

/* As paxidore_log_check, of the log whose file has these bytes, all of them. E_NO_LOG, E_HEAD, E_SHORT. */
PAXIDORE_ANSWERS int32_t paxidore_log_file_check(const uint8_t *file, size_t file_len);

/* ---- Maps: one root for keys of 32 bytes with values of 32 bytes, whatever the order of changes, and proofs of what a
 * map has at a key and of what it has not. Hash other values first. Keys should be hashes: whoever chooses keys can
 * make a neighbour's proof longer. The first bit of a key is the highest of its first byte.
 *
 * A tree is the bytes of a map's tree, of which parts may be hidden: byte 0 is an entry, with key and value behind it;
 * 1 a fork, with the tree of the entries whose next bit is 0 and that of the others behind it; 2 nothing; 3 a hidden
 * tree, with its digest. The digest of nothing is the SHA-256 of no bytes, that of an entry of a zero byte, key and
 * value, that of a fork of a one byte and both digests. E_TRUNCATED, E_INVALID: the bytes are no tree, or no proof. */
/* No proof of one key of a map has more bytes; a row of a map's store has so many. */
#define PAXIDORE_MAP_PROOFBYTES_MAX (3U + 64U + 32U + 256U * 32U)
#define PAXIDORE_MAP_ROWBYTES 97U

/* OK where a proof shows that the map with this root has the value at the key: then every map with this root has it, or
 * two different nodes with one SHA-256 are at hand. NOT_SHOWN, E_TRUNCATED, E_INVALID, E_MEMORY. */
PAXIDORE_ANSWERS PAXIDORE_NOT_NULL((1, 2, 3)) int32_t paxidore_map_verify(const uint8_t root[32], const uint8_t key[32],
    const uint8_t value[32], const uint8_t *proof, size_t proof_len);

/* The same of nothing at the key. */
PAXIDORE_ANSWERS PAXIDORE_NOT_NULL((1, 2)) int32_t paxidore_map_verify_absent(const uint8_t root[32],
    const uint8_t key[32], const uint8_t *proof, size_t proof_len);

/* Writes the root of the maps that a tree shows: its digest. E_TRUNCATED, E_INVALID, E_MEMORY. */
PAXIDORE_ANSWERS PAXIDORE_NOT_NULL((1)) int32_t paxidore_map_root(uint8_t root[32],
    const uint8_t *tree, size_t tree_len);

/* Writes the proof under its root of what a tree has at a key. E_TRUNCATED, E_INVALID, E_HIDDEN, E_ROOM, E_MEMORY. */
PAXIDORE_ANSWERS PAXIDORE_NOT_NULL((3, 6)) int32_t paxidore_map_prove(
    uint8_t *proof, size_t proof_room, size_t *proof_len, const uint8_t *tree, size_t tree_len, const uint8_t key[32]);

/* Makes changes of the map with the root `root`, of which `tree` shows what they need: the first `values_count` keys
 * get the values, in turn, and the keys behind them are removed. Writes the root after the changes, and a row of
 * PAXIDORE_MAP_ROWBYTES for each entry and each fork of the new tree that is not hidden: its digest, and the 65 bytes
 * that this is of. A store is to have those nodes, and no longer those of `tree` that are not among them. `rows_room`
 * and `rows_len` count bytes. Each map with the old root has the new one after the changes, or two different nodes with
 * one SHA-256 are at hand: a client checks a keeper so. E_COUNT for more values than keys, E_TRUNCATED, E_INVALID,
 * NOT_SHOWN where the tree has another root, E_HIDDEN, E_ROOM, E_MEMORY. */
PAXIDORE_ANSWERS PAXIDORE_NOT_NULL((1, 4, 5)) int32_t paxidore_map_change(uint8_t new_root[32],
    uint8_t *rows, size_t rows_room, size_t *rows_len, const uint8_t root[32], const uint8_t *tree, size_t tree_len,
    const uint8_t *keys, size_t keys_count, const uint8_t *values, size_t values_count);

/* ---- Transcripts: the duplex sponge over Poseidon's permutation, as proof systems make challenges of what they have
 * sent. How elements are cut into calls does not change the result. Bytes are absorbed behind their count, and squeezed
 * out of whole elements: what is left of the last one is dropped at the end of a call.
 *
 * A field is named by a number; an element is its canonical bytes, the least first, below the modulus. paxidore(3) and
 * C.md say how parameters are spelled. The state lies in memory of the caller's and may be copied at any time: its
 * elements, the capacity first; in 8 bytes how many elements of the rate are used; a byte that is 1 where it squeezes.
 * Each call takes it with the parameters that it was made with. E_TRUNCATED and E_INVALID say of a call: the number
 * names no field, or the bytes are no parameters, no state of such a sponge, or no elements. */
enum paxidore_field {
    PAXIDORE_GOLDILOCKS = 1,   /* 2^64 - 2^32 + 1: 8 bytes an element */
    PAXIDORE_BABYBEAR = 2,     /* 15 * 2^27 + 1: 4 bytes */
    PAXIDORE_BLS12_381_FR = 3, /* the scalar field of BLS12-381: 32 bytes */
    PAXIDORE_BN254_FR = 4      /* the scalar field of BN254: 32 bytes */
};

/* Added to a field's number where the parameters are prepared ones; not for _ready_parameters and _prepare. */
#define PAXIDORE_PREPARED 256U
#define PAXIDORE_TRANSCRIPTBYTES(rate, capacity, element_bytes) \
    (((size_t)(rate) + (size_t)(capacity)) * (size_t)(element_bytes) + 9U)

/* Writes the bytes of ready parameters over PAXIDORE_BLS12_381_FR or PAXIDORE_BN254_FR: those that the Grain generator
 * makes, with the counts of rounds of arkworks over the first and of circomlib over the second, for a `rate` from 2 to
 * 8 and a capacity of one. E_INVALID for another field, E_COUNT for another rate, E_ROOM, E_MEMORY. */
PAXIDORE_ANSWERS PAXIDORE_NOT_NULL((3)) int32_t paxidore_transcript_ready_parameters(
    uint8_t *parameters, size_t parameters_room, size_t *parameters_len, uint32_t field, size_t rate);

/* Writes prepared parameters, as many bytes as the parameters have. Over PAXIDORE_BLS12_381_FR and PAXIDORE_BN254_FR
 * each element n stands there as n * 2^256 modulo the modulus, and a call reads it without a product; over the other
 * two fields they are the parameters' own bytes. Prepare once, and hand them to each call with PAXIDORE_PREPARED added
 * to the field's number: it answers as for the parameters. E_TRUNCATED, E_INVALID, E_ROOM, E_MEMORY. */
PAXIDORE_ANSWERS PAXIDORE_NOT_NULL((3)) int32_t paxidore_transcript_prepare( uint8_t *prepared, size_t prepared_room,
    size_t *prepared_len, uint32_t field, const uint8_t *parameters, size_t parameters_len);

/* Writes the state that has absorbed nothing. E_TRUNCATED, E_INVALID, E_ROOM, E_MEMORY. */
PAXIDORE_ANSWERS PAXIDORE_NOT_NULL((3)) int32_t paxidore_transcript_init( uint8_t *state, size_t state_room,
    size_t *state_len, uint32_t field, const uint8_t *parameters, size_t parameters_len);

/* Absorbs elements, one behind the other. Absorbing none changes nothing. E_TRUNCATED, E_INVALID, E_MEMORY. */
PAXIDORE_ANSWERS int32_t paxidore_transcript_absorb(uint8_t *state, size_t state_len, uint32_t field,
    const uint8_t *parameters, size_t parameters_len, const uint8_t *elements, size_t elements_len);

/* Absorbs bytes: their count in 8 bytes and then the bytes themselves, cut into pieces of as many bytes as always lie
 * below the modulus, each piece one element. E_TRUNCATED, E_INVALID, E_MEMORY. */
PAXIDORE_ANSWERS int32_t paxidore_transcript_absorb_bytes(uint8_t *state, size_t state_len, uint32_t field,
    const uint8_t *parameters, size_t parameters_len, const uint8_t *bytes, size_t bytes_len);

/* Fills `out` with the next elements, which are whole, else E_TRUNCATED. E_TRUNCATED, E_INVALID, E_MEMORY. */
PAXIDORE_ANSWERS int32_t paxidore_transcript_squeeze(uint8_t *out, size_t out_len, uint8_t *state, size_t state_len,
    uint32_t field, const uint8_t *parameters, size_t parameters_len);

/* Fills `out` with the next bytes: of each element the lowest, as many as always lie below the modulus. As above. */
PAXIDORE_ANSWERS int32_t paxidore_transcript_squeeze_bytes(uint8_t *out, size_t out_len,
    uint8_t *state, size_t state_len, uint32_t field, const uint8_t *parameters, size_t parameters_len);

/* ---- Poseidon: circomlib's hash of 1 to 16 elements of the scalar field of BN254, as its template Poseidon gives it.
 * An element is 32 bytes in a byte order, and below the modulus. The hash is written in the same order. */
enum paxidore_byte_order {
    PAXIDORE_LITTLE_ENDIAN = 1, /* the least byte first: the canonical bytes of PAXIDORE_BN254_FR */
    PAXIDORE_BIG_ENDIAN = 2     /* the greatest byte first, as circom's tools print numbers */
};

/* A table has what the hash of so many inputs runs by: their count in a byte, elements of 32 bytes, and a check sum of
 * eight bytes. It is made once and copied or stored as you like. E_TRUNCATED is said of one that was cut, or of earlier
 * versions' without a check sum, E_INVALID of one that was changed, before elements are read. None has more bytes. */
#define PAXIDORE_POSEIDON_TABLEBYTES(inputs) \
    (9U + 32U * ((size_t)(inputs) * (3U * (size_t)(inputs) + 13U) + 81U))

/* Writes the table of 1 to 16 inputs, in milliseconds. E_COUNT for another count, E_ROOM, E_MEMORY. */
PAXIDORE_ANSWERS PAXIDORE_NOT_NULL((3)) int32_t paxidore_poseidon_table(
    uint8_t *table, size_t table_room, size_t *table_len, size_t inputs);

/* Writes the hash of elements, one behind the other. E_INVALID for a number that names no byte order, E_TRUNCATED for
 * no whole elements, E_COUNT for another count than the table's, E_INVALID for one not below the modulus, E_MEMORY. */
PAXIDORE_ANSWERS PAXIDORE_NOT_NULL((1)) int32_t paxidore_poseidon(uint8_t digest[32], uint32_t order,
    const uint8_t *table, size_t table_len, const uint8_t *inputs, size_t inputs_len);

/* ---- LeanIMTs: trees and logs over Poseidon, as Semaphore has them. The elements are the leaves, 32 bytes each with
 * the least byte first, below the modulus: no other order is taken here. A node is the hash of its two children by the
 * table of two inputs; without a sibling it is its own parent. One element is its own root; none have none.
 *
 * A path is its digests alone, from the element up, at most PAXIDORE_LOG_PATHBYTES_MAX. Of a log its stored digests are
 * kept, as above: paxidore_log_kept counts them; `kept_len`, `more_room` and `count` count digests and elements, not
 * bytes. In each call E_TRUNCATED and E_INVALID for the table come first, then E_COUNT for one not of two inputs. */
/* Writes the root of `count` elements. E_COUNT, E_SIZE for none, E_INVALID for one not below the modulus, E_MEMORY. */
PAXIDORE_ANSWERS PAXIDORE_NOT_NULL((1)) int32_t paxidore_poseidon_root(uint8_t root[32],
    const uint8_t *table, size_t table_len, const uint8_t *elements, size_t count);

/* Writes the path of `index` in `count` elements. E_COUNT, E_SIZE, E_INVALID, E_INDEX, E_ROOM, E_MEMORY. */
PAXIDORE_ANSWERS PAXIDORE_NOT_NULL((3)) int32_t paxidore_poseidon_path( uint8_t *path, size_t path_room,
    size_t *path_len, const uint8_t *table, size_t table_len, const uint8_t *elements, size_t count, size_t index);

/* OK where the bytes of a path show that `element` stands at `index` among `size` elements with this root: then it does
 * in every list of so many with this root, or two different pairs with one hash are at hand. NOT_SHOWN, E_COUNT, E_SIZE
 * for no element, E_INDEX, E_TRUNCATED and E_INVALID for bytes of fewer or more digests than a path of this index and
 * size has, E_INVALID for an element or a digest that is not below the modulus, E_MEMORY. */
PAXIDORE_ANSWERS PAXIDORE_NOT_NULL((3, 6)) int32_t paxidore_poseidon_verify(const uint8_t *table, size_t table_len,
    const uint8_t root[32], size_t size, size_t index, const uint8_t element[32], const uint8_t *path, size_t path_len);

/* Writes the digests to put behind the stored ones for `count` elements more, as paxidore_log_append. E_COUNT, E_SIZE,
 * E_ROOM, E_INVALID for an element or a stored digest that is not below the modulus, E_MEMORY. */
PAXIDORE_ANSWERS PAXIDORE_NOT_NULL((3)) int32_t paxidore_poseidon_log_append(
    uint8_t *more, size_t more_room, size_t *more_len, const uint8_t *table, size_t table_len,
    const uint8_t *kept, size_t kept_len, size_t size, const uint8_t *elements, size_t count);

/* Writes the root of the first `size` elements. E_COUNT, E_SIZE for fewer digests than a log of this size has stored
 * and for no element, E_INVALID for a stored digest that is not below the modulus, E_MEMORY. */
PAXIDORE_ANSWERS PAXIDORE_NOT_NULL((1)) int32_t paxidore_poseidon_log_root(uint8_t root[32],
    const uint8_t *table, size_t table_len, const uint8_t *kept, size_t kept_len, size_t size);

/* Writes the path of `index` in the first `size` ones. E_COUNT, E_SIZE, E_INDEX, E_INVALID, E_ROOM, E_MEMORY. */
PAXIDORE_ANSWERS PAXIDORE_NOT_NULL((3)) int32_t paxidore_poseidon_log_inclusion(
    uint8_t *path, size_t path_room, size_t *path_len, const uint8_t *table, size_t table_len,
    const uint8_t *kept, size_t kept_len, size_t size, size_t index);

/* ---- Commitments: the BLAKE2s of a value followed by a nonce of 32 bytes. Whoever has the commitment can be shown the
 * value later, with the nonce, and no other one, or two different inputs with one BLAKE2s are at hand. The nonce is for
 * one commitment, drawn at random and kept secret until then: it is what hides the value, of which nothing is proved.
 * What holds of both calls holds for `value_len` below 2^64 - 32, which no memory reaches. */
#define PAXIDORE_NONCEBYTES 32U

/* Writes the commitment to a value. Nothing is refused. */
PAXIDORE_NOT_NULL((1, 4)) void paxidore_blake2s_commit(uint8_t commitment[32], const uint8_t *value, size_t value_len,
    const uint8_t nonce[32]);

/* OK where the BLAKE2s of `value` followed by `nonce` is the commitment, else NOT_SHOWN. */
PAXIDORE_ANSWERS PAXIDORE_NOT_NULL((1, 4)) int32_t paxidore_blake2s_opens(const uint8_t commitment[32],
    const uint8_t *value, size_t value_len, const uint8_t nonce[32]);

/* ---- Ed25519 (RFC 8032, section 5.1): signatures of 64 bytes under keys of 32 bytes, which a seed of 32 bytes makes.
 * The seed is the secret: the library keeps no copy, and wiping it is up to the caller. No branch and no address of
 * _public_key and _sign depends on it, as is tested on the built code. Nothing is refused. */
#define PAXIDORE_SEEDBYTES 32U
#define PAXIDORE_KEYBYTES 32U
#define PAXIDORE_SIGNATUREBYTES 64U

/* Writes the key that others are given. */
PAXIDORE_NOT_NULL((1, 2)) void paxidore_ed25519_public_key(uint8_t key[32], const uint8_t seed[32]);

/* Writes the signature of a message. */
PAXIDORE_NOT_NULL((1, 2)) void paxidore_ed25519_sign(uint8_t signature[64], const uint8_t seed[32],
    const uint8_t *message, size_t message_len);

/* OK where it is a signature of the message under the key, else NOT_SHOWN. The equation has no cofactor. A second
 * spelling of a point, or a scalar that is the order or more, is no signature. */
PAXIDORE_ANSWERS PAXIDORE_NOT_NULL((1, 4)) int32_t paxidore_ed25519_verify(const uint8_t key[32],
    const uint8_t *message, size_t message_len, const uint8_t signature[64]);

/* ---- Hashes. Nothing is refused. SHA-256 is that of FIPS 180-4; BLAKE2s has 32 bytes out and no key (RFC 7693). It is
 * defined for inputs below 2^64 bytes: of a longer text the count is kept modulo 2^64. */
PAXIDORE_NOT_NULL((1)) void paxidore_sha256(uint8_t digest[32], const uint8_t *input, size_t input_len);
PAXIDORE_NOT_NULL((1)) void paxidore_blake2s(uint8_t digest[32], const uint8_t *input, size_t input_len);

/* A text that comes piece by piece: `init`, any number of `update`, `final`, which makes it ready for another text. It
 * may be copied at any time. Its members are the library's own: `init` alone sets them well. */
typedef struct paxidore_blake2s_state {
    uint32_t state[8];
    uint8_t block[64];
    uint64_t len;
} paxidore_blake2s_state;

PAXIDORE_NOT_NULL((1)) void paxidore_blake2s_init(paxidore_blake2s_state *state);
PAXIDORE_NOT_NULL((1)) void paxidore_blake2s_update(paxidore_blake2s_state *state,
    const uint8_t *input, size_t input_len);
PAXIDORE_NOT_NULL((1, 2)) void paxidore_blake2s_final(uint8_t digest[32], paxidore_blake2s_state *state);

#ifdef __cplusplus
}
#endif

#endif
