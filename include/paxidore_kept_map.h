/* Maps that are kept in memory of the caller's, with one root and proofs of what they have and have not. The rest of
 * the library is in paxidore.h, whose first comment says what holds of buffers, pointers and answers, and whose part on
 * maps says what keys, values and roots are, and checks the proofs. Those of proofs alone allocate. */
#ifndef PAXIDORE_KEPT_MAP_H
#define PAXIDORE_KEPT_MAP_H

#include "paxidore.h"

#ifdef __cplusplus
extern "C" {
#endif

/* A map is three things: entries of 64 bytes, forks of 48, and a head, which says how many of either are there and
 * which is the topmost. Rooms count entries and forks, not bytes, and the memory may be that of mapped files. A head of
 * zeros is the empty map.
 *
 * A change writes behind the entries and the forks that are there, and then the head: one entry at most, and a fork for
 * each one on the way of the key. So whoever keeps an older head has the older map, which each call takes with the same
 * memory; a change of it writes over what later heads have. Store a head behind a call of _root and a sync of the
 * memory: then no crash in a later call harms its map. paxidore_kept_map_copy leaves out what no longer belongs to it.
 *
 * An entry is its key and its value. A fork is its digest, 32 zeros until paxidore_kept_map_root has hashed it, and the
 * numbers of its two sides, 8 bytes each, the least first: 0 is nothing, 2 k + 1 the entry at k, 2 k + 2 the fork at k.
 *
 * E_DAMAGED says that memory holds no map under the head. The calls find that on their way, and stay within the memory
 * whatever it holds; what is off their way they do not look at: check memory of others. */
typedef struct paxidore_kept_map {
    uint64_t top;
    size_t entries;
    size_t forks;
} paxidore_kept_map;

/* The bytes of an entry and of a fork; the forks for which a change asks room, as it does for one entry. */
#define PAXIDORE_KEPT_MAP_ENTRYBYTES 64U
#define PAXIDORE_KEPT_MAP_FORKBYTES 48U
#define PAXIDORE_KEPT_MAP_CHANGEFORKS 256U

/* Puts a value at a key. E_ROOM where there is no room for an entry more, or for 256 forks; E_DAMAGED. */
PAXIDORE_ANSWERS PAXIDORE_NOT_NULL((1)) int32_t paxidore_kept_map_put(paxidore_kept_map *map, uint8_t *map_entries,
    size_t map_entries_room, uint8_t *map_forks, size_t map_forks_room, const uint8_t key[32], const uint8_t value[32]);

/* Removes a key; where the map has nothing there, it stays as it is. E_ROOM where there is no room for 256 forks;
 * E_DAMAGED. */
PAXIDORE_ANSWERS PAXIDORE_NOT_NULL((1)) int32_t paxidore_kept_map_remove(paxidore_kept_map *map, uint8_t *map_entries,
    size_t map_entries_room, uint8_t *map_forks, size_t map_forks_room, const uint8_t key[32]);

/* Writes the root, that of paxidore_map_root for a tree of these entries, and to each fork below the topmost that has
 * none its digest. A fork is hashed once, however many changes there were. E_DAMAGED. */
PAXIDORE_ANSWERS PAXIDORE_NOT_NULL((1, 2)) int32_t paxidore_kept_map_root(uint8_t root[32], paxidore_kept_map *map,
    uint8_t *map_entries, size_t map_entries_room, uint8_t *map_forks, size_t map_forks_room);

/* Writes the value that the map has at a key. NOT_SHOWN where it has nothing there; E_DAMAGED. */
PAXIDORE_ANSWERS PAXIDORE_NOT_NULL((1, 2)) int32_t paxidore_kept_map_get(uint8_t value[32],
    const paxidore_kept_map *map, const uint8_t *map_entries, size_t map_entries_room, const uint8_t *map_forks,
    size_t map_forks_room, const uint8_t key[32]);

/* Writes the entry whose key is the least that is not below `from`. A call for the key that follows that one goes on.
 * NOT_SHOWN where there is none; E_DAMAGED. */
PAXIDORE_ANSWERS PAXIDORE_NOT_NULL((1, 2, 3)) int32_t paxidore_kept_map_next(uint8_t next_key[32],
    uint8_t next_value[32], const paxidore_kept_map *map, const uint8_t *map_entries, size_t map_entries_room,
    const uint8_t *map_forks, size_t map_forks_room, const uint8_t from[32]);

/* Writes the bytes of the proof of what the map has at a key, PAXIDORE_MAP_PROOFBYTES_MAX at most. Behind a call of
 * _root it hashes two entries at most. E_DAMAGED, E_ROOM, E_MEMORY. */
PAXIDORE_ANSWERS PAXIDORE_NOT_NULL((3, 4)) int32_t paxidore_kept_map_prove(uint8_t *proof, size_t proof_room,
    size_t *proof_len, const paxidore_kept_map *map, const uint8_t *map_entries, size_t map_entries_room,
    const uint8_t *map_forks, size_t map_forks_room, const uint8_t key[32]);

/* Writes the bytes of a tree with the map's root that shows what the map has at some keys, `keys_count` of 32 bytes,
 * one behind the other: paxidore_map_root and paxidore_map_prove take it, and paxidore_map_next. E_INDEX where a key
 * is below the one before it; E_DAMAGED, E_ROOM, E_MEMORY. */
PAXIDORE_ANSWERS PAXIDORE_NOT_NULL((3, 4)) int32_t paxidore_kept_map_prove_many(uint8_t *proof, size_t proof_room,
    size_t *proof_len, const paxidore_kept_map *map, const uint8_t *map_entries, size_t map_entries_room,
    const uint8_t *map_forks, size_t map_forks_room, const uint8_t *keys, size_t keys_count);

/* The same for all keys from `first` to `last`, both with them: a tree that hides nothing there. E_DAMAGED, E_ROOM,
 * E_MEMORY. */
PAXIDORE_ANSWERS PAXIDORE_NOT_NULL((3, 4)) int32_t paxidore_kept_map_prove_range(uint8_t *proof, size_t proof_room,
    size_t *proof_len, const paxidore_kept_map *map, const uint8_t *map_entries, size_t map_entries_room,
    const uint8_t *map_forks, size_t map_forks_room, const uint8_t first[32], const uint8_t last[32]);

/* Writes the entry with the least key from `first` to `last`, both with them, of the maps that a tree shows. Called
 * again for the key that follows, up to NOT_SHOWN, it finds all that a map has there, where paxidore_map_root writes
 * its root: in every map with this root, or two different nodes with one SHA-256 are at hand. NOT_SHOWN where there
 * is none; E_TRUNCATED, E_INVALID, E_HIDDEN where the tree hides a part that may have it, E_MEMORY. */
PAXIDORE_ANSWERS PAXIDORE_NOT_NULL((1, 2)) int32_t paxidore_map_next(uint8_t next_key[32], uint8_t next_value[32],
    const uint8_t *tree, size_t tree_len, const uint8_t first[32], const uint8_t last[32]);

/* Writes the least key that is not below `from` at which two maps in one memory differ, and what either has there: a
 * value, where 1 is written to has_old or has_new, or nothing, where 0 is. A call for the key that follows goes on.
 * What both have in common is passed over, so a call costs what the difference asks for. NOT_SHOWN where they have
 * the same; E_DAMAGED. */
PAXIDORE_ANSWERS PAXIDORE_NOT_NULL((1, 2, 3, 4, 5, 6, 7)) int32_t paxidore_kept_map_differ(uint8_t next_key[32],
    uint8_t old_value[32], uint8_t *has_old, uint8_t new_value[32], uint8_t *has_new,
    const paxidore_kept_map *old_map, const paxidore_kept_map *map, const uint8_t *map_entries,
    size_t map_entries_room, const uint8_t *map_forks, size_t map_forks_room, const uint8_t from[32]);

/* Writes the map to other memory, and no entry or fork that does not belong to it. E_ROOM, E_DAMAGED. */
PAXIDORE_ANSWERS PAXIDORE_NOT_NULL((1, 6)) int32_t paxidore_kept_map_copy(paxidore_kept_map *to_map,
    uint8_t *to_entries, size_t to_entries_room, uint8_t *to_forks, size_t to_forks_room,
    const paxidore_kept_map *map, const uint8_t *map_entries, size_t map_entries_room, const uint8_t *map_forks,
    size_t map_forks_room);

/* Looks at all of a map in memory of others, hashes it anew, and writes its root. After OK memory holds a map under the
 * head, with this root. E_DAMAGED. */
PAXIDORE_ANSWERS PAXIDORE_NOT_NULL((1, 2)) int32_t paxidore_kept_map_check(uint8_t root[32],
    const paxidore_kept_map *map, const uint8_t *map_entries, size_t map_entries_room, const uint8_t *map_forks,
    size_t map_forks_room);

#ifdef __cplusplus
}
#endif

#endif
