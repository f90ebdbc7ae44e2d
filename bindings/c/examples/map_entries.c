#include <paxidore_kept_map.h>
#include <stdio.h>
#include <string.h>
enum { ENTRY = PAXIDORE_KEPT_MAP_ENTRYBYTES, ENTRIES = 64, FORKS = 4096 };
typedef struct kept {
    paxidore_kept_map map;
    uint8_t entries[ENTRIES][ENTRY], forks[FORKS][PAXIDORE_KEPT_MAP_FORKBYTES];
} kept;
/* Writes the entries by rising keys and how many bytes they have. The buffer has room for all that the memory has. */
static int32_t write_entries(uint8_t *bytes, size_t *len, const kept *of) {
    uint8_t from[32] = {0};
    int i = 0;
    *len = 0;
    while (i >= 0) {
        uint8_t *at = bytes + *len;
        int32_t answer = paxidore_kept_map_next(at, at + 32, &of->map, *of->entries, ENTRIES, *of->forks, FORKS, from);
        if (answer != PAXIDORE_OK)
            return answer == PAXIDORE_NOT_SHOWN ? PAXIDORE_OK : answer;
        *len += ENTRY;
        /* the key that follows; there is none behind the last of all keys */
        memcpy(from, at, 32);
        for (i = 31; i >= 0 && ++from[i] == 0; i--) {
        }
    }
    return PAXIDORE_OK;
}
/* Makes the map of some entries in memory that has none, where it has this root; else no head is written. NOT_SHOWN of
 * another root, E_TRUNCATED of bytes that end within an entry, E_INVALID of a key that is not above the one before it. */
static int32_t read_entries(kept *to, const uint8_t *bytes, size_t len, const uint8_t root[32]) {
    paxidore_kept_map map = {0, 0, 0};
    uint8_t own[32];
    size_t at;
    int32_t answer;
    if (len % ENTRY != 0)
        return PAXIDORE_E_TRUNCATED;
    for (at = 0; at < len; at += ENTRY) {
        const uint8_t *key = bytes + at;
        if (at > 0 && memcmp(key - ENTRY, key, 32) >= 0)
            return PAXIDORE_E_INVALID;
        answer = paxidore_kept_map_put(&map, *to->entries, ENTRIES, *to->forks, FORKS, key, key + 32);
        if (answer != PAXIDORE_OK)
            return answer;
    }
    answer = paxidore_kept_map_root(own, &map, *to->entries, ENTRIES, *to->forks, FORKS);
    if (answer != PAXIDORE_OK || memcmp(own, root, 32) != 0)
        return answer != PAXIDORE_OK ? answer : PAXIDORE_NOT_SHOWN;
    to->map = map;
    return PAXIDORE_OK;
}
int main(void) {
    static kept one, two;
    static uint8_t bytes[ENTRIES * ENTRY], again[ENTRIES * ENTRY];
    uint8_t root[32], key[32] = {0};
    size_t len, again_len, i;
    for (i = 0; i < 20; i++) {
        key[0] = (uint8_t)(255 - 11 * i);
        if (paxidore_kept_map_put(&one.map, *one.entries, ENTRIES, *one.forks, FORKS, key, key) != PAXIDORE_OK)
            return 1;
    }
    if (paxidore_kept_map_root(root, &one.map, *one.entries, ENTRIES, *one.forks, FORKS) != PAXIDORE_OK ||
        write_entries(bytes, &len, &one) != PAXIDORE_OK || len != 20 * ENTRY)
        return 1;
    /* what was changed, cut or put in another order is no map of this root */
    bytes[40] ^= 1;
    if (read_entries(&two, bytes, len, root) != PAXIDORE_NOT_SHOWN || two.map.top != 0)
        return 1;
    bytes[40] ^= 1;
    if (read_entries(&two, bytes, len - 1, root) != PAXIDORE_E_TRUNCATED ||
        read_entries(&two, bytes, len - ENTRY, root) != PAXIDORE_NOT_SHOWN)
        return 1;
    bytes[ENTRY] = 0;
    if (read_entries(&two, bytes, len, root) != PAXIDORE_E_INVALID || two.map.top != 0)
        return 1;
    if (write_entries(bytes, &len, &one) != PAXIDORE_OK || read_entries(&two, bytes, len, root) != PAXIDORE_OK ||
        write_entries(again, &again_len, &two) != PAXIDORE_OK || again_len != len || memcmp(bytes, again, len) != 0)
        return 1;
    puts(paxidore_strerror(PAXIDORE_OK));
    return 0;
}
