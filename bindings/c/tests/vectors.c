/* Reads the lines of `tools/vectors --lines` and checks each. It prints how many were right, and ends with 1 where one was not. */
#include "paxidore.h"

#include <stdio.h>
#include <stdlib.h>
#include <string.h>

enum { LONGEST = 1 << 13 };

/* The next word of the line, as bytes, with their count; `-` is none. */
static size_t bytes_of(const char *word, uint8_t *to) {
    size_t count = 0;
    if (strcmp(word, "-") != 0)
        for (; word[2 * count] != 0; count++) {
            unsigned byte;
            if (sscanf(word + 2 * count, "%2x", &byte) != 1) exit(2);
            to[count] = (uint8_t)byte;
        }
    return count;
}

/* The table of two inputs, made once. */
static size_t two_inputs_len;

static const uint8_t *two_inputs(void) {
    static uint8_t table[PAXIDORE_POSEIDON_TABLEBYTES(2)];
    if (two_inputs_len == 0 && paxidore_poseidon_table(table, sizeof table, &two_inputs_len, 2) != PAXIDORE_OK) exit(2);
    return table;
}

static int is_right(char *line) {
    static uint8_t first[LONGEST], second[LONGEST], third[LONGEST];
    char *words[8] = {NULL};
    size_t count = 0;
    for (char *word = strtok(line, " \n"); word != NULL && count < 8; word = strtok(NULL, " \n"))
        words[count++] = word;
    if (count == 7 && strcmp(words[0], "verify") == 0) {
        uint32_t hashing = strcmp(words[1], "plain") == 0 ? PAXIDORE_PLAIN : PAXIDORE_RFC6962;
        bytes_of(words[2], first);
        size_t leaf = bytes_of(words[5], second), path = bytes_of(words[6], third);
        return paxidore_verify(hashing, first, strtoull(words[3], NULL, 10), strtoull(words[4], NULL, 10), second, leaf, third, path) == 0;
    }
    if (count == 6 && strcmp(words[0], "inclusion") == 0) {
        bytes_of(words[1], first);
        size_t entry = bytes_of(words[4], second), path = bytes_of(words[5], third);
        return paxidore_log_verify_inclusion(first, strtoull(words[2], NULL, 10), strtoull(words[3], NULL, 10), second, entry, third,
                                             path) == 0;
    }
    if (count == 6 && strcmp(words[0], "consistency") == 0) {
        bytes_of(words[2], first), bytes_of(words[4], second);
        size_t proof = bytes_of(words[5], third);
        return paxidore_log_verify_consistency(first, strtoull(words[1], NULL, 10), second, strtoull(words[3], NULL, 10), third,
                                               proof) == 0;
    }
    if (count == 5 && strcmp(words[0], "ed25519-sign") == 0) {
        uint8_t key[PAXIDORE_KEYBYTES], signature[PAXIDORE_SIGNATUREBYTES];
        bytes_of(words[1], first);
        size_t message = bytes_of(words[2], second);
        paxidore_ed25519_public_key(key, first);
        paxidore_ed25519_sign(signature, first, second, message);
        bytes_of(words[3], first), bytes_of(words[4], third);
        return memcmp(key, first, sizeof key) == 0 && memcmp(signature, third, sizeof signature) == 0;
    }
    if (count == 5 && strcmp(words[0], "ed25519-verify") == 0) {
        bytes_of(words[1], first), bytes_of(words[3], third);
        size_t message = bytes_of(words[2], second);
        return paxidore_ed25519_verify(first, second, message, third) == (strcmp(words[4], "yes") == 0 ? PAXIDORE_OK : PAXIDORE_NOT_SHOWN);
    }
    if (count == 6 && strcmp(words[0], "lean-path") == 0) {
        bytes_of(words[1], first);
        bytes_of(words[4], second);
        size_t path = bytes_of(words[5], third);
        const uint8_t *table = two_inputs();
        return paxidore_poseidon_verify(table, two_inputs_len, first, strtoull(words[2], NULL, 10),
                                        strtoull(words[3], NULL, 10), second, third, path) == PAXIDORE_OK;
    }
    if (count == 3) {
        size_t input = bytes_of(words[1], first);
        uint8_t digest[PAXIDORE_DIGESTBYTES];
        bytes_of(words[2], second);
        if (strcmp(words[0], "sha256") == 0)
            paxidore_sha256(digest, first, input);
        else if (strcmp(words[0], "blake2s") == 0)
            paxidore_blake2s(digest, first, input);
        else if (strcmp(words[0], "lean-root") == 0) {
            const uint8_t *table = two_inputs();
            if (paxidore_poseidon_root(digest, table, two_inputs_len, first, input / 32) != PAXIDORE_OK)
                return 0;
        }
        else if (strcmp(words[0], "poseidon") == 0) {
            static uint8_t table[PAXIDORE_POSEIDON_TABLEBYTES(16)];
            size_t table_len;
            if (paxidore_poseidon_table(table, sizeof table, &table_len, input / 32) != PAXIDORE_OK ||
                paxidore_poseidon(digest, PAXIDORE_BIG_ENDIAN, table, table_len, first, input) != PAXIDORE_OK)
                return 0;
        }
        else
            return 0;
        return memcmp(digest, second, sizeof digest) == 0;
    }
    return 0;
}

int main(void) {
    static char line[2 * LONGEST];
    int passed = 0, failed = 0;
    while (fgets(line, sizeof line, stdin) != NULL) {
        if (is_right(line))
            passed++;
        else
            failed++;
    }
    printf("%d passed, %d failed\n", passed, failed);
    return failed != 0 || passed == 0;
}
