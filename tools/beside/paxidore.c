/* The root of a log of 2^16 entries of 32 bytes, some times: by the library for C. */
#include <paxidore.h>
#include <stdio.h>
#include <stdlib.h>

#define COUNT 65536

int main(int count, char **words) {
    static uint8_t entries[COUNT * 32];
    static size_t lengths[COUNT];
    uint8_t root[PAXIDORE_DIGESTBYTES];
    for (size_t i = 0; i < COUNT; i++) lengths[i] = 32, entries[32 * i] = (uint8_t)i, entries[32 * i + 1] = (uint8_t)(i >> 8);
    for (int times = count > 1 ? atoi(words[1]) : 1; times > 0; times--)
        if (paxidore_root(root, PAXIDORE_RFC6962, entries, sizeof entries, lengths, COUNT) != PAXIDORE_OK) return 1;
    printf("%02x%02x%02x%02x\n", root[0], root[1], root[2], root[3]);
}
