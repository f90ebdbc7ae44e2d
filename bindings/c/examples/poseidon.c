#include <paxidore.h>
#include <stdio.h>
int main(void) {
    uint8_t table[PAXIDORE_POSEIDON_TABLEBYTES(2)], hash[PAXIDORE_DIGESTBYTES], inputs[64] = {0};
    size_t table_len;
    inputs[31] = 1, inputs[63] = 2;
    if (paxidore_poseidon_table(table, sizeof table, &table_len, 2) != PAXIDORE_OK ||
        paxidore_poseidon(hash, PAXIDORE_BIG_ENDIAN, table, table_len, inputs, sizeof inputs) != PAXIDORE_OK)
        return 1;
    for (int i = 0; i < 32; i++) printf("%02x", hash[i]);
    puts("");
}
