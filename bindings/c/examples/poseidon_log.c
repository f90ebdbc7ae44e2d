#include <paxidore.h>
#include <stdio.h>
int main(void) {
    uint8_t table[PAXIDORE_POSEIDON_TABLEBYTES(2)], members[3][32] = {{11}, {12}, {13}}, kept[4][32], root[32], path[64];
    size_t table_len, kept_len, path_len;
    if (paxidore_poseidon_table(table, sizeof table, &table_len, 2) != PAXIDORE_OK ||
        paxidore_poseidon_log_append(kept[0], 4, &kept_len, table, table_len, NULL, 0, 0, members[0], 3) != PAXIDORE_OK ||
        paxidore_poseidon_log_root(root, table, table_len, kept[0], kept_len, 3) != PAXIDORE_OK ||
        paxidore_poseidon_log_inclusion(path, sizeof path, &path_len, table, table_len, kept[0], kept_len, 3, 1) != PAXIDORE_OK)
        return 1;
    puts(paxidore_strerror(paxidore_poseidon_verify(table, table_len, root, 3, 1, members[1], path, path_len)));
}
