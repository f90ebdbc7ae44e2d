#include <paxidore.h>
#include <stdio.h>
int main(void) {
    const uint8_t empty[1] = {2}, ann[32] = {1}, bob[32] = {2}, value[32] = {10};
    uint8_t root[32], new_root[32], row[PAXIDORE_MAP_ROWBYTES], proof[PAXIDORE_MAP_PROOFBYTES_MAX];
    size_t row_len, proof_len;
    /* the row of the new entry is what a store keeps: its digest and its 65 bytes */
    if (paxidore_map_root(root, empty, 1) != PAXIDORE_OK ||
        paxidore_map_change(new_root, row, sizeof row, &row_len, root, empty, 1, ann, 1, value, 1) != PAXIDORE_OK)
        return 1;
    /* these 65 bytes are the tree of the map: byte 0 for an entry, its key and its value */
    if (paxidore_map_prove(proof, sizeof proof, &proof_len, row + 32, 65, bob) != PAXIDORE_OK)
        return 1;
    puts(paxidore_strerror(paxidore_map_verify_absent(new_root, bob, proof, proof_len)));
}
