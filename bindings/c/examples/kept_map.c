#include <paxidore_kept_map.h>
#include <stdio.h>
int main(void) {
    static uint8_t entries[16][PAXIDORE_KEPT_MAP_ENTRYBYTES], forks[1024][PAXIDORE_KEPT_MAP_FORKBYTES];
    const uint8_t ann[32] = {1}, bob[32] = {2}, value[32] = {10};
    uint8_t root[32], proof[PAXIDORE_MAP_PROOFBYTES_MAX];
    size_t proof_len;
    paxidore_kept_map map = {0, 0, 0};
    if (paxidore_kept_map_put(&map, *entries, 16, *forks, 1024, ann, value) != PAXIDORE_OK ||
        paxidore_kept_map_root(root, &map, *entries, 16, *forks, 1024) != PAXIDORE_OK ||
        paxidore_kept_map_prove(proof, sizeof proof, &proof_len, &map, *entries, 16, *forks, 1024, bob) != PAXIDORE_OK)
        return 1;
    puts(paxidore_strerror(paxidore_map_verify_absent(root, bob, proof, proof_len)));
}
