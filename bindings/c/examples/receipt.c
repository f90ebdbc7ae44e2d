#include <paxidore.h>
#include <stdio.h>
int main(void) {
    const uint8_t leaves[] = "annbobcatdan", *cat = leaves + 6;
    const size_t lengths[4] = {3, 3, 3, 3};
    uint8_t root[PAXIDORE_DIGESTBYTES], path[PAXIDORE_PATHBYTES(2)];
    size_t path_len;
    if (paxidore_root(root, PAXIDORE_RFC6962, leaves, 12, lengths, 4) != PAXIDORE_OK) return 1;
    if (paxidore_path(path, sizeof path, &path_len, PAXIDORE_RFC6962, leaves, 12, lengths, 4, 2) != PAXIDORE_OK) return 1;
    puts(paxidore_strerror(paxidore_verify(PAXIDORE_RFC6962, root, 4, 2, cat, 3, path, path_len)));
}
