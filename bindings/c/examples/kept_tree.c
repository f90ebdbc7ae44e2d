#include <paxidore.h>
#include <stdio.h>
int main(void) {
    const uint8_t leaves[] = "annbobcatdan", eve[] = "eve";
    const size_t lengths[4] = {3, 3, 3, 3}, digests = PAXIDORE_TREE_DIGESTS(4);
    uint8_t tree[PAXIDORE_TREEBYTES(4)], root[PAXIDORE_DIGESTBYTES], path[PAXIDORE_PATHBYTES(2)];
    size_t path_len;
    if (paxidore_tree_build(tree, digests, PAXIDORE_RFC6962, leaves, 12, lengths, 4) != PAXIDORE_OK) return 1;
    if (paxidore_tree_set(tree, digests, PAXIDORE_RFC6962, 3, eve, 3) != PAXIDORE_OK) return 1;
    if (paxidore_tree_root(root, tree, digests) != PAXIDORE_OK) return 1;
    if (paxidore_tree_path(path, sizeof path, &path_len, tree, digests, 3) != PAXIDORE_OK) return 1;
    puts(paxidore_strerror(paxidore_verify(PAXIDORE_RFC6962, root, 4, 3, eve, 3, path, path_len)));
}
