#include <paxidore.h>
#include <stdio.h>
#include <stdlib.h>
int main(void) {
    const uint8_t entries[] = "annbobcat";
    const size_t lengths[3] = {3, 3, 3};
    size_t size = 0, kept_len = 0, more_len, path_len;
    uint8_t root[PAXIDORE_DIGESTBYTES], path[PAXIDORE_LOG_PATHBYTES_MAX];
    /* room for the digests of three entries more; `kept` may also be the bytes of a file */
    size_t room = paxidore_log_kept(size + 3) - kept_len;
    uint8_t *kept = malloc(32 * (kept_len + room));
    if (kept == NULL ||
        paxidore_log_append(kept + 32 * kept_len, room, &more_len, kept, kept_len, size, entries, 9, lengths, 3) != PAXIDORE_OK)
        return 1;
    kept_len += more_len, size += 3;
    if (paxidore_log_root(root, kept, kept_len, size) != PAXIDORE_OK ||
        paxidore_log_inclusion(path, sizeof path, &path_len, kept, kept_len, size, 1) != PAXIDORE_OK)
        return 1;
    puts(paxidore_strerror(paxidore_log_verify_inclusion(root, size, 1, entries + 3, 3, path, path_len)));
    free(kept);
}
