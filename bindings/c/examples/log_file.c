#define _DEFAULT_SOURCE
#include <fcntl.h>
#include <paxidore.h>
#include <stdio.h>
#include <sys/file.h>
#include <sys/stat.h>
#include <unistd.h>

static paxidore_piece read_places[PAXIDORE_LOG_PIECES_MAX], written_places[PAXIDORE_LOG_STEPS_MAX];
static uint8_t read_bytes[1 << 15], written_bytes[1 << 14];
static paxidore_log_pieces pieces = {read_places, PAXIDORE_LOG_PIECES_MAX, 0, read_bytes, 0, 0};
static paxidore_log_steps steps = {written_places, PAXIDORE_LOG_STEPS_MAX, 0, written_bytes, sizeof written_bytes, 0};
static size_t have;

/* Whether more is to be read for a call; then it was. */
static int reads(int file, int32_t answer) {
    if (answer != PAXIDORE_E_MORE)
        return have = pieces.places_len = pieces.bytes_len = 0;
    for (; have < pieces.places_len; pieces.bytes_len += read_places[have].len, have++)
        if (pread(file, read_bytes + pieces.bytes_len, read_places[have].len, read_places[have].at) != (ssize_t)read_places[have].len)
            return have = pieces.places_len = pieces.bytes_len = 0;
    return 1;
}

/* Whether all steps are written, each synced before the next. */
static int writes(int file) {
    size_t begin = 0;
    for (paxidore_piece *step = steps.places; step < steps.places + steps.places_len; begin += step->len, step++)
        if (pwrite(file, steps.bytes + begin, step->len, step->at) != (ssize_t)step->len || fsync(file) != 0)
            return 0;
    struct stat about;
    pieces.file_len = fstat(file, &about) == 0 ? (size_t)about.st_size : 0;
    return 1;
}

int main(int argc, char **argv) {
    const size_t lengths[3] = {3, 3, 3};
    uint8_t root[PAXIDORE_DIGESTBYTES], path[PAXIDORE_LOG_PATHBYTES_MAX];
    size_t size, path_len;
    int32_t answer;
    int file = argc > 1 ? open(argv[1], O_RDWR | O_CREAT, 0666) : -1;
    if (file < 0 || flock(file, LOCK_EX) != 0 || !writes(file)) /* no step yet */
        return 1;
    while (reads(file, answer = paxidore_log_file_make(&steps, &pieces))) {}
    if (answer != PAXIDORE_OK || !writes(file))
        return 1;
    while (reads(file, answer = paxidore_log_file_append(&steps, &size, &pieces, (const uint8_t *)"annbobcat", 9, lengths, 3))) {}
    if (answer != PAXIDORE_OK || !writes(file))
        return 1;
    while (reads(file, answer = paxidore_log_file_root(root, &pieces, size))) {}
    if (answer != PAXIDORE_OK)
        return 1;
    while (reads(file, answer = paxidore_log_file_inclusion(path, sizeof path, &path_len, &pieces, size, size - 2))) {}
    if (answer == PAXIDORE_OK)
        answer = paxidore_log_verify_inclusion(root, size, size - 2, (const uint8_t *)"bob", 3, path, path_len);
    puts(paxidore_strerror(answer));
}
