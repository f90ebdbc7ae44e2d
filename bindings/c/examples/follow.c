/* Follows a log that publishes a checkpoint and tiles in a folder: follow FOLDER POLICY STATE. It moves STATE on to the checkpoint where
 * that continues the one in STATE, and prints its size. The folder may be a copy that a stranger made: the calls of the library check the
 * signatures and the proof, and a fault in how the proof is made here refuses a log, and accepts none. */
#include <paxidore_notes.h>

#include <stdio.h>
#include <stdlib.h>
#include <string.h>

enum { NOTE = 1000000, WIDTH = 256 };

static const char *folder;
static size_t entries;

static int stop(const char *why) {
    fprintf(stderr, "follow: %s\n", why);
    exit(1);
}

/* The bytes of a file, at most `room` of them; -1 where there is no such file. */
static long read_file(const char *path, uint8_t *bytes, size_t room) {
    FILE *file = fopen(path, "rb");
    size_t len;
    if (file == NULL) return -1;
    len = fread(bytes, 1, room, file);
    if (ferror(file) || fgetc(file) != EOF) stop("a file is too long, or is not read");
    fclose(file);
    return (long)len;
}

static void pair(uint8_t digest[32], const uint8_t left[32], const uint8_t right[32]) {
    uint8_t bytes[65] = {1};
    memcpy(bytes + 1, left, 32);
    memcpy(bytes + 33, right, 32);
    paxidore_sha256(digest, bytes, sizeof bytes);
}

static size_t split(size_t size) {
    size_t half = 1;
    while (half < size - half) half *= 2;
    return half;
}

/* The digests of a tile: those that the log has of it, or all where a full one stands in the place of the smaller. */
static void tile(uint8_t digests[WIDTH * 32], unsigned level, size_t index) {
    char place[64], name[128], path[4096];
    size_t all = (entries >> 8 * level) - index * WIDTH, width = all < WIDTH ? all : WIDTH, rest = index / 1000;
    long len;
    sprintf(place, "%03zu", index % 1000);
    for (; rest > 0; rest /= 1000) {
        sprintf(name, "x%03zu/%s", rest % 1000, place);
        strcpy(place, name);
    }
    snprintf(path, sizeof path, width < WIDTH ? "%s/tile/%u/%s.p/%zu" : "%s/tile/%u/%s", folder, level, place, width);
    len = read_file(path, digests, WIDTH * 32);
    if (len < 0 && width < WIDTH) {
        snprintf(path, sizeof path, "%s/tile/%u/%s", folder, level, place);
        len = read_file(path, digests, WIDTH * 32);
    }
    if (len < (long)(width * 32)) stop("a tile is missing, or ends early");
}

/* The root of the entries from `start` on, so many (RFC 6962, section 2.1). */
static void node(uint8_t digest[32], size_t start, size_t count) {
    uint8_t digests[WIDTH * 32], left[32], right[32];
    unsigned height = 0;
    size_t at, few;
    if ((count & (count - 1)) != 0 || start % count != 0) {
        node(left, start, split(count));
        node(right, start + split(count), count - split(count));
        pair(digest, left, right);
        return;
    }
    while (count >> height > 1) height++;
    at = start >> (height - height % 8);
    tile(digests, height / 8, at / WIDTH);
    memmove(digests, digests + at % WIDTH * 32, (size_t)32 << height % 8);
    for (few = (size_t)1 << height % 8; few > 1; few /= 2)
        for (at = 0; at < few / 2; at++) pair(digests + 32 * at, digests + 64 * at, digests + 64 * at + 32);
    memcpy(digest, digests, 32);
}

/* Puts the consistency proof from `old` of the entries from `start` on, so many, behind others (RFC 6962, section 2.1.2). */
static size_t prove(uint8_t *proof, size_t len, size_t old, size_t start, size_t count, int whole) {
    size_t half;
    if (old == count) {
        if (!whole) node(proof + len, start, count);
        return whole ? len : len + 32;
    }
    half = split(count);
    if (old <= half) {
        len = prove(proof, len, old, start, half, whole);
        node(proof + len, start + half, count - half);
    } else {
        len = prove(proof, len, old - half, start + half, count - half, 0);
        node(proof + len, start, half);
    }
    return len + 32;
}

int main(int count, char **words) {
    static uint8_t note[NOTE], policy[NOTE], state[NOTE];
    uint8_t proof[PAXIDORE_LOG_PROOFBYTES_MAX], root[32], old_root[32], found[32];
    size_t old = 0, len = 0;
    char path[4096];
    long note_len, policy_len, state_len;
    int32_t answer;
    FILE *file;
    if (count != 4) stop("follow FOLDER POLICY STATE");
    folder = words[1];
    snprintf(path, sizeof path, "%s/checkpoint", folder);
    note_len = read_file(path, note, NOTE);
    policy_len = read_file(words[2], policy, NOTE);
    state_len = read_file(words[3], state, NOTE);
    if (note_len < 0 || policy_len < 0) stop("there is no checkpoint, or no policy");
    answer = paxidore_checkpoint_open(root, &entries, policy, (size_t)policy_len, 0, NULL, 0, note, (size_t)note_len);
    if (answer == PAXIDORE_OK && state_len >= 0)
        answer = paxidore_checkpoint_open(old_root, &old, policy, (size_t)policy_len, 0, NULL, 0, state, (size_t)state_len);
    if (answer != PAXIDORE_OK) stop(paxidore_strerror(answer));
    if (entries < old) stop("the checkpoint is older than the state");
    if (old == 0) { /* the first time the log is taken as it is */
        paxidore_sha256(found, NULL, 0);
        if (entries > 0) node(found, 0, entries);
        if (memcmp(found, root, 32) != 0) stop("the tiles do not lead to the root");
    } else {
        len = prove(proof, 0, old, 0, entries, 1);
        answer = paxidore_log_verify_consistency(old_root, old, root, entries, proof, len);
        if (answer != PAXIDORE_OK) stop("the log does not continue, or its tiles are wrong");
    }
    /* a new state takes the old one's place: sync both where a power failure counts */
    snprintf(path, sizeof path, "%s.new", words[3]);
    file = fopen(path, "wb");
    if (file == NULL || fwrite(note, 1, (size_t)note_len, file) != (size_t)note_len || fclose(file) != 0 || rename(path, words[3]) != 0)
        stop("the state is not written");
    printf("%zu\n", entries);
    return 0;
}
