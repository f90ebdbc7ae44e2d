/* Logs in files, which are memory here, against logs that are kept in memory. It prints how many checks passed, and ends with 1 where
 * one failed. */
#include "paxidore.h"

#include <stdio.h>
#include <stdlib.h>
#include <string.h>

static int passed, failed;

static void check(int holds, const char *what, int line) {
    if (holds) {
        passed++;
    } else {
        failed++;
        fprintf(stderr, "log_file.c:%d: %s\n", line, what);
    }
}
#define CHECK(holds) check((holds) != 0, #holds, __LINE__)

enum { MOST = 70, ROOM = 1 << 15, SECTOR = 4096, HEAD = 96 };

/* A file. */
struct file {
    uint8_t bytes[ROOM];
    size_t len;
};

/* What was read of one for a call, in how many turns. */
struct reading {
    paxidore_piece places[PAXIDORE_LOG_PIECES_MAX];
    uint8_t bytes[ROOM];
    paxidore_log_pieces pieces;
    size_t turns;
};

/* What is to be written. */
struct plan {
    paxidore_piece places[PAXIDORE_LOG_STEPS_MAX];
    uint8_t bytes[ROOM];
    paxidore_log_steps steps;
};

static struct reading read_so_far;
static struct plan plan;

static void begin(const struct file *file) {
    paxidore_log_pieces none = {read_so_far.places, PAXIDORE_LOG_PIECES_MAX, 0, read_so_far.bytes, 0, 0};
    none.file_len = file->len;
    read_so_far.pieces = none;
    read_so_far.turns = 0;
}
#define PIECES &read_so_far.pieces

/* Room for a plan, whatever stands in it. */
static paxidore_log_steps *room_of_plan(size_t bytes_room) {
    paxidore_log_steps steps = {plan.places, PAXIDORE_LOG_STEPS_MAX, 99, plan.bytes, 0, 99};
    steps.bytes_room = bytes_room;
    plan.steps = steps;
    return &plan.steps;
}
#define PLAN room_of_plan(sizeof plan.bytes)

/* A call changes the places and the counts alone. */
static int keeps_the_rest(const struct file *file) {
    const paxidore_log_pieces *pieces = &read_so_far.pieces;
    const paxidore_log_steps *steps = &plan.steps;
    return pieces->places == read_so_far.places && pieces->places_room == PAXIDORE_LOG_PIECES_MAX &&
           pieces->bytes == read_so_far.bytes && pieces->file_len == file->len && steps->places == plan.places &&
           steps->places_room == PAXIDORE_LOG_STEPS_MAX && steps->bytes == plan.bytes && steps->bytes_room <= sizeof plan.bytes;
}

/* Reads what is asked for, where something is. */
static int is_more(const struct file *file, size_t count_before, int32_t answer) {
    if (answer != PAXIDORE_E_MORE)
        return 0;
    CHECK(read_so_far.pieces.places_len > count_before && read_so_far.pieces.places_len <= PAXIDORE_LOG_PIECES_MAX);
    for (size_t piece = count_before; piece < read_so_far.pieces.places_len; piece++) {
        size_t place = read_so_far.places[piece].at, count = read_so_far.places[piece].len;
        CHECK(place <= file->len && count <= file->len - place);
        memcpy(read_so_far.bytes + read_so_far.pieces.bytes_len, file->bytes + place, count);
        read_so_far.pieces.bytes_len += count;
    }
    read_so_far.turns++;
    return 1;
}

/* The answer of a call of this file, for which is read what it asks for. */
#define ASKED(answer, file, call)                        \
    do {                                                 \
        size_t before_;                                  \
        begin(file);                                     \
        do {                                             \
            before_ = read_so_far.pieces.places_len;     \
            (answer) = (call);                           \
        } while (is_more((file), before_, (answer)));    \
        CHECK(!plan.steps.places || keeps_the_rest(file)); \
    } while (0)

/* Carries out the first steps of the plan, and of the next one so many bytes. */
static void carry_out(struct file *file, size_t steps, size_t part) {
    size_t begin = 0;
    for (size_t step = 0; step < plan.steps.places_len && step <= steps; step++) {
        size_t place = plan.places[step].at, count = plan.places[step].len, done = step < steps ? count : part;
        if (done > count)
            done = count;
        memcpy(file->bytes + place, plan.bytes + begin, done);
        if (done && file->len < place + done)
            file->len = place + done;
        begin += count;
    }
}

static const char sector_title[] = "paxidore log of SHA-256, sectors", dense_title[] = "paxidore log, digests of SHA-256";

/* The file with sectors of a log's file. */
static void lay_apart(struct file *to, const struct file *from) {
    memset(to, 0, sizeof *to);
    for (size_t slot = 0; slot < 2; slot++) {
        memcpy(to->bytes + SECTOR * slot, sector_title, 32);
        memcpy(to->bytes + SECTOR * slot + 32, from->bytes + 32 + 32 * slot, 32);
    }
    memcpy(to->bytes + 2 * SECTOR, from->bytes + HEAD, from->len - HEAD);
    to->len = 2 * SECTOR + from->len - HEAD;
}

/* The older file, whose slots lie in one sector, of a file with two. */
static void lay_dense(struct file *to, const struct file *from) {
    memset(to, 0, sizeof *to);
    memcpy(to->bytes, dense_title, 32);
    for (size_t slot = 0; slot < 2; slot++)
        memcpy(to->bytes + 32 + 32 * slot, from->bytes + SECTOR * slot + 32, 32);
    memcpy(to->bytes + HEAD, from->bytes + 2 * SECTOR, from->len - 2 * SECTOR);
    to->len = HEAD + from->len - 2 * SECTOR;
}

static int is_same(const struct file *file, const struct file *other) {
    return file->len == other->len && memcmp(file->bytes, other->bytes, file->len) == 0;
}

/* Makes a file ready, and answers what that does: so many bytes are written in so many steps. */
static int is_made(struct file *file, size_t steps, size_t bytes) {
    int32_t answer;
    ASKED(answer, file, paxidore_log_file_make(PLAN, PIECES));
    if (answer != PAXIDORE_OK || plan.steps.places_len != steps || plan.steps.bytes_len != bytes || bytes > paxidore_log_file_room(0))
        return 0;
    carry_out(file, plan.steps.places_len, 0);
    return 1;
}

/* A log that is kept in memory. */
static uint8_t kept[32 * 2 * MOST];
static size_t kept_len, kept_size;

static void keep(const uint8_t *entries, size_t len, const size_t *lengths, size_t count) {
    size_t more;
    CHECK(paxidore_log_append(kept + 32 * kept_len, 2 * MOST - kept_len, &more, kept, kept_len, kept_size, entries, len, lengths,
                              count) == PAXIDORE_OK);
    kept_len += more;
    kept_size += count;
}

/* The file is that of the first entries of the kept log: its answers are those of the calls on memory. */
static int is_log_of(const struct file *file, size_t size, int thorough) {
    uint8_t own[32], other[32], path[PAXIDORE_LOG_PROOFBYTES_MAX], wanted[PAXIDORE_LOG_PROOFBYTES_MAX];
    size_t found, path_len, wanted_len;
    int32_t answer;
    ASKED(answer, file, paxidore_log_file_size(&found, PIECES));
    if (answer != PAXIDORE_OK || found != size || read_so_far.turns != 1)
        return 0;
    ASKED(answer, file, paxidore_log_file_root(own, PIECES, size));
    if (answer != PAXIDORE_OK || read_so_far.turns > 3 || paxidore_log_root(other, kept, kept_len, size) != PAXIDORE_OK ||
        memcmp(own, other, 32) != 0)
        return 0;
    for (size_t index = 0; thorough && index < size; index++) {
        ASKED(answer, file, paxidore_log_file_inclusion(path, sizeof path, &path_len, PIECES, size, index));
        if (answer != PAXIDORE_OK || read_so_far.turns > 3 ||
            paxidore_log_inclusion(wanted, sizeof wanted, &wanted_len, kept, kept_len, size, index) != PAXIDORE_OK ||
            path_len != wanted_len || memcmp(path, wanted, path_len) != 0)
            return 0;
        ASKED(answer, file, paxidore_log_file_consistency(path, sizeof path, &path_len, PIECES, index + 1, size));
        if (answer != PAXIDORE_OK || read_so_far.turns > 3 ||
            paxidore_log_consistency(wanted, sizeof wanted, &wanted_len, kept, kept_len, index + 1, size) != PAXIDORE_OK ||
            path_len != wanted_len || memcmp(path, wanted, path_len) != 0)
            return 0;
    }
    return paxidore_log_file_check(file->bytes, file->len) == PAXIDORE_OK;
}

static void appends(void) {
    static struct file file, torn;
    static const size_t counts[] = {1, 1, 1, 2, 3, 5, 8, 13, 21, 1, 1};
    static uint8_t entries[MOST];
    static size_t lengths[MOST];
    size_t size = 0, grown;
    int32_t answer;
    for (size_t n = 0; n < MOST; n++)
        entries[n] = (uint8_t)n, lengths[n] = 1;
    const size_t head = HEAD;
    static struct file sectors;
    CHECK(is_made(&sectors, 1, 2 * SECTOR) && sectors.len == 2 * SECTOR && is_log_of(&sectors, 0, 1));
    /* whatever part of the two sectors is written, from either end, they are completed; whole ones are written again */
    for (size_t part = 0; part <= 2 * SECTOR; part += part % SECTOR < 70 ? 1 : 101) {
        torn = sectors;
        memset(torn.bytes + part, 0, 2 * SECTOR - part);
        CHECK(is_made(&torn, 1, 2 * SECTOR) && is_same(&torn, &sectors));
        memset(torn.bytes + part, 0, 2 * SECTOR - part);
        torn.len = part;
        CHECK(is_made(&torn, 1, 2 * SECTOR) && is_same(&torn, &sectors));
        memset(torn.bytes, 0, part);
        CHECK(is_made(&torn, 1, 2 * SECTOR) && is_same(&torn, &sectors));
    }
    /* a part of an older head is made a log's, once it is no part of the two sectors; a whole one is written again */
    lay_dense(&file, &sectors);
    for (size_t part = 0; part <= head; part++)
        for (size_t len = part; len <= head; len += head - part ? head - part : 1) {
            torn = file;
            memset(torn.bytes + part, 0, head - part);
            torn.len = len;
            if (part <= strlen("paxidore log"))
                CHECK(is_made(&torn, 1, 2 * SECTOR) && is_same(&torn, &sectors));
            else
                CHECK(is_made(&torn, 2, head) && is_log_of(&torn, 0, 1));
        }
    /* other files stay */
    for (size_t len = 1; len <= 3 * SECTOR; len += SECTOR - 1) {
        struct file *other = &torn;
        memset(other, 0, sizeof *other);
        other->len = len;
        other->bytes[len - 1] = 'x';
        sectors = *other;
        ASKED(answer, other, paxidore_log_file_make(PLAN, PIECES));
        CHECK(answer == PAXIDORE_OK);
        carry_out(other, plan.steps.places_len, 0);
        CHECK(is_same(other, &sectors));
    }
    for (size_t n = 0; n < sizeof counts / sizeof *counts; n++) {
        size_t count = counts[n];
        ASKED(answer, &file, paxidore_log_file_append(PLAN, &grown, PIECES, entries + size, count, lengths, count));
        CHECK(answer == PAXIDORE_OK && grown == size + count && read_so_far.turns <= 3);
        CHECK(plan.steps.bytes_len <= paxidore_log_file_room(count) && plan.steps.places_len <= PAXIDORE_LOG_STEPS_MAX);
        keep(entries + size, count, lengths, count);
        struct plan whole = plan;
        for (size_t step = 0; step < whole.steps.places_len; step++)
            for (size_t part = 0; part <= whole.places[step].len; part++) {
                torn = file, plan = whole;
                carry_out(&torn, step, part);
                CHECK(is_log_of(&torn, size, 0) || is_log_of(&torn, grown, 0));
            }
        plan = whole;
        carry_out(&file, plan.steps.places_len, 0);
        size = grown;
        CHECK(is_log_of(&file, size, 1));
        /* a bit of the head that is flipped is told, or harmless */
        for (size_t bit = 0; bit < 8 * head; bit++) {
            torn = file;
            torn.bytes[bit / 8] ^= (uint8_t)(1 << bit % 8);
            size_t found;
            ASKED(answer, &torn, paxidore_log_file_size(&found, PIECES));
            CHECK(answer == PAXIDORE_E_NO_LOG || answer == PAXIDORE_E_SHORT || is_log_of(&torn, size, 0));
        }
    }
    /* no entries */
    ASKED(answer, &file, paxidore_log_file_append(PLAN, &grown, PIECES, NULL, 0, NULL, 0));
    CHECK(answer == PAXIDORE_OK && grown == size && plan.steps.bytes_len == 0 && plan.steps.places_len == 0);
    /* refusals */
    uint8_t root[32], path[PAXIDORE_LOG_PROOFBYTES_MAX];
    size_t count = 99, lies[1] = {2};
    ASKED(answer, &file, paxidore_log_file_root(root, PIECES, size + 1));
    CHECK(answer == PAXIDORE_E_SIZE);
    ASKED(answer, &file, paxidore_log_file_inclusion(path, sizeof path, &count, PIECES, size, size));
    CHECK(answer == PAXIDORE_E_INDEX && count == 99);
    ASKED(answer, &file, paxidore_log_file_inclusion(path, sizeof path, &count, PIECES, size + 1, 0));
    CHECK(answer == PAXIDORE_E_SIZE && count == 99);
    ASKED(answer, &file, paxidore_log_file_inclusion(path, 31, &count, PIECES, size, 0));
    CHECK(answer == PAXIDORE_E_ROOM && count > 31);
    ASKED(answer, &file, paxidore_log_file_consistency(path, sizeof path, &count, PIECES, 0, size));
    CHECK(answer == PAXIDORE_E_SIZE);
    ASKED(answer, &file, paxidore_log_file_append(PLAN, &grown, PIECES, entries, 1, lies, 1));
    CHECK(answer == PAXIDORE_E_LENGTHS);
    ASKED(answer, &file,
          paxidore_log_file_append(room_of_plan(1), &grown, PIECES, entries, 1, lengths, 1));
    CHECK(answer == PAXIDORE_E_ROOM && plan.steps.bytes_len > 1 && plan.steps.places_len > 1);
    begin(&file);
    read_so_far.pieces.places_room = 0;
    CHECK(paxidore_log_file_size(&count, PIECES) == PAXIDORE_E_ROOM && read_so_far.pieces.places_len == 0);
    begin(&file);
    CHECK(paxidore_log_file_size(&count, PIECES) == PAXIDORE_E_MORE && read_so_far.pieces.places_len == 1);
    CHECK(paxidore_log_file_size(&count, PIECES) == PAXIDORE_E_LENGTHS && read_so_far.pieces.places_len == 1);
    read_so_far.pieces.places_len = PAXIDORE_LOG_PIECES_MAX + 1;
    CHECK(paxidore_log_file_size(&count, PIECES) == PAXIDORE_E_ROOM);
    /* a file that is shorter */
    for (size_t len = 0; len < file.len; len++) {
        torn = file;
        torn.len = len;
        ASKED(answer, &torn, paxidore_log_file_size(&count, PIECES));
        CHECK(answer == (len < head ? PAXIDORE_E_NO_LOG : PAXIDORE_E_SHORT));
        CHECK(paxidore_log_file_check(torn.bytes, len) == answer);
    }
    /* a digest that is damaged, but for the last one of an odd number, which is in no pair */
    torn = file;
    torn.bytes[file.len - 32 * 3] ^= 1;
    CHECK(paxidore_log_file_check(torn.bytes, torn.len) == PAXIDORE_NOT_SHOWN);
    /* a digest that is no peak: the root is the one that the head states, and proofs that need the digest are refused */
    torn = file;
    torn.bytes[head] ^= 1;
    ASKED(answer, &torn, paxidore_log_file_root(root, PIECES, size));
    CHECK(answer == PAXIDORE_OK);
    ASKED(answer, &torn, paxidore_log_file_inclusion(path, sizeof path, &count, PIECES, size, 1));
    CHECK(answer == PAXIDORE_E_DAMAGED);
    ASKED(answer, &torn, paxidore_log_file_consistency(path, sizeof path, &count, PIECES, 1, size));
    CHECK(answer == PAXIDORE_E_DAMAGED);
    /* the last digest is a peak: the log of the file has an odd number of entries */
    torn = file;
    torn.bytes[file.len - 1] ^= 1;
    CHECK(size % 2 == 1);
    ASKED(answer, &torn, paxidore_log_file_root(root, PIECES, size));
    CHECK(answer == PAXIDORE_E_DAMAGED);
    ASKED(answer, &torn, paxidore_log_file_append(PLAN, &grown, PIECES, entries, 1, lengths, 1));
    CHECK(answer == PAXIDORE_E_DAMAGED);
    /* neither slot is whole */
    torn = file;
    torn.bytes[32] ^= 1, torn.bytes[64] ^= 1;
    ASKED(answer, &torn, paxidore_log_file_size(&count, PIECES));
    CHECK(answer == PAXIDORE_E_HEAD && paxidore_log_file_check(torn.bytes, torn.len) == answer);
}

/* A file of which a sector is lost is made as the whole one, in so many steps and bytes. Wherever they stop it is that of the log. */
static int is_healed(struct file *torn, const struct file *whole, size_t size, size_t steps, size_t bytes) {
    static struct file stopped;
    static struct plan all;
    int32_t answer;
    ASKED(answer, torn, paxidore_log_file_make(PLAN, PIECES));
    if (answer != PAXIDORE_OK || plan.steps.places_len != steps || plan.steps.bytes_len != bytes || bytes > paxidore_log_file_room(0))
        return 0;
    all = plan;
    for (size_t step = 0; step < steps; step++)
        for (size_t part = 0; part <= SECTOR; part += part < 70 ? 1 : 671) {
            stopped = *torn, plan = all;
            carry_out(&stopped, step, part);
            if (!is_log_of(&stopped, size, 0))
                return 0;
        }
    plan = all;
    carry_out(torn, plan.steps.places_len, 0);
    return is_same(torn, whole) && is_log_of(torn, size, 0);
}

/* A log whose slots lie in two sectors, beside the same one whose slots lie in one. */
static void lies_apart(void) {
    static struct file file, dense, older, wanted, torn;
    static const size_t counts[] = {1, 2, 5, 1, 8, 13};
    static uint8_t entries[MOST];
    static size_t lengths[MOST];
    size_t size = 0, grown, count;
    int32_t answer;
    kept_len = kept_size = 0;
    for (size_t n = 0; n < MOST; n++)
        entries[n] = (uint8_t)n, lengths[n] = 1;
    CHECK(is_made(&file, 1, 2 * SECTOR));
    lay_dense(&dense, &file);
    CHECK(is_log_of(&file, 0, 1) && is_log_of(&dense, 0, 1));
    for (size_t n = 0; n < sizeof counts / sizeof *counts; n++) {
        /* the head and both sectors are asked for at once */
        begin(&file);
        CHECK(paxidore_log_file_size(&count, PIECES) == PAXIDORE_E_MORE && read_so_far.pieces.places_len == 2);
        CHECK(read_so_far.places[0].at == 0 && read_so_far.places[0].len == 96);
        CHECK(read_so_far.places[1].at == SECTOR && read_so_far.places[1].len == 64);
        /* it is opened, and stays as it is */
        older = wanted = file;
        CHECK(size ? is_made(&file, 2, HEAD) : is_made(&file, 1, 2 * SECTOR));
        CHECK(is_same(&file, &wanted));
        /* its first sector is lost: it is read, and nothing is appended until it is made */
        torn = file;
        memset(torn.bytes, n % 2 ? 0xa5 : 0, SECTOR);
        CHECK(is_log_of(&torn, size, 1));
        grown = 99;
        ASKED(answer, &torn, paxidore_log_file_append(PLAN, &grown, PIECES, entries + size, counts[n], lengths, counts[n]));
        CHECK(answer == PAXIDORE_E_HEAD && grown == 99 && plan.steps.places_len == 99 && plan.steps.bytes_len == 99);
        if (size)
            CHECK(is_healed(&torn, &file, size, 2, 2 * SECTOR));
        else /* it is a part of the sectors of a new log */
            CHECK(is_made(&torn, 1, 2 * SECTOR) && is_same(&torn, &file));
        /* its second one */
        torn = file;
        memset(torn.bytes + SECTOR, n % 2 ? 0 : 0xa5, SECTOR);
        CHECK(is_healed(&torn, &file, size, 2, SECTOR + 64));
        /* an append, whose steps stop somewhere */
        count = counts[n];
        ASKED(answer, &dense, paxidore_log_file_append(PLAN, &grown, PIECES, entries + size, count, lengths, count));
        CHECK(answer == PAXIDORE_OK);
        carry_out(&dense, plan.steps.places_len, 0);
        ASKED(answer, &file, paxidore_log_file_append(PLAN, &grown, PIECES, entries + size, count, lengths, count));
        CHECK(answer == PAXIDORE_OK && grown == size + count && read_so_far.turns <= 3);
        CHECK(plan.steps.bytes_len <= paxidore_log_file_room(count) && plan.steps.places_len <= PAXIDORE_LOG_STEPS_MAX);
        keep(entries + size, count, lengths, count);
        struct plan whole = plan;
        for (size_t step = 0; step < whole.steps.places_len; step++)
            for (size_t part = 0; part <= whole.places[step].len; part++) {
                torn = file, plan = whole;
                carry_out(&torn, step, part);
                CHECK(is_log_of(&torn, size, 0) || is_log_of(&torn, grown, 0));
            }
        plan = whole;
        carry_out(&file, plan.steps.places_len, 0);
        lay_apart(&wanted, &dense);
        CHECK(is_same(&file, &wanted));
        /* one of its slots is the older one */
        for (size_t slot = 0; slot < 2; slot++) {
            torn = file;
            memcpy(torn.bytes + SECTOR * slot + 32, older.bytes + SECTOR * slot + 32, 32);
            CHECK(slot ? is_healed(&torn, &file, grown, 2, SECTOR + 64) : is_healed(&torn, &file, grown, 2, 2 * SECTOR));
        }
        /* its second sector is lost: it is read, and goes on */
        torn = file;
        memset(torn.bytes + SECTOR, 0, SECTOR);
        CHECK(is_log_of(&torn, grown, 1));
        if (size + count < MOST) {
            size_t more;
            ASKED(answer, &torn, paxidore_log_file_append(PLAN, &more, PIECES, entries + grown, 1, lengths, 1));
            CHECK(answer == PAXIDORE_OK && more == grown + 1);
            carry_out(&torn, plan.steps.places_len, 0);
            ASKED(answer, &torn, paxidore_log_file_size(&more, PIECES));
            CHECK(answer == PAXIDORE_OK && more == grown + 1 && paxidore_log_file_check(torn.bytes, torn.len) == PAXIDORE_OK);
        }
        size = grown;
        CHECK(is_log_of(&file, size, 1));
    }
    /* a digest that is damaged */
    torn = file;
    torn.bytes[2 * SECTOR] ^= 1;
    CHECK(paxidore_log_file_check(torn.bytes, torn.len) == PAXIDORE_NOT_SHOWN);
    /* neither slot is whole */
    torn = file;
    torn.bytes[32] ^= 1, torn.bytes[SECTOR + 32] ^= 1;
    ASKED(answer, &torn, paxidore_log_file_size(&count, PIECES));
    CHECK(answer == PAXIDORE_E_HEAD && paxidore_log_file_check(torn.bytes, torn.len) == answer);
    /* nothing is healed: what is made is its own head */
    wanted = torn;
    CHECK(is_made(&torn, 2, HEAD) && is_same(&torn, &wanted));
    memset(torn.bytes, 0, SECTOR);
    wanted = torn;
    ASKED(answer, &torn, paxidore_log_file_make(PLAN, PIECES));
    CHECK(answer == PAXIDORE_E_HEAD && plan.steps.places_len == 99 && plan.steps.bytes_len == 99);
    /* one slot is lost, and the peak is damaged that the other one states */
    torn = file;
    torn.bytes[32] ^= 1;
    torn.bytes[file.len - 1] ^= 1;
    wanted = torn;
    CHECK(is_made(&torn, 2, HEAD) && is_same(&torn, &wanted));
    /* a file that is shorter */
    for (size_t len = 0; len < file.len; len++) {
        torn = file;
        torn.len = len;
        ASKED(answer, &torn, paxidore_log_file_size(&count, PIECES));
        CHECK(answer == (len < 2 * SECTOR ? PAXIDORE_E_NO_LOG : PAXIDORE_E_SHORT));
        CHECK(paxidore_log_file_check(torn.bytes, len) == answer);
    }
}

int main(void) {
    appends();
    lies_apart();
    CHECK(paxidore_log_file_room(3) >= 6 * 32 && paxidore_log_file_room(SIZE_MAX) == SIZE_MAX);
    CHECK(strcmp(paxidore_strerror(PAXIDORE_E_MORE), "unknown answer") != 0);
    CHECK(strcmp(paxidore_strerror(PAXIDORE_E_NO_LOG), "unknown answer") != 0);
    CHECK(strcmp(paxidore_strerror(PAXIDORE_E_SHORT), "unknown answer") != 0);
    CHECK(strcmp(paxidore_strerror(PAXIDORE_E_HEAD), "unknown answer") != 0);
    CHECK(strcmp(paxidore_strerror(PAXIDORE_E_DAMAGED), "unknown answer") != 0);
    printf("%d passed, %d failed\n", passed, failed);
    return failed != 0;
}
