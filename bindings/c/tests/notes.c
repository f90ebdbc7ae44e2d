/* Signed checkpoints and receipts: what is signed is opened, each refusal by its name with all left as it was, and damaged notes. It
 * prints how many checks passed, and ends with 1 where one failed. */
#include "paxidore_notes.h"

#include <stdio.h>
#include <stdlib.h>
#include <string.h>

enum { ROOM = 1024 };

static size_t passed, failed;
static uint64_t state = 8032;

#define CHECK(holds) ((holds) ? (void)passed++ : (void)(failed++, printf("FAILED: line %d: %s\n", __LINE__, #holds)))
#define TEXT(words) (const uint8_t *)(words), sizeof(words) - 1
#define NONE NULL, 0

static const char name[] = "example.com/log";
static const uint8_t entry[] = "an entry";
static uint8_t seed[32] = {7}, key[32], root[32], note[ROOM], policy[ROOM], receipt[ROOM];
static size_t note_len, policy_len, receipt_len;

static uint64_t drawn(void) {
    state ^= state << 13;
    state ^= state >> 7;
    state ^= state << 17;
    return state * 0x2545f4914f6cdd1d;
}

/* Copies bytes of just this length, so that a sanitizer sees what is read past them. */
static uint8_t *exact(const uint8_t *bytes, size_t len) {
    uint8_t *made = malloc(len ? len : 1);
    if (made == NULL)
        exit(2);
    if (len != 0)
        memcpy(made, bytes, len);
    return made;
}

/* What opening bytes answers; where it is no yes, nothing was written. */
static int32_t opened(const uint8_t *bytes, size_t len, const uint8_t *origin, size_t origin_len, uint64_t since, size_t wanted) {
    uint8_t found[32];
    size_t size = 99;
    uint8_t *given = exact(bytes, len);
    memset(found, 0xa5, 32);
    int32_t answer = paxidore_checkpoint_open(found, &size, policy, policy_len, since, origin, origin_len, given, len);
    free(given);
    if (answer == PAXIDORE_OK)
        CHECK(size == wanted && memcmp(found, root, 32) == 0);
    else
        CHECK(size == 99 && found[0] == 0xa5 && memcmp(found, found + 1, 31) == 0);
    return answer;
}

static int32_t proved(const uint8_t *bytes, size_t len, const uint8_t *of, size_t of_len) {
    uint8_t found[32];
    size_t size = 99, index = 99;
    uint8_t *given = exact(bytes, len);
    memset(found, 0xa5, 32);
    int32_t answer = paxidore_receipt_open(found, &size, &index, policy, policy_len, 0, NONE, of, of_len, given, len);
    free(given);
    if (answer == PAXIDORE_OK)
        CHECK(size == 1 && index == 0 && memcmp(found, root, 32) == 0);
    else
        CHECK(size == 99 && index == 99 && found[0] == 0xa5 && memcmp(found, found + 1, 31) == 0);
    return answer;
}

static void signs(void) {
    uint8_t again[ROOM];
    size_t len = 0;
    CHECK(paxidore_checkpoint_sign(note, ROOM, &note_len, seed, TEXT("example.com/log"), TEXT("example.com/log"), root, 1) == PAXIDORE_OK);
    CHECK(note_len > 150 && memcmp(note, "example.com/log\n1\n", 18) == 0);
    memset(again, 0xa5, ROOM);
    CHECK(paxidore_checkpoint_sign(again, note_len - 1, &len, seed, TEXT("example.com/log"), TEXT("example.com/log"), root, 1) ==
          PAXIDORE_E_ROOM);
    CHECK(len == note_len && again[0] == 0xa5 && memcmp(again, again + 1, ROOM - 1) == 0);
    CHECK(paxidore_checkpoint_sign(again, note_len, &len, seed, TEXT("example.com/log"), TEXT("example.com/log"), root, 1) == PAXIDORE_OK);
    CHECK(len == note_len && memcmp(again, note, len) == 0);
    len = 99;
    CHECK(paxidore_checkpoint_sign(NONE, &len, seed, TEXT("a name"), TEXT("x"), root, 1) == PAXIDORE_E_INVALID && len == 99);
    CHECK(paxidore_checkpoint_sign(NONE, &len, seed, NONE, TEXT("x"), root, 1) == PAXIDORE_E_INVALID && len == 99);
    CHECK(paxidore_checkpoint_sign(NONE, &len, seed, TEXT("x"), NONE, root, 1) == PAXIDORE_E_INVALID && len == 99);
    CHECK(paxidore_checkpoint_sign(NONE, &len, seed, TEXT("x"), TEXT("\xff"), root, 1) == PAXIDORE_E_INVALID && len == 99);
    CHECK(paxidore_checkpoint_sign(NONE, &len, seed, TEXT("x"), TEXT("x"), root, 1) == PAXIDORE_E_ROOM && len > 99);
    len = 99;
    CHECK(paxidore_verifier_text(NONE, &len, TEXT("a+b"), key) == PAXIDORE_E_INVALID && len == 99);
    CHECK(paxidore_verifier_text(NONE, &len, TEXT("x"), key) == PAXIDORE_E_ROOM && len == 1 + 1 + 8 + 1 + 44);
}

static void opens(void) {
    CHECK(opened(note, note_len, NONE, 0, 1) == PAXIDORE_OK);
    CHECK(opened(note, note_len, TEXT("example.com/log"), 0, 1) == PAXIDORE_OK);
    CHECK(opened(note, note_len, TEXT("example.com/log"), UINT64_MAX, 1) == PAXIDORE_OK);
    CHECK(opened(note, note_len, TEXT("example.com/lo"), 0, 1) == PAXIDORE_E_ORIGIN);
    CHECK(opened(note, note_len, TEXT("\xff"), 0, 1) == PAXIDORE_E_ORIGIN);
    CHECK(opened(NONE, NONE, 0, 1) == PAXIDORE_E_INVALID);
    for (size_t len = 0; len < note_len; len++)
        CHECK(opened(note, len, NONE, 0, 1) < 0);
    policy_len--;
    CHECK(opened(note, note_len, NONE, 0, 1) == PAXIDORE_OK); /* the last line feed may be missing */
    policy_len -= 2;
    CHECK(opened(note, note_len, NONE, 0, 1) == PAXIDORE_E_POLICY);
    policy_len += 3;
}

static void shows(void) {
    CHECK(proved(receipt, receipt_len, entry, sizeof entry) == PAXIDORE_OK);
    CHECK(proved(receipt, receipt_len, entry, sizeof entry - 1) == PAXIDORE_NOT_SHOWN);
    CHECK(proved(receipt, receipt_len, NONE) == PAXIDORE_NOT_SHOWN);
    CHECK(proved(NONE, entry, sizeof entry) == PAXIDORE_E_INVALID);
    for (size_t len = 0; len < receipt_len; len++)
        CHECK(proved(receipt, len, entry, sizeof entry) < 0);
}

static void is_damaged(long rounds) {
    uint8_t bytes[ROOM];
    for (long i = 0; i < rounds; i++) {
        memcpy(bytes, note, note_len);
        for (uint64_t left = 1 + drawn() % 3; left; left--)
            bytes[drawn() % note_len] ^= (uint8_t)(1 << drawn() % 8);
        CHECK(opened(bytes, note_len, NONE, 0, 1) < 0 || memcmp(bytes, note, note_len) == 0);
        memcpy(bytes, receipt, receipt_len);
        bytes[drawn() % receipt_len] ^= (uint8_t)(1 << drawn() % 8);
        CHECK(proved(bytes, receipt_len, entry, sizeof entry) != PAXIDORE_OK);
    }
}

int main(int count, char **words) {
    uint8_t leaf[1 + sizeof entry] = {0};
    char text[ROOM];
    size_t len = 0;
    memcpy(leaf + 1, entry, sizeof entry);
    paxidore_sha256(root, leaf, sizeof leaf);
    paxidore_ed25519_public_key(key, seed);
    CHECK(paxidore_verifier_text((uint8_t *)text, ROOM - 1, &len, TEXT("example.com/log"), key) == PAXIDORE_OK);
    text[len] = 0;
    CHECK(strncmp(text, name, strlen(name)) == 0 && text[strlen(name)] == '+');
    policy_len = (size_t)snprintf((char *)policy, ROOM, "log %s\nquorum none\n", text);
    signs();
    receipt_len = (size_t)snprintf((char *)receipt, ROOM, "c2sp.org/tlog-proof@v1\nindex 0\n\n%.*s", (int)note_len, (char *)note);
    opens();
    shows();
    is_damaged(count > 1 ? atol(words[1]) : 2000);
    printf("%zu passed, %zu failed\n", passed, failed);
    return failed != 0;
}
