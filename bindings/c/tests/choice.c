/* Which of the two builds is chosen, by what a processor says of itself: that for x86-64-v3 where it has all of it, and where any one
 * of its instructions is lacking the other one. It reads choose.c itself. It prints how many checks passed, and ends with 1 where
 * one failed. */
#include "../choose.c"

#include <stdio.h>

static int passed, failed;

static void check(int holds, const char *what, int line) {
    if (holds) {
        passed++;
    } else {
        failed++;
        fprintf(stderr, "choice.c:%d: %s\n", line, what);
    }
}
#define CHECK(holds) check((holds) != 0, #holds, __LINE__)

/* The same bits by their numbers (Intel's manual, CPUID and XCR0): SSE3, SSSE3, FMA, CMPXCHG16B, SSE4.1, SSE4.2, MOVBE, POPCNT,
 * OSXSAVE, AVX, F16C; BMI1, AVX2, BMI2; LAHF, LZCNT; SSE and AVX state. */
static const unsigned char BITS[4][12] = {
    {0, 9, 12, 13, 19, 20, 22, 23, 27, 28, 29, 99}, {3, 5, 8, 99}, {0, 5, 99}, {1, 2, 99}};

static struct processor of(const unsigned words[4]) {
    struct processor it = {words[0], words[1], words[2], words[3]};
    return it;
}

int main(void) {
    const unsigned all[4] = {-1u, -1u, -1u, -1u};
    unsigned least[4] = {0, 0, 0, 0};
    for (int word = 0; word < 4; word++)
        for (int i = 0; BITS[word][i] != 99; i++)
            least[word] |= 1u << BITS[word][i];
    CHECK(has_v3(of(all)));
    CHECK(has_v3(of(least)));
    for (int word = 0; word < 4; word++) {
        for (int bit = 0; bit < 32; bit++) {
            unsigned less[4];
            memcpy(less, all, sizeof less);
            less[word] &= ~(1u << bit);
            CHECK(has_v3(of(less)) == !(least[word] >> bit & 1));
        }
    }
    /* what the compiler says of this processor, if it knows the word */
#if defined(__GNUC__) && !defined(__clang__) && __GNUC__ >= 12
    __builtin_cpu_init();
    CHECK(has_v3(this_processor()) == !!__builtin_cpu_supports("x86-64-v3"));
#endif
    printf("%d passed, %d failed\n", passed, failed);
    return failed != 0;
}
