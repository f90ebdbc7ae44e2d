/* Which of the two builds of the library runs: that for x86-64-v3 where the processor has all of this level and the system saves its
 * registers, else that for x86-64-v2. It is chosen once, as the library is loaded, before `main`. tools/join-builds makes the calls
 * that look at it: before it is chosen they run the second one, whose answers are the same. */
#define _GNU_SOURCE
#include "paxidore.h"

#include <cpuid.h>
#include <stdlib.h>
#include <string.h>

/* The words of CPUID that name the instructions of x86-64-v3 (the psABI of x86-64, section 3.1.1), and the registers that the system
 * saves (XCR0). */
struct processor {
    unsigned leaf_1_ecx, leaf_7_ebx, leaf_80000001_ecx, saved;
};

enum {
    V3_LEAF_1_ECX = bit_SSE3 | bit_SSSE3 | bit_FMA | bit_CMPXCHG16B | bit_SSE4_1 | bit_SSE4_2 | bit_MOVBE | bit_POPCNT | bit_OSXSAVE |
                    bit_AVX | bit_F16C,
    V3_LEAF_7_EBX = bit_BMI | bit_AVX2 | bit_BMI2,
    V3_LEAF_80000001_ECX = bit_LAHF_LM | bit_LZCNT,
    V3_SAVED = 2 | 4 /* XMM and YMM */
};

static int has_v3(struct processor it) {
    return (it.leaf_1_ecx & V3_LEAF_1_ECX) == V3_LEAF_1_ECX && (it.leaf_7_ebx & V3_LEAF_7_EBX) == V3_LEAF_7_EBX &&
           (it.leaf_80000001_ecx & V3_LEAF_80000001_ECX) == V3_LEAF_80000001_ECX && (it.saved & V3_SAVED) == V3_SAVED;
}

static struct processor this_processor(void) {
    struct processor it = {0, 0, 0, 0};
    unsigned eax, ebx, ecx, edx;
    if (__get_cpuid(1, &eax, &ebx, &ecx, &edx))
        it.leaf_1_ecx = ecx;
    if (__get_cpuid_count(7, 0, &eax, &ebx, &ecx, &edx))
        it.leaf_7_ebx = ebx;
    if (__get_cpuid(0x80000001, &eax, &ebx, &ecx, &edx))
        it.leaf_80000001_ecx = ecx;
    /* without this bit the instruction is none */
    if (it.leaf_1_ecx & bit_OSXSAVE)
        __asm__("xgetbv" : "=a"(it.saved), "=d"(edx) : "c"(0));
    return it;
}

/* What each call reads; not written after this. */
__attribute__((visibility("hidden"))) unsigned char runs_v3;

/* Before the constructors of a program that have no priority, so that they have the faster build too. */
__attribute__((constructor(101))) static void choose(void) {
    const char *wanted = secure_getenv("PAXIDORE_CPU");
    runs_v3 = !(wanted && strcmp(wanted, "x86-64-v2") == 0) && has_v3(this_processor());
}

const char *paxidore_cpu(void) { return runs_v3 ? "x86-64-v3" : "x86-64-v2"; }
