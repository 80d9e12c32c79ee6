/*
 * Which of the two codes that the library has for x86-64 its calls use: the one for x86-64-v3 if the processor has all
 * that this level adds to x86-64-v2 and the system keeps the registers of AVX, else the one for x86-64-v2. A process
 * uses only one of them, since a handle belongs to the code that made it.
 */
#include <stdint.h>

/* 2 for x86-64-v2, 3 for x86-64-v3, and 1 before the first call. Threads that find it at once find the same. Tests set
 * it in a copy of the library's file. */
__attribute__((visibility("hidden"))) extern int level;

/* Finds the level, and keeps it. */
int find_level(void);

static inline int is_v3(void) {
    const int known = __atomic_load_n(&level, __ATOMIC_RELAXED);
    return (known == 1 ? find_level() : known) == 3;
}

/* Whether these words have all that x86-64-v3 adds: ecx of CPUID's leaf 1, ebx of leaf 7, ecx of leaf 0x80000001, and
 * XCR0. */
int has_v3(const uint32_t words[4]);
