/*
 * What an x86-64 processor and its system say that programs can use.
 */
#include <stdint.h>

/* The registers that CPUID sets. */
enum { EAX, EBX, ECX, EDX };

/* Features: bits of ecx of leaf 1, of ebx of leaf 7, and of ecx of leaf 0x80000001. */
enum { FMA = 1 << 12, MOVBE = 1 << 22, OSXSAVE = 1 << 27, AVX = 1 << 28, F16C = 1 << 29 };
enum { BMI1 = 1 << 3, AVX2 = 1 << 5, BMI2 = 1 << 8 };
enum { LZCNT = 1 << 5 };

/* Bits of XCR0: the registers that the system keeps for each thread. */
enum { XMM = 1 << 1, YMM = 1 << 2 };

static inline void cpuid(uint32_t leaf, uint32_t said[4]) {
    __asm__("cpuid" : "=a"(said[EAX]), "=b"(said[EBX]), "=c"(said[ECX]), "=d"(said[EDX]) : "a"(leaf), "c"(0));
}

/* What a leaf says: all zero if the processor doesn't have it. */
static inline void ask(uint32_t leaf, uint32_t said[4]) {
    cpuid(leaf & 0x80000000, said);
    if (said[EAX] >= leaf)
        cpuid(leaf, said);
    else
        said[EAX] = said[EBX] = said[ECX] = said[EDX] = 0;
}

/* XCR0, or zero where the system doesn't let programs read it. */
static inline uint32_t ask_xcr0(void) {
    uint32_t said[4], low, high;
    ask(1, said);
    if (!(said[ECX] & OSXSAVE))
        return 0;
    __asm__ volatile("xgetbv" : "=a"(low), "=d"(high) : "c"(0));
    return low;
}
