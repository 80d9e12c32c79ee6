/*
 * What the compiled program calls as it starts, to find out whether an x86-64 processor has the features that its code
 * uses. glibc has this function from 2.33 on.
 */
#ifdef __x86_64__
#include "cpuid.h"

/* What CPUID says, as the registers eax, ebx, ecx and edx, and the same of what programs can use. */
struct leaf {
    uint32_t said[4], usable[4];
};

/* Leaf 1, 7 or 0x80000001, by its place in this list. All of one that the processor doesn't have is zero. */
__attribute__((visibility("hidden"))) const struct leaf *__x86_get_cpuid_feature_leaf(unsigned place) {
    static const uint32_t numbers[3] = {1, 7, 0x80000001};
    static struct leaf leaves[3];
    struct leaf *leaf = &leaves[place];
    ask(numbers[place], leaf->said);
    __builtin_memcpy(leaf->usable, leaf->said, sizeof leaf->said);
    if ((ask_xcr0() & (XMM | YMM)) != (XMM | YMM)) {
        if (place == 0)
            leaf->usable[ECX] &= ~(FMA | AVX | F16C);
        if (place == 1)
            leaf->usable[EBX] &= ~AVX2;
    }
    return leaf;
}
#endif
