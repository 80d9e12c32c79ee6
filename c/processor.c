/*
 * What the library asks of an x86-64 processor. processor.h says what for.
 */
#ifdef __x86_64__
#include "processor.h"
#include "cpuid.h"

int level = 1;

int has_v3(const uint32_t words[4]) {
    static const uint32_t wanted[4] = {
        FMA | MOVBE | OSXSAVE | AVX | F16C,
        BMI1 | AVX2 | BMI2,
        LZCNT,
        XMM | YMM,
    };
    for (int i = 0; i < 4; i++)
        if ((words[i] & wanted[i]) != wanted[i])
            return 0;
    return 1;
}

int find_level(void) {
    uint32_t one[4], seven[4], extended[4];
    ask(1, one);
    ask(7, seven);
    ask(0x80000001, extended);
    const uint32_t words[4] = {one[ECX], seven[EBX], extended[ECX], ask_xcr0()};
    const int found = has_v3(words) ? 3 : 2;
    __atomic_store_n(&level, found, __ATOMIC_RELAXED);
    return found;
}
#endif
