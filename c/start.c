/*
 * How the program starts, and its arguments: what the kit's crate `os` calls `rattle_arg_count` and `rattle_arg`.
 *
 * The start files of glibc 2.34 and later have the C library find the program's constructors, which earlier ones don't.
 * The program has none, so this one starts under each.
 */
#include <stddef.h>
#include <stdint.h>

int main(int count, char **words, char **environment);
_Noreturn void __libc_start_main(int (*)(int, char **, char **), int, char **, void (*)(void), void (*)(void),
                                 void (*)(void), void *);

static size_t count;
static char **words;

/* The first code to run. The stack holds the number of words, and then their addresses. What the loader has the program
 * call at its end comes in a register. */
__asm__(".globl _start\n"
        "_start:\n"
#if defined(__x86_64__)
        "xor %ebp, %ebp\n"
        "mov %rsp, %rdi\n"
        "mov %rdx, %rsi\n"
        "and $-16, %rsp\n"
        "call start\n"
        "hlt\n"
#elif defined(__aarch64__)
        "mov x29, #0\n"
        "mov x30, #0\n"
        "mov x1, x0\n"
        "mov x0, sp\n"
        "b start\n"
#endif
);

__attribute__((used, visibility("hidden"))) _Noreturn void start(size_t *stack, void (*at_end)(void)) {
    count = *stack;
    words = (char **)(stack + 1);
    __libc_start_main(main, (int)count, words, NULL, NULL, at_end, stack);
}

/* How many arguments there are, with the program's name. */
size_t rattle_arg_count(void) { return count; }

/* Puts argument `i` at the start of the buffer and returns its length: -1 where there is no such argument, -2 where it
 * doesn't fit, and then the buffer is full. */
intptr_t rattle_arg(size_t i, unsigned char *buffer, size_t size) {
    if (i >= count)
        return -1;
    const char *word = words[i];
    for (size_t length = 0;; length++) {
        if (word[length] == 0)
            return (intptr_t)length;
        if (length == size)
            return -2;
        buffer[length] = (unsigned char)word[length];
    }
}
