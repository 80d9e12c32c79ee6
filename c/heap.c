/*
 * The library's heap: the three calls of the kit's `libc::heap`, over malloc and free. A block is wiped before it is
 * freed, and one that grows or shrinks is copied to a new block, so that freed memory holds no seed, label or bit.
 *
 * A head before each block keeps its size. Of the C library it needs only malloc and free.
 */
#include <stddef.h>
#include <stdint.h>

void *malloc(size_t size);
void free(void *block);

/* What is before a block. Blocks are aligned as those of malloc are, to 16 bytes. */
struct head {
    _Alignas(16) size_t size;
};

/* Whether there is a block, 1 or 0, and the block. */
struct tried {
    uint64_t is_there;
    void *block;
};

/* Writes zero bytes. The compiler can't know that nobody reads them, so it leaves the writes in. */
static void wipe(void *block, size_t size) {
    __builtin_memset(block, 0, size);
    __asm__ volatile("" : : "r"(block) : "memory");
}

/* A new block of `size` bytes. `alignment` divides 16; a block of no bytes takes that many. */
struct tried rattle_alloc(size_t size, size_t alignment) {
    static char none;
    const size_t taken = size ? size : alignment;
    struct head *head = malloc(sizeof *head + taken);
    if (head == NULL)
        return (struct tried){0, &none};
    head->size = taken;
    return (struct tried){1, head + 1};
}

void rattle_dealloc(void *block) {
    struct head *head = (struct head *)block - 1;
    wipe(head, sizeof *head + head->size);
    free(head);
}

/* A block of `size` bytes that begins with the first `kept` bytes of this one, which is then freed. Where there is no
 * memory, this one stays as it is. */
struct tried rattle_realloc(void *block, size_t kept, size_t size, size_t alignment) {
    struct tried moved = rattle_alloc(size, alignment);
    if (moved.is_there) {
        __builtin_memcpy(moved.block, block, kept);
        rattle_dealloc(block);
    }
    return moved;
}
