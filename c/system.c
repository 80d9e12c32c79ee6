/*
 * What the program calls of the kit's crates `libc::heap` and `os`, over the C library: the heap, and errno. Unlike the
 * library's heap.c, it wipes nothing.
 */
#include <stddef.h>
#include <stdint.h>

void *malloc(size_t size);
void *realloc(void *block, size_t size);
void free(void *block);
int *__errno_location(void);

/* Whether there is a block, 1 or 0, and the block. */
struct tried {
    uint64_t is_there;
    void *block;
};

static struct tried tried(void *block) {
    static char none;
    return block ? (struct tried){1, block} : (struct tried){0, &none};
}

/* A new block of `size` bytes. `alignment` divides 16, as malloc's blocks are aligned; a block of no bytes takes that
 * many. */
struct tried rattle_alloc(size_t size, size_t alignment) { return tried(malloc(size ? size : alignment)); }

/* A block of `size` bytes that begins with the first `kept` bytes of this one, which is then freed. Where there is no
 * memory, this one stays as it is. */
struct tried rattle_realloc(void *block, size_t kept, size_t size, size_t alignment) {
    (void)kept;
    return tried(realloc(block, size ? size : alignment));
}

void rattle_dealloc(void *block) { free(block); }

/* The calling thread's errno. */
int32_t rattle_errno(void) { return *__errno_location(); }

void rattle_set_errno(int32_t error) { *__errno_location() = error; }
