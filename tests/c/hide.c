/*
 * A library that is loaded before the program, and marks its secrets as undefined for valgrind's memcheck:
 *
 *   HIDDEN=3,5 LD_PRELOAD=hide.so valgrind halfgates deal CIRCUIT SEED INDEX VALUE FILE
 *
 * HIDDEN has the places of words. In files whose names end in .labels the labels are secret, which begin at byte 16.
 * What the program writes is public.
 */
#define _GNU_SOURCE
#include <stdio.h>
#include <stdlib.h>
#include <string.h>
#include <sys/syscall.h>
#include <unistd.h>
#include <valgrind/memcheck.h>

enum { HEAD = 16 };

static void __attribute__((constructor)) hide_words(int count, char **words) {
    const char *places = getenv("HIDDEN");
    char *end;
    while (places != NULL && *places != 0) {
        const long place = strtol(places, &end, 10);
        if (0 < place && place < count)
            (void)VALGRIND_MAKE_MEM_UNDEFINED(words[place], strlen(words[place]));
        places = *end == ',' ? end + 1 : end;
    }
}

/* Whether a file has labels. */
static int has_labels(int file) {
    static const char ending[] = ".labels";
    char link[32], path[4096];
    ssize_t size;
    snprintf(link, sizeof link, "/proc/self/fd/%d", file);
    size = readlink(link, path, sizeof path);
    return size >= (ssize_t)strlen(ending)
           && memcmp(path + size - strlen(ending), ending, strlen(ending)) == 0;
}

ssize_t read(int file, void *buffer, size_t size) {
    const int is_secret = has_labels(file);
    const off_t at = is_secret ? lseek(file, 0, SEEK_CUR) : 0;
    const ssize_t count = syscall(SYS_read, file, buffer, size), head = at < HEAD ? HEAD - at : 0;
    if (is_secret && head < count)
        (void)VALGRIND_MAKE_MEM_UNDEFINED((char *)buffer + head, (size_t)(count - head));
    return count;
}

ssize_t write(int file, const void *buffer, size_t size) {
    (void)VALGRIND_MAKE_MEM_DEFINED(buffer, size);
    return syscall(SYS_write, file, buffer, size);
}
