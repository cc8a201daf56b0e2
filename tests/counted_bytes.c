// Counts the bytes that a program asks for, which this library is loaded before. The file that BYTES names holds two sums, as longs: of
// the requests for less than a page, and of the others.
#define _GNU_SOURCE
#include <fcntl.h>
#include <stdatomic.h>
#include <stdlib.h>
#include <sys/mman.h>
#include <unistd.h>

extern void *__libc_malloc(size_t);
extern void *__libc_calloc(size_t, size_t);
extern void *__libc_realloc(void *, size_t);

enum { PAGE = 4096 };

static atomic_long own[2];
static atomic_long *bytes = own;

// The sums stand in the file, so that they are there however the program ends.
__attribute__((constructor)) static void begin(void) {
    const char *name = getenv("BYTES");
    int file = name ? open(name, O_RDWR | O_CREAT | O_TRUNC, 0600) : -1;
    if (file >= 0 && ftruncate(file, sizeof own) == 0) {
        void *shared = mmap(NULL, sizeof own, PROT_READ | PROT_WRITE, MAP_SHARED, file, 0);
        if (shared != MAP_FAILED) bytes = shared;
        close(file);
    }
}

static void count(size_t size) {
    atomic_fetch_add(&bytes[size >= PAGE], (long)size);
}

void *malloc(size_t size) {
    count(size);
    return __libc_malloc(size);
}

void *calloc(size_t items, size_t size) {
    count(items * size);
    return __libc_calloc(items, size);
}

void *realloc(void *old, size_t size) {
    count(size);
    return __libc_realloc(old, size);
}
