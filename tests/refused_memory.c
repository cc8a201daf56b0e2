// Refuses requests for memory, and for threads, of a program that this library is loaded before.
//
// REFUSE is the number of the first request that is refused, from 1 on; 0 refuses none. With REFUSE_ALL all later ones are refused too.
// The file that REQUESTS names holds the number of requests, as a long.
#define _GNU_SOURCE
#include <dlfcn.h>
#include <errno.h>
#include <fcntl.h>
#include <pthread.h>
#include <stdatomic.h>
#include <stdlib.h>
#include <sys/mman.h>
#include <unistd.h>

extern void *__libc_malloc(size_t);
extern void *__libc_calloc(size_t, size_t);
extern void *__libc_realloc(void *, size_t);
extern void *__libc_memalign(size_t, size_t);

static atomic_long own;
static atomic_long *requests = &own;
static atomic_int running;
static long first;
static int all;

// Begins to count once the libraries are there, so that the first request is one of the program's own. The count stands in the file, so
// that it is there however the program ends.
__attribute__((constructor)) static void begin(void) {
    const char *refuse = getenv("REFUSE");
    const char *name = getenv("REQUESTS");
    first = refuse ? atol(refuse) : 0;
    all = getenv("REFUSE_ALL") != NULL;
    int file = name ? open(name, O_RDWR | O_CREAT | O_TRUNC, 0600) : -1;
    if (file >= 0 && ftruncate(file, sizeof own) == 0) {
        void *shared = mmap(NULL, sizeof own, PROT_READ | PROT_WRITE, MAP_SHARED, file, 0);
        if (shared != MAP_FAILED) requests = shared;
        close(file);
    }
    running = 1;
}

static int is_refused(void) {
    if (!running) return 0;
    long number = atomic_fetch_add(requests, 1) + 1;
    return first > 0 && (number == first || (all && number > first));
}

void *malloc(size_t size) {
    if (is_refused()) return errno = ENOMEM, NULL;
    return __libc_malloc(size);
}

void *calloc(size_t count, size_t size) {
    if (is_refused()) return errno = ENOMEM, NULL;
    return __libc_calloc(count, size);
}

void *realloc(void *old, size_t size) {
    if (is_refused()) return errno = ENOMEM, NULL;
    return __libc_realloc(old, size);
}

void *aligned_alloc(size_t align, size_t size) {
    if (is_refused()) return errno = ENOMEM, NULL;
    return __libc_memalign(align, size);
}

int posix_memalign(void **made, size_t align, size_t size) {
    if (is_refused()) return ENOMEM;
    *made = __libc_memalign(align, size);
    return *made ? 0 : ENOMEM;
}

int pthread_create(pthread_t *thread, const pthread_attr_t *how, void *(*run)(void *), void *with) {
    static int (*next)(pthread_t *, const pthread_attr_t *, void *(*)(void *), void *);
    if (!next) next = dlsym(RTLD_NEXT, "pthread_create");
    if (is_refused()) return EAGAIN;
    return next(thread, how, run, with);
}
