/* Refuses the request for memory, or for a thread, of the number REFUSED, and tells in the file that COUNT names how many there were.
   checking/refuse_memory compiles it. */
#define _GNU_SOURCE
#include <dlfcn.h>
#include <stdio.h>
#include <stdlib.h>
#include <errno.h>
#include <pthread.h>
#include <unistd.h>

// The number of the request that is refused, 0 for none, how many there were, and what was refused: memory or a thread.
static long refused = -1;
static _Atomic long count = 0;
static const char *what = "nothing";

static int refuses(const char *kind) {
    if (refused < 0) {
        char *number = getenv("REFUSED");
        refused = number ? atol(number) : 0;
    }
    if (++count != refused) return 0;
    what = kind;
    return 1;
}

__attribute__((destructor)) static void tell(void) {
    char *path = getenv("COUNT");
    FILE *file = path ? fopen(path, "w") : NULL;
    if (file) {
        fprintf(file, "%ld %s\n", count, what);
        fclose(file);
    }
}

// The C library's own function of a name.
#define NEXT(name) \
    static __typeof__(&name) next; \
    if (!next) next = (__typeof__(&name))dlsym(RTLD_NEXT, #name)

// A program with threads ends by this call, which runs no destructors.
void _exit(int status) {
    NEXT(_exit);
    tell();
    next(status);
    __builtin_unreachable();
}

int pthread_create(pthread_t *thread, const pthread_attr_t *how, void *(*start)(void *), void *argument) {
    NEXT(pthread_create);
    if (refuses("thread")) return EAGAIN;
    return next(thread, how, start, argument);
}

void *malloc(size_t size) {
    NEXT(malloc);
    if (refuses("memory")) { errno = ENOMEM; return NULL; }
    return next(size);
}

void *realloc(void *old, size_t size) {
    NEXT(realloc);
    if (refuses("memory")) { errno = ENOMEM; return NULL; }
    return next(old, size);
}

void *aligned_alloc(size_t align, size_t size) {
    NEXT(aligned_alloc);
    if (refuses("memory")) { errno = ENOMEM; return NULL; }
    return next(align, size);
}

int posix_memalign(void **out, size_t align, size_t size) {
    NEXT(posix_memalign);
    if (refuses("memory")) return ENOMEM;
    return next(out, align, size);
}
