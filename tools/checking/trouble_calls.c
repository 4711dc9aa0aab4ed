/* A read gives at most 7 bytes and a write takes at most 3, and one of them meets an error. checking/trouble_calls compiles it. */
#define _GNU_SOURCE
#include <dlfcn.h>
#include <errno.h>
#include <stdlib.h>
#include <unistd.h>

/* Which call meets the trouble, of those that read or write, and which error it is. */
static long number(const char *name) { char *text = getenv(name); return text ? atol(text) : 0; }
static long reads, writes;

ssize_t read(int file, void *to, size_t size)
{
    static ssize_t (*next)(int, void *, size_t);
    if (!next) next = (ssize_t (*)(int, void *, size_t))dlsym(RTLD_NEXT, "read");
    if (++reads == number("TROUBLED_READ")) { errno = (int)number("TROUBLE"); return -1; }
    return next(file, to, size < 7 ? size : 7);
}

ssize_t write(int file, const void *from, size_t size)
{
    static ssize_t (*next)(int, const void *, size_t);
    if (!next) next = (ssize_t (*)(int, const void *, size_t))dlsym(RTLD_NEXT, "write");
    if (++writes == number("TROUBLED_WRITE")) { errno = (int)number("TROUBLE"); return -1; }
    return next(file, from, size < 3 ? size : 3);
}
