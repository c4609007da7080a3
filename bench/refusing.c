/* Laid under a program by LD_PRELOAD, this fails calls of the system in turn, as the environment says:

     REFUSE=KIND N     of the calls of that kind, counted from 1, the Nth fails; with `N-` it and all behind it
     SHORT=1           each read and write moves at most one byte
     COUNTS=FILE       at the end the counts of calls are written there, a line a kind

   The kinds: alloc (malloc, calloc, realloc and the aligned ones, ENOMEM), open, seek, read (EIO), write (ENOSPC),
   thread (pthread_create, EAGAIN). Reads and writes of descriptors above 2 count like those of 0 and 1.
   `bench/hostile.py` builds and uses it. */
#define _GNU_SOURCE
#include <dlfcn.h>
#include <errno.h>
#include <fcntl.h>
#include <pthread.h>
#include <stdarg.h>
#include <stdatomic.h>
#include <stdio.h>
#include <stdlib.h>
#include <string.h>
#include <sys/syscall.h>
#include <sys/types.h>
#include <unistd.h>

enum kind { ALLOC, OPEN, SEEK, READ, WRITE, THREAD, KINDS };
static const char *const names[KINDS] = { "alloc", "open", "seek", "read", "write", "thread" };
static atomic_ulong counts[KINDS];
static enum kind refused = KINDS;
static unsigned long first, last;
static int is_short;

extern void *__libc_malloc(size_t), *__libc_calloc(size_t, size_t), *__libc_realloc(void *, size_t);
extern void *__libc_memalign(size_t, size_t);

static int is_refused(enum kind kind)
{
    unsigned long count = atomic_fetch_add(&counts[kind], 1) + 1;
    return kind == refused && first <= count && count <= last;
}

/* nothing is counted before this, so that the loader's own allocations are not */
__attribute__((constructor)) static void begin(void)
{
    const char *words = getenv("REFUSE");
    char name[8] = "";
    if (words && sscanf(words, "%7s %lu", name, &first) == 2) {
        last = words[strlen(words) - 1] == '-' ? -1UL : first;
        for (int kind = 0; kind < KINDS; kind++)
            if (!strcmp(name, names[kind]))
                refused = kind;
    }
    is_short = getenv("SHORT") != NULL;
    for (int kind = 0; kind < KINDS; kind++)
        atomic_store(&counts[kind], 0);
}

/* a program that ends by `exit` comes here by itself, and one that ends by `_exit` by the call below */
__attribute__((destructor)) static void end(void)
{
    const char *path = getenv("COUNTS");
    char text[256];
    int length = 0;
    refused = KINDS;
    for (int kind = 0; kind < KINDS; kind++)
        length += sprintf(text + length, "%s %lu\n", names[kind], atomic_load(&counts[kind]));
    if (path) {
        ssize_t (*real)(int, const void *, size_t) = dlsym(RTLD_NEXT, "write");
        int file = open(path, O_WRONLY | O_CREAT | O_TRUNC, 0644);
        if (file >= 0)
            real(file, text, length);
    }
}

void _exit(int status)
{
    end();
    syscall(SYS_exit_group, status);
    __builtin_unreachable();
}

void *malloc(size_t size)
{
    if (is_refused(ALLOC)) {
        errno = ENOMEM;
        return NULL;
    }
    return __libc_malloc(size);
}

void *calloc(size_t count, size_t size)
{
    if (is_refused(ALLOC)) {
        errno = ENOMEM;
        return NULL;
    }
    return __libc_calloc(count, size);
}

void *realloc(void *old, size_t size)
{
    if (is_refused(ALLOC)) {
        errno = ENOMEM;
        return NULL;
    }
    return __libc_realloc(old, size);
}

void *aligned_alloc(size_t alignment, size_t size)
{
    if (is_refused(ALLOC)) {
        errno = ENOMEM;
        return NULL;
    }
    return __libc_memalign(alignment, size);
}

int posix_memalign(void **result, size_t alignment, size_t size)
{
    void *got = is_refused(ALLOC) ? NULL : __libc_memalign(alignment, size);
    if (!got)
        return ENOMEM;
    *result = got;
    return 0;
}

static int open_by(const char *symbol, const char *path, int flags, mode_t mode)
{
    int (*real)(const char *, int, ...) = dlsym(RTLD_NEXT, symbol);
    if (is_refused(OPEN)) {
        errno = EIO;
        return -1;
    }
    return real(path, flags, mode);
}

int open(const char *path, int flags, ...)
{
    va_list more;
    va_start(more, flags);
    mode_t mode = flags & (O_CREAT | O_TMPFILE) ? va_arg(more, mode_t) : 0;
    va_end(more);
    return open_by("open", path, flags, mode);
}

int open64(const char *path, int flags, ...)
{
    va_list more;
    va_start(more, flags);
    mode_t mode = flags & (O_CREAT | O_TMPFILE) ? va_arg(more, mode_t) : 0;
    va_end(more);
    return open_by("open64", path, flags, mode);
}

off_t lseek(int file, off_t offset, int whence)
{
    off_t (*real)(int, off_t, int) = dlsym(RTLD_NEXT, "lseek");
    if (is_refused(SEEK)) {
        errno = EIO;
        return -1;
    }
    return real(file, offset, whence);
}

ssize_t read(int file, void *buffer, size_t size)
{
    ssize_t (*real)(int, void *, size_t) = dlsym(RTLD_NEXT, "read");
    if (is_refused(READ)) {
        errno = EIO;
        return -1;
    }
    return real(file, buffer, is_short && size ? 1 : size);
}

static ssize_t write_by(const char *symbol, int file, const void *bytes, size_t size)
{
    ssize_t (*real)(int, const void *, size_t) = dlsym(RTLD_NEXT, symbol);
    if (is_refused(WRITE)) {
        errno = ENOSPC;
        return -1;
    }
    return real(file, bytes, is_short && size ? 1 : size);
}

ssize_t write(int file, const void *bytes, size_t size)
{
    return write_by("write", file, bytes, size);
}

ssize_t __write(int file, const void *bytes, size_t size)
{
    return write_by("__write", file, bytes, size);
}

int pthread_create(pthread_t *thread, const pthread_attr_t *how, void *(*start)(void *), void *with)
{
    int (*real)(pthread_t *, const pthread_attr_t *, void *(*)(void *), void *) = dlsym(RTLD_NEXT, "pthread_create");
    return is_refused(THREAD) ? EAGAIN : real(thread, how, start, with);
}
