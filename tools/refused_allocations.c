// Preloaded into a program on Linux with glibc, it refuses some of the program's allocations and counts all.
//
// REFUSED_FROM and REFUSED_TO are the numbers, from 1, of the first and of the last call that is refused.
// REFUSED_COUNTS is a file of at least 32 bytes, to which the counts are written as they come, so that they are there
// however the program ends.
#define _GNU_SOURCE
#include <errno.h>
#include <fcntl.h>
#include <stdarg.h>
#include <stddef.h>
#include <stdint.h>
#include <stdlib.h>
#include <sys/mman.h>
#include <sys/syscall.h>
#include <unistd.h>

// The allocations, those refused, the files created, and the allocations before the first of these.
struct counts {
    uint64_t calls, refused, created, before;
};

// What is asked before the counts are there is no call of the program.
static struct counts *counts;
static uint64_t from, to;

extern void *__libc_malloc(size_t);
extern void *__libc_calloc(size_t, size_t);
extern void *__libc_realloc(void *, size_t);
extern void *__libc_memalign(size_t, size_t);

__attribute__((constructor)) static void begin(void) {
    const char *first = getenv("REFUSED_FROM"), *last = getenv("REFUSED_TO"), *name = getenv("REFUSED_COUNTS");
    if (first && last && name) {
        from = strtoull(first, NULL, 10);
        to = strtoull(last, NULL, 10);
        int file = open(name, O_RDWR);
        void *place = mmap(NULL, sizeof *counts, PROT_READ | PROT_WRITE, MAP_SHARED, file, 0);
        close(file);
        if (place != MAP_FAILED)
            counts = place;
    }
}

// Counts a call, and says whether it is refused.
static int refused(void) {
    if (!counts)
        return 0;
    counts->calls++;
    if (counts->calls < from || to < counts->calls)
        return 0;
    counts->refused++;
    errno = ENOMEM;
    return 1;
}

void *malloc(size_t size) {
    return refused() ? NULL : __libc_malloc(size);
}

void *calloc(size_t count, size_t size) {
    return refused() ? NULL : __libc_calloc(count, size);
}

void *realloc(void *block, size_t size) {
    return refused() ? NULL : __libc_realloc(block, size);
}

void *reallocarray(void *block, size_t count, size_t size) {
    size_t all;
    if (refused())
        return NULL;
    if (__builtin_mul_overflow(count, size, &all)) {
        errno = ENOMEM;
        return NULL;
    }
    return __libc_realloc(block, all);
}

void *memalign(size_t alignment, size_t size) {
    return refused() ? NULL : __libc_memalign(alignment, size);
}

void *aligned_alloc(size_t alignment, size_t size) {
    return memalign(alignment, size);
}

void *valloc(size_t size) {
    return memalign((size_t)sysconf(_SC_PAGESIZE), size);
}

int posix_memalign(void **block, size_t alignment, size_t size) {
    void *place = memalign(alignment, size);
    if (!place)
        return ENOMEM;
    *block = place;
    return 0;
}

// Opens a file, and counts it where it may be created.
static int opened(int folder, const char *name, int flags, mode_t mode) {
    if (counts && (flags & O_CREAT) && counts->created++ == 0)
        counts->before = counts->calls;
    return (int)syscall(SYS_openat, folder, name, flags, mode);
}

int openat(int folder, const char *name, int flags, ...) {
    va_list more;
    va_start(more, flags);
    mode_t mode = (flags & O_CREAT) ? va_arg(more, mode_t) : 0;
    va_end(more);
    return opened(folder, name, flags, mode);
}

int open(const char *name, int flags, ...) {
    va_list more;
    va_start(more, flags);
    mode_t mode = (flags & O_CREAT) ? va_arg(more, mode_t) : 0;
    va_end(more);
    return opened(AT_FDCWD, name, flags, mode);
}

int open64(const char *, int, ...) __attribute__((alias("open")));
int openat64(int, const char *, int, ...) __attribute__((alias("openat")));
