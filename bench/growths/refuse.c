/* refuse.c: a library that is loaded before the C library (LD_PRELOAD) and refuses one growth of memory. Each call of malloc, calloc,
realloc and the like counts as a growth. The variable REFUSED_GROWTH has the number of the one that is refused, counted from 1 once
this library has begun. It refuses none if the number is 0 or missing. The C library answers all other calls. */
#define _GNU_SOURCE
#include <errno.h>
#include <stdatomic.h>
#include <stddef.h>
#include <stdlib.h>

void *__libc_malloc(size_t);
void *__libc_calloc(size_t, size_t);
void *__libc_realloc(void *, size_t);
void *__libc_memalign(size_t, size_t);

static atomic_long growths;
static long refused;

__attribute__((constructor)) static void begin(void)
{
    const char *word = getenv("REFUSED_GROWTH");
    refused = word ? atol(word) : 0;
    atomic_store(&growths, 0);
}

static int refuses(void)
{
    if (atomic_fetch_add(&growths, 1) + 1 != refused) return 0;
    errno = ENOMEM;
    return 1;
}

void *malloc(size_t size) { return refuses() ? NULL : __libc_malloc(size); }
void *calloc(size_t count, size_t size) { return refuses() ? NULL : __libc_calloc(count, size); }
void *realloc(void *old, size_t size) { return refuses() ? NULL : __libc_realloc(old, size); }
void *memalign(size_t align, size_t size) { return refuses() ? NULL : __libc_memalign(align, size); }
void *aligned_alloc(size_t align, size_t size) { return refuses() ? NULL : __libc_memalign(align, size); }

int posix_memalign(void **out, size_t align, size_t size)
{
    void *got = refuses() ? NULL : __libc_memalign(align, size);
    if (!got) return ENOMEM;
    *out = got;
    return 0;
}
