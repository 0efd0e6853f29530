/* Counts the bytes that a program has taken of the C library and not given back. tests/fuzz compiles it, and loads it before the C library.
 *
 * Shared is one number, these bytes, of all threads. Where nothing is shared, nothing is counted. */
#include "counts.h"
#include <errno.h>
#include <malloc.h>

/* the C library's own, by the names that it keeps for those who stand before it */
extern void *__libc_malloc(size_t);
extern void *__libc_calloc(size_t, size_t);
extern void *__libc_realloc(void *, size_t);
extern void *__libc_memalign(size_t, size_t);
extern void __libc_free(void *);

static _Atomic int64_t *kept;

__attribute__((constructor)) static void begin(void)
{
    kept = shared_counts(sizeof *kept);
}

/* what is taken of a place, if one was found */
static void *taken(void *place)
{
    if (kept && place)
        atomic_fetch_add(kept, (int64_t)malloc_usable_size(place));
    return place;
}

void *malloc(size_t size)
{
    return taken(__libc_malloc(size));
}

void *calloc(size_t count, size_t size)
{
    return taken(__libc_calloc(count, size));
}

void *realloc(void *old, size_t size)
{
    int64_t was = old ? (int64_t)malloc_usable_size(old) : 0;
    void *place = __libc_realloc(old, size);
    if (kept && (place || !size))
        atomic_fetch_sub(kept, was);
    return taken(place);
}

void *memalign(size_t alignment, size_t size)
{
    return taken(__libc_memalign(alignment, size));
}

void *aligned_alloc(size_t alignment, size_t size)
{
    return taken(__libc_memalign(alignment, size));
}

int posix_memalign(void **place, size_t alignment, size_t size)
{
    void *found = taken(__libc_memalign(alignment, size));
    if (!found)
        return ENOMEM;
    *place = found;
    return 0;
}

void free(void *place)
{
    if (kept && place)
        atomic_fetch_sub(kept, (int64_t)malloc_usable_size(place));
    __libc_free(place);
}
