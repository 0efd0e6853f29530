/* Refuses one growth of a program's memory. tests/refuse compiles it, and loads it before the C library.
 *
 * Shared are three numbers: how many growths there were, the number of the one to refuse, counted from 1 (0: none), and how many were
 * refused. A growth is a call of malloc, calloc, realloc, posix_memalign, aligned_alloc or memalign, by any thread. Where nothing is shared,
 * nothing is counted, and nothing refused. */
#include "counts.h"
#include <errno.h>

/* the C library's own, by the names that it keeps for those who stand before it */
extern void *__libc_malloc(size_t);
extern void *__libc_calloc(size_t, size_t);
extern void *__libc_realloc(void *, size_t);
extern void *__libc_memalign(size_t, size_t);

struct counts {
    _Atomic uint64_t growths, refused_at, refused;
};

static struct counts *counts;

__attribute__((constructor)) static void begin(void)
{
    counts = shared_counts(sizeof *counts);
}

/* counts a growth, and says whether it is the one to refuse */
static int is_refused(void)
{
    if (!counts || atomic_fetch_add(&counts->growths, 1) + 1 != atomic_load(&counts->refused_at))
        return 0;
    atomic_fetch_add(&counts->refused, 1);
    errno = ENOMEM;
    return 1;
}

void *malloc(size_t size)
{
    return is_refused() ? NULL : __libc_malloc(size);
}

void *calloc(size_t count, size_t size)
{
    return is_refused() ? NULL : __libc_calloc(count, size);
}

void *realloc(void *old, size_t size)
{
    return is_refused() ? NULL : __libc_realloc(old, size);
}

void *memalign(size_t alignment, size_t size)
{
    return is_refused() ? NULL : __libc_memalign(alignment, size);
}

void *aligned_alloc(size_t alignment, size_t size)
{
    return is_refused() ? NULL : __libc_memalign(alignment, size);
}

int posix_memalign(void **place, size_t alignment, size_t size)
{
    void *found = is_refused() ? NULL : __libc_memalign(alignment, size);
    if (!found)
        return ENOMEM;
    *place = found;
    return 0;
}
