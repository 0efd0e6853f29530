/* Numbers that a program shares with the script that looks on, for refuse.c, devices.c and kept.c. */
#include <fcntl.h>
#include <stdatomic.h>
#include <stddef.h>
#include <stdint.h>
#include <stdlib.h>
#include <sys/mman.h>
#include <unistd.h>

/* the numbers of 64 bits in the file that the variable COUNTS names; nothing without such a file */
static void *shared_counts(size_t size)
{
    const char *path = getenv("COUNTS");
    int file = path ? open(path, O_RDWR | O_CLOEXEC) : -1;
    if (file < 0)
        return NULL;
    void *shared = mmap(NULL, size, PROT_READ | PROT_WRITE, MAP_SHARED, file, 0);
    close(file);
    return shared == MAP_FAILED ? NULL : shared;
}
