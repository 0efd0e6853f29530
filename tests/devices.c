/* Makes one read or write of a program fail, come short, or be interrupted. tests/devices compiles it, and loads it before the C library.
 *
 * Shared are the numbers of `struct order`. A call is counted where its descriptor is on one of the wanted devices; a call that is to come short
 * only where more than one byte is asked for, since no shorter one is. The call that has the wanted number, counted from 1, fares as is
 * ordered, and is noted. Where nothing is shared, all calls are the system's own.
 *
 * Counted too are the sockets with a path that listen while others than their owner might connect: neither their own mode nor their folder's keeps them out. */
#include "counts.h"
#include <errno.h>
#include <libgen.h>
#include <sys/socket.h>
#include <sys/stat.h>
#include <sys/syscall.h>
#include <sys/uio.h>
#include <sys/un.h>

/* what becomes of the call */
enum { FAILS = 1, SHORT, INTERRUPTED };

/* what a descriptor is on */
enum { INPUT, OUTPUT, ERROR, SOCKET, FILES, OTHER };

struct order {
    /* devices: a bit for each that is wanted. met: 0, or 1 and the device, and 16 more for a write. open: how many sockets were open to others as they began to listen */
    _Atomic uint64_t calls, at, how, devices, met, open;
};

static struct order *order;

__attribute__((constructor)) static void begin(void)
{
    order = shared_counts(sizeof *order);
}

static int device_of(int file)
{
    struct stat told;
    if (file <= ERROR)
        return file;
    if (fstat(file, &told) != 0)
        return OTHER;
    return S_ISSOCK(told.st_mode) ? SOCKET : S_ISREG(told.st_mode) ? FILES : OTHER;
}

/* how many of so many bytes a call may move: all, or one, or -1 where it fails */
static ssize_t allowed(int file, size_t size, int is_write)
{
    int before = errno;
    int device = order ? device_of(file) : OTHER;
    int how = order ? atomic_load(&order->how) : 0;
    errno = before;
    if (device == OTHER || !(atomic_load(&order->devices) >> device & 1) || (how == SHORT && size < 2))
        return size;
    if (atomic_fetch_add(&order->calls, 1) + 1 != atomic_load(&order->at))
        return size;
    atomic_store(&order->met, 1 + device + (is_write ? 16 : 0));
    if (how == SHORT)
        return 1;
    errno = how == INTERRUPTED ? EINTR : device == SOCKET ? ECONNRESET : EIO;
    return -1;
}

ssize_t read(int file, void *to, size_t size)
{
    ssize_t may = allowed(file, size, 0);
    return may < 0 ? may : syscall(SYS_read, file, to, may);
}

ssize_t recv(int file, void *to, size_t size, int flags)
{
    ssize_t may = allowed(file, size, 0);
    return may < 0 ? may : syscall(SYS_recvfrom, file, to, may, flags, NULL, NULL);
}

ssize_t write(int file, const void *from, size_t size)
{
    ssize_t may = allowed(file, size, 1);
    return may < 0 ? may : syscall(SYS_write, file, from, may);
}

ssize_t send(int file, const void *from, size_t size, int flags)
{
    ssize_t may = allowed(file, size, 1);
    return may < 0 ? may : syscall(SYS_sendto, file, from, may, flags, NULL, 0);
}

/* whether others than the owner may do something to what is at a path */
static int is_open(const char *path)
{
    struct stat told;
    return stat(path, &told) == 0 && (told.st_mode & (S_IRWXG | S_IRWXO)) != 0;
}

int listen(int file, int backlog)
{
    struct sockaddr_un named = {0};
    socklen_t size = sizeof named - 1;
    if (order && getsockname(file, (struct sockaddr *)&named, &size) == 0 && is_open(named.sun_path) && is_open(dirname(named.sun_path)))
        atomic_fetch_add(&order->open, 1);
    return syscall(SYS_listen, file, backlog);
}
