/* Stands before the C library's read and write: every other call is interrupted before it moves a byte, and the others move at most 100
 * bytes. Loaded by LD_PRELOAD. */
#include <errno.h>
#include <sys/syscall.h>
#include <unistd.h>

static unsigned calls;

static int interrupted(size_t *n)
{
    if (calls++ % 2 == 0) {
        errno = EINTR;
        return 1;
    }
    if (*n > 100) {
        *n = 100;
    }
    return 0;
}

ssize_t read(int descriptor, void *bytes, size_t n)
{
    return interrupted(&n) ? -1 : syscall(SYS_read, descriptor, bytes, n);
}

ssize_t write(int descriptor, const void *bytes, size_t n)
{
    return interrupted(&n) ? -1 : syscall(SYS_write, descriptor, bytes, n);
}
