/* A library to be loaded before a program's own: each write on the output that INTERRUPTED names fails as if a signal had come,
 * without end. */
#include <errno.h>
#include <stdlib.h>
#include <sys/syscall.h>
#include <unistd.h>

ssize_t write(int to, const void *bytes, size_t n) {
    const char *which = getenv("INTERRUPTED");
    if (which != NULL && atoi(which) == to) {
        errno = EINTR;
        return -1;
    }
    return syscall(SYS_write, to, bytes, n);
}
