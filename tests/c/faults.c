// A read and a write that stand before the C library's, for tests/program. READS and WRITES say what becomes of each call, a letter
// for each, the last one for all that follow: w whole, b one byte, i interrupted by a signal, f failed, n nothing moved.
#define _GNU_SOURCE
#include <errno.h>
#include <stdlib.h>
#include <sys/syscall.h>
#include <unistd.h>

static long call(long number, const char *plan, size_t *at, int fd, long buf, size_t n)
{
    const char *letters = getenv(plan);
    char letter = letters ? letters[*at] : 'w';
    if (letters && letters[*at + 1])
        *at += 1;
    switch (letter) {
    case 'i':
        errno = EINTR;
        return -1;
    case 'f':
        errno = EIO;
        return -1;
    case 'n':
        return 0;
    case 'b':
        return syscall(number, fd, buf, n < 1 ? n : 1);
    default:
        return syscall(number, fd, buf, n);
    }
}

ssize_t read(int fd, void *buf, size_t n)
{
    static size_t at;
    return call(SYS_read, "READS", &at, fd, (long)buf, n);
}

ssize_t write(int fd, const void *buf, size_t n)
{
    static size_t at;
    if (fd != STDOUT_FILENO)
        return syscall(SYS_write, fd, buf, n);
    return call(SYS_write, "WRITES", &at, fd, (long)buf, n);
}
