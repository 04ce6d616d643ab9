/* Put before the C library (LD_PRELOAD): standard input gives, and standard output takes, at most PIECE bytes at a call, and the call
 * fails that the environment names: FAILS is `read N` or `write N`, with N counted from 1. */
#define _GNU_SOURCE
#include <errno.h>
#include <stdlib.h>
#include <string.h>
#include <sys/syscall.h>
#include <unistd.h>

enum { PIECE = 8 };

/* Whether the call of this name and number is to fail. */
static int fails(const char *name, long number)
{
    const char *said = getenv("FAILS");
    size_t length = strlen(name);
    return said && strncmp(said, name, length) == 0 && strtol(said + length, 0, 10) == number;
}

ssize_t read(int file, void *bytes, size_t count)
{
    static long calls;
    if (file == STDIN_FILENO) {
        if (fails("read ", ++calls)) {
            errno = EIO;
            return -1;
        }
        count = count < PIECE ? count : PIECE;
    }
    return syscall(SYS_read, file, bytes, count);
}

ssize_t write(int file, const void *bytes, size_t count)
{
    static long calls;
    if (file == STDOUT_FILENO) {
        if (fails("write ", ++calls)) {
            errno = EIO;
            return -1;
        }
        count = count < PIECE ? count : PIECE;
    }
    return syscall(SYS_write, file, bytes, count);
}

/* The name by which Rattle's library calls it. */
ssize_t __write(int file, const void *bytes, size_t count)
{
    return write(file, bytes, count);
}
