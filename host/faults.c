/* Reads and writes as a bad day has them, for the program desk_main, which host/check loads this into. On standard input and
   output every other call is interrupted by a signal before it moves a byte, and a call moves a few bytes at the most. With
   FAULTS_AT=N the reads from the Nth on fail. */
#define _GNU_SOURCE
#include <errno.h>
#include <stdlib.h>
#include <string.h>
#include <sys/syscall.h>
#include <unistd.h>

extern char *program_invocation_short_name;

/* Whether a call on this descriptor is one of the program's that is to be troubled. */
static int troubled(int fd, int wanted)
{
    return fd == wanted && strcmp(program_invocation_short_name, "desk_main") == 0;
}

static ssize_t failed(int error)
{
    errno = error;
    return -1;
}

ssize_t read(int fd, void *bytes, size_t most)
{
    static unsigned long calls;
    if (troubled(fd, 0)) {
        const char *at = getenv("FAULTS_AT");
        calls++;
        if (at && calls >= strtoul(at, NULL, 10))
            return failed(EIO);
        if (calls % 2)
            return failed(EINTR);
        if (most > 7)
            most = 7;
    }
    return syscall(SYS_read, fd, bytes, most);
}

ssize_t write(int fd, const void *bytes, size_t most)
{
    static unsigned long calls;
    if (troubled(fd, 1)) {
        if (++calls % 2)
            return failed(EINTR);
        if (most > 5)
            most = 5;
    }
    return syscall(SYS_write, fd, bytes, most);
}
