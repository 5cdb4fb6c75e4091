/* Loaded before the C library: every second read of standard input and write to standard output is interrupted before it moves
 * a byte, and a write takes at most 1,000 bytes. At the program's end it tells how many calls it interrupted. */
#define _GNU_SOURCE
#include <errno.h>
#include <stdio.h>
#include <sys/syscall.h>
#include <unistd.h>

static unsigned calls, interrupted;

static int interrupts(void)
{
    if (calls++ % 2 != 0)
        return 0;
    interrupted++;
    errno = EINTR;
    return 1;
}

ssize_t read(int fd, void *bytes, size_t count)
{
    if (fd == STDIN_FILENO && interrupts())
        return -1;
    return syscall(SYS_read, fd, bytes, count);
}

ssize_t write(int fd, const void *bytes, size_t count)
{
    if (fd == STDOUT_FILENO) {
        if (interrupts())
            return -1;
        if (count > 1000)
            count = 1000;
    }
    return syscall(SYS_write, fd, bytes, count);
}

__attribute__((destructor)) static void tell(void)
{
    if (interrupted > 0)
        dprintf(STDERR_FILENO, "interrupted: %u calls\n", interrupted);
}
