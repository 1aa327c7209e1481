/* Has each block read, each write and each new length of a program's file take SLOW microseconds more, and each sync
   SLOW_SYNC. It is loaded before the C library by LD_PRELOAD. */
#define _GNU_SOURCE
#include <stdlib.h>
#include <sys/syscall.h>
#include <unistd.h>

static void wait_for_device(const char *variable)
{
    const char *text = getenv(variable);
    if (text)
        usleep((useconds_t)atol(text));
}

ssize_t pread(int file, void *into, size_t count, off_t offset)
{
    wait_for_device("SLOW");
    return syscall(SYS_pread64, file, into, count, offset);
}

ssize_t pwrite(int file, const void *from, size_t count, off_t offset)
{
    wait_for_device("SLOW");
    return syscall(SYS_pwrite64, file, from, count, offset);
}

int ftruncate(int file, off_t length)
{
    wait_for_device("SLOW");
    return (int)syscall(SYS_ftruncate, file, length);
}

int fsync(int file)
{
    wait_for_device("SLOW_SYNC");
    return (int)syscall(SYS_fsync, file);
}

int fdatasync(int file)
{
    wait_for_device("SLOW_SYNC");
    return (int)syscall(SYS_fdatasync, file);
}
