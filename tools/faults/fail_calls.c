/* Fails block reads, block writes, new lengths and syncs of a program. It is loaded before the C library by LD_PRELOAD.

   FAIL_CALL=N    the Nth of these calls, counted from 1, fails
   FAIL_ON=1      so do all calls after it
   FAIL_TORN=N    a write that fails leaves its first N bytes in the file, and a new length that fails N bytes more
   FAIL_BLOCK=N   each read of this block fails, but for the first one, or for as many as FAIL_AFTER says
   FAIL_LOCK=N    each lock of a file fails with this error number
   FAIL_LINK=N    so does each hard link
   FAILED=PATH    is made where a call fails */
#define _GNU_SOURCE
#include <errno.h>
#include <fcntl.h>
#include <stdlib.h>
#include <sys/stat.h>
#include <sys/syscall.h>
#include <unistd.h>

enum { BLOCK = 4096 };

static long calls, failing_call, fails_on, torn, failing_block, reads_before, reads_of_block;

static long number(const char *name, long otherwise)
{
    const char *text = getenv(name);
    return text ? atol(text) : otherwise;
}

static void __attribute__((constructor)) read_numbers(void)
{
    failing_call = number("FAIL_CALL", 0);
    fails_on = number("FAIL_ON", 0);
    torn = number("FAIL_TORN", 0);
    failing_block = number("FAIL_BLOCK", -1);
    reads_before = number("FAIL_AFTER", 1);
}

static int fail(void)
{
    const char *path = getenv("FAILED");
    int file = path ? open(path, O_WRONLY | O_CREAT, 0600) : -1;
    if (file >= 0)
        close(file);
    errno = EIO;
    return -1;
}

/* Whether the call that begins is to fail. */
static int is_failing(void)
{
    calls++;
    return failing_call > 0 && (calls == failing_call || (fails_on && calls > failing_call));
}

ssize_t pread(int file, void *into, size_t count, off_t offset)
{
    if (is_failing())
        return fail();
    if (offset == failing_block * BLOCK && reads_of_block++ >= reads_before)
        return fail();
    return syscall(SYS_pread64, file, into, count, offset);
}

ssize_t pwrite(int file, const void *from, size_t count, off_t offset)
{
    if (!is_failing())
        return syscall(SYS_pwrite64, file, from, count, offset);
    if (torn > 0)
        syscall(SYS_pwrite64, file, from, (size_t)torn < count ? (size_t)torn : count, offset);
    return fail();
}

int ftruncate(int file, off_t length)
{
    struct stat it;
    if (!is_failing())
        return (int)syscall(SYS_ftruncate, file, length);
    if (torn > 0 && fstat(file, &it) == 0 && it.st_size + torn < length)
        syscall(SYS_ftruncate, file, it.st_size + torn);
    return fail();
}

static int fail_with(int error)
{
    fail();
    errno = error;
    return -1;
}

int flock(int file, int operation)
{
    int error = (int)number("FAIL_LOCK", 0);
    return error == 0 ? (int)syscall(SYS_flock, file, operation) : fail_with(error);
}

int link(const char *from, const char *to)
{
    int error = (int)number("FAIL_LINK", 0);
    return error == 0 ? (int)syscall(SYS_linkat, AT_FDCWD, from, AT_FDCWD, to, 0) : fail_with(error);
}

int fsync(int file)
{
    return is_failing() ? fail() : (int)syscall(SYS_fsync, file);
}
