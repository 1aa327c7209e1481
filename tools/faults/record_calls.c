/* Records the calls of a program that change one file, or make it last. It is loaded before the C library by
   LD_PRELOAD.

   STORE=PATH       the file, which the program may make
   RECORDED=PATH    the calls are appended to this file as soon as they have succeeded: each is three numbers of
                    eight bytes, its kind, its place and its size, and behind those of a write the bytes

   The kinds are those below. The place and the size of a sync are 0, and so is the place of a new length. */
#define _GNU_SOURCE
#include <fcntl.h>
#include <stdint.h>
#include <stdlib.h>
#include <sys/stat.h>
#include <sys/syscall.h>
#include <unistd.h>

enum { WRITE, LENGTH, SYNC };

static int recorded = -1, is_found;
static struct stat store;

static int find_store(void)
{
    const char *path = getenv("STORE");
    is_found = is_found || (path && stat(path, &store) == 0);
    return is_found;
}

static void __attribute__((constructor)) open_record(void)
{
    const char *into = getenv("RECORDED");
    find_store();
    if (into)
        recorded = open(into, O_WRONLY | O_CREAT | O_APPEND | O_CLOEXEC, 0600);
}

static void append(const void *from, size_t count)
{
    if (syscall(SYS_write, recorded, from, count) != (long)count)
        abort();
}

/* Records a call of a file, if it is the store. */
static void record(int file, uint64_t kind, uint64_t place, uint64_t size, const void *bytes)
{
    struct stat it;
    if (recorded < 0 || !find_store() || fstat(file, &it) != 0 || it.st_dev != store.st_dev ||
        it.st_ino != store.st_ino)
        return;
    uint64_t head[] = {kind, place, size};
    append(head, sizeof head);
    if (bytes)
        append(bytes, size);
}

ssize_t pwrite(int file, const void *from, size_t count, off_t place)
{
    ssize_t written = syscall(SYS_pwrite64, file, from, count, place);
    if (written > 0)
        record(file, WRITE, (uint64_t)place, (uint64_t)written, from);
    return written;
}

int ftruncate(int file, off_t length)
{
    int failed = (int)syscall(SYS_ftruncate, file, length);
    if (!failed)
        record(file, LENGTH, 0, (uint64_t)length, NULL);
    return failed;
}

int fallocate(int file, int mode, off_t place, off_t size)
{
    int failed = (int)syscall(SYS_fallocate, file, mode, place, size);
    struct stat it;
    if (!failed && fstat(file, &it) == 0)
        record(file, LENGTH, 0, (uint64_t)it.st_size, NULL);
    return failed;
}

int fsync(int file)
{
    int failed = (int)syscall(SYS_fsync, file);
    if (!failed)
        record(file, SYNC, 0, 0, NULL);
    return failed;
}

int fdatasync(int file)
{
    int failed = (int)syscall(SYS_fdatasync, file);
    if (!failed)
        record(file, SYNC, 0, 0, NULL);
    return failed;
}
