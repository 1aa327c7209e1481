/* Keeps what a device has of a file apart from what the system shows of it. It is loaded before the C library by
   LD_PRELOAD.

   STORE=PATH     the file as the system shows it: all reads and writes go there
   DEVICE=PATH    the file as the device has it: what a power loss leaves
   DIRTY=PATH     a byte for each block: whether it was written and is still to go to the device
   FAIL_SYNC=N    the Nth sync fails, counted from 1: nothing goes to the device, and as Linux does, the system counts
                  all blocks as written from then on
   CUT_SYNC=N     the power is lost in the Nth sync: of each block that was to go to the device all goes there, or its
                  first half, or nothing, as SEED draws it, and the program is killed

   Every other sync brings each dirty block to the device. A new length of the file is no block: file systems keep it in
   their journal, so a sync that fails brings it all the same, and one in which the power is lost brings it or not. The
   files of the device and the dirty blocks outlive the program, as the device and the system do. */
#define _GNU_SOURCE
#include <errno.h>
#include <fcntl.h>
#include <signal.h>
#include <stdlib.h>
#include <sys/stat.h>
#include <sys/syscall.h>
#include <unistd.h>

enum { BLOCK = 4096 };

static int device = -1, dirty = -1;
static struct stat store;
static long syncs, failing, cutting;

static long number(const char *name)
{
    const char *text = getenv(name);
    return text ? atol(text) : 0;
}

static int opened(const char *name)
{
    const char *path = getenv(name);
    return path ? open(path, O_RDWR | O_CLOEXEC) : -1;
}

static void __attribute__((constructor)) begin(void)
{
    const char *path = getenv("STORE");
    device = opened("DEVICE");
    dirty = opened("DIRTY");
    if (device < 0 || dirty < 0 || !path || stat(path, &store) != 0)
        device = -1;
    failing = number("FAIL_SYNC");
    cutting = number("CUT_SYNC");
    srand((unsigned)number("SEED"));
}

static int is_store(int file)
{
    struct stat it;
    return device >= 0 && fstat(file, &it) == 0 && it.st_dev == store.st_dev && it.st_ino == store.st_ino;
}

static void check(long done, long due)
{
    if (done != due)
        abort();
}

static void mark(off_t block, char is_dirty)
{
    check(syscall(SYS_pwrite64, dirty, &is_dirty, 1, block), 1);
}

/* Brings the first bytes of a block to the device. */
static void bring(int file, off_t block, size_t count)
{
    char bytes[BLOCK];
    check(syscall(SYS_pread64, file, bytes, BLOCK, block * BLOCK), BLOCK);
    check(syscall(SYS_pwrite64, device, bytes, count, block * BLOCK), (long)count);
}

/* Has the device's file as long as the system's. */
static void bring_length(int file)
{
    struct stat it, other;
    check(fstat(file, &it) | fstat(device, &other), 0);
    if (other.st_size < it.st_size)
        check(syscall(SYS_ftruncate, device, it.st_size), 0);
}

/* Ends a sync for each dirty block: how many of its bytes go to the device is drawn if the power is lost. */
static void end_sync(int file, int is_failing, int is_cut)
{
    char is_dirty;
    if (!is_cut || rand() % 2)
        bring_length(file);
    for (off_t block = 0; syscall(SYS_pread64, dirty, &is_dirty, 1, block) == 1; block++) {
        if (!is_dirty)
            continue;
        if (!is_failing)
            bring(file, block, is_cut ? (size_t)(rand() % 3) * BLOCK / 2 : BLOCK);
        mark(block, 0);
    }
}

ssize_t pwrite(int file, const void *from, size_t count, off_t offset)
{
    ssize_t written = syscall(SYS_pwrite64, file, from, count, offset);
    if (written > 0 && is_store(file))
        for (off_t block = offset / BLOCK; block * BLOCK < offset + written; block++)
            mark(block, 1);
    return written;
}

int fsync(int file)
{
    if (!is_store(file))
        return (int)syscall(SYS_fsync, file);
    syncs++;
    end_sync(file, syncs == failing, syncs == cutting);
    if (syncs == cutting)
        kill(getpid(), SIGKILL);
    if (syncs == failing) {
        errno = EIO;
        return -1;
    }
    return 0;
}
