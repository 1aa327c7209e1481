/* Records the calls of several processes that change the files below a folder, or make them last, and what they send
   to sockets. It is loaded before the C library by LD_PRELOAD.

   FOLDER=PATH      the folder, a whole path without links
   RECORDED=PATH    the calls are appended to this file, each by one write, so they stand there in their order,
                    whichever process or thread made them: five numbers of eight bytes, its kind, its thread, the inode
                    of the file, its place, and how many bytes follow; and these bytes

   A call is recorded once it has succeeded, and a sync also when it begins: it makes last what was recorded before
   that. The kinds are those below. What follows are the bytes of a write, the path of a file that was made, of one that
   was removed or of what is synced, both paths of a new name with a zero between them, and of what was sent the name of
   the other end's socket with a zero behind it, and the bytes. The place of LENGTH is the new length. */
#define _GNU_SOURCE
#include <fcntl.h>
#include <stdarg.h>
#include <stdint.h>
#include <stdio.h>
#include <stdlib.h>
#include <string.h>
#include <sys/socket.h>
#include <sys/stat.h>
#include <sys/syscall.h>
#include <sys/uio.h>
#include <sys/un.h>
#include <unistd.h>

enum { WRITE, LENGTH, BEGIN_SYNC, SYNC, MADE, RENAMED, REMOVED, SENT, LONGEST = 4096 };

static int recorded = -1;
static const char *folder;
static size_t folder_size;

static void __attribute__((constructor)) open_record(void)
{
    const char *into = getenv("RECORDED");
    folder = getenv("FOLDER");
    if (!into || !folder)
        return;
    folder_size = strlen(folder);
    recorded = (int)syscall(SYS_openat, AT_FDCWD, into, O_WRONLY | O_CREAT | O_APPEND | O_CLOEXEC, 0600);
}

/* Whether a path is that of the folder, or of something below it. */
static int is_below(const char *path)
{
    return recorded >= 0 && strncmp(path, folder, folder_size) == 0 &&
           (path[folder_size] == '/' || path[folder_size] == 0);
}

/* Appends one record: the bytes of up to two pieces follow its head. */
static void record(uint64_t kind, uint64_t inode, uint64_t place, const void *one, size_t size, const void *other,
                   size_t more)
{
    uint64_t head[] = {kind, (uint64_t)syscall(SYS_gettid), inode, place, size + more};
    struct iovec parts[] = {{head, sizeof head}, {(void *)one, size}, {(void *)other, more}};
    if (syscall(SYS_writev, recorded, parts, 3) != (long)(sizeof head + size + more))
        abort();
}

/* The inode of an open file below the folder, or of a folder there, and its path; 0 if it is none. */
static uint64_t inode_of(int file, char *path)
{
    char link[64];
    struct stat it;
    if (recorded < 0)
        return 0;
    snprintf(link, sizeof link, "/proc/self/fd/%d", file);
    ssize_t size = syscall(SYS_readlinkat, AT_FDCWD, link, path, LONGEST - 1);
    if (size <= 0)
        return 0;
    path[size] = 0;
    if (!is_below(path) || fstat(file, &it) != 0 || !(S_ISREG(it.st_mode) || S_ISDIR(it.st_mode)))
        return 0;
    return it.st_ino;
}

/* --- bytes and lengths */

static void record_write(int file, const void *from, ssize_t written, off_t place)
{
    char path[LONGEST];
    uint64_t inode = written > 0 ? inode_of(file, path) : 0;
    if (inode)
        record(WRITE, inode, (uint64_t)place, from, (size_t)written, NULL, 0);
}

ssize_t write(int file, const void *from, size_t count)
{
    ssize_t written = syscall(SYS_write, file, from, count);
    /* Behind the bytes that were written. A pipe has no place. */
    off_t end = recorded < 0 || written <= 0 ? -1 : syscall(SYS_lseek, file, 0, SEEK_CUR);
    if (end >= 0)
        record_write(file, from, written, end - written);
    return written;
}

ssize_t pwrite(int file, const void *from, size_t count, off_t place)
{
    ssize_t written = syscall(SYS_pwrite64, file, from, count, place);
    record_write(file, from, written, place);
    return written;
}

ssize_t pwrite64(int file, const void *from, size_t count, off_t place)
{
    return pwrite(file, from, count, place);
}

/* Records how long a file is. */
static void record_length(int file)
{
    char path[LONGEST];
    struct stat it;
    uint64_t inode = inode_of(file, path);
    if (inode && fstat(file, &it) == 0)
        record(LENGTH, inode, (uint64_t)it.st_size, NULL, 0, NULL, 0);
}

int ftruncate(int file, off_t length)
{
    int failed = (int)syscall(SYS_ftruncate, file, length);
    if (!failed)
        record_length(file);
    return failed;
}

int ftruncate64(int file, off_t length)
{
    return ftruncate(file, length);
}

/* --- syncs */

static int synced(int file, long call)
{
    char path[LONGEST];
    uint64_t inode = inode_of(file, path);
    if (inode)
        record(BEGIN_SYNC, inode, 0, path, strlen(path), NULL, 0);
    int failed = (int)syscall(call, file);
    if (inode && !failed)
        record(SYNC, inode, 0, path, strlen(path), NULL, 0);
    return failed;
}

int fsync(int file)
{
    return synced(file, SYS_fsync);
}

int fdatasync(int file)
{
    return synced(file, SYS_fdatasync);
}

/* --- names */

static int opened(int at, const char *path, int flags, mode_t mode)
{
    struct stat it;
    int makes = is_below(path) && flags & O_CREAT && lstat(path, &it) != 0;
    int file = (int)syscall(SYS_openat, at, path, flags, mode);
    if (file >= 0 && makes && fstat(file, &it) == 0)
        record(MADE, it.st_ino, 0, path, strlen(path), NULL, 0);
    else if (file >= 0 && is_below(path) && flags & O_TRUNC)
        record_length(file);
    return file;
}

static mode_t mode_in(int flags, va_list words)
{
    return flags & O_CREAT || (flags & O_TMPFILE) == O_TMPFILE ? va_arg(words, mode_t) : 0;
}

int open(const char *path, int flags, ...)
{
    va_list words;
    va_start(words, flags);
    int file = opened(AT_FDCWD, path, flags, mode_in(flags, words));
    va_end(words);
    return file;
}

int open64(const char *path, int flags, ...)
{
    va_list words;
    va_start(words, flags);
    int file = opened(AT_FDCWD, path, flags | O_LARGEFILE, mode_in(flags, words));
    va_end(words);
    return file;
}

int rename(const char *from, const char *to)
{
    int failed = (int)syscall(SYS_renameat2, AT_FDCWD, from, AT_FDCWD, to, 0);
    if (!failed && is_below(from))
        record(RENAMED, 0, 0, from, strlen(from) + 1, to, strlen(to));
    return failed;
}

int unlink(const char *path)
{
    int failed = (int)syscall(SYS_unlinkat, AT_FDCWD, path, 0);
    if (!failed && is_below(path))
        record(REMOVED, 0, 0, path, strlen(path), NULL, 0);
    return failed;
}

/* --- what is sent */

ssize_t send(int socket, const void *from, size_t count, int flags)
{
    struct sockaddr_un other = {0};
    socklen_t size = sizeof other;
    ssize_t sent = syscall(SYS_sendto, socket, from, count, flags, NULL, 0);
    if (sent > 0 && recorded >= 0 && getpeername(socket, (struct sockaddr *)&other, &size) == 0 &&
        other.sun_family == AF_UNIX && size > sizeof other.sun_family + 1) {
        char name[sizeof other.sun_path + 1] = {0};
        /* The name of a socket without a path begins with a zero. */
        memcpy(name, other.sun_path + 1, size - sizeof other.sun_family - 1);
        record(SENT, 0, 0, name, strlen(name) + 1, from, (size_t)sent);
    }
    return sent;
}
