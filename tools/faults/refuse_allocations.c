/* Refuses one allocation of a program, the one with the number REFUSE, counted from 1, and makes the file
   REFUSED when it does. It is loaded before the C library, glibc, by LD_PRELOAD. */
#include <errno.h>
#include <fcntl.h>
#include <stddef.h>
#include <stdlib.h>
#include <unistd.h>

void *__libc_malloc(size_t size);
void *__libc_calloc(size_t count, size_t size);
void *__libc_realloc(void *block, size_t size);
void *__libc_memalign(size_t alignment, size_t size);

/* How many allocations are left up to the refused one, that one included: 0 after it, and where none is
   refused. */
static long left;

static void __attribute__((constructor)) read_number(void)
{
    const char *number = getenv("REFUSE");
    left = number ? atol(number) : 0;
}

static int is_refused(void)
{
    if (left == 0 || --left > 0)
        return 0;
    const char *path = getenv("REFUSED");
    int file = path ? open(path, O_WRONLY | O_CREAT, 0600) : -1;
    if (file >= 0)
        close(file);
    errno = ENOMEM;
    return 1;
}

void *malloc(size_t size)
{
    return is_refused() ? NULL : __libc_malloc(size);
}

void *calloc(size_t count, size_t size)
{
    return is_refused() ? NULL : __libc_calloc(count, size);
}

void *realloc(void *block, size_t size)
{
    return is_refused() ? NULL : __libc_realloc(block, size);
}

void *aligned_alloc(size_t alignment, size_t size)
{
    return is_refused() ? NULL : __libc_memalign(alignment, size);
}

int posix_memalign(void **block, size_t alignment, size_t size)
{
    if (is_refused())
        return ENOMEM;
    *block = __libc_memalign(alignment, size);
    return *block ? 0 : ENOMEM;
}
