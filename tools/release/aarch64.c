/* The functions of the toolchain's own C that the program calls, for aarch64: the toolchain has them compiled for
   x86-64 alone. Nothing proves them, and docs/TRUST.md names them as trusted: they owe what the kit's crates `libc`
   (heap.rt) and `os` (c.rt) say of each. `tools/release/aarch64.sh` compiles this file. */
#define _GNU_SOURCE
#include <errno.h>
#include <fcntl.h>
#include <stdbool.h>
#include <stddef.h>
#include <stdlib.h>

/* The answer of a request for memory: `p` is a block if it is `ok`, and never null. */
struct tried {
    bool ok;
    void *p;
};

static char nothing[1];
static size_t count;
static char **words;

/* As the program starts, before `main`: glibc passes what `main` gets. */
__attribute__((constructor)) static void keep(int argc, char **argv)
{
    count = argc > 0 ? (size_t)argc : 0;
    words = argv;
}

static struct tried tried(void *p)
{
    return (struct tried){p != NULL, p != NULL ? p : nothing};
}

/* The alignment divides 16, which malloc keeps. A block of no bytes gets some, so that its address is its own. */
struct tried rattle_alloc(size_t n, size_t alignment)
{
    return tried(malloc(n != 0 ? n : alignment));
}

struct tried rattle_realloc(void *p, size_t kept, size_t n, size_t alignment)
{
    (void)kept;
    return tried(realloc(p, n != 0 ? n : alignment));
}

void rattle_dealloc(void *p)
{
    free(p);
}

/* The length of word `i`, whose bytes are put in `buffer`; -1 where there is none, -2 where it does not fit. */
ptrdiff_t rattle_arg(size_t i, char *buffer, size_t size)
{
    if (i >= count || words[i] == NULL)
        return -1;
    const char *word = words[i];
    size_t n = 0;
    for (; word[n] != 0; n++) {
        if (n == size)
            return -2;
        buffer[n] = word[n];
    }
    return (ptrdiff_t)n;
}

int rattle_errno(void)
{
    return errno;
}

void rattle_set_errno(int error)
{
    errno = error;
}

int rattle_open_dir_at(int folder, const char *name)
{
    return openat(folder, name, O_RDONLY | O_DIRECTORY | O_NOFOLLOW | O_CLOEXEC);
}
