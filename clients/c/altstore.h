/* A store of Zonegrater in the memory of your process: a reader of a snapshot, a store to try something in, a store for
   tests. It reads and writes whole images, the bytes of a store's file, and answers the lines of docs/FORMATS.md.
   Nothing is durable before `altstore_save`; for a durable store take altctl.h.

       altstore store = ALTSTORE_CLOSED_HANDLE;
       static const char lines[] = "put top 7 1 duct\ncommit\nget top 7 1\n";
       uint8_t answers[256];
       uint32_t code = altstore_new(&store, 64, 1024);
       if (code == ALTSTORE_OK)
           code = altstore_ask(&store, (const uint8_t *)lines, sizeof lines - 1, false);
       size_t length = altstore_answers(&store, 0, answers, sizeof answers);
       altstore_close(&store);

   The library is proved; what your program owes it is:
   - a handle is all zeros at first, and after that only these functions change it; a copy of it is never used beside
   it;
   - pointers are valid for as many bytes as are named, and no two arguments of a call overlap;
   - a handle is used by one call at a time, and by the thread that opened it;
   - `malloc`, `realloc` and `free` are those of one allocator, which aligns as C asks; no call comes from a signal
   handler,
     or from the child of a `fork` of a process with threads.

   C99 and C++11. docs/EMBEDDING.md has how to build with it. */
#ifndef ALTSTORE_H
#define ALTSTORE_H

#include <stdbool.h>
#include <stddef.h>
#include <stdint.h>

#ifdef __cplusplus
extern "C" {
#endif

/* A handle. Closed, it has no memory to free. */
typedef struct altstore {
    bool is_open;
    void *at;
} altstore;

#define ALTSTORE_CLOSED_HANDLE {false, NULL}

/* How a call ended. Numbers below 100 are refusals, those of altctl.h and docs/OPERATING.md. */
enum {
    ALTSTORE_OK = 0,
    ALTSTORE_MEMORY = 16,        /* memory was refused: for the answers, an image or a store */
    ALTSTORE_FAILED = 17,        /* the store has failed: close it. Only a `grow` beyond its room makes it fail */
    ALTSTORE_DAMAGED = 18,       /* the image has a damaged block */
    ALTSTORE_NOT_A_STORE = 19,   /* the image is none of a store */
    ALTSTORE_BAD_SIZE = 21,      /* a store has 64 to 67,108,864 blocks; or the image is cut short */
    ALTSTORE_CLOSED = 101,       /* there is no store behind the handle */
    ALTSTORE_OPEN = 102,         /* there is a store behind the handle already, which stays as it is */
    ALTSTORE_UNREAD = 103,       /* the descriptor gave no byte: it is not open for reading, or was at its end */
    ALTSTORE_UNWRITTEN = 104,    /* the image could not be written */
    ALTSTORE_LINE_REFUSED = 105  /* a line was refused: its answer says why */
};

/* Opens a new store of `blocks` blocks of 4,096 bytes, 64 to 67,108,864, which `grow` may lengthen up to `room` blocks.
   Memory of the system is taken as blocks are written. */
uint32_t altstore_new(altstore *store, uint32_t blocks, uint32_t room);

/* Opens the store that an image shows, which is what its file shows to `altctl`. The image is read to the end of the
   descriptor, which stays open, and is in memory twice meanwhile. Bytes after the last whole block count for nothing. A
   read that fails, or that a signal interrupts, counts as the end: the image is then refused as cut short. */
uint32_t altstore_load(altstore *store, int32_t descriptor, uint32_t room);

/* The same of an image in memory, which is copied. */
uint32_t altstore_load_bytes(altstore *store, const uint8_t *image, size_t length, uint32_t room);

/* Answers lines, each ended by a line feed (the last one may lack it). The answers are kept until the next call of this
   function, `altstore_save` or `altstore_close`. If `stops` is true, a line that is refused is the last one. */
uint32_t altstore_ask(altstore *store, const uint8_t *lines, size_t length, bool stops);

/* How many bytes the answers have; 0 if the handle is closed. */
size_t altstore_length(altstore *store);

/* Copies answers from byte `from` on into a buffer, as many bytes as there are and fit, and returns their number; 0 if
   the handle is closed. */
size_t altstore_answers(altstore *store, size_t from, uint8_t *into, size_t size);

/* Writes the image of the store, from the descriptor's place on. Changes that were not committed are gone after it, as
   after closing. Also after ALTSTORE_UNWRITTEN the store goes on; after any other error the handle is closed. */
uint32_t altstore_save(altstore *store, int32_t descriptor);

/* Closes a handle, and frees all that is behind it. It does nothing to one that is closed. */
void altstore_close(altstore *store);

#ifdef __cplusplus
}
#endif

#endif
