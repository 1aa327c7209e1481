/* A store of Zonegrater from C and C++: `alt_open` starts `altctl run FILE`, or connects to a service (`desk/altserve`)
   that answers the same lines. Each call writes a line and reads its answer.

       alt_store *store;
       int error = alt_open(&store, "map.alt", NULL);
       if (error == ALT_OK)
           error = alt_put(store, "top", (alt_key){7, 1}, "duct", 4);
       if (error == ALT_OK)
           error = alt_commit(store);
       if (error != ALT_OK)
           fprintf(stderr, "%s\n", alt_error_text(store, error));
       alt_close(store);

   A value is 0 to 4,000 bytes, a name 1 to 32 ASCII letters, digits, `_`, `-` and `.`. Changes that are not committed
   are lost when the store is closed or the program ends. docs/FORMATS.md has the lines and their answers,
   docs/OPERATING.md advice on each refusal, and docs/EMBEDDING.md how to build with this client.

   Calls return ALT_OK or an error. A store belongs to the thread that opened it: a call from any other thread returns
   ALT_WRONG_THREAD and does nothing, until that thread becomes the owner by `alt_adopt`; hold a lock of your own from
   there to the last call. C99, for Linux; it needs the C library alone.

   `altctl` runs in a process group of its own: Ctrl-C interrupts your program alone, and `altctl` ends when that does.
   A child of `fork` is not the owner, and while it lives `altctl` may run on; programs that it executes do not inherit
   the connection. If your program ignores SIGCHLD, or waits for any child by `wait`, the status of a killed `altctl`
   may be lost. A limit on the size of files (`ulimit -f`) kills `altctl` by SIGXFSZ, unless your program ignores that
   signal: then the line is answered ALT_DEVICE. */
#ifndef ALTCTL_H
#define ALTCTL_H

#include <stddef.h>
#include <stdint.h>

#ifdef __cplusplus
extern "C" {
#endif

/* The longest value and the longest name, in bytes. */
enum { ALT_LONGEST_VALUE = 4000, ALT_LONGEST_NAME = 32 };

/* Positive numbers are refusals: those of the store as docs/FORMATS.md and docs/OPERATING.md list them, and from 90 on
   those of a service (docs/PLANNERS.md). A refused call changes no record; but a commit that returns ALT_DEVICE may
   have been made, and the program ends after it. Negative numbers are this client's own. */
enum {
    ALT_OK = 0,
    ALT_NO_SUCH_ALTERNATIVE = 1,
    ALT_ALTERNATIVE_EXISTS = 2,
    ALT_NO_SUCH_CHECKPOINT = 3,
    ALT_CHECKPOINT_EXISTS = 4,
    ALT_NO_SUCH_RECORD = 5,
    ALT_IS_TOP = 6,
    ALT_HAS_CHILDREN = 7,
    ALT_NOT_MERGED = 8,
    ALT_UNSETTLED = 9,
    ALT_NOT_IN_CONFLICT = 10,
    ALT_SETTLED_TWICE = 11,
    ALT_TOO_MANY = 12,
    ALT_FULL = 13,
    ALT_DEEP = 14,
    ALT_DEVICE = 15,
    ALT_MEMORY = 16,
    ALT_FAILED = 17,
    ALT_DAMAGED = 18,
    ALT_NOT_A_STORE = 19,
    ALT_ALREADY_A_STORE = 20,
    ALT_BAD_SIZE = 21,
    ALT_BAD_LINE = 22,
    ALT_LONG_LINE = 23,
    ALT_READ_ONLY = 24,

    ALT_DENIED = 90,
    ALT_NOT_DONE = 91,
    ALT_ABORTED = 92,
    ALT_NOT_IN_BATCH = 93,
    ALT_TOO_LARGE = 94,
    ALT_HELD_TOO_LONG = 95,
    ALT_HALF_LINE = 96,
    ALT_NOT_JOURNALED = 97,
    ALT_NO_BACKUP = 98,
    ALT_STOPPED = 99,
    ALT_TOO_MANY_PLANNERS = 100,
    ALT_UNSURE = 101,
    ALT_TOO_MANY_ENTRIES = 102,
    ALT_CHANGED = 103,
    ALT_NO_ARCHIVE = 104,
    ALT_NO_ROOM = 105,
    ALT_NO_SUCH_PLANNER = 106,
    ALT_PLANNER_EXISTS = 107,

    /* There are no more rows. */
    ALT_DONE = -1,
    /* A system call failed; `errno` tells why. */
    ALT_SYSTEM = -2,
    /* Another process has locked the file. */
    ALT_IN_USE = -3,
    /* The program has ended, or the service has closed the connection. Of a program `alt_detail` has the status and
       what it said. What was committed is in the file; whether a commit that was not answered was made is unknown. */
    ALT_ENDED = -4,
    /* Another thread owns the store, or the process that this one was forked off. */
    ALT_WRONG_THREAD = -5,
    /* Rows are being read: close them first. */
    ALT_ROWS_OPEN = -6,
    /* A name is NULL, empty, or has a byte that no word of a line may have; or a value is too long. Nothing was
       sent. */
    ALT_BAD_WORD = -7,
    /* The buffer is too small for the value, whose length is returned. */
    ALT_SMALL_BUFFER = -8,
    /* No answer waits under this ticket. */
    ALT_NO_SUCH_TICKET = -9,
    /* The answer is none that this client knows, or a row is asked for as one of another kind. */
    ALT_BAD_ANSWER = -10,
    /* The file exists already, or cannot be made under this name. */
    ALT_CANNOT_CREATE = -11,
    /* The program cannot be started; `errno` tells why. */
    ALT_NO_PROGRAM = -12,
    /* A query, or a line sent ahead, in a batch. Nothing was sent. */
    ALT_IN_BATCH = -13
};

typedef struct alt_store alt_store;

/* How a store is opened. NULL in its place, or all zeros, is what most callers want. A service ignores all of it. */
typedef struct {
    const char *program; /* the path of `altctl`; NULL: it is looked for in PATH */
    int cache;           /* `--cache`: blocks of the file kept in memory; 0: the program's default;
                            ALT_NO_BLOCKS: none */
    int buffer;          /* `--buffer`: written blocks that wait in memory; 0 and ALT_NO_BLOCKS as above */
    int wait;            /* not 0: while another process has locked the file, wait for it */
    int read_only;       /* not 0: the file is only read, beside other readers; each command is refused
                            (ALT_READ_ONLY) */
    int grow;            /* up to how many blocks the store grows where a command would be refused for want of them
                            (ALT_FULL); 0: it does not; ALT_NO_LIMIT: as far as it can */
} alt_options;

enum { ALT_NO_BLOCKS = -1, ALT_NO_LIMIT = -1 };

typedef struct {
    uint16_t table;
    uint64_t number;
} alt_key;

/* A value, in memory that is the store's until the next call on it. `bytes` is NULL if there is no value at all. */
typedef struct {
    const unsigned char *bytes;
    size_t length;
} alt_value;

/* What an error tells besides its number. Members that an error says nothing about are 0. */
typedef struct {
    char name[40];          /* a refusal: its name, as `Full` */
    uint64_t count;         /* ALT_UNSETTLED: how many conflicts are left; ALT_DAMAGED: the block */
    alt_key key;            /* ALT_NOT_IN_CONFLICT, ALT_SETTLED_TWICE */
    uint64_t line;          /* a refused batch: which of its changes was refused, 1 for the first */
    int status;             /* ALT_ENDED: the program's exit status, or minus the signal that killed it */
    char said[400];         /* ALT_ENDED: the program's standard error; a refusal: the words after its name */
} alt_details;

/* --- opening and closing --------------------------------------------------------------------------- */

/* Makes a store of 64 to 67,108,864 blocks of 4,096 bytes in a new file. */
int alt_create(const char *file, uint32_t blocks, const alt_options *options);

typedef struct {
    uint32_t blocks, used;
} alt_size;

/* Copies what was committed to a new file of `blocks` blocks, or of as many as the store has if `blocks` is 0. *size
   becomes the number of its blocks and of those in use; it may be NULL. ALT_FULL: more than `blocks` are in use, and no
   file is made. ALT_IN_USE: the store is open for changes, perhaps by this program; it may be open for reading. After a
   failure nothing has the name `to` that had it not before: the file gets it once it is whole, and until then `.part`
   stands behind it. */
int alt_copy(const char *file, const char *to, uint32_t blocks, alt_size *size, const alt_options *options);

/* Opens the store in a file, which stays locked (`flock`) as long as the program runs. A name that begins with `unix:`
   is the socket of a service. Close *store even if this fails: until then `alt_error_text` has the details. It may be
   NULL then. */
int alt_open(alt_store **store, const char *file, const alt_options *options);

/* Closes a store, or does nothing with NULL. Lines that were sent ahead are still carried out. Returns ALT_OK if the
   program ended as it should, or else what ended it; the store is gone either way, except with ALT_WRONG_THREAD. */
int alt_close(alt_store *store);

/* Makes the calling thread the owner. The caller sees to it that no other thread is in a call on this store. */
void alt_adopt(alt_store *store);

/* The details of the last error, until the next call on the store. */
const alt_details *alt_detail(const alt_store *store);

/* The name of an error (`Full`, `ALT_IN_USE`), and a sentence about it with its details, right after the call that
   returned it. The sentence may be in memory of the store, until the next call on it. The store may be NULL. */
const char *alt_error_name(int error);
const char *alt_error_text(alt_store *store, int error);

/* --- commands -------------------------------------------------------------------------------------- */

int alt_put(alt_store *store, const char *alt, alt_key key, const void *bytes, size_t length);
int alt_remove(alt_store *store, const char *alt, alt_key key);
int alt_new(alt_store *store, const char *name, const char *parent);
int alt_new_at(alt_store *store, const char *name, const char *parent, const char *checkpoint);
int alt_drop(alt_store *store, const char *alt);
int alt_checkpoint(alt_store *store, const char *alt, const char *name);
int alt_uncheck(alt_store *store, const char *alt, const char *name);
int alt_back(alt_store *store, const char *alt, const char *name);
int alt_post(alt_store *store, const char *alt);
int alt_commit(alt_store *store);
/* Undoes everything since the last commit, also a growth. In a batch of a service it does what `alt_abort` does;
   outside of one each change is committed, and it undoes nothing. */
int alt_rollback(alt_store *store);
int alt_reclaim(alt_store *store);
int alt_grow(alt_store *store, uint32_t blocks);

typedef enum { ALT_MINE, ALT_THEIRS } alt_side;

typedef struct {
    alt_key key;
    alt_side side;
} alt_settlement;

/* Brings in what changed in the parent. *changed becomes the number of records that this changed, 0 in a batch; it may
   be NULL, and so may the settlements if there are none. */
int alt_merge(alt_store *store, const char *alt, const alt_settlement *settlements, size_t count, uint64_t *changed);
/* The same, and this side settles each conflict that has no settlement of its own. */
int alt_merge_all(alt_store *store, const char *alt, alt_side side, const alt_settlement *settlements, size_t count,
                  uint64_t *changed);

/* --- batches of a service -------------------------------------------------------------------------- */

/* A service makes each change durable before it answers. Those between `alt_begin` and `alt_commit` it makes together,
   or none of them: they return ALT_OK as soon as they are sent, and `alt_commit` returns the refusal of the one that
   was refused. A store that the program works on refuses `alt_begin` with ALT_BAD_LINE. */
int alt_begin(alt_store *store);
int alt_abort(alt_store *store);

/* --- queries --------------------------------------------------------------------------------------- */

/* In place of an alternative, a query for a record, for records or for a difference takes a version of it: "north@" is
   its base, "north@before" its checkpoint of that name. */

/* Copies the value of a record, and sets *length. ALT_NO_SUCH_RECORD if there is none, ALT_SMALL_BUFFER if it has more
   than `room` bytes; ALT_LONGEST_VALUE bytes are always enough. */
int alt_get(alt_store *store, const char *alt, alt_key key, void *buffer, size_t room, size_t *length);

/* The number of free blocks. */
int alt_free_blocks(alt_store *store, uint64_t *blocks);

/* The number of blocks, free ones and others. */
int alt_blocks(alt_store *store, uint64_t *blocks);

/* How many records an alternative has changed since its base, how many its parent has since then, how many of them are
   in conflict, and whether a post would be accepted. */
typedef struct {
    uint64_t changed, unmerged, conflicts;
    int can_post;
} alt_numbers;

int alt_tally(alt_store *store, const char *alt, alt_numbers *numbers);

/* Rows are read one by one as the program writes them, and are not held in memory. Read them by the `alt_next_..` of
   their kind, which returns ALT_OK and a row, or ALT_DONE; nothing else may be asked until they are closed. If a query
   is refused, *rows becomes NULL. */
typedef struct alt_rows alt_rows;

typedef struct {
    alt_key key;
    alt_value value;
} alt_record;

typedef struct {
    alt_key key;
    alt_value before, after;
} alt_change;

typedef struct {
    alt_key key;
    alt_value base, parent, mine;
} alt_conflict;

typedef struct {
    const char *name;
    const char *parent; /* NULL for top */
} alt_alternative;

/* All records of a version; or those of a table, or of its numbers from `first` to `last`, both included, which are
   none if `first` is above `last`. */
int alt_list(alt_store *store, const char *at, alt_rows **rows);
int alt_list_table(alt_store *store, const char *at, uint16_t table, alt_rows **rows);
int alt_list_range(alt_store *store, const char *at, uint16_t table, uint64_t first, uint64_t last, alt_rows **rows);
/* The first `count` records at or after a key, over tables. If they are fewer, there are no more. */
int alt_page(alt_store *store, const char *at, alt_key from, uint32_t count, alt_rows **rows);
/* What an alternative has changed since its base; what differs from one version to another, everywhere, in a table, or
   at its numbers from `first` to `last`. */
int alt_changes(alt_store *store, const char *alt, alt_rows **rows);
int alt_diff(alt_store *store, const char *before, const char *after, alt_rows **rows);
int alt_diff_table(alt_store *store, const char *before, const char *after, uint16_t table, alt_rows **rows);
int alt_diff_range(alt_store *store, const char *before, const char *after, uint16_t table, uint64_t first,
                   uint64_t last, alt_rows **rows);
int alt_conflicts(alt_store *store, const char *alt, alt_rows **rows);
int alt_alternatives(alt_store *store, alt_rows **rows);
int alt_checkpoints(alt_store *store, const char *alt, alt_rows **rows);

int alt_next_record(alt_rows *rows, alt_record *record);
int alt_next_change(alt_rows *rows, alt_change *change);
int alt_next_conflict(alt_rows *rows, alt_conflict *conflict);
int alt_next_alternative(alt_rows *rows, alt_alternative *alternative);
int alt_next_checkpoint(alt_rows *rows, const char **name);

/* Skips the rows that are left, and ends them; does nothing with NULL. */
int alt_close_rows(alt_rows *rows);

/* A cursor goes through all records of a version, or through those of a table. It asks for a thousand at a time, and
   holds these alone, so anything else may be asked between its steps; a page shows the version as it is when the page
   is asked for. If it cannot be opened, *cursor becomes NULL. */
typedef struct alt_cursor alt_cursor;

int alt_scan(alt_store *store, const char *at, alt_cursor **cursor);
int alt_scan_table(alt_store *store, const char *at, uint16_t table, alt_cursor **cursor);

/* Returns ALT_OK and the next record, whose value stays in place until the next step, or ALT_DONE. After any other
   error the cursor stands where it stood, and the step may be tried again. */
int alt_step(alt_cursor *cursor, alt_record *record);

/* Frees a cursor, also after its store was closed; does nothing with NULL. */
void alt_close_cursor(alt_cursor *cursor);

/* --- writing ahead --------------------------------------------------------------------------------- */

/* A line that is sent ahead returns a ticket, and its answer is taken by that ticket later: many lines are on their way
   at once, so nobody waits for each answer. The store answers them in the order in which they were sent. Take each
   ticket once, in any order; in the order of sending it costs least, since an answer that comes before the one that is
   taken is kept in memory until it is taken itself. Take some thousands of answers before sending more. */
typedef uint64_t alt_ticket;

int alt_send_put(alt_store *store, const char *alt, alt_key key, const void *bytes, size_t length, alt_ticket *ticket);
int alt_send_remove(alt_store *store, const char *alt, alt_key key, alt_ticket *ticket);
int alt_send_get(alt_store *store, const char *alt, alt_key key, alt_ticket *ticket);
int alt_send_commit(alt_store *store, alt_ticket *ticket);

/* Takes the answer to a command, or to a get. What a get has found is lost if the buffer is too small. */
int alt_take(alt_store *store, alt_ticket ticket);
int alt_take_value(alt_store *store, alt_ticket ticket, void *buffer, size_t room, size_t *length);

/* Takes all answers that were not taken yet. If commands were refused it returns the refusal of the first one, with its
   ticket in *refused, which may be NULL; values of gets are dropped. */
int alt_take_all(alt_store *store, alt_ticket *refused);

#ifdef __cplusplus
}
#endif
#endif
