/* The client that altctl.h describes: lines and answers over a socket, on whose other end the program has its standard
   input and output, or a service listens. */
#define _GNU_SOURCE
#include "altctl.h"

#include <errno.h>
#include <fcntl.h>
#include <inttypes.h>
#include <poll.h>
#include <pthread.h>
#include <signal.h>
#include <spawn.h>
#include <stdarg.h>
#include <stdio.h>
#include <stdlib.h>
#include <string.h>
#include <sys/file.h>
#include <sys/mman.h>
#include <sys/socket.h>
#include <sys/un.h>
#include <sys/wait.h>
#include <unistd.h>

extern char **environ;

/* Bytes that are added at the end and taken from the beginning. */
struct buffer {
    char *bytes;
    size_t begin, end, room;
};

/* An answer that came before it was asked for; NULL once it was taken. */
struct kept {
    alt_ticket ticket;
    char *line;
};

enum kind { RECORDS, CHANGES, CONFLICTS, ALTERNATIVES, CHECKPOINTS };

struct alt_rows {
    alt_store *store;
    enum kind kind;
    char *waiting; /* a line that was read and is not given yet */
    int is_open, is_whole;
    int error; /* of the rows that are whole */
};

/* How many records a cursor asks for at once. */
#ifndef PAGE
#define PAGE 1000
#endif

/* The head of a record in a page, whose value comes after it. */
struct held {
    alt_key key;
    size_t length;
};

struct alt_cursor {
    alt_store *store;
    char *at;
    alt_key next;        /* where the next page begins */
    uint16_t last_table; /* records of tables above it are none of the cursor's */
    int is_last;         /* no page comes after the one that is held */
    struct buffer page;
};

struct alt_store {
    pthread_t owner;
    pid_t process; /* the owner's: a child has threads of the same names */
    int socket, lock, faults;
    pid_t program;      /* 0: a service is at the other end, or the program has been waited for */
    int is_service;
    int is_deaf;        /* the other end takes no more lines */
    int end;            /* the error of each call once the other end is gone, or 0 */
    alt_details ending; /* and its details */
    struct buffer out, in;
    alt_ticket sent, answered;
    struct kept *kept; /* by rising tickets, from kept_begin to kept_end */
    size_t kept_begin, kept_end, kept_room;
    char *taken; /* the kept answer that was taken last */
    alt_ticket batch; /* the ticket of the `begin` of a batch, or 0 */
    alt_rows rows;
    alt_details details;
    char text[600];
};

/* --- bytes ----------------------------------------------------------------------------------------- */

/* Makes room for more bytes. Bytes are moved to the front only if that gains as much as it costs. */
static int reserve(struct buffer *it, size_t more)
{
    size_t length = it->end - it->begin;
    if (it->end + more > it->room && it->begin >= length) {
        if (length > 0)
            memmove(it->bytes, it->bytes + it->begin, length);
        it->begin = 0;
        it->end = length;
    }
    if (it->end + more > it->room) {
        size_t room = 2 * (it->end + more);
        char *bytes = realloc(it->bytes, room);
        if (bytes == NULL)
            return ALT_SYSTEM;
        it->bytes = bytes;
        it->room = room;
    }
    return ALT_OK;
}

static int append(struct buffer *it, const void *bytes, size_t length)
{
    if (reserve(it, length) != ALT_OK)
        return ALT_SYSTEM;
    memcpy(it->bytes + it->end, bytes, length);
    it->end += length;
    return ALT_OK;
}

/* A word of a line has visible ASCII alone. */
static int append_word(struct buffer *it, const char *word)
{
    size_t length = word == NULL ? 0 : strlen(word);
    if (length == 0)
        return ALT_BAD_WORD;
    for (size_t at = 0; at < length; at++)
        if (word[at] < 0x21 || word[at] > 0x7E)
            return ALT_BAD_WORD;
    return append(it, word, length);
}

static int append_number(struct buffer *it, uint64_t number)
{
    char digits[24];
    return append(it, digits, (size_t)snprintf(digits, sizeof digits, "%" PRIu64, number));
}

/* A value as a word: `-` if it is empty, and `%` with two digits for each byte that does not stand for itself. */
static int append_value(struct buffer *it, const unsigned char *bytes, size_t length)
{
    static const char digits[] = "0123456789ABCDEF";
    if (length > ALT_LONGEST_VALUE)
        return ALT_BAD_WORD;
    if (length == 0)
        return append(it, "-", 1);
    if (reserve(it, 3 * length) != ALT_OK)
        return ALT_SYSTEM;
    int is_dash = length == 1 && bytes[0] == '-';
    for (size_t at = 0; at < length; at++) {
        if (bytes[at] >= 0x21 && bytes[at] <= 0x7D && bytes[at] != '%' && !is_dash) {
            it->bytes[it->end++] = (char)bytes[at];
        } else {
            it->bytes[it->end++] = '%';
            it->bytes[it->end++] = digits[bytes[at] >> 4];
            it->bytes[it->end++] = digits[bytes[at] & 15];
        }
    }
    return ALT_OK;
}

static int digit(char it)
{
    return it <= '9' ? it - '0' : it - 'A' + 10;
}

/* The value that a word spells. It is written over the word. */
static alt_value decoded(char *word)
{
    alt_value value = {(unsigned char *)word, 0};
    if (strcmp(word, "~") == 0)
        value.bytes = NULL;
    if (strcmp(word, "~") == 0 || strcmp(word, "-") == 0)
        return value;
    unsigned char *to = (unsigned char *)word;
    for (const char *from = word; *from != 0; from++) {
        if (*from == '%' && from[1] != 0 && from[2] != 0) {
            *to++ = (unsigned char)(16 * digit(from[1]) + digit(from[2]));
            from += 2;
        } else {
            *to++ = (unsigned char)*from;
        }
    }
    value.length = (size_t)(to - (unsigned char *)word);
    return value;
}

/* --- the program at the other end ------------------------------------------------------------------ */

/* Moves a descriptor out of the way of the standard streams, which the caller may have closed. */
static int apart(int descriptor)
{
    if (descriptor < 0)
        return -1;
    int moved = fcntl(descriptor, F_DUPFD_CLOEXEC, 10);
    int error = errno;
    close(descriptor);
    errno = error;
    return moved;
}

static void close_all(int *descriptors, int count)
{
    int error = errno;
    for (int at = 0; at < count; at++)
        if (descriptors[at] >= 0)
            close(descriptors[at]);
    errno = error;
}

/* A file in memory, for what the program writes to its standard error. */
static int nameless(void)
{
    return apart(memfd_create("altctl", MFD_CLOEXEC));
}

/* Starts the program with these descriptors as its standard streams and, if there is a lock, as descriptor 3. It gets a
   process group of its own, so that an interrupt from the terminal doesn't kill it in the middle of the caller's work,
   and no signal is blocked in it. */
static int start(pid_t *program, const char *const *words, int input, int output, int faults, int lock)
{
    posix_spawn_file_actions_t actions;
    posix_spawnattr_t attributes;
    sigset_t no_signals;
    posix_spawn_file_actions_init(&actions);
    posix_spawnattr_init(&attributes);
    posix_spawn_file_actions_adddup2(&actions, input, 0);
    posix_spawn_file_actions_adddup2(&actions, output, 1);
    posix_spawn_file_actions_adddup2(&actions, faults, 2);
    if (lock >= 0)
        posix_spawn_file_actions_adddup2(&actions, lock, 3);
    sigemptyset(&no_signals);
    posix_spawnattr_setsigmask(&attributes, &no_signals);
    posix_spawnattr_setflags(&attributes, POSIX_SPAWN_SETPGROUP | POSIX_SPAWN_SETSIGMASK);
    int error = posix_spawnp(program, words[0], &actions, &attributes, (char *const *)words, environ);
    posix_spawnattr_destroy(&attributes);
    posix_spawn_file_actions_destroy(&actions);
    errno = error;
    return error == 0 ? ALT_OK : ALT_NO_PROGRAM;
}

/* Waits for the program's end, and notes its status and what it said. The status stays 0 if the caller ignores
   SIGCHLD. */
static void note_end(pid_t program, int faults, alt_details *details)
{
    int status = 0;
    while (waitpid(program, &status, 0) < 0 && errno == EINTR)
        ;
    details->status = WIFEXITED(status) ? WEXITSTATUS(status) : -WTERMSIG(status);
    ssize_t length = pread(faults, details->said, sizeof details->said - 1, 0);
    details->said[length > 0 ? length : 0] = 0;
    details->said[strcspn(details->said, "\n")] = 0;
}

/* The error that a program ended by: the refusal that it told on its standard error, `altctl: 19 NotAStore`, or else
   ALT_ENDED. Status 127 is that of a child that could not become the program. */
static int end_of(alt_details *details)
{
    int number = 0;
    char name[40] = "";
    if (details->status == 127) {
        errno = ENOENT;
        return ALT_NO_PROGRAM;
    }
    if (details->status == 1 && sscanf(details->said, "altctl: %d %39s", &number, name) == 2 && number > 0) {
        memcpy(details->name, name, sizeof name);
        return number;
    }
    return ALT_ENDED;
}

/* The other end is gone: from now on each call returns the same error, once the answers that came before are taken. */
static int ended(alt_store *store)
{
    if (store->end == 0) {
        if (store->program != 0)
            note_end(store->program, store->faults, &store->ending);
        store->program = 0;
        store->end = end_of(&store->ending);
    }
    store->details = store->ending;
    return store->end;
}

/* --- lines and answers ----------------------------------------------------------------------------- */

/* Reads what has come, and waits if nothing has. */
static int fill(alt_store *store)
{
    if (reserve(&store->in, 1 << 16) != ALT_OK)
        return ALT_SYSTEM;
    for (;;) {
        ssize_t count = recv(store->socket, store->in.bytes + store->in.end, store->in.room - store->in.end, 0);
        if (count > 0) {
            store->in.end += (size_t)count;
            return ALT_OK;
        }
        if (count == 0 || errno == ECONNRESET)
            return ended(store);
        if (errno != EINTR)
            return ALT_SYSTEM;
    }
}

/* Waits until the other end takes lines or has answered. Answers are read, so that no two wait for each other. */
static int wait_for_other(alt_store *store)
{
    struct pollfd both = {store->socket, POLLIN | POLLOUT, 0};
    if (poll(&both, 1, -1) < 0)
        return errno == EINTR ? ALT_OK : ALT_SYSTEM;
    return (both.revents & (POLLIN | POLLHUP)) != 0 ? fill(store) : ALT_OK;
}

/* Writes all lines that wait. If the other end is gone they are given up, and the reading of their answers tells. */
static int flush(alt_store *store)
{
    struct buffer *out = &store->out;
    while (out->begin < out->end && !store->is_deaf && store->end == 0) {
        ssize_t count =
            send(store->socket, out->bytes + out->begin, out->end - out->begin, MSG_NOSIGNAL | MSG_DONTWAIT);
        if (count >= 0) {
            out->begin += (size_t)count;
        } else if (errno == EAGAIN || errno == EWOULDBLOCK) {
            if (wait_for_other(store) == ALT_SYSTEM)
                return ALT_SYSTEM;
        } else if (errno == EPIPE || errno == ECONNRESET) {
            store->is_deaf = 1;
        } else if (errno != EINTR) {
            return ALT_SYSTEM;
        }
    }
    out->begin = out->end = 0;
    return ALT_OK;
}

/* The next line that comes, without its LF. It stays in place until the next call. */
static int read_line(alt_store *store, char **line)
{
    struct buffer *in = &store->in;
    int error = flush(store);
    for (size_t seen = 0; error == ALT_OK;) {
        size_t from = in->begin + seen;
        char *end = from < in->end ? memchr(in->bytes + from, '\n', in->end - from) : NULL;
        if (end != NULL) {
            *end = 0;
            *line = in->bytes + in->begin;
            in->begin = (size_t)(end + 1 - in->bytes);
            return ALT_OK;
        }
        seen = in->end - in->begin;
        error = fill(store);
    }
    return error;
}

static int is_owner(const alt_store *store)
{
    return store->process == getpid() && pthread_equal(store->owner, pthread_self());
}

/* Whether the calling thread may ask something now. */
static int enter(const alt_store *store)
{
    if (!is_owner(store))
        return ALT_WRONG_THREAD;
    return store->rows.is_open ? ALT_ROWS_OPEN : ALT_OK;
}

/* Adds the words of a line as `form` has them: `%w` is a word, `%k` a key, `%v` a value and its length, `%n` a
   number. */
static int add_words(struct buffer *out, const char *form, va_list words)
{
    int error = ALT_OK;
    for (; *form != 0 && error == ALT_OK; form++) {
        if (*form != '%') {
            error = append(out, form, 1);
            continue;
        }
        form++;
        if (*form == 'w') {
            error = append_word(out, va_arg(words, const char *));
        } else if (*form == 'n') {
            error = append_number(out, va_arg(words, uint64_t));
        } else if (*form == 'v') {
            const unsigned char *bytes = va_arg(words, const unsigned char *);
            error = append_value(out, bytes, va_arg(words, size_t));
        } else {
            alt_key key = va_arg(words, alt_key);
            error = append_number(out, key.table);
            if (error == ALT_OK)
                error = append(out, " ", 1);
            if (error == ALT_OK)
                error = append_number(out, key.number);
        }
    }
    return error;
}

/* Sends a line ahead. If one of its words cannot stand in a line, nothing is sent. */
static int send_words(alt_store *store, alt_ticket *ticket, const char *form, va_list words)
{
    int error = enter(store);
    if (error == ALT_OK && store->end != 0)
        error = ended(store);
    if (error != ALT_OK)
        return error;
    size_t length = store->out.end - store->out.begin;
    error = add_words(&store->out, form, words);
    if (error == ALT_OK)
        error = append(&store->out, "\n", 1);
    if (error != ALT_OK) {
        store->out.end = store->out.begin + length;
        return error;
    }
    *ticket = ++store->sent;
    return store->out.end - store->out.begin >= 1 << 16 ? flush(store) : ALT_OK;
}

/* Sends a query, or a line of the caller's ahead: none of a batch. */
static int send_line(alt_store *store, alt_ticket *ticket, const char *form, ...)
{
    if (enter(store) == ALT_OK && store->batch != 0)
        return ALT_IN_BATCH;
    va_list words;
    va_start(words, form);
    int error = send_words(store, ticket, form, words);
    va_end(words);
    return error;
}

/* Makes room for one more kept answer: those that were taken give theirs up. */
static int reserve_kept(alt_store *store)
{
    if (store->kept_end < store->kept_room)
        return ALT_OK;
    size_t count = 0;
    for (size_t at = store->kept_begin; at < store->kept_end; at++)
        if (store->kept[at].line != NULL)
            store->kept[count++] = store->kept[at];
    store->kept_begin = 0;
    store->kept_end = count;
    if (2 * count < store->kept_room)
        return ALT_OK;
    size_t room = 2 * store->kept_room + 16;
    struct kept *more = realloc(store->kept, room * sizeof *more);
    if (more == NULL)
        return ALT_SYSTEM;
    store->kept = more;
    store->kept_room = room;
    return ALT_OK;
}

/* Keeps an answer that came before the one that is asked for. */
static int keep(alt_store *store, const char *line)
{
    char *copy = reserve_kept(store) == ALT_OK ? strdup(line) : NULL;
    if (copy == NULL)
        return ALT_SYSTEM;
    store->kept[store->kept_end++] = (struct kept){store->answered, copy};
    return ALT_OK;
}

/* Takes the answer that was kept under a ticket. */
static int take_kept(alt_store *store, alt_ticket ticket, char **line)
{
    size_t low = store->kept_begin, high = store->kept_end;
    while (low < high) {
        size_t middle = low + (high - low) / 2;
        if (store->kept[middle].ticket < ticket)
            low = middle + 1;
        else
            high = middle;
    }
    if (low == store->kept_end || store->kept[low].ticket != ticket || store->kept[low].line == NULL)
        return ALT_NO_SUCH_TICKET;
    free(store->taken);
    *line = store->taken = store->kept[low].line;
    store->kept[low].line = NULL;
    while (store->kept_begin < store->kept_end && store->kept[store->kept_begin].line == NULL)
        store->kept_begin++;
    return ALT_OK;
}

/* The first line of the answer to the line that was sent under a ticket. */
static int take_line(alt_store *store, alt_ticket ticket, char **line)
{
    if (ticket <= store->answered)
        return take_kept(store, ticket, line);
    if (ticket > store->sent)
        return ALT_NO_SUCH_TICKET;
    for (;;) {
        int error = read_line(store, line);
        if (error != ALT_OK)
            return error;
        store->answered++;
        if (store->answered == ticket)
            return ALT_OK;
        error = keep(store, *line);
        if (error != ALT_OK)
            return error;
    }
}

/* The refusal that an answer is, or ALT_OK. */
static int refusal_of(alt_store *store, const char *line)
{
    alt_details *details = &store->details;
    int number = 0, length = 0;
    memset(details, 0, sizeof *details);
    if (strncmp(line, "error ", 6) != 0)
        return ALT_OK;
    if (sscanf(line, "error %d %39s %n", &number, details->name, &length) != 2 || number <= 0)
        return ALT_BAD_ANSWER;
    const char *rest = length > 0 ? line + length : "";
    snprintf(details->said, sizeof details->said, "%s", rest);
    if (number == ALT_NOT_IN_CONFLICT || number == ALT_SETTLED_TWICE)
        sscanf(rest, "%" SCNu16 ":%" SCNu64, &details->key.table, &details->key.number);
    else if (number == ALT_UNSETTLED || number == ALT_DAMAGED)
        sscanf(rest, "%" SCNu64, &details->count);
    return number;
}

/* The answer under a ticket, where it begins with this word; `rest` becomes what stands behind it. */
static int take_answer(alt_store *store, alt_ticket ticket, const char *word, char **rest)
{
    char *line;
    int error = take_line(store, ticket, &line);
    if (error == ALT_OK)
        error = refusal_of(store, line);
    if (error != ALT_OK)
        return error;
    size_t length = strlen(word);
    if (strncmp(line, word, length) != 0 || (line[length] != 0 && line[length] != ' '))
        return ALT_BAD_ANSWER;
    *rest = line[length] == 0 ? line + length : line + length + 1;
    return ALT_OK;
}

/* Sends a command and takes its answer, `ok` and in some a number. In a batch that does not come before its end. */
static int command(alt_store *store, uint64_t *number, const char *form, ...)
{
    alt_ticket ticket;
    char *rest = "";
    va_list words;
    va_start(words, form);
    int error = send_words(store, &ticket, form, words);
    va_end(words);
    if (error == ALT_OK && store->batch == 0)
        error = take_answer(store, ticket, "ok", &rest);
    if (error == ALT_OK && number != NULL)
        *number = strtoull(rest, NULL, 10);
    return error;
}

/* --- opening and closing --------------------------------------------------------------------------- */

static const alt_options none;

/* Locks a file. The lock is held as long as a process has this descriptor. */
static int lock_file(const char *file, const alt_options *options, int *lock)
{
    int how = (options->read_only ? LOCK_SH : LOCK_EX) | (options->wait ? 0 : LOCK_NB);
    *lock = apart(open(file, O_RDONLY | O_NONBLOCK | O_CLOEXEC));
    if (*lock < 0)
        return ALT_SYSTEM;
    while (flock(*lock, how) != 0)
        if (errno != EINTR) {
            int error = errno == EWOULDBLOCK ? ALT_IN_USE : ALT_SYSTEM;
            close_all(lock, 1);
            *lock = -1;
            return error;
        }
    return ALT_OK;
}

/* Adds an option of the program, if it is none that the program has anyway, and gives the number of words then. */
static int add_option(const char **words, int count, const char *name, int blocks, char digits[16])
{
    if (blocks == 0)
        return count;
    snprintf(digits, 16, "%d", blocks == ALT_NO_BLOCKS ? 0 : blocks);
    words[count] = name;
    words[count + 1] = digits;
    return count + 2;
}

/* Starts the program over a file whose lock is held. */
static int start_store(alt_store *store, const char *file, const alt_options *options)
{
    char cache[16], buffer[16], most[16];
    const char *words[16] = {options->program != NULL ? options->program : "altctl", "run"};
    int count = add_option(words, 2, "--cache", options->cache, cache);
    count = add_option(words, count, "--buffer", options->buffer, buffer);
    if (options->read_only)
        words[count++] = "--read-only";
    if (options->grow != 0)
        words[count++] = "--grow";
    if (options->grow != ALT_NO_LIMIT)
        count = add_option(words, count, "--grow-to", options->grow, most);
    words[count++] = "--";
    words[count] = file;
    int ends[2] = {-1, -1};
    if (socketpair(AF_UNIX, SOCK_STREAM | SOCK_CLOEXEC, 0, ends) != 0)
        return ALT_SYSTEM;
    int theirs = apart(ends[1]);
    store->socket = apart(ends[0]);
    store->faults = nameless();
    int error = ALT_SYSTEM;
    if (theirs >= 0 && store->socket >= 0 && store->faults >= 0)
        error = start(&store->program, words, theirs, theirs, store->faults, store->lock);
    if (error != ALT_OK)
        store->program = 0;
    close_all(&theirs, 1);
    return error;
}

/* Connects to the service that listens at a path. */
static int connect_store(alt_store *store, const char *path)
{
    struct sockaddr_un at = {.sun_family = AF_UNIX};
    if (strlen(path) >= sizeof at.sun_path) {
        errno = ENAMETOOLONG;
        return ALT_SYSTEM;
    }
    strcpy(at.sun_path, path);
    store->is_service = 1;
    store->socket = apart(socket(AF_UNIX, SOCK_STREAM | SOCK_CLOEXEC, 0));
    if (store->socket < 0)
        return ALT_SYSTEM;
    while (connect(store->socket, (struct sockaddr *)&at, sizeof at) != 0)
        if (errno != EINTR)
            return ALT_SYSTEM;
    return ALT_OK;
}

/* The error of a `create` of a file with this many blocks, by its status. */
static int created(uint32_t blocks, alt_details *details)
{
    if (details->status == 0)
        return ALT_OK;
    if (details->status == 2 && (blocks < 64 || blocks > 1 << 26))
        return ALT_BAD_SIZE;
    return details->status == 1 || details->status == 2 ? ALT_CANNOT_CREATE : end_of(details);
}

/* Runs the program without input until it ends. Notes its end and the beginning of its output. */
static int run_to_end(const char *const *words, int lock, char *output, size_t room, alt_details *details)
{
    int streams[3] = {apart(open("/dev/null", O_RDONLY | O_CLOEXEC)), nameless(), nameless()};
    pid_t started;
    int error = ALT_SYSTEM;
    if (streams[0] >= 0 && streams[1] >= 0 && streams[2] >= 0)
        error = start(&started, words, streams[0], streams[1], streams[2], lock);
    if (error == ALT_OK) {
        note_end(started, streams[2], details);
        ssize_t length = pread(streams[1], output, room - 1, 0);
        output[length > 0 ? length : 0] = 0;
    }
    close_all(streams, 3);
    return error;
}

int alt_create(const char *file, uint32_t blocks, const alt_options *options)
{
    char digits[16], output[80];
    snprintf(digits, sizeof digits, "%" PRIu32, blocks);
    const char *program = options != NULL && options->program != NULL ? options->program : "altctl";
    const char *words[] = {program, "create", "--", file, digits, NULL};
    alt_details details = {0};
    int error = run_to_end(words, -1, output, sizeof output, &details);
    return error == ALT_OK ? created(blocks, &details) : error;
}

/* The error of a `copy` to this many blocks. */
static int copied(uint32_t blocks, alt_details *details)
{
    if (details->status == 1 && strncmp(details->said, "altctl: cannot create ", 22) != 0)
        return end_of(details);
    return created(blocks, details);
}

int alt_copy(const char *file, const char *to, uint32_t blocks, alt_size *size, const alt_options *options)
{
    char digits[16], output[80];
    snprintf(digits, sizeof digits, "%" PRIu32, blocks);
    alt_options how = options != NULL ? *options : none;
    how.read_only = 1;
    const char *program = how.program != NULL ? how.program : "altctl";
    const char *words[] = {program, "copy", "--", file, to, blocks == 0 ? NULL : digits, NULL};
    alt_details details = {0};
    int lock = -1;
    int error = lock_file(file, &how, &lock);
    if (error == ALT_OK)
        error = run_to_end(words, lock, output, sizeof output, &details);
    close_all(&lock, 1);
    if (error == ALT_OK)
        error = copied(blocks, &details);
    if (error == ALT_OK && size != NULL &&
        sscanf(output, "copied %" SCNu32 ", %" SCNu32, &size->blocks, &size->used) != 2)
        return ALT_BAD_ANSWER;
    return error;
}

/* Gives up all that a store has. */
static void discard(alt_store *store)
{
    int descriptors[] = {store->socket, store->lock, store->faults};
    close_all(descriptors, 3);
    for (size_t at = store->kept_begin; at < store->kept_end; at++)
        free(store->kept[at].line);
    free(store->kept);
    free(store->taken);
    free(store->in.bytes);
    free(store->out.bytes);
    free(store);
}

int alt_open(alt_store **result, const char *file, const alt_options *options)
{
    *result = NULL;
    if (options == NULL)
        options = &none;
    alt_store *store = calloc(1, sizeof *store);
    if (store == NULL)
        return ALT_SYSTEM;
    alt_adopt(store);
    store->socket = store->lock = store->faults = -1;
    int error;
    if (strncmp(file, "unix:", 5) == 0) {
        error = connect_store(store, file + 5);
    } else {
        error = lock_file(file, options, &store->lock);
        if (error == ALT_OK)
            error = start_store(store, file, options);
        /* The program has it now. */
        close_all(&store->lock, 1);
        store->lock = -1;
    }
    if (error != ALT_OK) {
        int why = errno;
        discard(store);
        errno = why;
        return error;
    }
    *result = store;
    uint64_t blocks;
    return alt_free_blocks(store, &blocks);
}

int alt_close(alt_store *store)
{
    if (store == NULL)
        return ALT_OK;
    if (!is_owner(store))
        return ALT_WRONG_THREAD;
    /* Lines that were sent ahead are carried out, and their answers are not looked at. */
    int error = store->end != 0 ? store->end : flush(store);
    shutdown(store->socket, SHUT_WR);
    while (store->end == 0 && error == ALT_OK) {
        store->in.begin = store->in.end = 0;
        error = fill(store);
    }
    int is_well = store->end == ALT_ENDED && store->ending.status == 0;
    discard(store);
    return is_well ? ALT_OK : error;
}

void alt_adopt(alt_store *store)
{
    store->owner = pthread_self();
    store->process = getpid();
}

const alt_details *alt_detail(const alt_store *store)
{
    return &store->details;
}

/* The errors of the client, from 0 down: their names, and what they mean. */
static const char *const own_errors[][2] = {
    {"ok", "ok"},
    {"ALT_DONE", "there are no more rows"},
    {"ALT_SYSTEM", "a system call failed"},
    {"ALT_IN_USE", "another process has locked the file"},
    {"ALT_ENDED", "the program has ended"},
    {"ALT_WRONG_THREAD", "another thread or process owns the store"},
    {"ALT_ROWS_OPEN", "rows are being read: close them first"},
    {"ALT_BAD_WORD", "a name that no line may have, or a value that is too long"},
    {"ALT_SMALL_BUFFER", "the buffer is too small for the value"},
    {"ALT_NO_SUCH_TICKET", "no answer waits under this ticket"},
    {"ALT_BAD_ANSWER", "an answer that the client doesn't know, or a row of another kind"},
    {"ALT_CANNOT_CREATE", "the file exists already, or cannot be made"},
    {"ALT_NO_PROGRAM", "the program cannot be started"},
    {"ALT_IN_BATCH", "a query, or a line sent ahead, in a batch"},
};

/* The names of refusals: those of the store, and those of a service from 90 on. */
static const char *const refusals[] = {
    "ok", "NoSuchAlternative", "AlternativeExists", "NoSuchCheckpoint", "CheckpointExists", "NoSuchRecord", "IsTop",
    "HasChildren", "NotMerged", "Unsettled", "NotInConflict", "SettledTwice", "TooMany", "Full", "Deep", "Device",
    "Memory", "Failed", "Damaged", "NotAStore", "AlreadyAStore", "BadSize", "BadLine", "LongLine",
    "ReadOnly"};
static const char *const service_refusals[] = {
    "Denied", "NotDone", "Aborted", "NotInBatch", "TooLarge", "HeldTooLong", "HalfLine", "NotJournaled", "NoBackup",
    "Stopped", "TooManyPlanners", "Unsure", "TooManyEntries", "Changed",
    "NoArchive", "NoRoom", "NoSuchPlanner", "PlannerExists"};

#define COUNT(array) ((int)(sizeof(array) / sizeof *(array)))

const char *alt_error_name(int error)
{
    if (error >= 0 && error < COUNT(refusals))
        return refusals[error];
    if (error >= 90 && error < 90 + COUNT(service_refusals))
        return service_refusals[error - 90];
    return error < 0 && error > -COUNT(own_errors) ? own_errors[-error][0] : "unknown";
}

/* Only errors with details write into the store, which a thread that isn't its owner never gets. */
const char *alt_error_text(alt_store *store, int error)
{
    if (error == ALT_SYSTEM)
        return strerror(errno);
    if (error < 0 && error > -COUNT(own_errors) && (error != ALT_ENDED || store == NULL))
        return own_errors[-error][1];
    if (store == NULL || error == ALT_OK)
        return alt_error_name(error);
    const alt_details *it = &store->details;
    if (error > 0)
        snprintf(store->text, sizeof store->text, "%d %s%s%s", error,
                 it->name[0] != 0 ? it->name : alt_error_name(error),
                 it->said[0] != 0 ? " " : "", it->said);
    else if (store->is_service)
        return "the service has closed the connection";
    else
        snprintf(store->text, sizeof store->text, "the program ended with status %d%s%s", it->status,
                 it->said[0] != 0 ? ": " : "", it->said);
    return store->text;
}

/* --- commands -------------------------------------------------------------------------------------- */

/* Ends a batch by a word, and takes the answers to all its lines. Of a refused batch one line has the refusal, and the
   others say that they were not done. */
static int end_batch(alt_store *store, const char *word)
{
    alt_ticket begin = store->batch, end;
    alt_details details;
    int refused = ALT_OK;
    store->batch = 0;
    int error = send_line(store, &end, "%w", word);
    for (alt_ticket ticket = begin + 1; error == ALT_OK && ticket <= end; ticket++) {
        char *line;
        error = take_line(store, ticket, &line);
        int refusal = error == ALT_OK ? refusal_of(store, line) : ALT_OK;
        if (refusal != ALT_OK && refusal != ALT_NOT_DONE && refusal != ALT_ABORTED && refused == ALT_OK) {
            refused = refusal;
            details = store->details;
            details.line = ticket - begin;
        }
    }
    if (error == ALT_OK && refused != ALT_OK)
        store->details = details;
    return error != ALT_OK ? error : refused;
}

int alt_put(alt_store *store, const char *alt, alt_key key, const void *bytes, size_t length)
{
    return command(store, NULL, "put %w %k %v", alt, key, bytes, length);
}

int alt_remove(alt_store *store, const char *alt, alt_key key)
{
    return command(store, NULL, "remove %w %k", alt, key);
}

int alt_new(alt_store *store, const char *name, const char *parent)
{
    return command(store, NULL, "new %w %w", name, parent);
}

int alt_new_at(alt_store *store, const char *name, const char *parent, const char *checkpoint)
{
    return command(store, NULL, "new %w %w %w", name, parent, checkpoint);
}

int alt_drop(alt_store *store, const char *alt)
{
    return command(store, NULL, "drop %w", alt);
}

int alt_checkpoint(alt_store *store, const char *alt, const char *name)
{
    return command(store, NULL, "checkpoint %w %w", alt, name);
}

int alt_uncheck(alt_store *store, const char *alt, const char *name)
{
    return command(store, NULL, "uncheck %w %w", alt, name);
}

int alt_back(alt_store *store, const char *alt, const char *name)
{
    return command(store, NULL, "back %w %w", alt, name);
}

int alt_post(alt_store *store, const char *alt)
{
    return command(store, NULL, "post %w", alt);
}

int alt_commit(alt_store *store)
{
    return enter(store) == ALT_OK && store->batch != 0 ? end_batch(store, "commit") : command(store, NULL, "commit");
}

int alt_rollback(alt_store *store)
{
    return enter(store) == ALT_OK && store->batch != 0 ? end_batch(store, "rollback")
                                                       : command(store, NULL, "rollback");
}

int alt_reclaim(alt_store *store)
{
    return command(store, NULL, "reclaim");
}

int alt_grow(alt_store *store, uint32_t blocks)
{
    return command(store, NULL, "grow %n", (uint64_t)blocks);
}

/* Adds the words of settlements to the form of a line. */
static int add_settlements(struct buffer *form, const alt_settlement *settlements, size_t count)
{
    int error = ALT_OK;
    for (size_t at = 0; at < count && error == ALT_OK; at++) {
        char spelled[48];
        const char *side = settlements[at].side == ALT_MINE ? "mine" : "theirs";
        alt_key key = settlements[at].key;
        int length = snprintf(spelled, sizeof spelled, " %" PRIu16 ":%" PRIu64 "=%s", key.table, key.number, side);
        error = append(form, spelled, (size_t)length);
    }
    return error;
}

/* Merges by a form of a line, to which the words of settlements are added. */
static int merge(alt_store *store, const char *alt, const char *start, const alt_settlement *settlements, size_t count,
                 uint64_t *changed)
{
    struct buffer form = {0};
    int error = append(&form, start, strlen(start));
    if (error == ALT_OK)
        error = add_settlements(&form, settlements, count);
    if (error == ALT_OK)
        error = append(&form, "", 1);
    if (error == ALT_OK)
        error = command(store, changed, form.bytes, alt);
    free(form.bytes);
    return error;
}

int alt_merge(alt_store *store, const char *alt, const alt_settlement *settlements, size_t count, uint64_t *changed)
{
    return merge(store, alt, "merge %w", settlements, count, changed);
}

int alt_merge_all(alt_store *store, const char *alt, alt_side side, const alt_settlement *settlements, size_t count,
                  uint64_t *changed)
{
    const char *form = side == ALT_MINE ? "merge %w all=mine" : "merge %w all=theirs";
    return merge(store, alt, form, settlements, count, changed);
}

/* --- batches of a service -------------------------------------------------------------------------- */

int alt_begin(alt_store *store)
{
    alt_ticket ticket;
    int error = send_line(store, &ticket, "begin");
    if (error == ALT_OK)
        error = alt_take(store, ticket);
    if (error == ALT_OK)
        store->batch = ticket;
    return error;
}

int alt_abort(alt_store *store)
{
    return enter(store) == ALT_OK && store->batch != 0 ? end_batch(store, "abort") : command(store, NULL, "abort");
}

/* --- queries --------------------------------------------------------------------------------------- */

int alt_get(alt_store *store, const char *alt, alt_key key, void *buffer, size_t room, size_t *length)
{
    alt_ticket ticket;
    int error = alt_send_get(store, alt, key, &ticket);
    return error == ALT_OK ? alt_take_value(store, ticket, buffer, room, length) : error;
}

/* Asks for a number, by a word that its answer begins with, too. */
static int ask_number(alt_store *store, const char *word, uint64_t *number)
{
    alt_ticket ticket;
    char *rest;
    int error = send_line(store, &ticket, "%w", word);
    if (error == ALT_OK)
        error = take_answer(store, ticket, word, &rest);
    if (error == ALT_OK)
        *number = strtoull(rest, NULL, 10);
    return error;
}

int alt_free_blocks(alt_store *store, uint64_t *blocks)
{
    return ask_number(store, "free", blocks);
}

int alt_blocks(alt_store *store, uint64_t *blocks)
{
    return ask_number(store, "blocks", blocks);
}

int alt_tally(alt_store *store, const char *alt, alt_numbers *numbers)
{
    alt_ticket ticket;
    char *rest;
    int error = send_line(store, &ticket, "tally %w", alt);
    if (error == ALT_OK)
        error = take_answer(store, ticket, "tally", &rest);
    if (error != ALT_OK)
        return error;
    numbers->changed = strtoull(rest, &rest, 10);
    numbers->unmerged = strtoull(rest, &rest, 10);
    numbers->conflicts = strtoull(rest, &rest, 10);
    numbers->can_post = strcmp(rest, " yes") == 0;
    return ALT_OK;
}

/* Takes the line of a row, or the one that ends them. */
static void take_row(alt_rows *rows, char *line)
{
    rows->error = refusal_of(rows->store, line);
    rows->is_whole = rows->error != ALT_OK || strncmp(line, "end ", 4) == 0;
    rows->waiting = rows->is_whole ? NULL : line;
}

/* Begins the rows of the line that was sent under a ticket. */
static int begin_rows(alt_store *store, int error, alt_ticket ticket, enum kind kind, alt_rows **result)
{
    char *line;
    *result = NULL;
    if (error == ALT_OK)
        error = take_line(store, ticket, &line);
    if (error == ALT_OK)
        error = refusal_of(store, line);
    if (error != ALT_OK)
        return error;
    store->rows = (alt_rows){.store = store, .kind = kind, .is_open = 1};
    take_row(&store->rows, line);
    *result = &store->rows;
    return ALT_OK;
}

int alt_list(alt_store *store, const char *at, alt_rows **rows)
{
    alt_ticket ticket = 0;
    int error = send_line(store, &ticket, "list %w", at);
    return begin_rows(store, error, ticket, RECORDS, rows);
}

int alt_list_table(alt_store *store, const char *at, uint16_t table, alt_rows **rows)
{
    alt_ticket ticket = 0;
    int error = send_line(store, &ticket, "list %w %n", at, (uint64_t)table);
    return begin_rows(store, error, ticket, RECORDS, rows);
}

int alt_list_range(alt_store *store, const char *at, uint16_t table, uint64_t first, uint64_t last, alt_rows **rows)
{
    alt_ticket ticket = 0;
    int error = send_line(store, &ticket, "list %w %n %n %n", at, (uint64_t)table, first, last);
    return begin_rows(store, error, ticket, RECORDS, rows);
}

int alt_page(alt_store *store, const char *at, alt_key from, uint32_t count, alt_rows **rows)
{
    alt_ticket ticket = 0;
    int error = send_line(store, &ticket, "next %w %k %n", at, from, (uint64_t)count);
    return begin_rows(store, error, ticket, RECORDS, rows);
}

int alt_changes(alt_store *store, const char *alt, alt_rows **rows)
{
    alt_ticket ticket = 0;
    int error = send_line(store, &ticket, "changes %w", alt);
    return begin_rows(store, error, ticket, CHANGES, rows);
}

int alt_diff(alt_store *store, const char *before, const char *after, alt_rows **rows)
{
    alt_ticket ticket = 0;
    int error = send_line(store, &ticket, "diff %w %w", before, after);
    return begin_rows(store, error, ticket, CHANGES, rows);
}

int alt_diff_table(alt_store *store, const char *before, const char *after, uint16_t table, alt_rows **rows)
{
    alt_ticket ticket = 0;
    int error = send_line(store, &ticket, "diff %w %w %n", before, after, (uint64_t)table);
    return begin_rows(store, error, ticket, CHANGES, rows);
}

int alt_diff_range(alt_store *store, const char *before, const char *after, uint16_t table, uint64_t first,
                   uint64_t last, alt_rows **rows)
{
    alt_ticket ticket = 0;
    int error = send_line(store, &ticket, "diff %w %w %n %n %n", before, after, (uint64_t)table, first, last);
    return begin_rows(store, error, ticket, CHANGES, rows);
}

int alt_conflicts(alt_store *store, const char *alt, alt_rows **rows)
{
    alt_ticket ticket = 0;
    int error = send_line(store, &ticket, "conflicts %w", alt);
    return begin_rows(store, error, ticket, CONFLICTS, rows);
}

int alt_alternatives(alt_store *store, alt_rows **rows)
{
    alt_ticket ticket = 0;
    int error = send_line(store, &ticket, "alts");
    return begin_rows(store, error, ticket, ALTERNATIVES, rows);
}

int alt_checkpoints(alt_store *store, const char *alt, alt_rows **rows)
{
    alt_ticket ticket = 0;
    int error = send_line(store, &ticket, "checks %w", alt);
    return begin_rows(store, error, ticket, CHECKPOINTS, rows);
}

/* Reads a row, if none waits and there is one. */
static int fill_row(alt_rows *rows)
{
    char *line;
    if (rows->is_whole || rows->waiting != NULL)
        return ALT_OK;
    int error = read_line(rows->store, &line);
    if (error == ALT_OK)
        take_row(rows, line);
    return error;
}

/* The words of the next row after its first. */
static int next_row(alt_rows *rows, enum kind kind, char **words, int count)
{
    if (!is_owner(rows->store))
        return ALT_WRONG_THREAD;
    if (!rows->is_open || rows->kind != kind)
        return ALT_BAD_ANSWER;
    int error = fill_row(rows);
    if (error == ALT_OK && rows->is_whole)
        error = rows->error != ALT_OK ? rows->error : ALT_DONE;
    if (error != ALT_OK)
        return error;
    char *at = strchr(rows->waiting, ' ');
    rows->waiting = NULL;
    for (int word = 0; word < count; word++) {
        if (at == NULL)
            return ALT_BAD_ANSWER;
        *at = 0;
        words[word] = at + 1;
        at = strchr(at + 1, ' ');
    }
    return at == NULL ? ALT_OK : ALT_BAD_ANSWER;
}

static alt_key key_of(char **words)
{
    return (alt_key){(uint16_t)strtoul(words[0], NULL, 10), strtoull(words[1], NULL, 10)};
}

int alt_next_record(alt_rows *rows, alt_record *record)
{
    char *words[3];
    int error = next_row(rows, RECORDS, words, 3);
    if (error == ALT_OK)
        *record = (alt_record){key_of(words), decoded(words[2])};
    return error;
}

int alt_next_change(alt_rows *rows, alt_change *change)
{
    char *words[4];
    int error = next_row(rows, CHANGES, words, 4);
    if (error == ALT_OK)
        *change = (alt_change){key_of(words), decoded(words[2]), decoded(words[3])};
    return error;
}

int alt_next_conflict(alt_rows *rows, alt_conflict *conflict)
{
    char *words[5];
    int error = next_row(rows, CONFLICTS, words, 5);
    if (error == ALT_OK)
        *conflict = (alt_conflict){key_of(words), decoded(words[2]), decoded(words[3]), decoded(words[4])};
    return error;
}

int alt_next_alternative(alt_rows *rows, alt_alternative *alternative)
{
    char *words[2];
    int error = next_row(rows, ALTERNATIVES, words, 2);
    if (error == ALT_OK)
        *alternative = (alt_alternative){words[0], strcmp(words[1], "~") == 0 ? NULL : words[1]};
    return error;
}

int alt_next_checkpoint(alt_rows *rows, const char **name)
{
    char *words[1];
    int error = next_row(rows, CHECKPOINTS, words, 1);
    if (error == ALT_OK)
        *name = words[0];
    return error;
}

int alt_close_rows(alt_rows *rows)
{
    if (rows == NULL)
        return ALT_OK;
    if (!is_owner(rows->store))
        return ALT_WRONG_THREAD;
    int error = ALT_OK;
    while (rows->is_open && !rows->is_whole && error == ALT_OK) {
        rows->waiting = NULL;
        error = fill_row(rows);
    }
    rows->is_open = 0;
    return error != ALT_OK ? error : rows->error;
}

/* --- cursors --------------------------------------------------------------------------------------- */

static int add_to_page(struct buffer *page, const alt_record *record)
{
    struct held head = {record->key, record->value.length};
    int error = append(page, &head, sizeof head);
    return error == ALT_OK && head.length > 0 ? append(page, record->value.bytes, head.length) : error;
}

/* The key after another one. After the last key of all nothing is asked for. */
static alt_key after(alt_key key)
{
    if (key.number < UINT64_MAX)
        return (alt_key){key.table, key.number + 1};
    return (alt_key){(uint16_t)(key.table + 1), 0};
}

/* Adds the rows of a page to it; *last becomes the key of the last one. ALT_DONE if no page comes after it. */
static int add_rows(alt_cursor *cursor, alt_rows *rows, alt_key *last)
{
    alt_record record;
    for (int count = 0; count < PAGE; count++) {
        int error = alt_next_record(rows, &record);
        if (error == ALT_OK && record.key.table > cursor->last_table)
            error = ALT_DONE;
        if (error == ALT_OK)
            error = add_to_page(&cursor->page, &record);
        if (error != ALT_OK)
            return error;
        *last = record.key;
    }
    return last->table == cursor->last_table && last->number == UINT64_MAX ? ALT_DONE : ALT_OK;
}

/* Reads the next page in the place of one that was given. If that fails there is no page, and the cursor goes on where
   it would have begun. */
static int read_page(alt_cursor *cursor)
{
    alt_rows *rows;
    alt_key last = cursor->next;
    cursor->page.begin = cursor->page.end = 0;
    int error = alt_page(cursor->store, cursor->at, cursor->next, PAGE, &rows);
    if (error != ALT_OK)
        return error;
    int added = add_rows(cursor, rows, &last);
    error = alt_close_rows(rows);
    if (added != ALT_OK && added != ALT_DONE)
        error = added;
    if (error != ALT_OK) {
        cursor->page.end = 0;
        return error;
    }
    cursor->next = after(last);
    cursor->is_last = added == ALT_DONE;
    return ALT_OK;
}

/* Opens a cursor over the tables from one to another, with its first page. */
static int open_cursor(alt_store *store, const char *at, uint16_t first, uint16_t last, alt_cursor **result)
{
    *result = NULL;
    if (at == NULL)
        return ALT_BAD_WORD;
    alt_cursor *cursor = calloc(1, sizeof *cursor);
    if (cursor == NULL)
        return ALT_SYSTEM;
    cursor->store = store;
    cursor->next = (alt_key){first, 0};
    cursor->last_table = last;
    cursor->at = strdup(at);
    int error = cursor->at == NULL ? ALT_SYSTEM : read_page(cursor);
    if (error == ALT_OK)
        *result = cursor;
    else
        alt_close_cursor(cursor);
    return error;
}

int alt_scan(alt_store *store, const char *at, alt_cursor **cursor)
{
    return open_cursor(store, at, 0, UINT16_MAX, cursor);
}

int alt_scan_table(alt_store *store, const char *at, uint16_t table, alt_cursor **cursor)
{
    return open_cursor(store, at, table, table, cursor);
}

int alt_step(alt_cursor *cursor, alt_record *record)
{
    struct buffer *page = &cursor->page;
    struct held head;
    if (!is_owner(cursor->store))
        return ALT_WRONG_THREAD;
    if (page->begin == page->end && !cursor->is_last) {
        int error = read_page(cursor);
        if (error != ALT_OK)
            return error;
    }
    if (page->begin == page->end)
        return ALT_DONE;
    memcpy(&head, page->bytes + page->begin, sizeof head);
    page->begin += sizeof head;
    *record = (alt_record){head.key, {(unsigned char *)page->bytes + page->begin, head.length}};
    page->begin += head.length;
    return ALT_OK;
}

void alt_close_cursor(alt_cursor *cursor)
{
    if (cursor == NULL)
        return;
    free(cursor->at);
    free(cursor->page.bytes);
    free(cursor);
}

/* --- writing ahead --------------------------------------------------------------------------------- */

int alt_send_put(alt_store *store, const char *alt, alt_key key, const void *bytes, size_t length, alt_ticket *ticket)
{
    return send_line(store, ticket, "put %w %k %v", alt, key, bytes, length);
}

int alt_send_remove(alt_store *store, const char *alt, alt_key key, alt_ticket *ticket)
{
    return send_line(store, ticket, "remove %w %k", alt, key);
}

int alt_send_get(alt_store *store, const char *alt, alt_key key, alt_ticket *ticket)
{
    return send_line(store, ticket, "get %w %k", alt, key);
}

int alt_send_commit(alt_store *store, alt_ticket *ticket)
{
    return send_line(store, ticket, "commit");
}

int alt_take(alt_store *store, alt_ticket ticket)
{
    char *rest;
    int error = enter(store);
    return error == ALT_OK ? take_answer(store, ticket, "ok", &rest) : error;
}

int alt_take_value(alt_store *store, alt_ticket ticket, void *buffer, size_t room, size_t *length)
{
    char *line;
    int error = enter(store);
    if (error == ALT_OK)
        error = take_line(store, ticket, &line);
    if (error == ALT_OK)
        error = refusal_of(store, line);
    if (error != ALT_OK)
        return error;
    if (strcmp(line, "none") == 0)
        return ALT_NO_SUCH_RECORD;
    if (strncmp(line, "value ", 6) != 0)
        return ALT_BAD_ANSWER;
    alt_value value = decoded(line + 6);
    *length = value.length;
    if (value.length > room)
        return ALT_SMALL_BUFFER;
    if (value.length > 0)
        memcpy(buffer, value.bytes, value.length);
    return ALT_OK;
}

/* The first ticket whose answer was not taken yet, or 0. */
static alt_ticket next_ticket(const alt_store *store)
{
    if (store->kept_begin < store->kept_end)
        return store->kept[store->kept_begin].ticket;
    return store->answered < store->sent ? store->answered + 1 : 0;
}

int alt_take_all(alt_store *store, alt_ticket *refused)
{
    int first = ALT_OK, error = enter(store);
    alt_details details;
    char *line;
    if (error != ALT_OK || store->batch != 0)
        return error != ALT_OK ? error : ALT_IN_BATCH;
    for (alt_ticket ticket = next_ticket(store); ticket != 0; ticket = next_ticket(store)) {
        error = take_line(store, ticket, &line);
        int refusal = error == ALT_OK ? refusal_of(store, line) : error;
        if (refusal != ALT_OK && first == ALT_OK) {
            first = refusal;
            details = store->details;
            if (refused != NULL)
                *refused = ticket;
        }
        if (error != ALT_OK)
            return error;
    }
    if (first != ALT_OK)
        store->details = details;
    return first;
}
