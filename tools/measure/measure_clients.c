/* Loads and reads one store from C, for `measure_clients.py`: `measure_clients FILE RECORDS COMMITS [PROGRAM]`. It
   stands on LMDB if it is compiled with -DLMDB, on SQLite with -DSQLITE, on libaltstore with -DMEMORY, and else on
   altctl, by the C client. It prints how many calls a second each part had, and compares each value that it gets.
   SQLite has a WAL and synchronous=FULL, so that a commit is durable there, too. */
#define _GNU_SOURCE
#include <stdint.h>
#include <stdio.h>
#include <stdlib.h>
#include <string.h>
#include <time.h>

enum { VALUE = 200, WINDOW = 1000 };

static unsigned char value_of_record[VALUE];

static void fail(const char *what)
{
    fprintf(stderr, "measure_clients: %s\n", what);
    exit(1);
}

/* The value of a record: its number in eight digits, and the same bytes after that. */
static const void *value_of(uint64_t number)
{
    for (int at = 7; at >= 0; at--, number /= 10)
        value_of_record[at] = (unsigned char)('0' + number % 10);
    return value_of_record;
}

static void compare(const void *found, size_t length, uint64_t number)
{
    if (length != VALUE || memcmp(found, value_of(number), VALUE) != 0)
        fail("a value is another one");
}

#ifdef LMDB
#include <lmdb.h>

static MDB_env *environment;
static MDB_txn *writing, *reading;
static MDB_dbi table;

static void must(int status)
{
    if (status != MDB_SUCCESS)
        fail(mdb_strerror(status));
}

static void open_store(const char *file, const char *program)
{
    (void)program;
    must(mdb_env_create(&environment));
    must(mdb_env_set_mapsize(environment, (size_t)1 << 30));
    must(mdb_env_open(environment, file, MDB_NOSUBDIR, 0666));
    must(mdb_txn_begin(environment, NULL, 0, &writing));
    must(mdb_dbi_open(writing, NULL, MDB_INTEGERKEY, &table));
    must(mdb_txn_commit(writing));
    writing = NULL;
}

static void put(uint64_t number)
{
    MDB_val key = {sizeof number, &number}, value = {VALUE, (void *)value_of(number)};
    if (reading != NULL)
        mdb_txn_abort(reading);
    reading = NULL;
    if (writing == NULL)
        must(mdb_txn_begin(environment, NULL, 0, &writing));
    must(mdb_put(writing, table, &key, &value, 0));
}

static void commit(void)
{
    must(mdb_txn_commit(writing));
    writing = NULL;
}

/* All gets are in one transaction. */
static void get(uint64_t number)
{
    MDB_val key = {sizeof number, &number}, value;
    if (reading == NULL)
        must(mdb_txn_begin(environment, NULL, MDB_RDONLY, &reading));
    must(mdb_get(reading, table, &key, &value));
    compare(value.mv_data, value.mv_size, number);
}

#elif defined(SQLITE)
#include <sqlite3.h>

static sqlite3 *store;
static sqlite3_stmt *putting, *getting;
static int is_writing;

static void must(int is_well)
{
    if (!is_well)
        fail(sqlite3_errmsg(store));
}

static void execute(const char *text)
{
    must(sqlite3_exec(store, text, NULL, NULL, NULL) == SQLITE_OK);
}

static void open_store(const char *file, const char *program)
{
    (void)program;
    must(sqlite3_open(file, &store) == SQLITE_OK);
    execute("PRAGMA journal_mode = WAL; PRAGMA synchronous = FULL");
    execute("CREATE TABLE records (number INTEGER PRIMARY KEY, value BLOB)");
    must(sqlite3_prepare_v2(store, "INSERT OR REPLACE INTO records VALUES (?, ?)", -1, &putting, NULL) == SQLITE_OK);
    must(sqlite3_prepare_v2(store, "SELECT value FROM records WHERE number = ?", -1, &getting, NULL) == SQLITE_OK);
}

static void put(uint64_t number)
{
    if (!is_writing)
        execute("BEGIN");
    is_writing = 1;
    must(sqlite3_bind_int64(putting, 1, (sqlite3_int64)number) == SQLITE_OK);
    must(sqlite3_bind_blob(putting, 2, value_of(number), VALUE, SQLITE_STATIC) == SQLITE_OK);
    must(sqlite3_step(putting) == SQLITE_DONE);
    sqlite3_reset(putting);
}

static void commit(void)
{
    execute("COMMIT");
    is_writing = 0;
}

/* All gets are in one transaction. */
static void get(uint64_t number)
{
    if (!is_writing)
        execute("BEGIN");
    is_writing = 1;
    must(sqlite3_bind_int64(getting, 1, (sqlite3_int64)number) == SQLITE_OK);
    must(sqlite3_step(getting) == SQLITE_ROW);
    compare(sqlite3_column_blob(getting, 0), (size_t)sqlite3_column_bytes(getting, 0), number);
    sqlite3_reset(getting);
}

#elif defined(MEMORY)
#include "altstore.h"

static altstore store = ALTSTORE_CLOSED_HANDLE;
static char line[300], answer[300];

/* Asks one line, and gives the length of its answer. */
static size_t ask(size_t length)
{
    if (altstore_ask(&store, (const uint8_t *)line, length, false) != ALTSTORE_OK)
        fail("a line was refused");
    return altstore_answers(&store, 0, (uint8_t *)answer, sizeof answer);
}

static void open_store(const char *file, const char *program)
{
    (void)file, (void)program;
    if (altstore_new(&store, 32768, 0) != ALTSTORE_OK)
        fail("no store is opened");
}

static void put(uint64_t number)
{
    size_t length = (size_t)sprintf(line, "put top 7 %llu ", (unsigned long long)number);
    memcpy(line + length, value_of(number), VALUE);
    line[length + VALUE] = '\n';
    ask(length + VALUE + 1);
}

static void commit(void)
{
    memcpy(line, "commit\n", 7);
    ask(7);
}

static void get(uint64_t number)
{
    size_t length = ask((size_t)sprintf(line, "get top 7 %llu\n", (unsigned long long)number));
    compare(answer + 6, length - 7, number);
}

#else
#include "altctl.h"
#define HAS_AHEAD

static alt_store *store;

static void must(int error)
{
    if (error != ALT_OK)
        fail(alt_error_text(store, error));
}

static alt_key key_of(uint64_t number)
{
    return (alt_key){7, number};
}

static void open_store(const char *file, const char *program)
{
    alt_options options = {.program = program};
    must(alt_create(file, 32768, &options));
    must(alt_open(&store, file, &options));
}

static void put(uint64_t number)
{
    must(alt_put(store, "top", key_of(number), value_of(number), VALUE));
}

static void commit(void)
{
    must(alt_commit(store));
}

static void get(uint64_t number)
{
    unsigned char found[VALUE];
    size_t length;
    must(alt_get(store, "top", key_of(number), found, sizeof found, &length));
    compare(found, length, number);
}

static void puts_ahead(const uint64_t *numbers, size_t count)
{
    alt_ticket ticket;
    for (size_t at = 0; at < count; at++) {
        must(alt_send_put(store, "top", key_of(numbers[at]), value_of(numbers[at]), VALUE, &ticket));
        if (at % WINDOW == WINDOW - 1)
            must(alt_take_all(store, NULL));
    }
    must(alt_take_all(store, NULL));
    commit();
}

static void gets_ahead(const uint64_t *numbers, size_t count)
{
    alt_ticket tickets[WINDOW];
    unsigned char found[VALUE];
    size_t length;
    for (size_t begin = 0; begin < count; begin += WINDOW) {
        size_t some = count - begin < WINDOW ? count - begin : WINDOW;
        for (size_t at = 0; at < some; at++)
            must(alt_send_get(store, "top", key_of(numbers[begin + at]), &tickets[at]));
        for (size_t at = 0; at < some; at++) {
            must(alt_take_value(store, tickets[at], found, sizeof found, &length));
            compare(found, length, numbers[begin + at]);
        }
    }
}

static void commits_ahead(const uint64_t *numbers, size_t count)
{
    alt_ticket ticket;
    for (size_t at = 0; at < count; at++) {
        must(alt_send_put(store, "top", key_of(numbers[at]), value_of(numbers[at]), VALUE, &ticket));
        must(alt_send_commit(store, &ticket));
    }
    must(alt_take_all(store, NULL));
}
#endif

static void puts_one_by_one(const uint64_t *numbers, size_t count)
{
    for (size_t at = 0; at < count; at++)
        put(numbers[at]);
    commit();
}

static void gets_one_by_one(const uint64_t *numbers, size_t count)
{
    for (size_t at = 0; at < count; at++)
        get(numbers[at]);
}

static void commits_one_by_one(const uint64_t *numbers, size_t count)
{
    for (size_t at = 0; at < count; at++) {
        put(numbers[at]);
        commit();
    }
}

static double now(void)
{
    struct timespec it;
    clock_gettime(CLOCK_MONOTONIC, &it);
    return (double)it.tv_sec + (double)it.tv_nsec / 1e9;
}

static void measure(const char *name, void (*part)(const uint64_t *, size_t), const uint64_t *numbers, size_t count)
{
    double begun = now();
    part(numbers, count);
    printf("%s %.0f\n", name, (double)count / (now() - begun));
}

int main(int words, char **word)
{
    if (words != 4 && words != 5)
        fail("usage: measure_clients FILE RECORDS COMMITS [PROGRAM]");
    size_t records = strtoul(word[2], NULL, 10), commits = strtoul(word[3], NULL, 10);
    uint64_t *numbers = malloc(records * sizeof *numbers);
    if (numbers == NULL || commits > records)
        fail("so many records cannot be measured");
    /* The same random order each time. */
    srand(7);
    for (size_t at = 0; at < records; at++) {
        size_t other = (size_t)rand() % (at + 1);
        numbers[at] = numbers[other];
        numbers[other] = at;
    }
    memset(value_of_record, 'v', sizeof value_of_record);
    open_store(word[1], words == 5 ? word[4] : NULL);
    measure("puts", puts_one_by_one, numbers, records);
    measure("gets", gets_one_by_one, numbers, records);
    measure("commits", commits_one_by_one, numbers, commits);
#ifdef HAS_AHEAD
    must(alt_close(store));
    if (remove(word[1]) != 0)
        fail("the file cannot be removed");
    open_store(word[1], words == 5 ? word[4] : NULL);
    measure("puts_ahead", puts_ahead, numbers, records);
    measure("gets_ahead", gets_ahead, numbers, records);
    measure("commits_ahead", commits_ahead, numbers, commits);
    must(alt_close(store));
#endif
    free(numbers);
    return 0;
}
