/* Answers the lines of a load over another store, so that `measure.sh --peers` can measure altctl beside it:
   over LMDB where it is compiled with -DLMDB and -llmdb, with -DBY_MAP by a map that it writes through, and else over
   SQLite with -lsqlite3.

   peers run FILE

   It knows `put top TABLE NUMBER VALUE`, `get top TABLE NUMBER`, `next top TABLE NUMBER COUNT`, `commit` and `checks
   top`, tests nothing of their form, and answers each line at once, as altctl does. A value has no escapes. What was
   not committed is lost at the end. */
#define _GNU_SOURCE
#include <stdbool.h>
#include <stdint.h>
#include <stdio.h>
#include <stdlib.h>
#include <string.h>
#include <unistd.h>

enum { KEY = 10, CHUNK = 1 << 16, LONGEST = 4096 };

static void fail(const char *what)
{
    fprintf(stderr, "peers: %s\n", what);
    exit(1);
}

/* Rows of an answer that are not written yet. */
static char rows[CHUNK + 2 * LONGEST];
static size_t rows_length;

static void write_rows(void)
{
    if (write(1, rows, rows_length) != (ssize_t)rows_length)
        fail("no answer could be written");
    rows_length = 0;
}

/* Adds the row of a record. */
static void add_row(const unsigned char *key, const char *value, size_t length)
{
    uint64_t place = 0;
    for (int i = 2; i < KEY; i++)
        place = place << 8 | key[i];
    rows_length += (size_t)sprintf(rows + rows_length, "record %d %llu ", key[0] << 8 | key[1],
                                   (unsigned long long)place);
    memcpy(rows + rows_length, value, length);
    rows_length += length;
    rows[rows_length++] = '\n';
    if (rows_length > CHUNK)
        write_rows();
}

#ifdef LMDB
#include <lmdb.h>

#ifdef BY_MAP
enum { OPTIONS = MDB_WRITEMAP };
#else
enum { OPTIONS = 0 };
#endif

static MDB_env *environment;
static MDB_txn *writing, *reading;
static MDB_dbi table;

static void must(int status)
{
    if (status != MDB_SUCCESS)
        fail(mdb_strerror(status));
}

static void begin_store(const char *name)
{
    must(mdb_env_create(&environment));
    must(mdb_env_set_mapsize(environment, (size_t)1 << 32));
    must(mdb_env_open(environment, name, MDB_NOSUBDIR | OPTIONS, 0666));
    must(mdb_txn_begin(environment, NULL, 0, &writing));
    must(mdb_dbi_open(writing, NULL, 0, &table));
    must(mdb_txn_commit(writing));
    writing = NULL;
}

static void put(unsigned char *key, const char *value, size_t length)
{
    MDB_val row = {KEY, key}, with = {length, (void *)value};
    if (reading)
        mdb_txn_abort(reading);
    reading = NULL;
    if (!writing)
        must(mdb_txn_begin(environment, NULL, 0, &writing));
    must(mdb_put(writing, table, &row, &with, 0));
}

/* The value of a record, or NULL. Until the next put, all are looked up in one transaction. */
static const char *get(unsigned char *key, size_t *length)
{
    MDB_val row = {KEY, key}, found;
    if (!writing && !reading)
        must(mdb_txn_begin(environment, NULL, MDB_RDONLY, &reading));
    int status = mdb_get(writing ? writing : reading, table, &row, &found);
    if (status == MDB_NOTFOUND)
        return NULL;
    must(status);
    *length = found.mv_size;
    return found.mv_data;
}

/* Adds the rows of the first records at or after a key, and gives how many they are. */
static uint64_t page(unsigned char *key, uint64_t count)
{
    MDB_val row = {KEY, key}, found;
    MDB_cursor *cursor;
    uint64_t number = 0;
    if (!writing && !reading)
        must(mdb_txn_begin(environment, NULL, MDB_RDONLY, &reading));
    must(mdb_cursor_open(writing ? writing : reading, table, &cursor));
    int status = mdb_cursor_get(cursor, &row, &found, MDB_SET_RANGE);
    for (; status == MDB_SUCCESS && number < count; number++) {
        add_row(row.mv_data, found.mv_data, found.mv_size);
        status = number + 1 < count ? mdb_cursor_get(cursor, &row, &found, MDB_NEXT) : MDB_SUCCESS;
    }
    mdb_cursor_close(cursor);
    if (status != MDB_NOTFOUND)
        must(status);
    return number;
}

static void commit(void)
{
    if (writing)
        must(mdb_txn_commit(writing));
    writing = NULL;
}

#else
#include <sqlite3.h>

static sqlite3 *store;
static sqlite3_stmt *putting, *getting, *paging;
static bool is_writing;

static void must(int status)
{
    if (status != SQLITE_OK)
        fail(sqlite3_errmsg(store));
}

static void begin_store(const char *name)
{
    must(sqlite3_open(name, &store));
    must(sqlite3_exec(store, "PRAGMA journal_mode = WAL; PRAGMA synchronous = FULL", NULL, NULL, NULL));
    const char *table = "CREATE TABLE IF NOT EXISTS records (key BLOB PRIMARY KEY, value BLOB) WITHOUT ROWID";
    must(sqlite3_exec(store, table, NULL, NULL, NULL));
    must(sqlite3_prepare_v2(store, "INSERT OR REPLACE INTO records VALUES (?, ?)", -1, &putting, NULL));
    must(sqlite3_prepare_v2(store, "SELECT value FROM records WHERE key = ?", -1, &getting, NULL));
    const char *pages = "SELECT key, value FROM records WHERE key >= ? ORDER BY key LIMIT ?";
    must(sqlite3_prepare_v2(store, pages, -1, &paging, NULL));
}

static void put(unsigned char *key, const char *value, size_t length)
{
    if (!is_writing)
        must(sqlite3_exec(store, "BEGIN", NULL, NULL, NULL));
    is_writing = true;
    sqlite3_reset(putting);
    must(sqlite3_bind_blob(putting, 1, key, KEY, SQLITE_STATIC));
    must(sqlite3_bind_blob(putting, 2, value, (int)length, SQLITE_STATIC));
    if (sqlite3_step(putting) != SQLITE_DONE)
        fail(sqlite3_errmsg(store));
    sqlite3_reset(putting);
}

/* The value of a record, or NULL. It stays until the next call. */
static const char *get(unsigned char *key, size_t *length)
{
    sqlite3_reset(getting);
    must(sqlite3_bind_blob(getting, 1, key, KEY, SQLITE_STATIC));
    if (sqlite3_step(getting) != SQLITE_ROW)
        return NULL;
    *length = (size_t)sqlite3_column_bytes(getting, 0);
    return sqlite3_column_blob(getting, 0);
}

/* Adds the rows of the first records at or after a key, and gives how many they are. */
static uint64_t page(unsigned char *key, uint64_t count)
{
    uint64_t number = 0;
    must(sqlite3_bind_blob(paging, 1, key, KEY, SQLITE_STATIC));
    must(sqlite3_bind_int64(paging, 2, (sqlite3_int64)count));
    for (; sqlite3_step(paging) == SQLITE_ROW; number++)
        add_row(sqlite3_column_blob(paging, 0), sqlite3_column_blob(paging, 1),
                (size_t)sqlite3_column_bytes(paging, 1));
    must(sqlite3_reset(paging));
    return number;
}

static void commit(void)
{
    sqlite3_reset(getting);
    if (is_writing)
        must(sqlite3_exec(store, "COMMIT", NULL, NULL, NULL));
    is_writing = false;
}
#endif

static void answer(const char *word, const char *value, size_t length)
{
    char text[LONGEST];
    size_t begun = strlen(word);
    memcpy(text, word, begun);
    memcpy(text + begun, value, length);
    text[begun + length] = '\n';
    if (write(1, text, begun + length + 1) != (ssize_t)(begun + length + 1))
        fail("no answer could be written");
}

/* Reads a number, and goes to what follows the space behind it. */
static uint64_t number(const char **at)
{
    char *end;
    uint64_t read = strtoull(*at, &end, 10);
    *at = *end == ' ' ? end + 1 : end;
    return read;
}

/* The key that two numbers are, so that its bytes have their order. */
static void read_key(const char **at, unsigned char *key)
{
    uint64_t in_table = number(at), place = number(at);
    key[0] = (unsigned char)(in_table >> 8);
    key[1] = (unsigned char)in_table;
    for (int i = 0; i < 8; i++)
        key[2 + i] = (unsigned char)(place >> (56 - 8 * i));
}

/* Answers a line that ends with its line feed. */
static void answer_line(const char *line, const char *end)
{
    unsigned char key[KEY];
    size_t length = 0;
    const char *at = line + strlen("put top ");
    if (memcmp(line, "put ", 4) == 0) {
        read_key(&at, key);
        put(key, at, (size_t)(end - at));
        answer("ok", "", 0);
    } else if (memcmp(line, "get ", 4) == 0) {
        read_key(&at, key);
        const char *value = get(key, &length);
        answer(value ? "value " : "none", value ? value : "", length);
    } else if (memcmp(line, "next", 4) == 0) {
        at = line + strlen("next top ");
        read_key(&at, key);
        uint64_t many = page(key, number(&at));
        rows_length += (size_t)sprintf(rows + rows_length, "end %llu\n", (unsigned long long)many);
        write_rows();
    } else if (memcmp(line, "commit", 6) == 0) {
        commit();
        answer("ok", "", 0);
    } else {
        answer("end 0", "", 0);
    }
}

int main(int count, char **words)
{
    static char input[LONGEST + CHUNK];
    size_t length = 0;
    ssize_t more;
    if (count != 3)
        fail("usage: peers run FILE");
    begin_store(words[2]);
    while ((more = read(0, input + length, CHUNK)) > 0) {
        char *line = input, *end = input + length + more, *feed;
        while ((feed = memchr(line, '\n', (size_t)(end - line)))) {
            answer_line(line, feed);
            line = feed + 1;
        }
        length = (size_t)(end - line);
        if (length > LONGEST)
            fail("a line is too long");
        memmove(input, line, length);
    }
    return 0;
}
