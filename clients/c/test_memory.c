/* Refuses each allocation of the C client in turn: `test_memory PROGRAM FOLDER`. Each call has to return an error then,
   or to do what it does; what was put and committed without one has to be in the file. */
#define _GNU_SOURCE
#include <stdio.h>
#include <stdlib.h>
#include <string.h>

/* The allocation that is refused, counted from 1, and how many came so far. */
static int refused, asked;

static void *refusing_calloc(size_t count, size_t size)
{
    return ++asked == refused ? NULL : calloc(count, size);
}

static void *refusing_realloc(void *old, size_t size)
{
    return ++asked == refused ? NULL : realloc(old, size);
}

static char *refusing_strdup(const char *text)
{
    char *copy = ++asked == refused ? NULL : malloc(strlen(text) + 1);
    return copy == NULL ? NULL : strcpy(copy, text);
}

#define calloc refusing_calloc
#define realloc refusing_realloc
#undef strdup
#define strdup refusing_strdup
/* A cursor has several pages here. */
#define PAGE 30
#include "altctl.c"

enum { ONE_BY_ONE = 40, AHEAD = 40, MANY = ONE_BY_ONE + AHEAD };

static int failures;

static void need(int is_so, const char *what)
{
    if (!is_so) {
        printf("with allocation %d refused: %s\n", refused, what);
        failures++;
    }
}

/* Notes an error that want of memory can't be the reason of, and passes it on. */
static int checked(int error, const char *what)
{
    need(error == ALT_OK || error == ALT_SYSTEM, what);
    return error;
}

/* Steps through all records by a cursor. A step whose page was refused memory is tried again, and then goes on where it
   should. A record whose put was not known to be answered may be there, too. */
static void scan(alt_store *store, uint64_t due)
{
    alt_cursor *cursor;
    alt_record record;
    uint64_t count = 0, next = 0;
    int error = checked(alt_scan(store, "top", &cursor), "scan");
    while (error == ALT_OK || (error == ALT_SYSTEM && cursor != NULL)) {
        error = alt_step(cursor, &record);
        if (error == ALT_OK) {
            need(record.key.number >= next && record.value.length == 1200, "the next record of a scan");
            next = record.key.number + 1;
            count++;
        }
    }
    need(cursor == NULL || (error == ALT_DONE && count >= due), "all records of a scan");
    alt_close_cursor(cursor);
}

/* Rows, a scan and a merge, as far as they come. */
static void ask_others(alt_store *store, uint64_t due)
{
    alt_rows *rows;
    alt_record record;
    alt_settlement settlement = {{7, 1}, ALT_MINE};
    int error = checked(alt_list(store, "top", &rows), "list");
    while (error == ALT_OK)
        error = alt_next_record(rows, &record);
    need(error == ALT_DONE || error == ALT_SYSTEM, "rows");
    checked(alt_close_rows(rows), "the end of the rows");
    scan(store, due);
    error = alt_merge(store, "top", &settlement, 1, NULL);
    need(error == ALT_IS_TOP || error == ALT_SYSTEM, "merge");
}

/* Puts records, and notes of each whether it is sure to be there. Gives whether they were committed. */
static int work(alt_store *store, int *is_put)
{
    alt_ticket tickets[AHEAD];
    char value[1200];
    memset(value, 'v', sizeof value);
    for (int at = 0; at < ONE_BY_ONE; at++)
        is_put[at] = checked(alt_put(store, "top", (alt_key){7, (uint64_t)at}, value, sizeof value), "put") == ALT_OK;
    for (int at = 0; at < AHEAD; at++) {
        alt_key key = {7, (uint64_t)(ONE_BY_ONE + at)};
        int error = alt_send_put(store, "top", key, value, sizeof value, &tickets[at]);
        is_put[ONE_BY_ONE + at] = checked(error, "send") == ALT_OK;
    }
    /* The last ones first: the others are kept. */
    for (int at = AHEAD - 1; at >= 0; at--)
        if (is_put[ONE_BY_ONE + at]) {
            int error = alt_take(store, tickets[at]);
            need(error == ALT_OK || error == ALT_SYSTEM || error == ALT_NO_SUCH_TICKET, "take");
            is_put[ONE_BY_ONE + at] = error == ALT_OK;
        }
    uint64_t due = 0;
    for (int at = 0; at < MANY; at++)
        due += (uint64_t)is_put[at];
    ask_others(store, due);
    return checked(alt_commit(store), "commit") == ALT_OK;
}

/* What the file has, with all memory that is asked for. */
static void compare(const char *file, const alt_options *options, const int *is_put)
{
    alt_store *store;
    char value[1200];
    size_t length;
    int most = refused;
    refused = 0;
    int error = alt_open(&store, file, options);
    for (int at = 0; at < MANY && error == ALT_OK; at++)
        if (is_put[at])
            error = alt_get(store, "top", (alt_key){7, (uint64_t)at}, value, sizeof value, &length);
    refused = most;
    need(error == ALT_OK, "a record that was committed is there");
    alt_close(store);
}

int main(int count, char **words)
{
    char file[4000];
    if (count != 3) {
        fputs("usage: test_memory PROGRAM FOLDER\n", stderr);
        return 2;
    }
    alt_options options = {.program = words[1]};
    snprintf(file, sizeof file, "%s/memory.alt", words[2]);
    do {
        int is_put[MANY] = {0}, is_committed = 0;
        alt_store *store;
        unlink(file);
        asked = 0;
        refused++;
        need(alt_create(file, 1024, &options) == ALT_OK, "create");
        if (checked(alt_open(&store, file, &options), "open") == ALT_OK)
            is_committed = work(store, is_put);
        checked(alt_close(store), "close");
        if (is_committed)
            compare(file, &options, is_put);
    } while (asked >= refused);
    unlink(file);
    printf("%d allocations refused, %d failures\n", refused - 1, failures);
    return failures > 0;
}
