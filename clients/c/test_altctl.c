/* Tests of the C client over real files: `test_altctl PROGRAM FOLDER [SERVICE]`. Each test has a new store of 64
   blocks. SERVICE is `desk/altserve`; without it the tests of a service are skipped. */
#define _GNU_SOURCE
#include "altctl.h"

#include <errno.h>
#include <fcntl.h>
#include <pthread.h>
#include <signal.h>
#include <stdio.h>
#include <stdlib.h>
#include <string.h>
#include <sys/file.h>
#include <sys/resource.h>
#include <sys/stat.h>
#include <sys/time.h>
#include <sys/wait.h>
#include <unistd.h>

static const char *program, *service;
static char file[4000];
static alt_options options;
static int failures;

/* Notes two numbers that differ and should not. */
#define SAME(due, came)                                                                       \
    do {                                                                                      \
        long long due_ = (long long)(due), came_ = (long long)(came);                         \
        if (due_ != came_) {                                                                  \
            printf("%s:%d: %s is %lld, and not %lld\n", __FILE__, __LINE__, #came, came_, due_); \
            failures++;                                                                       \
        }                                                                                     \
    } while (0)

#define SAME_TEXT(due, came)                                                                  \
    do {                                                                                      \
        const char *due_ = (due), *came_ = (came);                                            \
        due_ = due_ == NULL ? "(none)" : due_;                                                \
        came_ = came_ == NULL ? "(none)" : came_;                                             \
        if (strcmp(due_, came_) != 0) {                                                       \
            printf("%s:%d: %s is %s, and not %s\n", __FILE__, __LINE__, #came, came_, due_);  \
            failures++;                                                                       \
        }                                                                                     \
    } while (0)

static void same_value(int line, const void *due, size_t length, alt_value came)
{
    int is_none = due == NULL;
    if (is_none ? came.bytes != NULL
                : came.bytes == NULL || came.length != length || memcmp(due, came.bytes, length) != 0) {
        printf("%s:%d: the value of %zu bytes is another one\n", __FILE__, line, came.length);
        failures++;
    }
}

#define SAME_VALUE(due, came) same_value(__LINE__, (due), (due) == NULL ? 0 : strlen(due), (came))

static alt_key key(unsigned table, uint64_t number)
{
    return (alt_key){(uint16_t)table, number};
}

static alt_store *opened(void)
{
    alt_store *store;
    int error = alt_open(&store, file, &options);
    if (error != ALT_OK) {
        printf("%s cannot be opened: %s\n", file, alt_error_text(store, error));
        exit(1);
    }
    return store;
}

static int put(alt_store *store, const char *alt, uint64_t number, const char *text)
{
    return alt_put(store, alt, key(7, number), text, strlen(text));
}

/* Compares a record's value with a text, or with none. */
static void has(int line, alt_store *store, const char *alt, uint64_t number, const char *due)
{
    char bytes[ALT_LONGEST_VALUE];
    size_t length = 0;
    int error = alt_get(store, alt, key(7, number), bytes, sizeof bytes, &length);
    alt_value came = {error == ALT_OK ? (unsigned char *)bytes : NULL, length};
    if (error != ALT_OK && error != ALT_NO_SUCH_RECORD) {
        printf("%s:%d: %s\n", __FILE__, line, alt_error_text(store, error));
        failures++;
    }
    same_value(line, due, due == NULL ? 0 : strlen(due), came);
}

#define HAS(store, alt, number, due) has(__LINE__, (store), (alt), (number), (due))

/* --- what the tests are ---------------------------------------------------------------------------- */

static void a_record_is_there_after_a_commit(void)
{
    alt_store *store = opened();
    SAME(ALT_OK, put(store, "top", 1, "duct"));
    SAME(ALT_OK, alt_commit(store));
    SAME(ALT_OK, put(store, "top", 2, "pipe"));
    SAME(ALT_OK, alt_close(store));
    options.cache = ALT_NO_BLOCKS;
    store = opened();
    options.cache = 0;
    HAS(store, "top", 1, "duct");
    HAS(store, "top", 2, NULL);
    uint64_t blocks;
    SAME(ALT_OK, alt_free_blocks(store, &blocks));
    SAME(29, blocks);
    SAME(ALT_OK, alt_close(store));
}

static void what_was_not_committed_is_undone(void)
{
    alt_store *store = opened();
    uint64_t blocks;
    SAME(ALT_OK, put(store, "top", 1, "duct"));
    SAME(ALT_OK, alt_commit(store));
    SAME(ALT_OK, put(store, "top", 1, "pipe"));
    SAME(ALT_OK, put(store, "top", 2, "hose"));
    SAME(ALT_OK, alt_new(store, "north", "top"));
    SAME(ALT_OK, alt_grow(store, 128));
    SAME(ALT_OK, alt_rollback(store));
    HAS(store, "top", 1, "duct");
    HAS(store, "top", 2, NULL);
    SAME(ALT_NO_SUCH_ALTERNATIVE, put(store, "north", 1, "duct"));
    SAME(ALT_OK, alt_reclaim(store));
    SAME(ALT_OK, alt_free_blocks(store, &blocks));
    SAME(29, blocks);
    SAME(ALT_OK, alt_close(store));
}

static void each_byte_comes_back(void)
{
    unsigned char bytes[ALT_LONGEST_VALUE + 1], came[ALT_LONGEST_VALUE];
    size_t lengths[] = {0, 1, 240, 241, 256, 4000};
    alt_store *store = opened();
    for (size_t at = 0; at < sizeof bytes; at++)
        bytes[at] = (unsigned char)(at == 0 ? '-' : at);
    for (size_t at = 0; at < sizeof lengths / sizeof *lengths; at++) {
        size_t length = 0;
        SAME(ALT_OK, alt_put(store, "top", key(65535, UINT64_MAX - at), bytes, lengths[at]));
        SAME(ALT_OK, alt_get(store, "top", key(65535, UINT64_MAX - at), came, sizeof came, &length));
        SAME(lengths[at], length);
        SAME(0, memcmp(bytes, came, length));
    }
    size_t length = 0;
    SAME(ALT_SMALL_BUFFER, alt_get(store, "top", key(65535, UINT64_MAX - 5), came, 3999, &length));
    SAME(4000, length);
    SAME(ALT_BAD_WORD, alt_put(store, "top", key(1, 1), bytes, 4001));
    SAME(ALT_OK, put(store, "top", 1, "Stra\u00DFe 7"));
    HAS(store, "top", 1, "Stra\u00DFe 7");
    SAME(ALT_OK, put(store, "top", 2, "~"));
    HAS(store, "top", 2, "~");
    SAME(ALT_OK, alt_close(store));
}

/* The longest line of an answer: three values of which each byte takes three. */
static void percent_signs_come_back(void)
{
    static char base[ALT_LONGEST_VALUE], parent[ALT_LONGEST_VALUE], mine[ALT_LONGEST_VALUE];
    alt_store *store = opened();
    alt_rows *rows;
    alt_conflict conflict;
    memset(base, '%', sizeof base);
    memset(parent, '\n', sizeof parent);
    memset(mine, 0, sizeof mine);
    SAME(ALT_OK, alt_put(store, "top", key(7, 1), base, sizeof base));
    SAME(ALT_OK, alt_new(store, "a", "top"));
    SAME(ALT_OK, alt_put(store, "top", key(7, 1), parent, sizeof parent));
    SAME(ALT_OK, alt_put(store, "a", key(7, 1), mine, sizeof mine));
    SAME(ALT_OK, alt_conflicts(store, "a", &rows));
    SAME(ALT_OK, alt_next_conflict(rows, &conflict));
    same_value(__LINE__, base, sizeof base, conflict.base);
    same_value(__LINE__, parent, sizeof parent, conflict.parent);
    same_value(__LINE__, mine, sizeof mine, conflict.mine);
    SAME(ALT_DONE, alt_next_conflict(rows, &conflict));
    SAME(ALT_OK, alt_close_rows(rows));
    SAME(ALT_OK, alt_close(store));
}

/* A design `a` under top: both have changed record 1, and top has record 2 besides. */
static alt_store *with_a_conflict(void)
{
    alt_store *store = opened();
    SAME(ALT_OK, put(store, "top", 1, "duct"));
    SAME(ALT_OK, alt_new(store, "a", "top"));
    SAME(ALT_OK, put(store, "top", 1, "pipe"));
    SAME(ALT_OK, put(store, "a", 1, "cable A"));
    SAME(ALT_OK, put(store, "top", 2, "hose"));
    return store;
}

static void changes_and_conflicts_are_listed(void)
{
    alt_store *store = with_a_conflict();
    alt_rows *rows;
    alt_change change;
    alt_conflict conflict;
    SAME(ALT_OK, alt_changes(store, "a", &rows));
    SAME(ALT_OK, alt_next_change(rows, &change));
    SAME(7, change.key.table);
    SAME(1, change.key.number);
    SAME_VALUE("duct", change.before);
    SAME_VALUE("cable A", change.after);
    SAME(ALT_DONE, alt_next_change(rows, &change));
    SAME(ALT_DONE, alt_next_change(rows, &change));
    SAME(ALT_OK, alt_close_rows(rows));
    SAME(ALT_OK, alt_conflicts(store, "a", &rows));
    SAME(ALT_OK, alt_next_conflict(rows, &conflict));
    SAME_VALUE("duct", conflict.base);
    SAME_VALUE("pipe", conflict.parent);
    SAME_VALUE("cable A", conflict.mine);
    SAME(ALT_OK, alt_close_rows(rows));
    SAME(ALT_OK, alt_close(store));
}

static void versions_are_read_and_compared(void)
{
    alt_store *store = with_a_conflict();
    alt_rows *rows;
    alt_change change;
    alt_record record;
    alt_numbers numbers;
    uint64_t blocks;
    SAME(ALT_OK, alt_checkpoint(store, "a", "before"));
    SAME(ALT_OK, put(store, "a", 1, "rope"));
    HAS(store, "a", 1, "rope");
    HAS(store, "a@", 1, "duct");
    HAS(store, "a@before", 1, "cable A");
    HAS(store, "top@", 1, NULL);
    SAME(ALT_OK, alt_list(store, "a@before", &rows));
    SAME(ALT_OK, alt_next_record(rows, &record));
    SAME_VALUE("cable A", record.value);
    SAME(ALT_DONE, alt_next_record(rows, &record));
    SAME(ALT_OK, alt_close_rows(rows));
    SAME(ALT_OK, alt_diff(store, "a@", "a@before", &rows));
    SAME(ALT_OK, alt_next_change(rows, &change));
    SAME_VALUE("duct", change.before);
    SAME_VALUE("cable A", change.after);
    SAME(ALT_DONE, alt_next_change(rows, &change));
    SAME(ALT_OK, alt_close_rows(rows));
    SAME(ALT_NO_SUCH_CHECKPOINT, alt_diff(store, "a@nope", "nope", &rows));
    SAME(ALT_OK, alt_tally(store, "a", &numbers));
    SAME(1, numbers.changed);
    SAME(2, numbers.unmerged);
    SAME(1, numbers.conflicts);
    SAME(0, numbers.can_post);
    SAME(ALT_IS_TOP, alt_tally(store, "top", &numbers));
    SAME(ALT_OK, alt_blocks(store, &blocks));
    SAME(64, blocks);
    SAME(ALT_OK, alt_close(store));
}

/* --- parts, pages and cursors --- */

enum { TABLES = 5, NUMBERS = 6, KEYS = TABLES * NUMBERS };
static const unsigned some_tables[TABLES] = {0, 1, 7, 8, 65535};
static const uint64_t some_numbers[NUMBERS] = {0, 1, 2, 50, UINT64_MAX - 1, UINT64_MAX};

/* Of each key, in order, how its value begins in a version, or 0 if it has none there. */
typedef char version[KEYS];

static alt_key key_at(int at)
{
    return key(some_tables[at / NUMBERS], some_numbers[at % NUMBERS]);
}

/* Puts or removes about each third key, and notes it. */
static void edit(alt_store *store, const char *alt, char letter, char *records, unsigned *seed)
{
    for (int at = 0; at < KEYS; at++) {
        *seed = *seed * 1103515245 + 12345;
        unsigned draw = *seed >> 16 & 7;
        if (draw < 2 || (draw == 2 && records[at] == 0)) {
            SAME(ALT_OK, alt_put(store, alt, key_at(at), &letter, 1));
            records[at] = letter;
        } else if (draw == 2) {
            SAME(ALT_OK, alt_remove(store, alt, key_at(at)));
            records[at] = 0;
        }
    }
}

static int is_in(int at, unsigned table, uint64_t first, uint64_t last)
{
    alt_key it = key_at(at);
    return it.table == table && it.number >= first && it.number <= last;
}

static void same_key(int line, alt_key due, alt_key came)
{
    if (due.table != came.table || due.number != came.number) {
        printf("%s:%d: the key is another one: %u:%llu\n", __FILE__, line, came.table, (unsigned long long)came.number);
        failures++;
    }
}

/* Reads rows, which have to be those of the keys that are chosen. */
static void same_records(int line, alt_rows *rows, const char *records, const char *chosen)
{
    alt_record record;
    for (int at = 0; at < KEYS; at++)
        if (chosen[at] && records[at]) {
            SAME(ALT_OK, alt_next_record(rows, &record));
            same_key(line, key_at(at), record.key);
            same_value(line, &records[at], 1, record.value);
        }
    SAME(ALT_DONE, alt_next_record(rows, &record));
    SAME(ALT_OK, alt_close_rows(rows));
}

static void same_changes(int line, alt_rows *rows, const char *before, const char *after, const char *chosen)
{
    alt_change change;
    for (int at = 0; at < KEYS; at++)
        if (chosen[at] && before[at] != after[at]) {
            SAME(ALT_OK, alt_next_change(rows, &change));
            same_key(line, key_at(at), change.key);
            same_value(line, before[at] ? &before[at] : NULL, 1, change.before);
            same_value(line, after[at] ? &after[at] : NULL, 1, change.after);
        }
    SAME(ALT_DONE, alt_next_change(rows, &change));
    SAME(ALT_OK, alt_close_rows(rows));
}

/* Compares parts of a version, and of what differs to another one. */
static void same_parts(alt_store *store, const char *at, const char *own, const char *other_at, const char *other)
{
    alt_rows *rows;
    version chosen;
    for (int table = 0; table < TABLES; table++)
        for (int low = 0; low < NUMBERS; low++)
            for (int high = 0; high < NUMBERS; high++) {
                unsigned of = some_tables[table];
                uint64_t first = some_numbers[low], last = some_numbers[high];
                for (int it = 0; it < KEYS; it++)
                    chosen[it] = (char)is_in(it, of, first, last);
                SAME(ALT_OK, alt_list_range(store, at, (uint16_t)of, first, last, &rows));
                same_records(__LINE__, rows, own, chosen);
                SAME(ALT_OK, alt_diff_range(store, at, other_at, (uint16_t)of, first, last, &rows));
                same_changes(__LINE__, rows, own, other, chosen);
                if (low == 0 && high == NUMBERS - 1) {
                    SAME(ALT_OK, alt_list_table(store, at, (uint16_t)of, &rows));
                    same_records(__LINE__, rows, own, chosen);
                    SAME(ALT_OK, alt_diff_table(store, at, other_at, (uint16_t)of, &rows));
                    same_changes(__LINE__, rows, own, other, chosen);
                }
            }
}

/* Compares pages of each size from each key. */
static void same_pages(alt_store *store, const char *at, const char *own)
{
    alt_rows *rows;
    for (int from = 0; from < KEYS; from++)
        for (uint32_t size = 0; size <= 5; size++) {
            version chosen = {0};
            uint32_t count = size < 5 ? size : UINT32_MAX, left = count;
            for (int it = from; it < KEYS; it++)
                if (own[it] && left > 0) {
                    chosen[it] = 1;
                    left--;
                }
            SAME(ALT_OK, alt_page(store, at, key_at(from), count, &rows));
            same_records(__LINE__, rows, own, chosen);
        }
}

static void parts_and_pages_are_those_of_a_model(void)
{
    version base = {0}, before, north, top;
    unsigned seed = 7;
    alt_store *store = opened();
    SAME(ALT_OK, alt_grow(store, 4096));
    edit(store, "top", 'a', base, &seed);
    SAME(ALT_OK, alt_new(store, "north", "top"));
    memcpy(before, base, sizeof base);
    edit(store, "north", 'b', before, &seed);
    SAME(ALT_OK, alt_checkpoint(store, "north", "before"));
    memcpy(north, before, sizeof before);
    edit(store, "north", 'c', north, &seed);
    memcpy(top, base, sizeof base);
    edit(store, "top", 'd', top, &seed);
    same_parts(store, "north", north, "top", top);
    same_parts(store, "top", top, "north", north);
    same_parts(store, "north@", base, "north@before", before);
    same_pages(store, "north@before", before);
    same_pages(store, "north", north);
    SAME(ALT_OK, alt_close(store));
}

static void parts_of_unknown_versions_are_refused(void)
{
    alt_store *store = opened();
    alt_rows *rows;
    alt_cursor *cursor;
    SAME(ALT_NO_SUCH_ALTERNATIVE, alt_list_table(store, "south", 7, &rows));
    SAME(ALT_NO_SUCH_CHECKPOINT, alt_list_range(store, "top@nope", 7, 1, 2, &rows));
    SAME(ALT_NO_SUCH_CHECKPOINT, alt_page(store, "top@nope", key(7, 1), 0, &rows));
    SAME(ALT_NO_SUCH_ALTERNATIVE, alt_diff_table(store, "south", "top@nope", 7, &rows));
    SAME(ALT_NO_SUCH_CHECKPOINT, alt_diff_range(store, "top@nope", "south", 7, 2, 1, &rows));
    SAME(1, rows == NULL);
    SAME(ALT_NO_SUCH_ALTERNATIVE, alt_scan(store, "south", &cursor));
    SAME(1, cursor == NULL);
    SAME(ALT_NO_SUCH_CHECKPOINT, alt_scan_table(store, "top@nope", 7, &cursor));
    SAME(ALT_BAD_WORD, alt_scan(store, NULL, &cursor));
    SAME(ALT_BAD_WORD, alt_scan(store, "top 7", &cursor));
    SAME(ALT_BAD_LINE, alt_scan(store, "top@@", &cursor));
    alt_close_cursor(NULL);
    SAME(ALT_OK, alt_close(store));
}

/* So many records of table 7, whose value is their number. */
static alt_store *with_records(uint64_t count)
{
    alt_store *store = opened();
    alt_ticket ticket;
    SAME(ALT_OK, alt_grow(store, 4096));
    for (uint64_t number = 0; number < count; number++) {
        char value[24];
        int length = snprintf(value, sizeof value, "%llu", (unsigned long long)number);
        SAME(ALT_OK, alt_send_put(store, "top", key(7, number), value, (size_t)length, &ticket));
    }
    SAME(ALT_OK, alt_take_all(store, NULL));
    return store;
}

/* Steps through records of table 7 whose value is their number, and then through one of each other key. */
static void same_scan(int line, alt_cursor *cursor, uint64_t count, const alt_key *others, int many)
{
    alt_record record;
    for (uint64_t number = 0; number < count; number++) {
        char value[24];
        int length = snprintf(value, sizeof value, "%llu", (unsigned long long)number);
        SAME(ALT_OK, alt_step(cursor, &record));
        same_key(line, key(7, number), record.key);
        same_value(line, value, (size_t)length, record.value);
    }
    for (int at = 0; at < many; at++) {
        SAME(ALT_OK, alt_step(cursor, &record));
        same_key(line, others[at], record.key);
        same_value(line, "", 0, record.value);
    }
    SAME(ALT_DONE, alt_step(cursor, &record));
    SAME(ALT_DONE, alt_step(cursor, &record));
    alt_close_cursor(cursor);
}

static void a_cursor_pages_to_the_end(void)
{
    const uint64_t counts[] = {0, 1, 999, 1000, 1001, 2000};
    const alt_key others[] = {key(7, UINT64_MAX), key(8, 0), key(65535, UINT64_MAX)};
    alt_cursor *cursor;
    for (size_t at = 0; at < sizeof counts / sizeof *counts; at++) {
        alt_store *store = with_records(counts[at]);
        SAME(ALT_OK, alt_scan(store, "top", &cursor));
        same_scan(__LINE__, cursor, counts[at], NULL, 0);
        for (int it = 0; it < 3; it++)
            SAME(ALT_OK, alt_put(store, "top", others[it], "", 0));
        SAME(ALT_OK, alt_scan(store, "top", &cursor));
        same_scan(__LINE__, cursor, counts[at], others, 3);
        SAME(ALT_OK, alt_scan_table(store, "top", 7, &cursor));
        same_scan(__LINE__, cursor, counts[at], others, 1);
        SAME(ALT_OK, alt_scan_table(store, "top", 65535, &cursor));
        same_scan(__LINE__, cursor, 0, others + 2, 1);
        SAME(ALT_OK, alt_scan_table(store, "top", 9, &cursor));
        same_scan(__LINE__, cursor, 0, NULL, 0);
        SAME(ALT_OK, alt_close(store));
    }
}

static void a_cursor_lets_others_ask(void)
{
    alt_store *store = with_records(2500);
    alt_cursor *cursor, *second;
    alt_record record, other;
    alt_rows *rows;
    SAME(ALT_OK, alt_scan(store, "top", &cursor));
    SAME(ALT_OK, alt_scan(store, "top", &second));
    for (uint64_t number = 0; number < 2500; number++) {
        SAME(ALT_OK, alt_step(cursor, &record));
        SAME(ALT_OK, alt_step(second, &other));
        SAME(ALT_OK, alt_remove(store, "top", key(7, number)));
        SAME(ALT_OK, alt_put(store, "top", key(8, number % 3), "b", 1));
        SAME(number, record.key.number);
        SAME(number, other.key.number);
        SAME(1, record.value.length == other.value.length &&
                    memcmp(record.value.bytes, other.value.bytes, other.value.length) == 0);
    }
    /* The last page was asked for before record 2 of table 8 was put a last time. */
    for (uint64_t number = 0; number < 3; number++) {
        SAME(ALT_OK, alt_step(cursor, &record));
        SAME(8, record.key.table);
        SAME(number, record.key.number);
    }
    SAME(ALT_DONE, alt_step(cursor, &record));
    alt_close_cursor(second);
    alt_close_cursor(cursor);
    SAME(ALT_OK, alt_rollback(store));
    SAME(ALT_OK, alt_close(store));
    store = with_records(1001);
    /* While rows are open no page can be asked for; the cursor goes on after it. */
    SAME(ALT_OK, alt_scan(store, "top", &cursor));
    SAME(ALT_OK, alt_list(store, "top", &rows));
    for (uint64_t number = 0; number < 1000; number++)
        SAME(ALT_OK, alt_step(cursor, &record));
    SAME(ALT_ROWS_OPEN, alt_step(cursor, &record));
    SAME(ALT_OK, alt_close_rows(rows));
    SAME(ALT_OK, alt_step(cursor, &record));
    SAME(1000, record.key.number);
    SAME(ALT_DONE, alt_step(cursor, &record));
    SAME(ALT_OK, alt_close(store));
    alt_close_cursor(cursor);
}

static void *steps_elsewhere(void *cursor)
{
    static int error;
    alt_record record;
    error = alt_step(cursor, &record);
    return &error;
}

static void a_cursor_is_of_the_owner(void)
{
    alt_store *store = with_records(1);
    alt_cursor *cursor;
    alt_record record;
    pthread_t thread;
    void *came;
    SAME(ALT_OK, alt_scan(store, "top", &cursor));
    SAME(0, pthread_create(&thread, NULL, steps_elsewhere, cursor));
    SAME(0, pthread_join(thread, &came));
    SAME(ALT_WRONG_THREAD, *(int *)came);
    SAME(ALT_OK, alt_step(cursor, &record));
    alt_close_cursor(cursor);
    SAME(ALT_OK, alt_close(store));
}

static void a_design_is_settled_and_posted(void)
{
    alt_store *store = with_a_conflict();
    alt_rows *rows;
    alt_change change;
    alt_record record;
    uint64_t changed = 9;
    SAME(ALT_NOT_MERGED, alt_post(store, "a"));
    SAME(ALT_UNSETTLED, alt_merge(store, "a", NULL, 0, &changed));
    SAME(1, alt_detail(store)->count);
    SAME_TEXT("9 Unsettled 1", alt_error_text(store, ALT_UNSETTLED));
    alt_settlement other = {key(7, 2), ALT_MINE}, mine = {key(7, 1), ALT_MINE};
    SAME(ALT_NOT_IN_CONFLICT, alt_merge(store, "a", &other, 1, NULL));
    SAME(7, alt_detail(store)->key.table);
    SAME(2, alt_detail(store)->key.number);
    SAME(ALT_OK, alt_merge(store, "a", &mine, 1, &changed));
    SAME(1, changed);
    SAME(ALT_OK, alt_post(store, "a"));
    SAME(ALT_OK, alt_list(store, "top", &rows));
    SAME(ALT_OK, alt_next_record(rows, &record));
    SAME_VALUE("cable A", record.value);
    SAME(ALT_ROWS_OPEN, alt_commit(store));
    SAME(ALT_BAD_ANSWER, alt_next_change(rows, &change));
    SAME(ALT_OK, alt_close_rows(rows));
    SAME(ALT_OK, alt_commit(store));
    SAME(ALT_OK, alt_close(store));
}

static void a_side_settles_all_conflicts(void)
{
    alt_store *store = opened();
    alt_settlement second = {key(7, 2), ALT_MINE}, other = {key(7, 9), ALT_MINE};
    uint64_t changed = 9;
    SAME(ALT_OK, alt_grow(store, 128));
    SAME(ALT_OK, alt_commit(store));
    SAME(ALT_OK, alt_new(store, "a", "top"));
    for (uint64_t number = 1; number <= 3; number++) {
        SAME(ALT_OK, put(store, "top", number, "pipe"));
        SAME(ALT_OK, put(store, "a", number, "hose"));
    }
    SAME(ALT_NOT_IN_CONFLICT, alt_merge_all(store, "a", ALT_THEIRS, &other, 1, &changed));
    SAME(ALT_OK, alt_merge_all(store, "a", ALT_THEIRS, &second, 1, &changed));
    SAME(2, changed);
    HAS(store, "a", 1, "pipe");
    HAS(store, "a", 2, "hose");
    HAS(store, "a", 3, "pipe");
    SAME(ALT_OK, alt_merge_all(store, "a", ALT_MINE, NULL, 0, &changed));
    SAME(0, changed);
    SAME(ALT_OK, alt_close(store));
}

static void names_are_listed(void)
{
    alt_store *store = opened();
    alt_rows *rows;
    alt_alternative alternative;
    const char *name;
    SAME(ALT_OK, put(store, "top", 1, "duct"));
    SAME(ALT_OK, alt_checkpoint(store, "top", "before"));
    SAME(ALT_OK, alt_remove(store, "top", key(7, 1)));
    SAME(ALT_NO_SUCH_RECORD, alt_remove(store, "top", key(7, 1)));
    SAME(ALT_OK, alt_new_at(store, "b", "top", "before"));
    HAS(store, "b", 1, "duct");
    SAME(ALT_OK, alt_back(store, "top", "before"));
    HAS(store, "top", 1, "duct");
    SAME(ALT_OK, alt_alternatives(store, &rows));
    SAME(ALT_OK, alt_next_alternative(rows, &alternative));
    SAME_TEXT("top", alternative.name);
    SAME_TEXT(NULL, alternative.parent);
    SAME(ALT_OK, alt_next_alternative(rows, &alternative));
    SAME_TEXT("b", alternative.name);
    SAME_TEXT("top", alternative.parent);
    SAME(ALT_DONE, alt_next_alternative(rows, &alternative));
    SAME(ALT_OK, alt_close_rows(rows));
    SAME(ALT_OK, alt_checkpoints(store, "top", &rows));
    SAME(ALT_OK, alt_next_checkpoint(rows, &name));
    SAME_TEXT("before", name);
    SAME(ALT_OK, alt_close_rows(rows));
    SAME(ALT_OK, alt_uncheck(store, "top", "before"));
    SAME(ALT_NO_SUCH_CHECKPOINT, alt_back(store, "top", "before"));
    SAME(ALT_OK, alt_drop(store, "b"));
    SAME(ALT_IS_TOP, alt_drop(store, "top"));
    SAME(ALT_NO_SUCH_ALTERNATIVE, alt_list(store, "b", &rows));
    SAME(ALT_OK, alt_close(store));
}

static void a_store_grows(void)
{
    alt_store *store = opened();
    uint64_t blocks;
    SAME(ALT_BAD_SIZE, alt_grow(store, 64));
    SAME(ALT_OK, alt_grow(store, 128));
    SAME(ALT_OK, alt_reclaim(store));
    SAME(ALT_OK, alt_free_blocks(store, &blocks));
    SAME(94, blocks);
    SAME(ALT_OK, alt_commit(store));
    SAME(ALT_OK, alt_close(store));
    struct stat told;
    SAME(0, stat(file, &told));
    SAME(128 * 4096, told.st_size);
}

static void a_store_grows_by_itself(void)
{
    alt_options growing = options;
    char value[ALT_LONGEST_VALUE] = "";
    uint64_t blocks;
    int error = ALT_OK;
    alt_store *store;
    SAME(ALT_OK, alt_close(opened()));
    growing.grow = 128;
    SAME(ALT_OK, alt_open(&store, file, &growing));
    for (uint64_t number = 1; error == ALT_OK && number < 128; number++)
        error = alt_put(store, "top", key(8, number), value, sizeof value);
    SAME(ALT_FULL, error);
    SAME(ALT_OK, alt_blocks(store, &blocks));
    SAME(128, blocks);
    SAME(ALT_OK, alt_commit(store));
    SAME(ALT_OK, alt_close(store));
    growing.grow = ALT_NO_LIMIT;
    SAME(ALT_OK, alt_open(&store, file, &growing));
    for (uint64_t number = 1; number < 128; number++)
        SAME(ALT_OK, alt_put(store, "top", key(8, number), value, sizeof value));
    SAME(ALT_OK, alt_blocks(store, &blocks));
    SAME(1, blocks > 128);
    SAME(ALT_OK, alt_close(store));
}

static void a_store_may_be_read_alone(void)
{
    alt_options reading = options;
    alt_store *store = opened(), *one, *other;
    char value[16];
    size_t length;
    reading.read_only = 1;
    SAME(ALT_IN_USE, alt_open(&one, file, &reading));
    SAME(ALT_OK, put(store, "top", 1, "duct"));
    SAME(ALT_OK, alt_commit(store));
    SAME(ALT_OK, alt_close(store));
    SAME(ALT_OK, alt_open(&one, file, &reading));
    SAME(ALT_OK, alt_open(&other, file, &reading));
    SAME(ALT_IN_USE, alt_open(&store, file, &options));
    SAME(ALT_READ_ONLY, put(one, "top", 1, "pipe"));
    SAME(ALT_READ_ONLY, alt_commit(one));
    SAME(ALT_OK, alt_get(other, "top", key(7, 1), value, sizeof value, &length));
    SAME(4, length);
    SAME(ALT_OK, alt_close(one));
    SAME(ALT_OK, alt_close(other));
}

static void what_is_no_word_is_not_sent(void)
{
    alt_store *store = opened();
    const char *words[] = {NULL, "", "a b", "a\ncommit", "\xC3\xA4"};
    for (size_t at = 0; at < sizeof words / sizeof *words; at++)
        SAME(ALT_BAD_WORD, alt_new(store, words[at], "top"));
    SAME(ALT_BAD_LINE, alt_new(store, "a+b", "top"));
    SAME_TEXT("word 2: NAME is 1 to 32 of A-Za-z0-9_.-", alt_detail(store)->said);
    SAME(ALT_BAD_LINE, alt_new(store, "a23456789012345678901234567890123", "top"));
    SAME(ALT_OK, alt_new(store, "a.b", "top"));
    SAME(ALT_OK, alt_close(store));
}

static void refusals_have_their_numbers(void)
{
    enum { MANY = 120000 };
    alt_store *store = opened();
    alt_settlement twice[] = {{key(7, 1), ALT_MINE}, {key(7, 1), ALT_THEIRS}};
    alt_settlement *many = calloc(MANY, sizeof *many);
    SAME(ALT_OK, put(store, "top", 1, "duct"));
    SAME(ALT_OK, alt_new(store, "a", "top"));
    SAME(ALT_OK, alt_new(store, "b", "a"));
    SAME(ALT_ALTERNATIVE_EXISTS, alt_new(store, "b", "top"));
    SAME(ALT_HAS_CHILDREN, alt_drop(store, "a"));
    SAME(ALT_OK, alt_checkpoint(store, "a", "before"));
    SAME(ALT_CHECKPOINT_EXISTS, alt_checkpoint(store, "a", "before"));
    SAME(ALT_OK, put(store, "top", 1, "pipe"));
    SAME(ALT_OK, put(store, "a", 1, "hose"));
    SAME(ALT_SETTLED_TWICE, alt_merge(store, "a", twice, 2, NULL));
    SAME(7, alt_detail(store)->key.table);
    SAME(1, alt_detail(store)->key.number);
    SAME(ALT_LONG_LINE, alt_merge(store, "a", many, MANY, NULL));
    free(many);
    char value[ALT_LONGEST_VALUE] = "";
    int error = ALT_OK;
    for (uint64_t number = 1; error == ALT_OK && number < 64; number++)
        error = alt_put(store, "top", key(8, number), value, sizeof value);
    SAME(ALT_FULL, error);
    SAME_TEXT("13 Full", alt_error_text(store, error));
    error = ALT_OK;
    for (int at = 0; error == ALT_OK && at < 512; at++) {
        char name[16];
        snprintf(name, sizeof name, "at%d", at);
        error = alt_checkpoint(store, "top", name);
    }
    SAME(ALT_TOO_MANY, error);
    SAME(ALT_OK, alt_close(store));
}

static void errors_have_names(void)
{
    SAME_TEXT("ok", alt_error_name(ALT_OK));
    SAME_TEXT("NoSuchAlternative", alt_error_name(ALT_NO_SUCH_ALTERNATIVE));
    SAME_TEXT("LongLine", alt_error_name(ALT_LONG_LINE));
    SAME_TEXT("Denied", alt_error_name(ALT_DENIED));
    SAME_TEXT("TooManyPlanners", alt_error_name(ALT_TOO_MANY_PLANNERS));
    SAME_TEXT("TooManyEntries", alt_error_name(ALT_TOO_MANY_ENTRIES));
    SAME_TEXT("Changed", alt_error_name(ALT_CHANGED));
    SAME_TEXT("NoArchive", alt_error_name(ALT_NO_ARCHIVE));
    SAME_TEXT("NoRoom", alt_error_name(ALT_NO_ROOM));
    SAME_TEXT("PlannerExists", alt_error_name(ALT_PLANNER_EXISTS));
    SAME_TEXT("ALT_DONE", alt_error_name(ALT_DONE));
    SAME_TEXT("ALT_IN_BATCH", alt_error_name(ALT_IN_BATCH));
    SAME_TEXT("ReadOnly", alt_error_name(ALT_READ_ONLY));
    SAME_TEXT("unknown", alt_error_name(25));
    SAME_TEXT("unknown", alt_error_name(108));
    SAME_TEXT("unknown", alt_error_name(-14));
    SAME_TEXT("another process has locked the file", alt_error_text(NULL, ALT_IN_USE));
    errno = ENOENT;
    SAME_TEXT("No such file or directory", alt_error_text(NULL, ALT_SYSTEM));
}

static void rows_may_be_left_unread(void)
{
    enum { MANY = 300 };
    alt_store *store = opened();
    alt_rows *rows;
    alt_record record;
    SAME(ALT_OK, alt_grow(store, 1024));
    for (uint64_t number = 0; number < MANY; number++)
        SAME(ALT_OK, put(store, "top", number, "duct"));
    SAME(ALT_OK, alt_list(store, "top", &rows));
    SAME(ALT_OK, alt_close_rows(rows));
    SAME(ALT_OK, alt_close_rows(rows));
    SAME(ALT_OK, alt_list(store, "top", &rows));
    SAME(ALT_OK, alt_next_record(rows, &record));
    SAME(0, record.key.number);
    SAME(ALT_OK, alt_close_rows(rows));
    SAME(ALT_BAD_ANSWER, alt_next_record(rows, &record));
    HAS(store, "top", MANY - 1, "duct");
    SAME(ALT_NO_SUCH_ALTERNATIVE, alt_list(store, "b", &rows));
    SAME(1, rows == NULL);
    SAME(ALT_OK, alt_close_rows(rows));
    uint64_t count = 0;
    SAME(ALT_OK, alt_list(store, "top", &rows));
    for (; alt_next_record(rows, &record) == ALT_OK; count++)
        SAME(count, record.key.number);
    SAME(MANY, count);
    SAME(ALT_OK, alt_close_rows(rows));
    /* The store can be closed in the middle of rows. */
    SAME(ALT_OK, alt_commit(store));
    SAME(ALT_OK, alt_list(store, "top", &rows));
    SAME(ALT_OK, alt_close(store));
}

/* More lines than either pipe could hold, and more answers. */
static void lines_are_sent_ahead(void)
{
    enum { MANY = 5000 };
    static alt_ticket tickets[MANY];
    static char value[ALT_LONGEST_VALUE];
    alt_store *store = opened();
    alt_ticket ticket;
    size_t length;
    memset(value, 'a', sizeof value);
    SAME(ALT_OK, alt_put(store, "top", key(7, 1), value, sizeof value));
    for (int at = 0; at < MANY; at++)
        SAME(ALT_OK, alt_send_get(store, "top", key(7, at % 2), &tickets[at]));
    SAME(ALT_OK, alt_send_put(store, "top", key(7, 2), "hose", 4, &ticket));
    /* The last one first. */
    SAME(ALT_OK, alt_take(store, ticket));
    SAME(ALT_NO_SUCH_TICKET, alt_take(store, ticket));
    SAME(ALT_NO_SUCH_TICKET, alt_take(store, ticket + 1));
    for (int at = 0; at < MANY; at++) {
        char came[ALT_LONGEST_VALUE];
        SAME(at % 2 ? ALT_OK : ALT_NO_SUCH_RECORD, alt_take_value(store, tickets[at], came, sizeof came, &length));
        if (at % 2)
            SAME(0, memcmp(value, came, sizeof came));
    }
    HAS(store, "top", 2, "hose");
    SAME(ALT_OK, alt_send_remove(store, "top", key(7, 9), &ticket));
    SAME(ALT_OK, alt_send_commit(store, &tickets[0]));
    SAME(ALT_NO_SUCH_RECORD, alt_take(store, ticket));
    SAME(ALT_OK, alt_take(store, tickets[0]));
    /* What is not taken is carried out all the same. */
    SAME(ALT_OK, alt_send_put(store, "top", key(7, 3), "pipe", 4, &ticket));
    SAME(ALT_OK, alt_send_commit(store, &ticket));
    SAME(ALT_OK, alt_close(store));
    store = opened();
    HAS(store, "top", 3, "pipe");
    SAME(ALT_OK, alt_close(store));
}

static void wake(int signal)
{
    (void)signal;
}

/* While a signal interrupts each call of the system again and again. */
static void a_hundred_thousand_lines_are_sent_ahead(void)
{
    enum { MANY = 100000 };
    static alt_ticket tickets[MANY];
    struct sigaction woken = {.sa_handler = wake};
    struct itimerval often = {{0, 2000}, {0, 2000}}, never = {{0, 0}, {0, 0}};
    alt_store *store = opened();
    sigaction(SIGALRM, &woken, NULL);
    setitimer(ITIMER_REAL, &often, NULL);
    for (int at = 0; at < MANY; at++) {
        char value[16];
        int length = snprintf(value, sizeof value, "%d", at);
        SAME(ALT_OK, alt_send_put(store, "top", key(7, at % 10), value, (size_t)length, &tickets[at]));
    }
    /* From both ends to the middle. */
    for (int at = 0; at < MANY / 2; at++) {
        SAME(ALT_OK, alt_take(store, tickets[at]));
        SAME(ALT_OK, alt_take(store, tickets[MANY - 1 - at]));
    }
    setitimer(ITIMER_REAL, &never, NULL);
    SAME(ALT_NO_SUCH_TICKET, alt_take(store, tickets[MANY / 2]));
    HAS(store, "top", 3, "99993");
    SAME(ALT_OK, alt_close(store));
}

/* Of three answers one is left each time, so those that were taken lie between those that wait. */
static void some_answers_are_left(void)
{
    enum { MANY = 200 };
    alt_ticket left[MANY], second, third;
    alt_store *store = opened();
    for (uint64_t number = 0; number < MANY; number++) {
        SAME(ALT_OK, alt_send_put(store, "top", key(7, number % 10), number % 7 ? "duct" : "pipe", 4, &third));
        SAME(ALT_OK, alt_send_get(store, "top", key(7, number % 10), &left[number]));
        SAME(ALT_OK, alt_send_remove(store, "top", key(8, number), &second));
        SAME(ALT_OK, alt_send_commit(store, &third));
        SAME(ALT_OK, alt_take(store, third));
        SAME(ALT_NO_SUCH_RECORD, alt_take(store, second));
    }
    for (uint64_t number = MANY; number-- > 0;) {
        char value[4];
        size_t length = 0;
        SAME(ALT_OK, alt_take_value(store, left[number], value, sizeof value, &length));
        SAME(4, length);
        SAME(0, memcmp(value, number % 7 ? "duct" : "pipe", 4));
        SAME(ALT_NO_SUCH_TICKET, alt_take_value(store, left[number], value, sizeof value, &length));
    }
    SAME(ALT_OK, alt_take_all(store, NULL));
    SAME(ALT_OK, alt_close(store));
}

static void all_answers_are_taken(void)
{
    alt_store *store = opened();
    alt_ticket first, second, third, refused = 0;
    SAME(ALT_OK, alt_take_all(store, &refused));
    SAME(ALT_OK, alt_send_put(store, "top", key(7, 1), "duct", 4, &first));
    SAME(ALT_OK, alt_send_get(store, "top", key(7, 2), &second));
    SAME(ALT_OK, alt_take_all(store, NULL));
    SAME(ALT_NO_SUCH_TICKET, alt_take(store, first));
    SAME(ALT_OK, alt_send_put(store, "top", key(7, 1), "duct", 4, &first));
    SAME(ALT_OK, alt_send_remove(store, "top", key(7, 9), &second));
    SAME(ALT_OK, alt_send_put(store, "b", key(7, 1), "duct", 4, &third));
    SAME(ALT_NO_SUCH_ALTERNATIVE, alt_take(store, third));
    SAME(ALT_NO_SUCH_RECORD, alt_take_all(store, &refused));
    SAME(second, refused);
    SAME_TEXT("NoSuchRecord", alt_detail(store)->name);
    SAME(0, refused == first);
    SAME(ALT_OK, alt_close(store));
}

static void *puts_from_elsewhere(void *store)
{
    static int error;
    error = put(store, "top", 1, "duct");
    return &error;
}

static void *adopts(void *store)
{
    static int error;
    alt_adopt(store);
    error = put(store, "top", 1, "pipe");
    return &error;
}

static void a_store_has_one_owner(void)
{
    alt_store *store = opened();
    pthread_t thread;
    void *came;
    SAME(0, pthread_create(&thread, NULL, puts_from_elsewhere, store));
    SAME(0, pthread_join(thread, &came));
    SAME(ALT_WRONG_THREAD, *(int *)came);
    HAS(store, "top", 1, NULL);
    SAME(0, pthread_create(&thread, NULL, adopts, store));
    SAME(0, pthread_join(thread, &came));
    SAME(ALT_OK, *(int *)came);
    SAME(ALT_WRONG_THREAD, put(store, "top", 1, "hose"));
    alt_adopt(store);
    pid_t forked = fork();
    if (forked == 0)
        _exit(put(store, "top", 1, "hose") != ALT_WRONG_THREAD || alt_close(store) != ALT_WRONG_THREAD);
    int status = -1;
    SAME(forked, waitpid(forked, &status, 0));
    SAME(0, status);
    SAME(0, pthread_create(&thread, NULL, adopts, store));
    SAME(0, pthread_join(thread, &came));
    SAME_TEXT("another thread or process owns the store", alt_error_text(store, ALT_WRONG_THREAD));
    SAME(ALT_WRONG_THREAD, alt_close(store));
    alt_adopt(store);
    HAS(store, "top", 1, "pipe");
    SAME(ALT_OK, alt_close(store));
}

static void *closes_later(void *store)
{
    alt_adopt(store);
    usleep(100000);
    SAME(ALT_OK, alt_close(store));
    return NULL;
}

static void an_opening_may_wait_for_the_lock(void)
{
    alt_store *store = opened();
    alt_options waits = options;
    pthread_t thread;
    SAME(ALT_OK, put(store, "top", 1, "duct"));
    SAME(ALT_OK, alt_commit(store));
    SAME(ALT_IN_USE, alt_open(&(alt_store *){NULL}, file, &options));
    SAME(0, pthread_create(&thread, NULL, closes_later, store));
    waits.wait = 1;
    SAME(ALT_OK, alt_open(&store, file, &waits));
    SAME(0, pthread_join(thread, NULL));
    HAS(store, "top", 1, "duct");
    SAME(ALT_OK, alt_close(store));
}

/* The program of the one store that is open: the only child of this thread. 0 if the system doesn't tell. */
static pid_t program_of(void)
{
    long found = 0;
    FILE *children = fopen("/proc/thread-self/children", "r");
    if (children == NULL || fscanf(children, "%ld", &found) != 1)
        puts("skipped: the system doesn't tell which children a process has");
    if (children != NULL)
        fclose(children);
    return (pid_t)found;
}

static void a_kill_is_told_and_loses_no_commit(void)
{
    alt_store *store = opened();
    alt_ticket ahead, committed;
    uint64_t blocks;
    pid_t found = program_of();
    /* An interrupt from the terminal reaches the caller alone. */
    SAME(found, found > 0 ? getpgid(found) : found);
    SAME(ALT_OK, alt_send_put(store, "top", key(7, 1), "duct", 4, &ahead));
    SAME(ALT_OK, alt_send_commit(store, &committed));
    SAME(ALT_OK, alt_free_blocks(store, &blocks));
    SAME(ALT_OK, put(store, "top", 2, "pipe"));
    if (found > 0) {
        SAME(0, kill(found, SIGKILL));
        SAME(ALT_ENDED, alt_commit(store));
        SAME(-SIGKILL, alt_detail(store)->status);
        /* Answers that came before it can be taken. */
        SAME(ALT_OK, alt_take(store, ahead));
        SAME(ALT_OK, alt_take(store, committed));
        SAME(ALT_ENDED, put(store, "top", 3, "hose"));
        SAME(-SIGKILL, alt_detail(store)->status);
        SAME_TEXT("the program ended with status -9", alt_error_text(store, ALT_ENDED));
    }
    SAME(found > 0 ? ALT_ENDED : ALT_OK, alt_close(store));
    store = opened();
    HAS(store, "top", 1, "duct");
    HAS(store, "top", 2, NULL);
    SAME(ALT_OK, alt_close(store));
}

/* A kill at some moment of many commits: each that was answered is in the file, and nothing after the next one. */
static void a_kill_among_commits_loses_none(void)
{
    for (int milliseconds = 5; milliseconds <= 45; milliseconds += 20) {
        alt_store *store = opened();
        pid_t found = program_of(), killer = found > 0 ? fork() : -1;
        uint64_t number = 0, shown = 0;
        int error = ALT_OK;
        if (killer == 0) {
            usleep((useconds_t)milliseconds * 1000);
            _exit(kill(found, SIGKILL) != 0);
        }
        while (killer > 0 && error == ALT_OK) {
            char value[24];
            snprintf(value, sizeof value, "%llu", (unsigned long long)++number);
            error = put(store, "top", 1, value);
            if (error == ALT_OK)
                error = alt_commit(store);
        }
        SAME(killer > 0 ? ALT_ENDED : ALT_OK, error);
        alt_close(store);
        SAME(killer, waitpid(killer, NULL, 0));
        store = opened();
        char value[24] = "";
        size_t length;
        error = alt_get(store, "top", key(7, 1), value, sizeof value - 1, &length);
        shown = error == ALT_OK ? strtoull(value, NULL, 10) : 0;
        SAME(1, shown == number || shown + 1 == number || (number == 1 && shown >= 1));
        SAME(ALT_OK, alt_close(store));
    }
}

/* A caller that is killed leaves a program behind, which ends at once: no lock stays, and what was committed does. */
static void a_killed_caller_leaves_no_lock(void)
{
    alt_store *store;
    alt_options waits = options;
    pid_t caller = fork();
    if (caller == 0) {
        store = opened();
        if (put(store, "top", 1, "duct") == ALT_OK && alt_commit(store) == ALT_OK &&
            put(store, "top", 2, "pipe") == ALT_OK)
            kill(getpid(), SIGKILL);
        _exit(1);
    }
    int status = 0;
    SAME(caller, waitpid(caller, &status, 0));
    SAME(SIGKILL, WIFSIGNALED(status) ? WTERMSIG(status) : 0);
    waits.wait = 1;
    SAME(ALT_OK, alt_open(&store, file, &waits));
    HAS(store, "top", 1, "duct");
    HAS(store, "top", 2, NULL);
    SAME(ALT_OK, alt_close(store));
}

static void a_caller_may_have_closed_its_streams(void)
{
    pid_t caller = fork();
    if (caller == 0) {
        alt_store *store;
        for (int stream = 0; stream < 3; stream++)
            close(stream);
        int error = alt_open(&store, file, &options);
        if (error == ALT_OK && alt_open(&(alt_store *){NULL}, file, &options) != ALT_IN_USE)
            error = ALT_IN_USE;
        if (error == ALT_OK)
            error = put(store, "top", 1, "duct");
        if (error == ALT_OK)
            error = alt_commit(store);
        if (error == ALT_OK)
            error = alt_close(store);
        _exit(error != ALT_OK);
    }
    int status = 0;
    SAME(caller, waitpid(caller, &status, 0));
    SAME(0, status);
    alt_store *store = opened();
    HAS(store, "top", 1, "duct");
    SAME(ALT_OK, alt_close(store));
}

/* A disk that fails, which a limit on the size of files stands for: the growth is refused, and the program ends. */
static void a_failing_disk_is_told(void)
{
    struct rlimit before, low;
    alt_store *store;
    getrlimit(RLIMIT_FSIZE, &before);
    low = before;
    low.rlim_cur = 100 * 4096;
    signal(SIGXFSZ, SIG_IGN);
    setrlimit(RLIMIT_FSIZE, &low);
    int error = alt_open(&store, file, &options);
    setrlimit(RLIMIT_FSIZE, &before);
    signal(SIGXFSZ, SIG_DFL);
    SAME(ALT_OK, error);
    SAME(ALT_OK, put(store, "top", 1, "duct"));
    SAME(ALT_OK, alt_commit(store));
    SAME(ALT_DEVICE, alt_grow(store, 128));
    SAME(ALT_ENDED, put(store, "top", 2, "pipe"));
    SAME(3, alt_detail(store)->status);
    SAME_TEXT("the program ended with status 3: altctl: stopped", alt_error_text(store, ALT_ENDED));
    SAME(ALT_ENDED, alt_close(store));
    store = opened();
    HAS(store, "top", 1, "duct");
    SAME(ALT_OK, alt_close(store));
}

static void rows_end_with_the_program(void)
{
    alt_store *store = opened();
    alt_rows *rows;
    alt_record record;
    char value[ALT_LONGEST_VALUE] = "";
    pid_t found = program_of();
    SAME(ALT_OK, alt_grow(store, 65536));
    for (uint64_t number = 0; number < 200; number++)
        SAME(ALT_OK, alt_put(store, "top", key(7, number), value, sizeof value));
    SAME(ALT_OK, alt_list(store, "top", &rows));
    if (found > 0) {
        int error = ALT_OK;
        uint64_t count = 0;
        /* 200 rows of 12,000 bytes are more than the socket holds, so the program is in the middle of them. */
        SAME(0, kill(found, SIGKILL));
        while ((error = alt_next_record(rows, &record)) == ALT_OK)
            SAME(count++, record.key.number);
        SAME(ALT_ENDED, error);
        SAME(1, count < 200);
        SAME(ALT_ENDED, alt_close_rows(rows));
    }
    SAME(found > 0 ? ALT_ENDED : ALT_OK, alt_close(store));
}

static void a_file_may_have_any_name(void)
{
    const char *names[] = {"Stra\u00DFe 7.alt", "--cache", " %20\n"};
    for (size_t at = 0; at < sizeof names / sizeof *names; at++) {
        char path[4200];
        alt_store *store;
        snprintf(path, sizeof path, "%.*s%s", (int)(strrchr(file, '/') + 1 - file), file, names[at]);
        SAME(ALT_OK, alt_create(path, 64, &options));
        SAME(ALT_OK, alt_open(&store, path, &options));
        SAME(ALT_OK, put(store, "top", 1, "duct"));
        SAME(ALT_OK, alt_close(store));
        SAME(0, unlink(path));
    }
    /* The program takes names in UTF-8 alone. */
    SAME(ALT_CANNOT_CREATE, alt_create("\xFF.alt", 64, &options));
}

/* A program that answers the opening, then the lines that come with `answers`, and ends. */
static alt_store *answered(const char *answers)
{
    char path[4200];
    alt_store *store;
    alt_options other = options;
    snprintf(path, sizeof path, "%s.sh", file);
    FILE *script = fopen(path, "w");
    fprintf(script, "#!/bin/sh\nread -r line; echo free 9\nread -r line; printf '%s'\n", answers);
    fclose(script);
    chmod(path, 0755);
    other.program = path;
    SAME(ALT_OK, alt_open(&store, file, &other));
    unlink(path);
    return store;
}

static void other_answers_are_told(void)
{
    const char *to_gets[] = {"nonsense\\n",  "\\n",        "value\\n",     "error\\n",
                             "error x y\\n", "error 5\\n", "error 0 Ok\\n"};
    const char *to_lists[] = {"record\\n", "record 7\\n", "record 7 1\\n", "record 7 1 duct pipe\\n", "nonsense\\n"};
    char value[8];
    size_t length;
    alt_rows *rows;
    alt_record record;
    alt_cursor *cursor;
    for (size_t at = 0; at < sizeof to_gets / sizeof *to_gets; at++) {
        alt_store *store = answered(to_gets[at]);
        int error = alt_get(store, "top", key(7, 1), value, sizeof value, &length);
        /* What only begins like a refusal is none. */
        SAME(ALT_BAD_ANSWER, error);
        alt_close(store);
    }
    for (size_t at = 0; at < sizeof to_lists / sizeof *to_lists; at++) {
        alt_store *store = answered(to_lists[at]);
        SAME(ALT_OK, alt_list(store, "top", &rows));
        SAME(ALT_BAD_ANSWER, alt_next_record(rows, &record));
        SAME(ALT_ENDED, alt_close_rows(rows));
        alt_close(store);
    }
    alt_store *store = answered("value %%4\\n");
    SAME(ALT_OK, alt_get(store, "top", key(7, 1), value, sizeof value, &length));
    SAME(ALT_OK, alt_close(store));
    store = answered("value half");
    SAME(ALT_ENDED, alt_get(store, "top", key(7, 1), value, sizeof value, &length));
    SAME(ALT_OK, alt_close(store));
    store = answered("record 7 1 duct\\nerror 18 Damaged 34\\n");
    SAME(ALT_OK, alt_list(store, "top", &rows));
    SAME(ALT_OK, alt_next_record(rows, &record));
    SAME(ALT_DAMAGED, alt_next_record(rows, &record));
    SAME(34, alt_detail(store)->count);
    SAME(ALT_DAMAGED, alt_close_rows(rows));
    SAME(ALT_OK, alt_close(store));
    /* Of a page that ends so nothing is given. */
    store = answered("record 7 1 duct\\nerror 18 Damaged 34\\n");
    SAME(ALT_DAMAGED, alt_scan(store, "top", &cursor));
    SAME(34, alt_detail(store)->count);
    SAME(1, cursor == NULL);
    SAME(ALT_OK, alt_close(store));
    store = answered("record 7 1 ~\\nend 1\\n");
    SAME(ALT_OK, alt_scan(store, "top", &cursor));
    SAME(ALT_OK, alt_step(cursor, &record));
    SAME(0, record.value.length);
    SAME(ALT_DONE, alt_step(cursor, &record));
    alt_close_cursor(cursor);
    SAME(ALT_OK, alt_close(store));
}

static void what_cannot_be_opened_is_told(void)
{
    alt_store *store, *second;
    SAME(ALT_SYSTEM, alt_open(&store, "/nowhere/map.alt", &options));
    SAME(ENOENT, errno);
    SAME(1, store == NULL);
    store = opened();
    SAME(ALT_IN_USE, alt_open(&second, file, &options));
    SAME(ALT_OK, alt_close(store));
    alt_options wrong = {.program = "/nowhere/altctl"};
    SAME(ALT_NO_PROGRAM, alt_open(&store, file, &wrong));
    SAME(ENOENT, errno);
    alt_close(store);
    wrong = options;
    wrong.cache = 65537;
    SAME(ALT_ENDED, alt_open(&store, file, &wrong));
    SAME(2, alt_detail(store)->status);
    SAME(ALT_ENDED, alt_close(store));
    SAME(ALT_CANNOT_CREATE, alt_create(file, 64, &options));
    FILE *zeros = fopen(file, "wb");
    SAME(0, ftruncate(fileno(zeros), 64 * 4096));
    fclose(zeros);
    SAME(ALT_NOT_A_STORE, alt_open(&store, file, &options));
    SAME_TEXT("NotAStore", alt_detail(store)->name);
    SAME(ALT_NOT_A_STORE, alt_close(store));
    /* The header of an earlier format, of which the program says more on a second line. */
    FILE *earlier = fopen(file, "r+b");
    SAME(16, fwrite("ALTSTORE\1\0\0\0\0\20\0\0", 1, 16, earlier));
    fclose(earlier);
    SAME(ALT_NOT_A_STORE, alt_open(&store, file, &options));
    SAME_TEXT("NotAStore", alt_detail(store)->name);
    SAME(ALT_NOT_A_STORE, alt_close(store));
    SAME(0, unlink(file));
    SAME(ALT_BAD_SIZE, alt_create(file, 63, &options));
    SAME(-1, access(file, F_OK));
    SAME(ALT_OK, alt_create(file, 64, &options));
    SAME(ALT_OK, alt_close(NULL));
}

/* --- copies ----------------------------------------------------------------------------------------- */

/* The names of two files beside the store, which are not there. */
static char first_copy[4100], second_copy[4100];

static void remove_copies(void)
{
    snprintf(first_copy, sizeof first_copy, "%s.first", file);
    snprintf(second_copy, sizeof second_copy, "%s.second", file);
    unlink(first_copy);
    unlink(second_copy);
}

/* Looks whether two files have the same bytes. */
static int have_same_bytes(const char *one, const char *other)
{
    FILE *files[2] = {fopen(one, "rb"), fopen(other, "rb")};
    int bytes[2] = {0, 0};
    while (files[0] != NULL && files[1] != NULL && bytes[0] == bytes[1] && bytes[0] != EOF)
        for (int at = 0; at < 2; at++)
            bytes[at] = fgetc(files[at]);
    for (int at = 0; at < 2; at++)
        if (files[at] != NULL)
            fclose(files[at]);
    return bytes[0] == EOF && bytes[1] == EOF;
}

static void what_was_committed_is_copied(void)
{
    alt_size size = {0, 0};
    remove_copies();
    SAME(ALT_OK, alt_copy(file, first_copy, 0, &size, &options));
    SAME(34, size.used);
    SAME(1, have_same_bytes(file, first_copy));
    alt_store *store = opened(), *copy;
    SAME(ALT_OK, alt_put(store, "top", (alt_key){7, 1}, "duct", 4));
    SAME(ALT_OK, alt_commit(store));
    SAME(ALT_IN_USE, alt_copy(file, second_copy, 0, &size, &options));
    SAME(-1, access(second_copy, F_OK));
    SAME(ALT_OK, alt_close(store));
    alt_options reading = options;
    reading.read_only = 1;
    SAME(ALT_OK, alt_open(&store, file, &reading));
    SAME(ALT_OK, alt_copy(file, second_copy, 5000, &size, &options));
    SAME(5000, size.blocks);
    SAME(35, size.used);
    SAME(ALT_CANNOT_CREATE, alt_copy(file, second_copy, 0, NULL, &options));
    SAME(ALT_OK, alt_close(store));
    SAME(ALT_OK, alt_open(&copy, second_copy, &options));
    char value[8];
    size_t length;
    uint64_t blocks;
    SAME(ALT_OK, alt_get(copy, "top", (alt_key){7, 1}, value, sizeof value, &length));
    SAME(4, length);
    SAME(ALT_OK, alt_blocks(copy, &blocks));
    SAME(5000, blocks);
    SAME(ALT_OK, alt_close(copy));
    remove_copies();
}

static void what_cannot_be_copied_is_told(void)
{
    char value[ALT_LONGEST_VALUE] = {0};
    alt_store *store = opened();
    remove_copies();
    SAME(ALT_OK, alt_grow(store, 128));
    for (uint64_t number = 0; number < 40; number++)
        SAME(ALT_OK, alt_put(store, "top", (alt_key){7, number}, value, sizeof value));
    SAME(ALT_OK, alt_commit(store));
    SAME(ALT_OK, alt_close(store));
    SAME(ALT_FULL, alt_copy(file, first_copy, 64, NULL, &options));
    SAME(ALT_BAD_SIZE, alt_copy(file, first_copy, 63, NULL, &options));
    SAME(ALT_BAD_SIZE, alt_copy(file, first_copy, (1 << 26) + 1, NULL, &options));
    SAME(ALT_SYSTEM, alt_copy("/nowhere/map.alt", first_copy, 0, NULL, &options));
    SAME(ENOENT, errno);
    alt_options wrong = {.program = "/nowhere/altctl"};
    SAME(ALT_NO_PROGRAM, alt_copy(file, first_copy, 0, NULL, &wrong));
    SAME(-1, access(first_copy, F_OK));
    SAME(ALT_CANNOT_CREATE, alt_copy(file, "/nowhere/copy", 0, NULL, &options));
    SAME(ALT_CANNOT_CREATE, alt_copy(file, file, 0, NULL, &options));
    SAME(ALT_OK, alt_copy(file, first_copy, 0, NULL, &options));
    SAME(0, truncate(first_copy, 100000));
    SAME(ALT_NOT_A_STORE, alt_copy(first_copy, second_copy, 0, NULL, &options));
    SAME(-1, access(second_copy, F_OK));
    remove_copies();
}

/* --- behind a service ------------------------------------------------------------------------------- */

/* Starts the service over the file, and connects to it. */
static alt_store *served(pid_t *started)
{
    char address[4100];
    alt_store *store = NULL;
    int error = ALT_SYSTEM;
    snprintf(address, sizeof address, "unix:%s.sock", file);
    *started = fork();
    if (*started == 0) {
        freopen("/dev/null", "w", stderr);
        execl(service, service, "--program", program, file, (char *)NULL);
        _exit(127);
    }
    for (int tries = 0; error == ALT_SYSTEM && tries < 1000 && waitpid(*started, NULL, WNOHANG) == 0; tries++) {
        usleep(20000);
        error = alt_open(&store, address, NULL);
    }
    if (error != ALT_OK) {
        printf("%s cannot be reached: %s\n", address, alt_error_text(store, error));
        kill(*started, SIGKILL);
        exit(1);
    }
    return store;
}

static void end_service(pid_t started)
{
    int status = 0;
    char name[4100];
    SAME(0, kill(started, SIGTERM));
    SAME(started, waitpid(started, &status, 0));
    SAME(0, status);
    snprintf(name, sizeof name, "%s.journal", file);
    SAME(0, unlink(name));
}

static void a_service_commits_each_change(void)
{
    pid_t started;
    alt_store *store = served(&started);
    alt_rows *rows;
    alt_cursor *cursor, *second;
    alt_record record;
    alt_ticket tickets[2];
    char value[8];
    size_t length = 0;
    SAME(ALT_OK, alt_new(store, "north", "top"));
    SAME(ALT_OK, alt_send_put(store, "north", key(7, 1), "duct", 4, &tickets[0]));
    SAME(ALT_OK, alt_send_get(store, "north", key(7, 1), &tickets[1]));
    SAME(ALT_OK, alt_take_value(store, tickets[1], value, sizeof value, &length));
    SAME(4, length);
    SAME(ALT_OK, alt_take(store, tickets[0]));
    SAME(ALT_OK, alt_commit(store));
    SAME(ALT_OK, alt_rollback(store));
    HAS(store, "north", 1, "duct");
    SAME(ALT_DENIED, alt_put(store, ".service", key(7, 1), "duct", 4));
    SAME_TEXT("90 Denied change .service", alt_error_text(store, ALT_DENIED));
    SAME(ALT_OK, alt_list_range(store, "north", 7, 1, 1, &rows));
    SAME(ALT_OK, alt_next_record(rows, &record));
    SAME_VALUE("duct", record.value);
    SAME(ALT_OK, alt_close_rows(rows));
    SAME(ALT_OK, alt_scan(store, "north", &cursor));
    SAME(ALT_OK, alt_begin(store));
    SAME(ALT_IN_BATCH, alt_scan(store, "north", &second));
    SAME(ALT_OK, alt_step(cursor, &record));
    SAME_VALUE("duct", record.value);
    SAME(ALT_DONE, alt_step(cursor, &record));
    alt_close_cursor(cursor);
    SAME(ALT_OK, alt_close(store));
    end_service(started);
    store = opened();
    HAS(store, "north", 1, "duct");
    SAME(ALT_OK, alt_close(store));
}

static void a_batch_is_made_as_a_whole(void)
{
    pid_t started;
    alt_store *store = served(&started);
    alt_rows *rows;
    alt_ticket ticket;
    uint64_t changed = 9;
    SAME(ALT_OK, alt_begin(store));
    SAME(ALT_IN_BATCH, alt_begin(store));
    SAME(ALT_OK, alt_new(store, "north", "top"));
    SAME(ALT_OK, put(store, "north", 1, "duct"));
    SAME(ALT_IN_BATCH, alt_list(store, "north", &rows));
    SAME(ALT_IN_BATCH, alt_send_remove(store, "north", key(7, 1), &ticket));
    SAME(ALT_IN_BATCH, alt_take_all(store, NULL));
    SAME(ALT_OK, alt_merge(store, "north", NULL, 0, &changed));
    SAME(0, changed);
    SAME(ALT_OK, alt_post(store, "north"));
    SAME(ALT_OK, alt_commit(store));
    HAS(store, "top", 1, "duct");
    SAME(ALT_OK, alt_begin(store));
    SAME(ALT_OK, alt_commit(store));
    SAME(ALT_OK, alt_close(store));
    end_service(started);
    store = opened();
    HAS(store, "top", 1, "duct");
    SAME(ALT_BAD_LINE, alt_begin(store));
    SAME(ALT_OK, put(store, "top", 2, "hose"));
    SAME(ALT_OK, alt_close(store));
}

static void a_batch_may_be_refused_or_forgotten(void)
{
    pid_t started;
    alt_store *store = served(&started);
    SAME(ALT_OK, alt_begin(store));
    SAME(ALT_OK, put(store, "top", 2, "hose"));
    SAME(ALT_OK, alt_remove(store, "top", key(7, 9)));
    SAME(ALT_OK, put(store, "top", 3, "hose"));
    SAME(ALT_NO_SUCH_RECORD, alt_commit(store));
    SAME(2, alt_detail(store)->line);
    SAME_TEXT("5 NoSuchRecord", alt_error_text(store, ALT_NO_SUCH_RECORD));
    HAS(store, "top", 2, NULL);
    SAME(ALT_OK, alt_begin(store));
    SAME(ALT_OK, put(store, "top", 2, "pipe"));
    SAME(ALT_OK, alt_abort(store));
    HAS(store, "top", 2, NULL);
    SAME(ALT_OK, alt_begin(store));
    SAME(ALT_OK, put(store, "top", 2, "pipe"));
    SAME(ALT_OK, alt_rollback(store));
    HAS(store, "top", 2, NULL);
    SAME(ALT_OK, alt_begin(store));
    SAME(ALT_OK, put(store, "top", 2, "pipe"));
    SAME(ALT_OK, alt_close(store));
    end_service(started);
    store = opened();
    HAS(store, "top", 2, NULL);
    SAME(ALT_OK, alt_close(store));
}

static void the_end_of_a_service_is_told(void)
{
    pid_t started;
    alt_store *store = served(&started);
    SAME(ALT_OK, put(store, "top", 1, "duct"));
    end_service(started);
    SAME(ALT_ENDED, put(store, "top", 2, "duct"));
    SAME_TEXT("the service has closed the connection", alt_error_text(store, ALT_ENDED));
    SAME(ALT_OK, alt_close(store));
}

#define TEST(name) {#name, name, 0}
#define SERVED(name) {#name, name, 1}

static const struct {
    const char *name;
    void (*run)(void);
    int needs_service;
} tests[] = {
    TEST(a_record_is_there_after_a_commit),
    TEST(what_was_not_committed_is_undone),
    TEST(each_byte_comes_back),
    TEST(percent_signs_come_back),
    TEST(changes_and_conflicts_are_listed),
    TEST(versions_are_read_and_compared),
    TEST(parts_and_pages_are_those_of_a_model),
    TEST(parts_of_unknown_versions_are_refused),
    TEST(a_cursor_pages_to_the_end),
    TEST(a_cursor_lets_others_ask),
    TEST(a_cursor_is_of_the_owner),
    TEST(a_design_is_settled_and_posted),
    TEST(a_side_settles_all_conflicts),
    TEST(names_are_listed),
    TEST(a_store_grows),
    TEST(a_store_grows_by_itself),
    TEST(a_store_may_be_read_alone),
    TEST(what_is_no_word_is_not_sent),
    TEST(refusals_have_their_numbers),
    TEST(errors_have_names),
    TEST(rows_may_be_left_unread),
    TEST(lines_are_sent_ahead),
    TEST(a_hundred_thousand_lines_are_sent_ahead),
    TEST(some_answers_are_left),
    TEST(all_answers_are_taken),
    TEST(a_store_has_one_owner),
    TEST(an_opening_may_wait_for_the_lock),
    TEST(a_kill_is_told_and_loses_no_commit),
    TEST(a_kill_among_commits_loses_none),
    TEST(a_killed_caller_leaves_no_lock),
    TEST(a_caller_may_have_closed_its_streams),
    TEST(a_failing_disk_is_told),
    TEST(rows_end_with_the_program),
    TEST(a_file_may_have_any_name),
    TEST(other_answers_are_told),
    TEST(what_cannot_be_opened_is_told),
    TEST(what_was_committed_is_copied),
    TEST(what_cannot_be_copied_is_told),
    SERVED(a_service_commits_each_change),
    SERVED(a_batch_is_made_as_a_whole),
    SERVED(a_batch_may_be_refused_or_forgotten),
    SERVED(the_end_of_a_service_is_told),
};

int main(int count, char **words)
{
    if (count != 3 && count != 4) {
        fputs("usage: test_altctl PROGRAM FOLDER [SERVICE]\n", stderr);
        return 2;
    }
    setvbuf(stdout, NULL, _IONBF, 0);
    program = words[1];
    options.program = program;
    service = count == 4 ? words[3] : NULL;
    snprintf(file, sizeof file, "%s/map.alt", words[2]);
    for (size_t at = 0; at < sizeof tests / sizeof *tests; at++) {
        if (tests[at].needs_service && service == NULL)
            continue;
        unlink(file);
        if (alt_create(file, 64, &options) != ALT_OK) {
            printf("%s cannot be made\n", file);
            return 1;
        }
        int before = failures;
        tests[at].run();
        printf("%s %s\n", failures == before ? "ok" : "FAILED", tests[at].name);
    }
    unlink(file);
    printf("%zu tests%s, %d failures\n", sizeof tests / sizeof *tests,
           service == NULL ? " but those of a service" : "", failures);
    return failures > 0;
}
