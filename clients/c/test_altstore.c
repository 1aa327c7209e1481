/* Tests of libaltstore: `test_altstore PROGRAM FOLDER`. PROGRAM is altctl, with which the images are compared, and
   FOLDER an empty one. Prints the number of its checks, or the first that failed. */
#define _POSIX_C_SOURCE 200809L
#include "altstore.h"

#include <fcntl.h>
#include <stdio.h>
#include <stdlib.h>
#include <string.h>
#include <unistd.h>

static int checks;

#define CHECK(condition) check(condition, #condition, __LINE__)

static void check(bool holds, const char *text, int line)
{
    checks++;
    if (!holds) {
        fprintf(stderr, "test_altstore.c:%d: %s\n", line, text);
        exit(1);
    }
}

/* Asks lines, and compares code and answers. */
static bool asks(altstore *store, const char *lines, bool stops, uint32_t code, const char *due)
{
    uint32_t came = altstore_ask(store, (const uint8_t *)lines, strlen(lines), stops);
    size_t length = altstore_length(store);
    uint8_t *answers = malloc(length + 1);
    size_t copied = altstore_answers(store, 0, answers, length + 1);
    bool same = came == code && copied == length && length == strlen(due) && memcmp(answers, due, length) == 0;
    if (!same)
        fprintf(stderr, "%s: code %u, answers: %.*s\n", lines, came, (int)copied, (const char *)answers);
    free(answers);
    return same;
}

static int file(const char *folder, const char *name, int flags)
{
    char path[4096];
    snprintf(path, sizeof path, "%s/%s", folder, name);
    int descriptor = open(path, flags, 0666);
    CHECK(descriptor >= 0);
    return descriptor;
}

/* Runs the program with words, and compares what it says. */
static bool runs(const char *program, const char *folder, const char *words, const char *due)
{
    char command[8192], came[4096];
    snprintf(command, sizeof command, "cd '%s' && '%s' %s 2>&1", folder, program, words);
    FILE *output = popen(command, "r");
    size_t length = fread(came, 1, sizeof came - 1, output);
    came[length] = 0;
    pclose(output);
    if (strcmp(came, due) != 0)
        fprintf(stderr, "%s: %s", words, came);
    return strcmp(came, due) == 0;
}

static void test_closed(void)
{
    altstore store = ALTSTORE_CLOSED_HANDLE;
    uint8_t buffer[8] = {1, 2, 3};
    CHECK(altstore_ask(&store, buffer, 3, false) == ALTSTORE_CLOSED);
    CHECK(altstore_length(&store) == 0);
    CHECK(altstore_answers(&store, 0, buffer, sizeof buffer) == 0 && buffer[0] == 1);
    CHECK(altstore_save(&store, 1) == ALTSTORE_CLOSED);
    altstore_close(&store);
    altstore_close(&store);
    CHECK(!store.is_open);
}

static void test_sizes(void)
{
    altstore store = ALTSTORE_CLOSED_HANDLE;
    CHECK(altstore_new(&store, 63, 63) == ALTSTORE_BAD_SIZE && !store.is_open);
    CHECK(altstore_new(&store, 67108865, 0) == ALTSTORE_BAD_SIZE && !store.is_open);
    CHECK(altstore_new(&store, 64, 0) == ALTSTORE_OK && store.is_open);
    CHECK(altstore_new(&store, 64, 0) == ALTSTORE_OPEN && store.is_open);
    CHECK(asks(&store, "blocks\nalts\n", false, ALTSTORE_OK, "blocks 64\nalternative top ~\nend 1\n"));
    altstore_close(&store);
    CHECK(!store.is_open);
    altstore_close(&store);
    CHECK(altstore_new(&store, 64, 0) == ALTSTORE_OK);
    altstore_close(&store);
}

static void test_lines(void)
{
    altstore store = ALTSTORE_CLOSED_HANDLE;
    CHECK(altstore_new(&store, 64, 128) == ALTSTORE_OK);
    CHECK(asks(&store, "put top 7 1 duct\nnew north top\nput north 7 1 pipe\nget north 7 1\nget top 7 1", false,
               ALTSTORE_OK,
               "ok\nok\nok\nvalue pipe\nvalue duct\n"));
    CHECK(asks(&store, "", false, ALTSTORE_OK, ""));
    CHECK(asks(&store, "get south 7 1\nget top 7 1\n", false, ALTSTORE_LINE_REFUSED,
               "error 1 NoSuchAlternative\nvalue duct\n"));
    CHECK(asks(&store, "get south 7 1\nget top 7 1\n", true, ALTSTORE_LINE_REFUSED, "error 1 NoSuchAlternative\n"));
    uint8_t part[4];
    CHECK(altstore_answers(&store, 8, part, sizeof part) == 4 && memcmp(part, "NoSu", 4) == 0);
    CHECK(altstore_answers(&store, 1000, part, sizeof part) == 0 && memcmp(part, "NoSu", 4) == 0);
    CHECK(altstore_answers(&store, 23, part, sizeof part) == 3 && memcmp(part, "ve\nu", 4) == 0);
    CHECK(asks(&store, "grow 128\nblocks\n", false, ALTSTORE_OK, "ok\nblocks 128\n"));
    CHECK(asks(&store, "grow 129\n", false, ALTSTORE_FAILED, "error 15 Device\n"));
    CHECK(asks(&store, "get top 7 1\nfree\n", false, ALTSTORE_FAILED, "error 17 Failed\n"));
    altstore_close(&store);
}

/* An image that is saved is a file of the program, and the other way round. */
static void test_images(const char *program, const char *folder)
{
    altstore store = ALTSTORE_CLOSED_HANDLE;
    CHECK(altstore_new(&store, 64, 64) == ALTSTORE_OK);
    CHECK(asks(&store, "put top 7 1 duct\ncommit\nput top 7 2 lost\n", false, ALTSTORE_OK, "ok\nok\nok\n"));
    int descriptor = file(folder, "saved.alt", O_CREAT | O_TRUNC | O_RDWR);
    CHECK(altstore_save(&store, descriptor) == ALTSTORE_OK && store.is_open);
    CHECK(lseek(descriptor, 0, SEEK_END) == 64 * 4096);
    close(descriptor);
    CHECK(asks(&store, "list top\n", false, ALTSTORE_OK, "record 7 1 duct\nend 1\n"));
    altstore_close(&store);
    CHECK(runs(program, folder, "do saved.alt 'list top' 'put top 7 3 more' commit",
               "record 7 1 duct\nend 1\nok\nok\n"));
    descriptor = file(folder, "saved.alt", O_RDONLY);
    CHECK(altstore_load(&store, descriptor, 0) == ALTSTORE_OK);
    CHECK(altstore_load(&store, descriptor, 0) == ALTSTORE_OPEN);
    CHECK(asks(&store, "list top\n", false, ALTSTORE_OK, "record 7 1 duct\nrecord 7 3 more\nend 2\n"));
    altstore_close(&store);
    CHECK(lseek(descriptor, 0, SEEK_SET) == 0);
    static uint8_t image[64 * 4096 + 100];
    CHECK(read(descriptor, image, sizeof image) == 64 * 4096);
    close(descriptor);
    CHECK(altstore_load_bytes(&store, image, sizeof image, 0) == ALTSTORE_OK);
    CHECK(asks(&store, "get top 7 3\n", false, ALTSTORE_OK, "value more\n"));
    altstore_close(&store);
    CHECK(altstore_load_bytes(&store, image, 63 * 4096, 0) != ALTSTORE_OK && !store.is_open);
    CHECK(altstore_load_bytes(&store, image, 0, 0) == ALTSTORE_NOT_A_STORE && !store.is_open);
    image[0] ^= 1;
    CHECK(altstore_load_bytes(&store, image, 64 * 4096, 0) == ALTSTORE_NOT_A_STORE && !store.is_open);
}

static void test_descriptors(const char *folder)
{
    altstore store = ALTSTORE_CLOSED_HANDLE;
    CHECK(altstore_load(&store, -1, 0) == ALTSTORE_UNREAD && !store.is_open);
    int descriptor = file(folder, "saved.alt", O_RDONLY);
    CHECK(altstore_load(&store, descriptor, 0) == ALTSTORE_OK);
    CHECK(altstore_save(&store, descriptor) == ALTSTORE_UNWRITTEN && store.is_open);
    CHECK(asks(&store, "get top 7 1\n", false, ALTSTORE_OK, "value duct\n"));
    close(descriptor);
    altstore_close(&store);
}

int main(int count, char **words)
{
    if (count != 3) {
        fprintf(stderr, "usage: test_altstore PROGRAM FOLDER\n");
        return 2;
    }
    test_closed();
    test_sizes();
    test_lines();
    test_images(words[1], words[2]);
    test_descriptors(words[2]);
    printf("%d checks passed\n", checks);
    return 0;
}
