/* A store in altctl's format, written by hand in C, with no proofs, for measuring beside altctl: `measure.sh`
   compiles and calls it. It is what one writes straightforwardly: each block that a change makes is written at once,
   by one call; 256 blocks are kept in memory, those that were used last, without their sums; blocks are read where they
   lie, and of a path only heads are tested. Files, lines, answers and statuses are those of docs/FORMATS.md, so each program opens the
   files of the other, and `compare.py --plain` tries this one, too. It has the lines alone that both are measured by.
   It is trusted with nothing: memory that is refused and a file that fails end it.

   plain create FILE BLOCKS
   plain run [--buffer 0] FILE     no written block waits, with the words `--buffer 0` and without
   plain check FILE */
#define _GNU_SOURCE
#include <endian.h>
#include <fcntl.h>
#include <setjmp.h>
#include <stdarg.h>
#include <stdbool.h>
#include <stdint.h>
#include <stdio.h>
#include <stdlib.h>
#include <string.h>
#include <sys/stat.h>
#include <unistd.h>

enum { FORMAT = 3, BLOCK = 4096, FIRST = 34, LEAST_BLOCKS = 64, MOST_BLOCKS = 1 << 26 };
enum { SLOT_A = 2, SLOT_B = 18, SLOT_BLOCKS = 16, CELL = 128, ENTRIES = 511, NAME = 33 };
enum { SLOT_SUM = 124, DATA_SUM = 12, LANES = 4 };
enum { HEAD = 16, LEAF_ROOM = BLOCK - HEAD, ENTRY = 12, FAN = 256, LEVELS = 8, CHILD = 14, VALUE = 4000 };
enum { BLOCKS_A_CHANGE = 17, KEPT = 256, BUCKETS = 512, LINE = 1 << 20, CHUNK = 1 << 16 };

typedef unsigned char byte;

struct key {
    uint16_t table;
    uint64_t number;
};

/* Where the bytes of a value lie; there is none where its length is -1. */
struct value {
    int length;
    const byte *bytes;
};

/* --- refusals ------------------------------------------------------------------------------------ */

enum {
    NO_SUCH_ALTERNATIVE = 1, ALTERNATIVE_EXISTS, NO_SUCH_CHECKPOINT, CHECKPOINT_EXISTS, NO_SUCH_RECORD, IS_TOP,
    HAS_CHILDREN, NOT_MERGED, UNSETTLED, NOT_IN_CONFLICT, SETTLED_TWICE, TOO_MANY, FULL, DEEP, DEVICE, MEMORY, FAILED,
    DAMAGED, NOT_A_STORE, ALREADY_A_STORE, BAD_SIZE, BAD_LINE, LONG_LINE
};

static const char *const refusal_names[] = {
    "", "NoSuchAlternative", "AlternativeExists", "NoSuchCheckpoint", "CheckpointExists", "NoSuchRecord", "IsTop",
    "HasChildren", "NotMerged", "Unsettled", "NotInConflict", "SettledTwice", "TooMany", "Full", "Deep", "Device",
    "Memory", "Failed", "Damaged", "NotAStore", "AlreadyAStore", "BadSize", "BadLine", "LongLine",
};

static jmp_buf refused;
static int refusal;
static uint32_t damaged_block;
static char refusal_text[96];

/* Ends a line, or an opening, with a refusal, and what it tells beside its name. */
__attribute__((noreturn, format(printf, 2, 3))) static void refuse_with(int number, const char *detail, ...)
{
    va_list values;
    int length = snprintf(refusal_text, sizeof refusal_text, "%d %s", number, refusal_names[number]);
    va_start(values, detail);
    vsnprintf(refusal_text + length, sizeof refusal_text - (size_t)length, detail, values);
    va_end(values);
    refusal = number;
    longjmp(refused, 1);
}

__attribute__((noreturn)) static void refuse(int number)
{
    refuse_with(number, "%s", "");
}

__attribute__((noreturn)) static void damaged(uint32_t block)
{
    damaged_block = block;
    refuse_with(DAMAGED, " %u", block);
}

__attribute__((noreturn)) static void stop(void)
{
    fputs("altctl: stopped\n", stderr);
    exit(3);
}

/* Memory for so many things of a size, in place of what was there. */
static void *enlarged(void *old, size_t count, size_t size)
{
    void *room = reallocarray(old, count, size);
    if (!room)
        stop();
    return room;
}

/* --- numbers in blocks --------------------------------------------------------------------------- */

static uint16_t load16(const byte *at)
{
    uint16_t number;
    memcpy(&number, at, sizeof number);
    return le16toh(number);
}

static uint32_t load32(const byte *at)
{
    uint32_t number;
    memcpy(&number, at, sizeof number);
    return le32toh(number);
}

static uint64_t load64(const byte *at)
{
    uint64_t number;
    memcpy(&number, at, sizeof number);
    return le64toh(number);
}

static void store16(byte *at, uint16_t number)
{
    number = htole16(number);
    memcpy(at, &number, sizeof number);
}

static void store32(byte *at, uint32_t number)
{
    number = htole32(number);
    memcpy(at, &number, sizeof number);
}

static void store64(byte *at, uint64_t number)
{
    number = htole64(number);
    memcpy(at, &number, sizeof number);
}

static bool is_zero(const byte *bytes, size_t count)
{
    return count == 0 || (bytes[0] == 0 && memcmp(bytes, bytes + 1, count - 1) == 0);
}

/* --- the sums in blocks -------------------------------------------------------------------------- */

static const uint64_t primes[] = {
    0, 0x9e3779b185ebca87, 0xc2b2ae3d27d4eb4f, 0x165667b19e3779f9, 0x85ebca77c2b2ae63,
};

static uint64_t rotated(uint64_t number, int by)
{
    return number << by | number >> (64 - by);
}

/* A lane after a word. */
static uint64_t with_word(uint64_t lane, uint64_t word)
{
    return rotated(lane + word * primes[2], 31) * primes[1];
}

/* XXH64 of a block, with seed 0. */
static uint64_t hash_of(const byte *block)
{
    uint64_t lanes[LANES] = {primes[1] + primes[2], primes[2], 0, -primes[1]};
    for (const byte *at = block; at < block + BLOCK; at += 8 * LANES)
        for (int i = 0; i < LANES; i++)
            lanes[i] = with_word(lanes[i], load64(at + 8 * i));
    uint64_t hash = rotated(lanes[0], 1) + rotated(lanes[1], 7) + rotated(lanes[2], 12) + rotated(lanes[3], 18);
    for (int i = 0; i < LANES; i++)
        hash = (hash ^ with_word(0, lanes[i])) * primes[1] + primes[4];
    hash += BLOCK;
    hash = (hash ^ hash >> 33) * primes[2];
    hash = (hash ^ hash >> 29) * primes[3];
    return hash ^ hash >> 32;
}

/* Exchanges the number in the place of a block's sum for that number XOR the sum, so zero for the sum, and the sum for
   zero. The header and the selector have none. */
static void exchange_sum(uint32_t number, byte *block)
{
    if (number < SLOT_A)
        return;
    byte *place = block + (number < FIRST ? SLOT_SUM : DATA_SUM);
    uint32_t stored = load32(place);
    store32(place, number);
    store32(place, stored ^ (uint32_t)hash_of(block));
}

/* --- the file, and the blocks of it that are kept ------------------------------------------------ */

/* A block that is kept, in the order of use and among those with the same bucket. Place 0 keeps none: it is the end
   of both. */
struct kept {
    uint32_t block;
    uint16_t newer, older, next;
};

static int file;
static uint32_t file_blocks;
static struct kept kept[KEPT + 1];
static byte kept_bytes[KEPT + 1][BLOCK];
static uint16_t buckets[BUCKETS];

static void read_file(uint32_t block, byte *into)
{
    if (pread(file, into, BLOCK, (off_t)block * BLOCK) != BLOCK)
        refuse(DEVICE);
    exchange_sum(block, into);
}

/* Writes so many blocks, as many as a slot has at most. */
static void write_file(uint32_t block, const byte *from, uint32_t count)
{
    static byte with_sums[SLOT_BLOCKS * BLOCK];
    size_t size = (size_t)count * BLOCK;
    memcpy(with_sums, from, size);
    for (uint32_t i = 0; i < count; i++)
        exchange_sum(block + i, with_sums + i * BLOCK);
    if (pwrite(file, with_sums, size, (off_t)block * BLOCK) != (ssize_t)size)
        refuse(DEVICE);
}

/* Whether the file has zero in the place of the sum of a block in front of the data. */
static bool lacks_sum(uint32_t block)
{
    byte place[4];
    return block < FIRST && pread(file, place, sizeof place, (off_t)block * BLOCK + SLOT_SUM) == sizeof place
        && is_zero(place, sizeof place);
}

static void sync_file(void)
{
    if (fsync(file) != 0)
        refuse(DEVICE);
}

/* Adds zero blocks behind the others, so that there are so many. They are a hole. */
static void lengthen_file(uint32_t blocks)
{
    if (file_blocks >= blocks)
        return;
    if (ftruncate(file, (off_t)blocks * BLOCK) != 0)
        refuse(DEVICE);
    file_blocks = blocks;
}

static void begin_kept(void)
{
    for (uint16_t place = 0; place <= KEPT; place++) {
        kept[place].newer = place == 0 ? KEPT : (uint16_t)(place - 1);
        kept[place].older = place == KEPT ? 0 : (uint16_t)(place + 1);
    }
}

/* Makes a place the one that was used last. */
static void use(uint16_t place)
{
    struct kept *it = &kept[place];
    if (it->newer == 0)
        return;
    kept[it->newer].older = it->older;
    kept[it->older].newer = it->newer;
    it->newer = 0;
    it->older = kept[0].older;
    kept[it->older].newer = place;
    kept[0].older = place;
}

/* The place of a block, or 0. */
static uint16_t place_of(uint32_t block)
{
    uint16_t place = buckets[block % BUCKETS];
    while (place && kept[place].block != block)
        place = kept[place].next;
    return place;
}

/* Has the place that was used the longest ago keep another block. */
static uint16_t give_place(uint32_t block)
{
    uint16_t place = kept[0].newer, *bucket = &buckets[kept[place].block % BUCKETS];
    if (kept[place].block) {
        while (*bucket != place)
            bucket = &kept[*bucket].next;
        *bucket = kept[place].next;
    }
    bucket = &buckets[block % BUCKETS];
    kept[place].block = block;
    kept[place].next = *bucket;
    *bucket = place;
    return place;
}

/* The bytes of a block. They stay where they are while fewer than 256 other blocks are read or made. */
static const byte *read_block(uint32_t block)
{
    uint16_t place = place_of(block);
    if (!place) {
        place = give_place(block);
        read_file(block, kept_bytes[place]);
    }
    use(place);
    return kept_bytes[place];
}

/* Where the bytes of a block go that is made anew. */
static byte *make_block(uint32_t block)
{
    uint16_t place = place_of(block);
    if (!place)
        place = give_place(block);
    use(place);
    return kept_bytes[place];
}

/* --- what stands in the blocks of trees ---------------------------------------------------------- */

/* The top of a tree: its block, 0 for the empty map, its level and its lowest key. */
struct root {
    uint32_t block;
    int level;
    struct key low;
};

static int compare(struct key one, struct key other)
{
    if (one.table != other.table)
        return one.table < other.table ? -1 : 1;
    return one.number < other.number ? -1 : one.number > other.number;
}

/* The size of an entry of a leaf, or of a child. Both begin with a key. */
static int row_size(int level)
{
    return level == 0 ? ENTRY : CHILD;
}

static int count_of(const byte *block)
{
    return (int)load32(block + 8);
}

static const byte *row_at(const byte *block, int level, int index)
{
    return block + HEAD + index * row_size(level);
}

static struct key key_of(const byte *row)
{
    return (struct key){load16(row), load64(row + 2)};
}

static uint32_t child_of(const byte *row)
{
    return load32(row + 10);
}

/* Where the value before an entry of a leaf ends among the values. */
static int end_before(const byte *leaf, int index)
{
    return index == 0 ? 0 : load16(row_at(leaf, 0, index) - 2);
}

static struct value value_at(const byte *leaf, int index)
{
    int begin = end_before(leaf, index);
    return (struct value){end_before(leaf, index + 1) - begin, row_at(leaf, 0, count_of(leaf)) + begin};
}

static void make_child(byte *row, struct root child)
{
    store16(row, child.low.table);
    store64(row + 2, child.low.number);
    store32(row + 10, child.block);
}

/* The level that the head of a block tells, or -1. */
static int level_of(const byte *block)
{
    uint32_t level = load32(block + 4), count = load32(block + 8);
    if (load32(block + 12) != 0 || count == 0)
        return -1;
    if (memcmp(block, "LEF3", 4) == 0)
        return level == 0 && count <= LEAF_ROOM / ENTRY ? 0 : -1;
    return memcmp(block, "NODE", 4) == 0 && level > 0 && level < LEVELS && count <= FAN ? (int)level : -1;
}

/* How many rows have keys that are not above a key. */
static int rows_up_to(const byte *block, int level, struct key key)
{
    int low = 0, high = count_of(block);
    while (low < high) {
        int middle = (low + high) / 2;
        if (compare(key_of(row_at(block, level, middle)), key) <= 0)
            low = middle + 1;
        else
            high = middle;
    }
    return low;
}

/* The child to which a key belongs. */
static int chosen(const byte *block, int level, struct key key)
{
    int count = rows_up_to(block, level, key);
    return count > 0 ? count - 1 : 0;
}

/* Whether a leaf has a key, as the last one of so many. */
static bool has_last(const byte *leaf, int count, struct key key)
{
    return count > 0 && compare(key_of(row_at(leaf, 0, count - 1)), key) == 0;
}

static bool are_same(const struct value *one, const struct value *other)
{
    if (one->length != other->length)
        return false;
    return one->length < 0 || memcmp(one->bytes, other->bytes, (size_t)one->length) == 0;
}

/* --- which blocks are held ----------------------------------------------------------------------- */

static uint64_t *held, *marks;
static uint32_t blocks, kept_blocks, free_blocks, lowest_word;

static size_t words_of(uint32_t bits)
{
    return (bits + 63) / 64;
}

static bool is_set(const uint64_t *bits, uint32_t block)
{
    return bits[block / 64] >> block % 64 & 1;
}

static void set(uint64_t *bits, uint32_t block)
{
    bits[block / 64] |= (uint64_t)1 << block % 64;
}

static void clear(uint64_t *bits, uint32_t block)
{
    bits[block / 64] &= ~((uint64_t)1 << block % 64);
}

/* Holds nothing but the store's own blocks. */
static void begin_held(uint64_t *bits)
{
    memset(bits, 0, words_of(blocks) * sizeof *bits);
    bits[0] = ((uint64_t)1 << FIRST) - 1;
    lowest_word = 0;
}

/* Holds the lowest block that was not held. */
static uint32_t take(void)
{
    while (held[lowest_word] == UINT64_MAX)
        lowest_word++;
    uint32_t block = lowest_word * 64 + (uint32_t)__builtin_ctzll(~held[lowest_word]);
    set(held, block);
    free_blocks--;
    return block;
}

/* --- trees --------------------------------------------------------------------------------------- */

/* What stands in the place of a block once it was changed: one block, two, or, of a leaf, three. */
struct parts {
    int count;
    struct root at[3];
};

/* The bytes of a block of a tree, whose head is tested. */
static const byte *tree_block(uint32_t block, int level)
{
    if (block < FIRST || block >= blocks)
        damaged(block);
    const byte *bytes = read_block(block);
    if (level_of(bytes) != level)
        damaged(block);
    return bytes;
}

/* Records one after another: their entries, how many bytes of values stand before theirs, and the values. */
struct piece {
    const byte *entries, *values;
    int count, before, size;
};

static const struct piece nothing;

/* The records of a leaf from one to before another. */
static struct piece piece_of(const byte *leaf, int from, int to)
{
    int before = end_before(leaf, from), size = end_before(leaf, to) - before;
    return (struct piece){row_at(leaf, 0, from), row_at(leaf, 0, count_of(leaf)) + before, to - from, before, size};
}

/* Writes a leaf of three pieces, one after another. */
static struct root write_leaf(struct piece front, struct piece middle, struct piece back)
{
    struct piece pieces[] = {front, middle, back};
    uint32_t block = take();
    byte *bytes = make_block(block), *entry = bytes + HEAD;
    byte *values = entry + ENTRY * (front.count + middle.count + back.count), *to = values;
    memcpy(bytes, "LEF3", 4);
    store32(bytes + 4, 0);
    store32(bytes + 8, (uint32_t)(front.count + middle.count + back.count));
    store32(bytes + 12, 0);
    for (int i = 0; i < 3; i++) {
        const struct piece *it = &pieces[i];
        if (it->count == 0)
            continue;
        memcpy(entry, it->entries, (size_t)it->count * ENTRY);
        for (int n = it->count; n > 0; n--, entry += ENTRY)
            store16(entry + 10, (uint16_t)(load16(entry + 10) - it->before + (to - values)));
        memcpy(to, it->values, (size_t)it->size);
        to += it->size;
    }
    memset(to, 0, (size_t)(bytes + BLOCK - to));
    write_file(block, bytes, 1);
    return (struct root){block, 0, key_of(bytes + HEAD)};
}

/* Writes an inner block of children that lie one after another. */
static struct root write_node(int level, const byte *children, int count)
{
    uint32_t block = take();
    byte *bytes = make_block(block);
    size_t size = (size_t)count * CHILD;
    memcpy(bytes, "NODE", 4);
    store32(bytes + 4, (uint32_t)level);
    store32(bytes + 8, (uint32_t)count);
    store32(bytes + 12, 0);
    memcpy(bytes + HEAD, children, size);
    memset(bytes + HEAD + size, 0, BLOCK - HEAD - size);
    write_file(block, bytes, 1);
    return (struct root){block, level, key_of(bytes + HEAD)};
}

/* Writes an inner block anew, with these parts in the place of a child: as two, where they are too many for one. */
static struct parts write_parts(const byte *old, int level, int at, struct parts parts)
{
    byte all[(FAN + 2) * CHILD], *behind = all + (at + parts.count) * CHILD;
    int count = count_of(old) - 1 + parts.count, left = (count + 1) / 2;
    memcpy(all, row_at(old, level, 0), (size_t)(at * CHILD));
    for (int i = 0; i < parts.count; i++)
        make_child(all + (at + i) * CHILD, parts.at[i]);
    memcpy(behind, row_at(old, level, at + 1), (size_t)((count - at - parts.count) * CHILD));
    if (count <= FAN)
        return (struct parts){1, {write_node(level, all, count)}};
    parts.count = 2;
    parts.at[0] = write_node(level, all, left);
    parts.at[1] = write_node(level, all + left * CHILD, count - left);
    return parts;
}

/* The leaf to which a key belongs, or NULL. */
static const byte *find_leaf(struct root root, struct key key)
{
    if (root.block == 0)
        return NULL;
    uint32_t block = root.block;
    for (int level = root.level; level > 0; level--) {
        const byte *bytes = tree_block(block, level);
        block = child_of(row_at(bytes, level, chosen(bytes, level, key)));
    }
    return tree_block(block, 0);
}

/* The value of a key. */
static struct value find_value(struct root root, struct key key)
{
    const byte *leaf = find_leaf(root, key);
    int count = leaf ? rows_up_to(leaf, 0, key) : 0;
    return has_last(leaf, count, key) ? value_at(leaf, count - 1) : (struct value){-1, NULL};
}

/* An entry of a value that stands alone. */
static void make_entry(byte *entry, struct key key, int length)
{
    store16(entry, key.table);
    store64(entry + 2, key.number);
    store16(entry + 10, (uint16_t)length);
}

/* A leaf in which a record is to stand in the place of those from `at` to before `next`. */
struct coming {
    const byte *leaf;
    int at, next, length;
};

/* How many bytes the first ones of the records take then. */
static int size_of(const struct coming *it, int count)
{
    if (count <= it->at)
        return ENTRY * count + end_before(it->leaf, count);
    int end = it->next + count - it->at - 1;
    return ENTRY * count + end_before(it->leaf, it->at) + it->length + end_before(it->leaf, end) -
           end_before(it->leaf, it->next);
}

/* How many of the records stand in the left of two leaves, of which the larger one is as small as it can be, and how
   many bytes that one takes. */
static int best_cut(const struct coming *it, int count, int *size)
{
    int best = 0, total = size_of(it, count);
    *size = total;
    for (int cut = 1; cut < count; cut++) {
        int left = size_of(it, cut), larger = left > total - left ? left : total - left;
        if (larger < *size) {
            best = cut;
            *size = larger;
        }
    }
    return best;
}

/* Writes a leaf anew, with a record: as two or three, where it is too large for one. A record behind all others stands
   alone then. */
static struct parts write_with(const struct coming *it, struct piece record)
{
    const byte *leaf = it->leaf;
    int count = count_of(leaf), all = it->at + 1 + count - it->next, larger;
    struct piece front = piece_of(leaf, 0, it->at), back = piece_of(leaf, it->next, count);
    struct parts parts = {1, {{0}}};
    if (size_of(it, all) <= LEAF_ROOM) {
        parts.at[0] = write_leaf(front, record, back);
        return parts;
    }
    parts.count = 2;
    int left = best_cut(it, all, &larger), more = left - it->at - 1;
    if (it->at == count) {
        parts.at[0] = write_leaf(front, nothing, nothing);
        parts.at[1] = write_leaf(record, nothing, nothing);
    } else if (larger > LEAF_ROOM) {
        parts.count = 3;
        parts.at[0] = write_leaf(front, nothing, nothing);
        parts.at[1] = write_leaf(record, nothing, nothing);
        parts.at[2] = write_leaf(back, nothing, nothing);
    } else if (more < 0) {
        parts.at[0] = write_leaf(piece_of(leaf, 0, left), nothing, nothing);
        parts.at[1] = write_leaf(piece_of(leaf, left, it->at), record, back);
    } else {
        parts.at[0] = write_leaf(front, record, piece_of(leaf, it->next, it->next + more));
        parts.at[1] = write_leaf(piece_of(leaf, it->next + more, count), nothing, nothing);
    }
    return parts;
}

static struct parts put_below(uint32_t block, int level, struct key key, const struct value *value)
{
    const byte *bytes = tree_block(block, level);
    if (level == 0) {
        byte entry[ENTRY];
        int next = rows_up_to(bytes, 0, key);
        make_entry(entry, key, value->length);
        struct coming coming = {bytes, next - has_last(bytes, next, key), next, value->length};
        return write_with(&coming, (struct piece){entry, value->bytes, 1, 0, value->length});
    }
    int at = chosen(bytes, level, key);
    struct parts below = put_below(child_of(row_at(bytes, level, at)), level - 1, key, value);
    return write_parts(read_block(block), level, at, below);
}

/* The tree with a value for a key. */
static struct root put(struct root root, struct key key, const struct value *value)
{
    byte rows[3 * CHILD];
    if (root.block == 0) {
        make_entry(rows, key, value->length);
        return write_leaf((struct piece){rows, value->bytes, 1, 0, value->length}, nothing, nothing);
    }
    struct parts parts = put_below(root.block, root.level, key, value);
    if (parts.count == 1)
        return parts.at[0];
    if (root.level == LEVELS - 1)
        refuse(DEEP);
    for (int i = 0; i < parts.count; i++)
        make_child(rows + i * CHILD, parts.at[i]);
    return write_node(root.level + 1, rows, parts.count);
}

/* The first block from this one down that is a leaf, or has more children than one. */
static struct root narrowed(uint32_t block, int level)
{
    const byte *bytes = tree_block(block, level);
    while (level > 0 && count_of(bytes) == 1) {
        block = child_of(row_at(bytes, level, 0));
        bytes = tree_block(block, --level);
    }
    return (struct root){block, level, key_of(row_at(bytes, level, 0))};
}

/* What is left without a record that is there: block 0, where nothing is. */
static struct root remove_below(uint32_t block, int level, bool is_root, struct key key)
{
    const byte *bytes = tree_block(block, level);
    int count = count_of(bytes);
    if (level == 0) {
        if (count == 1)
            return (struct root){0};
        int next = rows_up_to(bytes, 0, key);
        return write_leaf(piece_of(bytes, 0, next - 1), nothing, piece_of(bytes, next, count));
    }
    int at = chosen(bytes, level, key);
    bool is_alone = is_root && count == 1;
    struct root left = remove_below(child_of(row_at(bytes, level, at)), level - 1, is_alone, key);
    if (is_alone || (left.block == 0 && count == 1))
        return left;
    bytes = read_block(block);
    if (left.block != 0)
        return write_parts(bytes, level, at, (struct parts){1, {left}}).at[0];
    if (is_root && count == 2)
        return narrowed(child_of(row_at(bytes, level, 1 - at)), level - 1);
    return write_parts(bytes, level, at, (struct parts){0}).at[0];
}

/* --- differences of two trees -------------------------------------------------------------------- */

/* A way through a tree: what comes next is all that lies under a block (height above 0: one above its level), or a
   record (height 0). */
struct walk {
    struct { uint32_t block; int level, at, count; } path[LEVELS];
    int depth, height;
    bool ended;
    uint32_t block;
    struct key key;
};

static void begin_walk(struct walk *walk, struct root root)
{
    walk->depth = 0;
    walk->height = root.level + 1;
    walk->ended = root.block == 0;
    walk->block = root.block;
    walk->key = root.low;
}

static struct value value_next(const struct walk *walk)
{
    int top = walk->depth - 1;
    return value_at(read_block(walk->path[top].block), walk->path[top].at);
}

static void look(struct walk *walk)
{
    int top = walk->depth - 1;
    const byte *row = row_at(read_block(walk->path[top].block), walk->path[top].level, walk->path[top].at);
    walk->key = key_of(row);
    walk->height = walk->path[top].level;
    if (walk->height > 0)
        walk->block = child_of(row);
}

/* Goes into the block that comes next. */
static void enter(struct walk *walk)
{
    int level = walk->height - 1, top = walk->depth++;
    walk->path[top].block = walk->block;
    walk->path[top].level = level;
    walk->path[top].at = 0;
    walk->path[top].count = count_of(tree_block(walk->block, level));
    look(walk);
}

/* Goes past what comes next. */
static void pass(struct walk *walk)
{
    while (walk->depth > 0 && ++walk->path[walk->depth - 1].at == walk->path[walk->depth - 1].count)
        walk->depth--;
    walk->ended = walk->depth == 0;
    if (!walk->ended)
        look(walk);
}

/* A key at which two maps differ, with the values of both. It is told whether a merge takes it, and, of a change in the
   parent whose key the alternative changed, too, the change of the alternative. */
struct change {
    struct key key;
    struct value before, after;
    enum { TAKE, LEAVE, CONFLICT } fate;
    struct change *mine;
};

struct changes {
    struct change *at;
    size_t count, room;
    /* The bytes of their values: chunks, the number of the one in use, and how much of it is. */
    byte **chunks;
    size_t chunk_count, chunk, used;
};

static void begin_changes(struct changes *changes)
{
    changes->count = changes->chunk = changes->used = 0;
}

/* A value that stays where it is until the changes begin anew. */
static struct value kept_value(struct changes *changes, struct value value)
{
    if (value.length <= 0)
        return value;
    if (changes->chunk < changes->chunk_count && CHUNK - changes->used < (size_t)value.length) {
        changes->chunk++;
        changes->used = 0;
    }
    if (changes->chunk == changes->chunk_count) {
        changes->chunks = enlarged(changes->chunks, changes->chunk_count + 1, sizeof *changes->chunks);
        changes->chunks[changes->chunk_count++] = enlarged(NULL, CHUNK, 1);
    }
    byte *to = changes->chunks[changes->chunk] + changes->used;
    memcpy(to, value.bytes, (size_t)value.length);
    changes->used += (size_t)value.length;
    return (struct value){value.length, to};
}

static void add_change(struct changes *changes, struct key key, struct value before, struct value after)
{
    if (changes->count == changes->room) {
        changes->room = 2 * changes->room + 64;
        changes->at = enlarged(changes->at, changes->room, sizeof *changes->at);
    }
    struct change *it = &changes->at[changes->count++];
    it->key = key;
    it->before = kept_value(changes, before);
    it->after = kept_value(changes, after);
}

/* Goes one step on in two walks where what comes next is not the same block in both. The way that is behind goes on;
   where both are at one key, the blocks above records are entered first. */
static void step(struct walk *before, struct walk *after, struct changes *changes)
{
    int order = before->ended ? 1 : after->ended ? -1 : compare(before->key, after->key);
    int height = order < 0 ? before->height : order > 0 ? after->height
        : before->height > after->height ? before->height : after->height;
    if (height > 0) {
        bool is_before = order < 0 || (order == 0 && before->height == height);
        bool is_after = order > 0 || (order == 0 && after->height == height);
        if (is_before)
            enter(before);
        if (is_after)
            enter(after);
        return;
    }
    struct value one = {-1, NULL}, other = {-1, NULL};
    if (order <= 0)
        one = value_next(before);
    if (order >= 0)
        other = value_next(after);
    if (!are_same(&one, &other))
        add_change(changes, order <= 0 ? before->key : after->key, one, other);
    if (order <= 0)
        pass(before);
    if (order >= 0)
        pass(after);
}

/* The keys at which the maps of two trees differ, so many at most. Blocks that both have are not read. */
static void differences(struct root one, struct root other, struct changes *changes, size_t most)
{
    struct walk before, after;
    begin_walk(&before, one);
    begin_walk(&after, other);
    begin_changes(changes);
    while (changes->count < most && !(before.ended && after.ended)) {
        if (!before.ended && !after.ended && before.height > 0 && before.height == after.height
            && before.block == after.block) {
            pass(&before);
            pass(&after);
        } else {
            step(&before, &after, changes);
        }
    }
}

/* --- alternatives and checkpoints ---------------------------------------------------------------- */

/* A name as it stands in a slot: its length, then its bytes, then zero. */
struct entry {
    byte tag, name[NAME], owner[NAME];
    struct root current, base;
};

struct entries {
    int count;
    struct entry at[ENTRIES];
};

static struct entries committed, working;
static bool in_slot_b;

static bool is_name(const byte *name, int least)
{
    if (name[0] < least || name[0] >= NAME || !is_zero(name + 1 + name[0], (size_t)(NAME - 1 - name[0])))
        return false;
    for (int i = 1; i <= name[0]; i++) {
        byte it = name[i], letter = it | 0x20;
        if (!(letter >= 'a' && letter <= 'z') && !(it >= '0' && it <= '9') && it != '-' && it != '_' && it != '.')
            return false;
    }
    return true;
}

/* The entry with a tag, an owner and a name, or NULL. The owner of an alternative is any. */
static struct entry *find_entry(struct entries *entries, byte tag, const byte *owner, const byte *name)
{
    for (int i = 0; i < entries->count; i++) {
        struct entry *it = &entries->at[i];
        if (it->tag == tag && memcmp(it->name, name, NAME) == 0 && (tag == 'A' || memcmp(it->owner, owner, NAME) == 0))
            return it;
    }
    return NULL;
}

static bool is_top(const struct entry *entry)
{
    return memcmp(entry->name, "\3top", 5) == 0 && entry->tag == 'A';
}

static void spell_entry(byte *cell, const struct entry *entry)
{
    cell[0] = entry->tag;
    memcpy(cell + 1, entry->name, NAME);
    memcpy(cell + 34, entry->owner, NAME);
    store32(cell + 67, entry->current.block);
    store32(cell + 71, entry->base.block);
}

/* Adds the entry of a cell, where it is one that may stand behind those before it. */
static bool read_entry(const byte *cell, struct entries *entries)
{
    bool is_first = entries->count == 0;
    struct entry *it = &entries->at[entries->count];
    memcpy(it->name, cell + 1, NAME);
    memcpy(it->owner, cell + 34, NAME);
    it->tag = cell[0];
    it->current = (struct root){load32(cell + 67), 0, {0}};
    it->base = (struct root){load32(cell + 71), 0, {0}};
    if ((it->tag != 'A' && it->tag != 'C') || !is_name(it->name, 1) || !is_name(it->owner, is_first ? 0 : 1))
        return false;
    if (!is_zero(cell + 75, CELL - 75) || find_entry(entries, it->tag, it->owner, it->name))
        return false;
    if (is_first ? !is_top(it) || it->owner[0] != 0 : !find_entry(entries, 'A', NULL, it->owner))
        return false;
    if (it->base.block && (is_first || (it->tag == 'C' && memcmp(it->owner, "\3top", 5) == 0)))
        return false;
    entries->count++;
    return true;
}

static uint32_t slot_blocks(int entries)
{
    return (uint32_t)(entries + 32) / 32;
}

/* Writes the working entries into the slot that is not in use, and then has it in use. */
static void publish(void)
{
    static byte slot[SLOT_BLOCKS * BLOCK], selector[BLOCK];
    uint32_t used = slot_blocks(working.count);
    memset(slot, 0, used * BLOCK);
    memcpy(slot, "SLOT", 4);
    store32(slot + 4, FORMAT);
    store32(slot + 8, blocks);
    store32(slot + 12, (uint32_t)working.count);
    for (int i = 0; i < working.count; i++)
        spell_entry(slot + CELL * (i + 1), &working.at[i]);
    write_file(in_slot_b ? SLOT_A : SLOT_B, slot, used);
    sync_file();
    selector[0] = !in_slot_b;
    write_file(1, selector, 1);
    sync_file();
    in_slot_b = !in_slot_b;
    kept_blocks = blocks;
    committed.count = working.count;
    memcpy(committed.at, working.at, (size_t)working.count * sizeof *working.at);
}

/* --- opening ------------------------------------------------------------------------------------- */

/* What was found under a block. While it is visited only its level is known. */
struct span {
    uint64_t low_number, high_number;
    uint16_t low_table, high_table;
    uint8_t level;
};

static struct span *spans;
/* Whether the file begins as those of formats 1 and 2 do. */
static bool is_earlier;

static void make_header(byte *block, uint32_t version)
{
    memset(block, 0, BLOCK);
    memcpy(block, "ALTSTORE", 8);
    store32(block + 8, version);
    store32(block + 12, BLOCK);
}

/* Whether the values of a leaf follow one another, and nothing stands behind them. */
static bool has_values(const byte *leaf)
{
    int count = count_of(leaf), from = 0;
    for (int i = 0; i < count; from = end_before(leaf, ++i))
        if (end_before(leaf, i + 1) < from || end_before(leaf, i + 1) > from + VALUE)
            return false;
    return ENTRY * count + from <= LEAF_ROOM &&
           is_zero(row_at(leaf, 0, count) + from, (size_t)(LEAF_ROOM - ENTRY * count - from));
}

/* Whether the keys of a block rise, and nothing stands behind its rows or values. */
static bool has_form(const byte *block, int level)
{
    const byte *end = row_at(block, level, count_of(block));
    for (const byte *row = block + HEAD + row_size(level); row < end; row += row_size(level))
        if (compare(key_of(row - row_size(level)), key_of(row)) >= 0)
            return false;
    return level == 0 ? has_values(block) : is_zero(end, (size_t)(block + BLOCK - end));
}

static struct span visit(uint32_t block, int least, int most);

/* Visits the children of an inner block, and gives the highest key under them. */
static struct key visit_children(const byte *bytes, int level)
{
    struct key high = {0};
    byte own[BLOCK];
    memcpy(own, bytes, BLOCK);
    for (int i = 0, count = count_of(own); i < count; i++) {
        const byte *row = row_at(own, level, i);
        struct span span = visit(child_of(row), level - 1, level - 1);
        high = (struct key){span.high_table, span.high_number};
        if (compare((struct key){span.low_table, span.low_number}, key_of(row)) != 0
            || (i + 1 < count && compare(high, key_of(row + CHILD)) >= 0))
            damaged(child_of(row));
    }
    return high;
}

/* Visits a block whose level lies in a range, and all blocks under it, and holds them. */
static struct span visit(uint32_t block, int least, int most)
{
    if (block < FIRST || block >= blocks)
        damaged(block);
    if (!is_set(held, block)) {
        const byte *bytes = read_block(block);
        int level = level_of(bytes);
        set(held, block);
        free_blocks--;
        if (level < 0 || !has_form(bytes, level) || level < least || level > most)
            damaged(block);
        struct key low = key_of(row_at(bytes, level, 0));
        spans[block].level = (uint8_t)level;
        struct key high = level == 0 ? key_of(row_at(bytes, 0, count_of(bytes) - 1)) : visit_children(bytes, level);
        spans[block] = (struct span){low.number, high.number, low.table, high.table, (uint8_t)level};
    }
    if (spans[block].level < least || spans[block].level > most)
        damaged(block);
    return spans[block];
}

static void visit_root(struct root *root)
{
    if (root->block == 0)
        return;
    struct span span = visit(root->block, 0, LEVELS - 1);
    root->level = span.level;
    root->low = (struct key){span.low_table, span.low_number};
}

static void read_slot(uint32_t first)
{
    static byte slot[SLOT_BLOCKS * BLOCK];
    read_file(first, slot);
    uint32_t format = load32(slot + 4), count = load32(slot + 12);
    blocks = load32(slot + 8);
    if (memcmp(slot, "SLOT", 4) != 0 || format != FORMAT || blocks < LEAST_BLOCKS || blocks > MOST_BLOCKS
        || count < 1 || count > ENTRIES || !is_zero(slot + 16, CELL - 16))
        damaged(first);
    for (uint32_t i = 1; i < slot_blocks((int)count); i++)
        read_file(first + i, slot + i * BLOCK);
    working.count = 0;
    for (uint32_t i = 1; i <= count; i++)
        if (!read_entry(slot + CELL * i, &working))
            damaged(first);
    if (blocks > file_blocks)
        refuse(BAD_SIZE);
}

/* Reads each block under the roots, and holds them. */
static void visit_all(void)
{
    spans = calloc(blocks, sizeof *spans);
    if (!spans)
        stop();
    for (int i = 0; i < working.count; i++) {
        visit_root(&working.at[i].current);
        visit_root(&working.at[i].base);
    }
    free(spans);
}

/* The top block of a tree gives its level and its lowest key. */
static void find_root(struct root *root)
{
    if (root->block == 0)
        return;
    if (root->block < FIRST || root->block >= blocks)
        damaged(root->block);
    const byte *bytes = read_block(root->block);
    root->level = level_of(bytes);
    if (root->level < 0 || !has_form(bytes, root->level))
        damaged(root->block);
    root->low = key_of(row_at(bytes, root->level, 0));
}

/* Holds a block and all that lies under it, without reading a leaf. */
static void find_below(uint32_t block, int level)
{
    if (block < FIRST || block >= blocks)
        damaged(block);
    if (is_set(held, block))
        return;
    set(held, block);
    free_blocks--;
    if (level > 0 && !has_form(tree_block(block, level), level))
        damaged(block);
    for (int i = 0, count = level == 0 ? 0 : count_of(read_block(block)); i < count; i++)
        find_below(child_of(row_at(read_block(block), level, i)), level - 1);
}

/* Reads the top blocks and the inner blocks under the roots, and holds all that lies under them. */
static void find_all(void)
{
    for (int i = 0; i < working.count; i++) {
        find_root(&working.at[i].current);
        find_root(&working.at[i].base);
    }
    for (int i = 0; i < working.count; i++) {
        if (working.at[i].current.block)
            find_below(working.at[i].current.block, working.at[i].current.level);
        if (working.at[i].base.block)
            find_below(working.at[i].base.block, working.at[i].base.level);
    }
}

/* Opens the store in the file, as it was last committed: every block is read, or of the leaves those alone that are a
   root. */
static void open_store(bool is_whole)
{
    byte block[BLOCK], header[BLOCK];
    sync_file();
    if (file_blocks < LEAST_BLOCKS)
        refuse(NOT_A_STORE);
    read_file(0, block);
    for (uint32_t version = 1; version < FORMAT; version++) {
        make_header(header, version);
        is_earlier |= memcmp(block, header, BLOCK) == 0;
    }
    make_header(header, FORMAT);
    if (memcmp(block, header, BLOCK) != 0)
        refuse(NOT_A_STORE);
    read_file(1, block);
    in_slot_b = block[0] & 1;
    read_slot(in_slot_b ? SLOT_B : SLOT_A);
    held = enlarged(NULL, words_of(blocks), sizeof *held);
    marks = enlarged(NULL, words_of(blocks), sizeof *marks);
    begin_held(held);
    free_blocks = blocks - FIRST;
    (is_whole ? visit_all : find_all)();
    kept_blocks = blocks;
    committed.count = working.count;
    memcpy(committed.at, working.at, (size_t)working.count * sizeof *working.at);
}

/* --- which blocks are spare ---------------------------------------------------------------------- */

static void mark_below(uint32_t block, int level)
{
    if (block < FIRST || block >= blocks)
        damaged(block);
    if (is_set(marks, block))
        return;
    set(marks, block);
    free_blocks--;
    for (int i = 0, count = level == 0 ? 0 : count_of(tree_block(block, level)); i < count; i++)
        mark_below(child_of(row_at(read_block(block), level, i)), level - 1);
}

static void mark_entries(const struct entries *entries)
{
    for (int i = 0; i < entries->count; i++) {
        if (entries->at[i].current.block)
            mark_below(entries->at[i].current.block, entries->at[i].current.level);
        if (entries->at[i].base.block)
            mark_below(entries->at[i].base.block, entries->at[i].base.level);
    }
}

/* Holds just what the committed and the working entries reach. */
static void mark(void)
{
    uint64_t *before = held;
    begin_held(marks);
    free_blocks = blocks - FIRST;
    mark_entries(&committed);
    mark_entries(&working);
    held = marks;
    marks = before;
}

/* Has as many blocks free as so many changes may take. */
static void demand(size_t changes)
{
    if (free_blocks / BLOCKS_A_CHANGE >= changes)
        return;
    mark();
    if (free_blocks / BLOCKS_A_CHANGE < changes)
        refuse(FULL);
}

/* --- answers ------------------------------------------------------------------------------------- */

static struct {
    char *bytes;
    size_t length, room;
} answer;

/* Where the next bytes of the answer go: room for so many. */
static char *answer_room(size_t more)
{
    if (answer.room - answer.length < more) {
        answer.room = 2 * answer.room + more + CHUNK;
        answer.bytes = enlarged(answer.bytes, answer.room, 1);
    }
    return answer.bytes + answer.length;
}

static void say(const char *text)
{
    size_t length = strlen(text);
    memcpy(answer_room(length), text, length);
    answer.length += length;
}

static void say_number(uint64_t number)
{
    char digits[20], *from = digits + sizeof digits;
    do
        *--from = (char)('0' + number % 10);
    while ((number /= 10) > 0);
    size_t length = (size_t)(digits + sizeof digits - from);
    memcpy(answer_room(length), from, length);
    answer.length += length;
}

static void say_key(struct key key)
{
    say_number(key.table);
    say(" ");
    say_number(key.number);
}

static void say_name(const byte *name)
{
    memcpy(answer_room(name[0]), name + 1, name[0]);
    answer.length += name[0];
}

static bool is_plain(byte it)
{
    return it >= 0x21 && it <= 0x7d && it != '%';
}

/* Writes a value after a space. */
static void say_value(struct value value)
{
    const byte *bytes = value.bytes;
    int length = value.length;
    char *to = answer_room(2 + 3 * VALUE), *begun = to;
    bool all_plain = true;
    for (int i = 0; i < length; i++)
        all_plain &= is_plain(bytes[i]);
    *to++ = ' ';
    if (length < 0) {
        *to++ = '~';
    } else if (length == 0) {
        *to++ = '-';
    } else if (all_plain && !(length == 1 && bytes[0] == '-')) {
        memcpy(to, bytes, (size_t)length);
        to += length;
    } else {
        for (int i = 0; i < length; i++) {
            if (is_plain(bytes[i]) && length > 1)
                *to++ = (char)bytes[i];
            else
                to += sprintf(to, "%%%02X", bytes[i]);
        }
    }
    answer.length += (size_t)(to - begun);
}

static void say_end(uint64_t count)
{
    say("end ");
    say_number(count);
    say("\n");
}

/* Writes the answer with one call, unless it is empty. */
static void send_answer(void)
{
    for (size_t done = 0; done < answer.length;) {
        ssize_t count = write(1, answer.bytes + done, answer.length - done);
        if (count <= 0)
            stop();
        done += (size_t)count;
    }
    answer.length = 0;
}

/* --- merges -------------------------------------------------------------------------------------- */

struct settlement {
    struct key key;
    size_t place;
    bool is_theirs;
};

static struct changes theirs, mine;
static struct settlement *settlements;
static size_t settlement_count, settlement_room;

/* Finds what changed in the parent and in the alternative since the base, and which of it is in conflict. */
static size_t compare_sides(const struct entry *own, const struct entry *parent)
{
    size_t at = 0, conflicts = 0;
    differences(own->base, parent->current, &theirs, SIZE_MAX);
    differences(own->base, own->current, &mine, SIZE_MAX);
    for (size_t i = 0; i < mine.count; i++)
        mine.at[i].fate = TAKE;
    for (size_t i = 0; i < theirs.count; i++) {
        struct change *it = &theirs.at[i];
        while (at < mine.count && compare(mine.at[at].key, it->key) < 0)
            at++;
        it->fate = TAKE;
        if (at == mine.count || compare(mine.at[at].key, it->key) != 0)
            continue;
        it->mine = &mine.at[at];
        it->fate = it->mine->fate = are_same(&it->after, &it->mine->after) ? LEAVE : CONFLICT;
        conflicts += it->fate == CONFLICT;
    }
    return conflicts;
}

static int compare_settlements(const void *one, const void *other)
{
    const struct settlement *a = one, *b = other;
    int order = compare(a->key, b->key);
    return order ? order : a->place < b->place ? -1 : 1;
}

/* The place in the line of the first settlement of a key that an earlier one settles, or SIZE_MAX. The settlements
   are in order. */
static size_t first_settled_twice(void)
{
    size_t first = SIZE_MAX;
    for (size_t i = 1; i < settlement_count; i++)
        if (compare(settlements[i - 1].key, settlements[i].key) == 0 && settlements[i].place < first)
            first = settlements[i].place;
    return first;
}

/* Settles conflicts, and gives the place of the first settlement whose key is not in conflict, or SIZE_MAX. */
static size_t settle(void)
{
    size_t at = 0, first = SIZE_MAX;
    for (size_t i = 0; i < settlement_count; i++) {
        const struct settlement *it = &settlements[i];
        while (at < theirs.count && compare(theirs.at[at].key, it->key) < 0)
            at++;
        if (at < theirs.count && compare(theirs.at[at].key, it->key) == 0 && theirs.at[at].fate == CONFLICT) {
            theirs.at[at].fate = it->is_theirs ? TAKE : LEAVE;
            theirs.at[at].mine->fate = it->is_theirs ? LEAVE : TAKE;
        } else if (it->place < first)
            first = it->place;
    }
    return first;
}

__attribute__((noreturn)) static void refuse_settlement(int number, size_t place)
{
    size_t i = 0;
    while (settlements[i].place != place)
        i++;
    refuse_with(number, " %u:%llu", settlements[i].key.table, (unsigned long long)settlements[i].key.number);
}

static size_t count_taken(const struct changes *changes)
{
    size_t count = 0;
    for (size_t i = 0; i < changes->count; i++)
        count += changes->at[i].fate == TAKE;
    return count;
}

/* The root of a map with the changes that are taken. */
static struct root with_taken(struct root root, const struct changes *changes)
{
    for (size_t i = 0; i < changes->count; i++) {
        const struct change *it = &changes->at[i];
        if (it->fate == TAKE && it->after.length < 0)
            root = remove_below(root.block, root.level, true, it->key);
        else if (it->fate == TAKE)
            root = put(root, it->key, &it->after);
    }
    return root;
}

/* Brings the parent's changes into an alternative, and tells how many records that changes. They are made in the
   alternative's map, or what is left of its own changes in the parent's, whichever are fewer. */
static size_t merge(struct entry *own, const struct entry *parent)
{
    size_t conflicts = compare_sides(own, parent);
    if (settlement_count > 1)
        qsort(settlements, settlement_count, sizeof *settlements, compare_settlements);
    if (first_settled_twice() != SIZE_MAX)
        refuse_settlement(SETTLED_TWICE, first_settled_twice());
    size_t other = settle();
    if (other != SIZE_MAX)
        refuse_settlement(NOT_IN_CONFLICT, other);
    if (conflicts > settlement_count)
        refuse_with(UNSETTLED, " %zu", conflicts - settlement_count);
    size_t came = count_taken(&theirs), stays = count_taken(&mine);
    demand(came < stays ? came : stays);
    own->current = came < stays ? with_taken(own->current, &theirs) : with_taken(parent->current, &mine);
    own->base = parent->current;
    return came;
}

/* --- what lines ask for -------------------------------------------------------------------------- */

/* The words of a line that follow the first: names as they stand in slots. */
struct words {
    byte names[3][NAME];
    int names_count;
    struct key key;
    struct value value;
    byte value_bytes[VALUE];
    uint64_t number;
};

static struct entry *alternative(const byte *name)
{
    struct entry *found = find_entry(&working, 'A', NULL, name);
    if (!found)
        refuse(NO_SUCH_ALTERNATIVE);
    return found;
}

/* The parent of an alternative that is not top. */
static struct entry *parent_of(const struct entry *entry)
{
    if (is_top(entry))
        refuse(IS_TOP);
    return alternative(entry->owner);
}

static struct entry *checkpoint(const byte *owner, const byte *name)
{
    struct entry *found = find_entry(&working, 'C', owner, name);
    if (!found)
        refuse(NO_SUCH_CHECKPOINT);
    return found;
}

static void add_entry(byte tag, const byte *name, const byte *owner, struct root current, struct root base)
{
    if (working.count == ENTRIES)
        refuse(TOO_MANY);
    struct entry *it = &working.at[working.count++];
    it->tag = tag;
    memcpy(it->name, name, NAME);
    memcpy(it->owner, owner, NAME);
    it->current = current;
    it->base = base;
}

static void remove_entry(struct entry *entry)
{
    struct entry *end = &working.at[working.count--];
    memmove(entry, entry + 1, (size_t)((byte *)end - (byte *)(entry + 1)));
}

static void do_put(const struct words *words)
{
    struct entry *it = alternative(words->names[0]);
    demand(1);
    it->current = put(it->current, words->key, &words->value);
}

static void do_remove(const struct words *words)
{
    struct entry *it = alternative(words->names[0]);
    if (find_value(it->current, words->key).length < 0)
        refuse(NO_SUCH_RECORD);
    demand(1);
    it->current = remove_below(it->current.block, it->current.level, true, words->key);
}

static void do_get(const struct words *words)
{
    struct value found = find_value(alternative(words->names[0])->current, words->key);
    if (found.length < 0) {
        say("none\n");
        return;
    }
    say("value");
    say_value(found);
    say("\n");
}

static uint64_t list_below(uint32_t block, int level)
{
    const byte *bytes = tree_block(block, level);
    int count = count_of(bytes);
    uint64_t records = 0;
    if (level == 0 && !has_form(bytes, 0))
        damaged(block);
    for (int i = 0; level > 0 && i < count; i++)
        records += list_below(child_of(row_at(read_block(block), level, i)), level - 1);
    for (int i = 0; level == 0 && i < count; i++) {
        say("record ");
        say_key(key_of(row_at(bytes, 0, i)));
        say_value(value_at(bytes, i));
        say("\n");
    }
    return level == 0 ? (uint64_t)count : records;
}

static void do_list(const struct words *words)
{
    struct root root = alternative(words->names[0])->current;
    say_end(root.block ? list_below(root.block, root.level) : 0);
}

static void do_changes(const struct words *words)
{
    const struct entry *it = alternative(words->names[0]);
    differences(it->base, it->current, &mine, SIZE_MAX);
    for (size_t i = 0; i < mine.count; i++) {
        say("change ");
        say_key(mine.at[i].key);
        say_value(mine.at[i].before);
        say_value(mine.at[i].after);
        say("\n");
    }
    say_end(mine.count);
}

static void do_conflicts(const struct words *words)
{
    const struct entry *own = alternative(words->names[0]), *parent = parent_of(own);
    size_t conflicts = compare_sides(own, parent);
    for (size_t i = 0; i < theirs.count; i++) {
        const struct change *it = &theirs.at[i];
        if (it->fate != CONFLICT)
            continue;
        say("conflict ");
        say_key(it->key);
        say_value(it->before);
        say_value(it->after);
        say_value(it->mine->after);
        say("\n");
    }
    say_end(conflicts);
}

static void do_merge(const struct words *words)
{
    struct entry *own = alternative(words->names[0]);
    const struct entry *parent = parent_of(own);
    say("ok ");
    say_number(merge(own, parent));
    say("\n");
}

static void do_post(const struct words *words)
{
    struct entry *own = alternative(words->names[0]), *parent = parent_of(own);
    differences(own->base, parent->current, &theirs, 1);
    if (theirs.count > 0)
        refuse(NOT_MERGED);
    parent->current = own->base = own->current;
}

static void do_new(const struct words *words)
{
    const struct entry *parent = alternative(words->names[1]);
    if (find_entry(&working, 'A', NULL, words->names[0]))
        refuse(ALTERNATIVE_EXISTS);
    if (words->names_count == 3)
        parent = checkpoint(words->names[1], words->names[2]);
    add_entry('A', words->names[0], words->names[1], parent->current, parent->current);
}

static void do_drop(const struct words *words)
{
    struct entry *own = alternative(words->names[0]);
    if (is_top(own))
        refuse(IS_TOP);
    for (int i = 0; i < working.count; i++)
        if (working.at[i].tag == 'A' && memcmp(working.at[i].owner, words->names[0], NAME) == 0)
            refuse(HAS_CHILDREN);
    remove_entry(own);
    for (int i = working.count - 1; i >= 0; i--)
        if (working.at[i].tag == 'C' && memcmp(working.at[i].owner, words->names[0], NAME) == 0)
            remove_entry(&working.at[i]);
}

static void do_checkpoint(const struct words *words)
{
    const struct entry *own = alternative(words->names[0]);
    if (find_entry(&working, 'C', words->names[0], words->names[1]))
        refuse(CHECKPOINT_EXISTS);
    add_entry('C', words->names[1], words->names[0], own->current, own->base);
}

static void do_uncheck(const struct words *words)
{
    alternative(words->names[0]);
    remove_entry(checkpoint(words->names[0], words->names[1]));
}

static void do_back(const struct words *words)
{
    struct entry *own = alternative(words->names[0]);
    const struct entry *found = checkpoint(words->names[0], words->names[1]);
    own->current = found->current;
    own->base = found->base;
}

static void do_commit(const struct words *words)
{
    (void)words;
    publish();
}

/* Goes back to what is committed. The blocks of a growth since then are no blocks of the store any more. */
static void do_rollback(const struct words *words)
{
    (void)words;
    working.count = committed.count;
    memcpy(working.at, committed.at, (size_t)committed.count * sizeof *committed.at);
    for (; blocks > kept_blocks; blocks--) {
        if (is_set(held, blocks - 1))
            clear(held, blocks - 1);
        else
            free_blocks--;
    }
    if (lowest_word > blocks / 64)
        lowest_word = blocks / 64;
}

static void do_reclaim(const struct words *words)
{
    (void)words;
    mark();
}

static void do_grow(const struct words *words)
{
    if (words->number <= blocks || words->number > MOST_BLOCKS)
        refuse(BAD_SIZE);
    uint32_t more = (uint32_t)words->number - blocks;
    size_t before = words_of(blocks), after = words_of((uint32_t)words->number);
    held = enlarged(held, after, sizeof *held);
    marks = enlarged(marks, after, sizeof *marks);
    memset(held + before, 0, (after - before) * sizeof *held);
    lengthen_file((uint32_t)words->number);
    blocks += more;
    free_blocks += more;
}

static void do_free(const struct words *words)
{
    (void)words;
    say("free ");
    say_number(free_blocks);
    say("\n");
}

static void do_alternatives(const struct words *words)
{
    uint64_t count = 0;
    (void)words;
    for (int i = 0; i < working.count; i++) {
        const struct entry *it = &working.at[i];
        if (it->tag != 'A')
            continue;
        say("alternative ");
        say_name(it->name);
        say(" ");
        say_name(it->owner[0] ? it->owner : (const byte *)"\1~");
        say("\n");
        count++;
    }
    say_end(count);
}

static void do_checkpoints(const struct words *words)
{
    uint64_t count = 0;
    alternative(words->names[0]);
    for (int i = 0; i < working.count; i++) {
        const struct entry *it = &working.at[i];
        if (it->tag != 'C' || memcmp(it->owner, words->names[0], NAME) != 0)
            continue;
        say("checkpoint ");
        say_name(it->name);
        say("\n");
        count++;
    }
    say_end(count);
}

/* --- lines --------------------------------------------------------------------------------------- */

/* What is left of a line. */
struct line {
    const char *at, *end;
};

struct word {
    const char *bytes;
    size_t length;
};

/* A kind of line: its first word, the kinds of the others (`n` a name, `k` the two words of a key, `v` a value, `b` a
   number of blocks, `s` any number of settlements, `?` a name that may be there), and what carries it out. */
static const struct verb {
    const char *word, *others;
    void (*carry_out)(const struct words *words);
} verbs[] = {
    {"put", "nkv", do_put}, {"get", "nk", do_get}, {"remove", "nk", do_remove}, {"commit", "", do_commit},
    {"new", "nn?", do_new}, {"drop", "n", do_drop}, {"post", "n", do_post}, {"merge", "ns", do_merge},
    {"list", "n", do_list}, {"changes", "n", do_changes}, {"conflicts", "n", do_conflicts}, {"free", "", do_free},
    {"alts", "", do_alternatives}, {"checks", "n", do_checkpoints}, {"checkpoint", "nn", do_checkpoint},
    {"uncheck", "nn", do_uncheck}, {"back", "nn", do_back}, {"rollback", "", do_rollback}, {"reclaim", "", do_reclaim},
    {"grow", "b", do_grow},
};

/* The next word of a line, of no bytes where there is none. */
static struct word next_word(struct line *line)
{
    while (line->at < line->end && *line->at == ' ')
        line->at++;
    const char *begun = line->at;
    while (line->at < line->end && *line->at != ' ')
        line->at++;
    return (struct word){begun, (size_t)(line->at - begun)};
}

static bool is(struct word word, const char *text)
{
    return word.length == strlen(text) && memcmp(word.bytes, text, word.length) == 0;
}

static bool read_number(struct word word, uint64_t most, uint64_t *number)
{
    unsigned __int128 sum = 0;
    for (size_t i = 0; i < word.length && word.length <= 20; i++) {
        if (word.bytes[i] < '0' || word.bytes[i] > '9')
            return false;
        sum = 10 * sum + (unsigned)(word.bytes[i] - '0');
    }
    *number = (uint64_t)sum;
    return word.length > 0 && word.length <= 20 && sum <= most;
}

static bool read_key(struct word table, struct word number, struct key *key)
{
    uint64_t in_table;
    if (!read_number(table, UINT16_MAX, &in_table) || !read_number(number, UINT64_MAX, &key->number))
        return false;
    key->table = (uint16_t)in_table;
    return true;
}

static bool read_name(struct word word, byte *name)
{
    if (word.length == 0 || word.length >= NAME)
        return false;
    memset(name, 0, NAME);
    name[0] = (byte)word.length;
    memcpy(name + 1, word.bytes, word.length);
    return is_name(name, 1);
}

/* What a hexadecimal digit stands for, or -1. */
static int digit(char it)
{
    if (it >= '0' && it <= '9')
        return it - '0';
    char letter = (char)(it | 0x20);
    return letter >= 'a' && letter <= 'f' ? letter - 'a' + 10 : -1;
}

/* Reads a value. One without % is taken where it stands in the line, others are written to `bytes`. */
static bool read_value(struct word word, struct value *value, byte *bytes)
{
    bool is_empty = is(word, "-");
    *value = (struct value){0, bytes};
    if (word.length == 0 || is_empty)
        return is_empty;
    if (!memchr(word.bytes, '%', word.length)) {
        *value = (struct value){(int)word.length, (const byte *)word.bytes};
        return word.length <= VALUE;
    }
    for (size_t i = 0; i < word.length; i++) {
        int it = (byte)word.bytes[i];
        if (it == '%') {
            if (word.length - i < 3 || digit(word.bytes[i + 1]) < 0 || digit(word.bytes[i + 2]) < 0)
                return false;
            it = 16 * digit(word.bytes[i + 1]) + digit(word.bytes[i + 2]);
            i += 2;
        }
        if (value->length == VALUE)
            return false;
        bytes[value->length++] = (byte)it;
    }
    return true;
}

/* Reads `TABLE:NUMBER=mine` or `TABLE:NUMBER=theirs`. */
static bool read_settlement(struct word word)
{
    const char *colon = memchr(word.bytes, ':', word.length), *end = word.bytes + word.length;
    const char *equal = colon ? memchr(colon, '=', (size_t)(end - colon)) : NULL;
    if (!equal)
        return false;
    if (settlement_count == settlement_room) {
        settlement_room = 2 * settlement_room + 64;
        settlements = enlarged(settlements, settlement_room, sizeof *settlements);
    }
    struct settlement *it = &settlements[settlement_count];
    struct word table = {word.bytes, (size_t)(colon - word.bytes)}, number = {colon + 1, (size_t)(equal - colon - 1)};
    struct word side = {equal + 1, (size_t)(end - equal - 1)};
    it->place = settlement_count++;
    it->is_theirs = is(side, "theirs");
    return read_key(table, number, &it->key) && (it->is_theirs || is(side, "mine"));
}

/* Reads the words after the first by their kinds. */
static bool read_words(struct line *line, const char *kinds, struct words *words)
{
    words->names_count = 0;
    settlement_count = 0;
    for (; *kinds; kinds++) {
        struct word word = next_word(line);
        bool is_right = true;
        if (*kinds == 'n' || (*kinds == '?' && word.length > 0))
            is_right = read_name(word, words->names[words->names_count++]);
        else if (*kinds == 'k')
            is_right = read_key(word, next_word(line), &words->key);
        else if (*kinds == 'v')
            is_right = read_value(word, &words->value, words->value_bytes);
        else if (*kinds == 'b')
            is_right = read_number(word, UINT32_MAX, &words->number);
        else if (*kinds == 's')
            for (; is_right && word.length > 0; word = next_word(line))
                is_right = read_settlement(word);
        if (!is_right)
            return false;
    }
    return next_word(line).length == 0;
}

/* Does what a line asks for, and answers it: where nothing else is said, that it was done. */
static void carry_out(struct line line)
{
    static struct words words;
    struct word first = next_word(&line);
    if (first.length == 0 || first.bytes[0] == '#')
        return;
    for (size_t i = 0; i < sizeof verbs / sizeof *verbs; i++) {
        if (!is(first, verbs[i].word))
            continue;
        if (!read_words(&line, verbs[i].others, &words))
            refuse(BAD_LINE);
        verbs[i].carry_out(&words);
        if (answer.length == 0)
            say("ok\n");
        return;
    }
    refuse(BAD_LINE);
}

/* Answers a line, given without its line feed. The session ends where the file failed. */
static void answer_line(const char *bytes, size_t length)
{
    if (setjmp(refused) == 0) {
        if (length > LINE)
            refuse(LONG_LINE);
        if (length > 0 && bytes[length - 1] == '\r')
            length--;
        carry_out((struct line){bytes, bytes + length});
    } else {
        answer.length = 0;
        say("error ");
        say(refusal_text);
        say("\n");
    }
    send_answer();
    if (refusal == DEVICE)
        stop();
}

/* Answers the lines of the input. Of a line that is too long only so much is kept as tells that. */
static void answer_lines(void)
{
    static char input[LINE + 1 + CHUNK];
    size_t length = 0;
    for (;;) {
        ssize_t count = read(0, input + length, length > LINE ? sizeof input - LINE - 1 : CHUNK);
        if (count < 0)
            stop();
        char *line = input, *from = input + length, *end = from + count, *feed;
        while ((feed = memchr(from, '\n', (size_t)(end - from)))) {
            answer_line(line, (size_t)(feed - line));
            from = line = feed + 1;
        }
        length = (size_t)(end - line);
        if (count == 0) {
            if (length > 0)
                answer_line(line, length);
            return;
        }
        if (length > LINE)
            length = LINE + 1;
        memmove(input, line, length);
    }
}

/* --- the program --------------------------------------------------------------------------------- */

__attribute__((noreturn)) static void fail(const char *what, const char *name)
{
    fprintf(stderr, "altctl: cannot %s %s\n", what, name);
    exit(1);
}

static void create(const char *name, uint32_t count)
{
    byte block[BLOCK] = {0};
    file = open(name, O_RDWR | O_CREAT | O_EXCL, 0666);
    if (file < 0 || setjmp(refused) != 0)
        fail("create", name);
    lengthen_file(count);
    sync_file();
    blocks = count;
    in_slot_b = true;
    add_entry('A', (const byte[NAME]){"\3top"}, (const byte[NAME]){""}, (struct root){0}, (struct root){0});
    publish();
    make_header(block, FORMAT);
    write_file(0, block, 1);
    sync_file();
    printf("created %u\n", count);
}

static void open_file(const char *name, int how, bool is_whole)
{
    struct stat it;
    file = open(name, how);
    if (file < 0 || fstat(file, &it) != 0)
        fail("open", name);
    file_blocks = it.st_size / BLOCK > UINT32_MAX ? UINT32_MAX : (uint32_t)(it.st_size / BLOCK);
    begin_kept();
    if (setjmp(refused) != 0) {
        fprintf(stderr, "altctl: %s\n", refusal_text);
        if (is_earlier)
            fputs("altctl: the file is of an earlier format: tools/upgrade.py OLD NEW carries it over\n", stderr);
        else if (refusal == DAMAGED && lacks_sum(damaged_block))
            fputs("altctl: the file has no checksums: tools/upgrade.py OLD NEW carries it over\n", stderr);
        exit(1);
    }
    open_store(is_whole);
}

static void check(void)
{
    int alternatives = 0;
    for (int i = 0; i < working.count; i++)
        alternatives += working.at[i].tag == 'A';
    printf("alternatives %d\ncheckpoints %d\nfree %u\n", alternatives, working.count - alternatives, free_blocks);
}

int main(int count, char **words)
{
    const char *job = count > 2 ? words[1] : "", *name = words[count - 1];
    bool has_buffer = count == 5 && strcmp(words[2], "--buffer") == 0 && strcmp(words[3], "0") == 0;
    if (strcmp(job, "create") == 0 && count == 4) {
        long said = strtol(words[3], NULL, 10);
        if (said >= LEAST_BLOCKS && said <= MOST_BLOCKS) {
            create(words[2], (uint32_t)said);
            return 0;
        }
    } else if (strcmp(job, "run") == 0 && (count == 3 || has_buffer)) {
        open_file(name, O_RDWR, false);
        answer_lines();
        return 0;
    } else if (strcmp(job, "check") == 0 && count == 3) {
        open_file(name, O_RDONLY, true);
        check();
        return 0;
    }
    fprintf(stderr, "usage: plain create FILE BLOCKS | plain run [--buffer 0] FILE | plain check FILE\n");
    return 2;
}
