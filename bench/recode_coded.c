/* recode_coded FRONTS: reads a stream of one column of texts with a dictionary and indices of 32 bits, none of them
 * null, tests all of its batches, and writes what `recode` writes of it: what such work costs in plain C. FRONTS is a
 * stream of that form, as `recode` writes it: the schema and the fronts of the messages are taken from it. Each record
 * batch has whole pieces of 4,096 rows, or is the last. */
#include <stdint.h>
#include <stdio.h>
#include <stdlib.h>
#include <string.h>
#include <sys/stat.h>
#include <unistd.h>

enum { PIECE = 4096, SCHEMA = 1, DICTIONARY = 2, BATCH = 3 };
#define MOST_WEIGHT 268435456

/* A message: its front, and where that has the numbers that differ from message to message. */
struct message {
    uint8_t *front, *body, *end, *rows, *nodes, *buffers, *body_length;
    int kind;
};

/* An entry: the first one with the same bytes, and of that one its place in the piece that named it last. */
struct entry { uint32_t same, place, piece, from, length; };

struct dictionary {
    uint32_t count;
    const uint8_t *ends, *texts;
    struct entry *entries;
};

static int32_t int_at(const uint8_t *from) {
    int32_t number;
    memcpy(&number, from, 4);
    return number;
}

static int64_t long_at(const uint8_t *from) {
    int64_t number;
    memcpy(&number, from, 8);
    return number;
}

static uint8_t *at(uint8_t *from) { return from + int_at(from); }

static void put_long(uint8_t *to, int64_t number) { memcpy(to, &number, 8); }

static void fail(const char *why) {
    fprintf(stderr, "recode_coded: %s\n", why);
    exit(1);
}

static uint8_t *field(uint8_t *table, int slot) {
    uint8_t *fields = table - int_at(table);
    uint16_t size, place = 0;
    memcpy(&size, fields, 2);
    if (4 + 2 * slot < size) memcpy(&place, fields + 4 + 2 * slot, 2);
    return place ? table + place : NULL;
}

static struct message read_message(uint8_t *from, uint8_t *end) {
    struct message made = { .front = from, .end = NULL };
    if (end - from < 8 || int_at(from) != -1) fail("no message");
    int32_t size = int_at(from + 4);
    if (size == 0) return made;
    if (size < 0 || end - from - 8 < size) fail("a message ends early");
    made.body = from + 8 + size;
    uint8_t *table = at(from + 8);
    made.kind = *field(table, 1);
    made.body_length = field(table, 3);
    made.end = made.body + (made.body_length ? long_at(made.body_length) : 0);
    if (made.end > end) fail("a body ends early");
    if (made.kind == SCHEMA) return made;
    uint8_t *batch = at(field(table, 2));
    if (made.kind == DICTIONARY) batch = at(field(batch, 1));
    made.rows = field(batch, 0);
    made.nodes = at(field(batch, 1)) + 4;
    made.buffers = at(field(batch, 2)) + 4;
    if (long_at(made.nodes + 8) != 0) fail("a null");
    return made;
}

static const uint8_t *buffer(const struct message *of, int place, int64_t least) {
    int64_t from = long_at(of->buffers + 16 * place), length = long_at(of->buffers + 16 * place + 8);
    if (from < 0 || length < least || of->body + from + length > of->end) fail("a buffer is too short");
    return of->body + from;
}

static uint64_t mixed(uint64_t sum) {
    sum *= 0x9E3779B97F4A7C15u;
    return sum ^ sum >> 32;
}

static uint32_t hash_of(const uint8_t *text, uint32_t length) {
    uint64_t sum = length;
    for (; length >= 8; text += 8, length -= 8) sum = mixed(sum ^ (uint64_t)long_at(text));
    for (; length; text++, length--) sum = mixed(sum ^ *text);
    return sum >> 16;
}

/* Finds for each entry the first one with the same bytes. */
static void find_same(struct dictionary *of) {
    uint32_t size = 16;
    while (size < 2 * of->count) size *= 2;
    uint32_t *table = calloc(size, 4);
    of->entries = calloc(of->count, sizeof *of->entries);
    for (uint32_t number = 0; number < of->count; number++) {
        struct entry *own = of->entries + number, *other;
        own->from = int_at(of->ends + 4 * number), own->length = int_at(of->ends + 4 * number + 4) - own->from;
        uint32_t slot = hash_of(of->texts + own->from, own->length) & (size - 1);
        for (; table[slot]; slot = (slot + 1) & (size - 1)) {
            other = of->entries + table[slot] - 1;
            if (other->length == own->length && !memcmp(of->texts + other->from, of->texts + own->from, own->length)) break;
        }
        if (!table[slot]) table[slot] = number + 1;
        own->same = table[slot] - 1;
    }
    free(table);
}

static struct dictionary read_dictionary(const struct message *from) {
    struct dictionary made = { .count = long_at(from->rows) };
    made.ends = buffer(from, 1, 4 * (made.count + 1));
    made.texts = buffer(from, 2, int_at(made.ends + 4 * made.count));
    if (int_at(made.ends) < 0) fail("an offset");
    for (uint32_t entry = 0; entry < made.count; entry++)
        if (int_at(made.ends + 4 * entry + 4) < int_at(made.ends + 4 * entry)) fail("an offset");
    uint8_t high = 0;
    for (int32_t i = int_at(made.ends); i < int_at(made.ends + 4 * made.count); i++) high |= made.texts[i];
    if (high & 128) fail("not ASCII");
    find_same(&made);
    return made;
}

/* Tests that each index names an entry, and returns what the rows weigh. */
static uint64_t weigh(const struct dictionary *by, const uint8_t *indices, int64_t rows) {
    uint64_t weight = 0;
    for (int64_t row = 0; row < rows; row++) {
        uint32_t index = int_at(indices + 4 * row);
        if (index >= by->count) fail("an index");
        weight += 2 + int_at(by->ends + 4 * index + 4) - int_at(by->ends + 4 * index);
    }
    return weight;
}

static void put(const void *from, size_t count) {
    for (ssize_t done; count; count -= done, from = (const char *)from + done)
        if ((done = write(1, from, count)) < 0) fail("a failed write");
}

/* Writes the fronts of the two messages of a piece between their bodies. */
static size_t put_front(uint8_t *out, struct message *front, int64_t rows, int64_t second, int64_t third) {
    size_t size = front->body - front->front;
    int64_t body = ((second + 7) & -8) + ((third + 7) & -8);
    put_long(front->rows, rows), put_long(front->nodes, rows), put_long(front->body_length, body);
    put_long(front->buffers + 24, second);
    if (front->kind == DICTIONARY) put_long(front->buffers + 32, (second + 7) & -8), put_long(front->buffers + 40, third);
    memcpy(out, front->front, size);
    return size;
}

static size_t fill(uint8_t *out, size_t from, size_t count) {
    size_t whole = (count + 7) & ~(size_t)7;
    memset(out + from + count, 0, whole - count);
    return from + whole;
}

static uint32_t pieces;

/* Writes a piece: its dictionary, which has the entries that its rows name, in the order in which they are first named,
 * and its indices. `out` and `room` are memory for it. */
static void put_piece(struct dictionary *by, struct message *fronts, const uint8_t *indices, uint32_t rows,
                      uint8_t *out, uint8_t *room) {
    static uint32_t codes[PIECE], ends[PIECE + 1];
    uint32_t count = 0, size = 0;
    pieces++;
    for (uint32_t row = 0; row < rows; row++) {
        struct entry *entry = by->entries + by->entries[int_at(indices + 4 * row)].same;
        if (entry->piece != pieces) {
            entry->piece = pieces, entry->place = count++;
            memcpy(room + size, by->texts + entry->from, entry->length);
            ends[count] = size += entry->length;
        }
        codes[row] = entry->place;
    }
    size_t made = put_front(out, &fronts[0], count, 4 * (count + 1), size);
    memcpy(out + made, ends, 4 * (count + 1));
    made = fill(out, made, 4 * (count + 1));
    memcpy(out + made, room, size);
    made = fill(out, made, size);
    made += put_front(out + made, &fronts[1], rows, 4 * rows, 0);
    memcpy(out + made, codes, 4 * rows);
    put(out, fill(out, made, 4 * rows));
}

static uint8_t *whole(int file, size_t *size) {
    struct stat found;
    if (fstat(file, &found)) fail("no file");
    uint8_t *bytes = malloc(found.st_size);
    size_t held = 0;
    for (ssize_t done; (done = read(file, bytes + held, found.st_size - held)) > 0; held += done);
    *size = held;
    return bytes;
}

/* Tests all batches, and returns their dictionaries in turn, and how long the longest is. */
static struct dictionary *test_all(uint8_t *bytes, uint8_t *end, size_t *longest) {
    struct dictionary *read = malloc(sizeof *read * ((end - bytes) / 64 + 1)), *known = read;
    uint64_t weight = 0;
    for (struct message next = read_message(bytes, end); next.end; next = read_message(next.end, end)) {
        size_t length = next.end - next.body;
        if (next.kind == DICTIONARY) *known++ = read_dictionary(&next);
        if (next.kind == DICTIONARY && length > *longest) *longest = length;
        if (next.kind != BATCH) continue;
        if (known == read) fail("no dictionary");
        weight += weigh(known - 1, buffer(&next, 1, 4 * long_at(next.rows)), long_at(next.rows));
        if (weight > MOST_WEIGHT) fail("too heavy");
    }
    return read;
}

static void write_all(uint8_t *bytes, uint8_t *end, struct dictionary *by, struct message *fronts, size_t longest) {
    uint8_t *out = malloc(longest + 16 * PIECE), *room = malloc(longest + 8);
    for (struct message next = read_message(bytes, end); next.end; next = read_message(next.end, end)) {
        if (next.kind == DICTIONARY) by++;
        if (next.kind != BATCH) continue;
        const uint8_t *indices = buffer(&next, 1, 0);
        for (int64_t row = 0, rows = long_at(next.rows); row < rows; row += PIECE)
            put_piece(by - 1, fronts, indices + 4 * row, rows - row < PIECE ? rows - row : PIECE, out, room);
    }
    put("\xff\xff\xff\xff\0\0\0", 8);
}

int main(int count, char **words) {
    FILE *file = count == 2 ? fopen(words[1], "rb") : NULL;
    if (!file) fail("no fronts");
    size_t size, of_fronts, longest = 0;
    uint8_t *own = whole(fileno(file), &of_fronts), *bytes = whole(0, &size);
    struct message schema = read_message(own, own + of_fronts), fronts[2];
    fronts[0] = read_message(schema.end, own + of_fronts);
    fronts[1] = read_message(fronts[0].end, own + of_fronts);
    struct dictionary *read = test_all(bytes, bytes + size, &longest);
    put(own, schema.end - own);
    write_all(bytes, bytes + size, read, fronts, longest);
    return 0;
}
