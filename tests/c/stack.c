/*
 * How much stack each function of j8.h takes: each is called on a
 * stack of its own that was painted before, over inputs that go as deep as its
 * code does, and what is no longer painted was used. Counted from the caller's
 * stack pointer before the call, so arguments on the stack and the return
 * address are in it, and so is what memcpy and memset take below.
 *
 * `make stack` builds it with the C library's functions bound at the start:
 * bound at their first call, the dynamic linker's own stack would be counted.
 *
 * Prints the greatest use of each function and its bound, in bytes, and fails if
 * the first is above the second. The bounds are those that j8.h has for the
 * archive; for another build the words of the command line name others, as
 * j8_string_read=1536.
 */

#define _XOPEN_SOURCE 700

#include <stdio.h>
#include <stdlib.h>
#include <string.h>
#include <ucontext.h>

#include "j8.h"

#define STACK 131072

static union {
    uint8_t bytes[STACK];
    long double aligned;
} whole;
static ucontext_t home, away;

/* The stack pointer before a call. */
static const uint8_t *top;
#ifdef __x86_64__
#define MARK() __asm__ volatile("mov %%rsp, %0" : "=r"(top))
#else
/* The frame of the function that calls, so its own share is counted too. */
#define MARK() (top = (const uint8_t *)__builtin_frame_address(0))
#endif

/* What a call is lent, set before it runs. */
static uint8_t input[J8_UPLOAD_MAX + 1], line[J8_LINE_ROOM];
static size_t input_len, room, table_room, cells_room;
static uint32_t number;
static uint8_t out[6 * 262144], store[J8_STORE_ROOM(J8_TEXT_MAX)];
static uint32_t table[J8_TABLE_ROOM], names[J8_NAMES_ROOM], types[J8_TYPES_ROOM], cells[J8_CELLS_ROOM];
static j8_upload upload;
static j8_nodes nodes;

/* ------------------------------------------------------------- the calls */

static void string_read(void)
{
    MARK();
    j8_string_read(input, input_len, out, room);
}

static void string_write(void)
{
    MARK();
    j8_string_write(input, input_len, out, room);
}

static void upload_fresh(void)
{
    MARK();
    upload = j8_upload_fresh();
}

static void upload_feed(void)
{
    MARK();
    upload = j8_upload_feed(upload, input, input_len, line, sizeof line, out, room).upload;
}

static void upload_finish(void)
{
    MARK();
    upload = j8_upload_finish(upload, line, sizeof line, out, room).upload;
}

static void lines_write(void)
{
    MARK();
    j8_lines_write(input, input_len, out, room);
}

static void json8_read(void)
{
    MARK();
    nodes = j8_json8_read(input, input_len, table, table_room, store, room);
}

static void json8_write(void)
{
    MARK();
    j8_json8_write(table, nodes.nodes * J8_NODE_ROOM, input, input_len, store, nodes.stored, out, room);
}

static void tsv8_read(void)
{
    MARK();
    j8_tsv8_read(input, input_len, names, J8_NAMES_ROOM, types, J8_TYPES_ROOM, cells, cells_room, store, room);
}

static void version(void)
{
    MARK();
    j8_version();
}

static void sentence(void)
{
    MARK();
    j8_sentence(number, out, room);
}

static void json8_show(void)
{
    MARK();
    j8_json8_show(table, nodes.nodes * J8_NODE_ROOM, input, input_len, store, nodes.stored, nodes.nodes - 1);
}

/* ---------------------------------------------------------- the measuring */

typedef struct {
    const char *name;
    void (*call)(void);
    size_t bound;
    size_t most;
} entry;

static entry entries[] = {
    { "j8_string_read", string_read, 1024, 0 },
    { "j8_string_write", string_write, 1024, 0 },
    { "j8_upload_fresh", upload_fresh, 1024, 0 },
    { "j8_upload_feed", upload_feed, 2048, 0 },
    { "j8_upload_finish", upload_finish, 2048, 0 },
    { "j8_lines_write", lines_write, 1024, 0 },
    { "j8_json8_read", json8_read, 16384, 0 },
    { "j8_json8_write", json8_write, 12288, 0 },
    { "j8_json8_show", json8_show, 1024, 0 },
    { "j8_tsv8_read", tsv8_read, 2048, 0 },
    { "j8_version", version, 1024, 0 },
    { "j8_sentence", sentence, 2048, 0 },
};

enum { STRING_READ, STRING_WRITE, FRESH, FEED, FINISH, LINES_WRITE, JSON8_READ, JSON8_WRITE, JSON8_SHOW, TSV8_READ, VERSION, SENTENCE };

/* Twice, over two paints: a byte that is written as it was painted once isn't so the other time. More is painted than is allowed, so a figure 8,192 above
   its bound may stand for more; whole
   words are counted. */
static void measure(int which)
{
    static const uint8_t paints[] = { 0xA5, 0x5A };
    j8_upload before = upload;
    size_t i, low, start = sizeof whole.bytes - 8192 - entries[which].bound;

    for (i = 0; i < sizeof paints; i++) {
        upload = before;
        memset(whole.bytes + start, paints[i], sizeof whole.bytes - start);
        getcontext(&away);
        away.uc_stack.ss_sp = whole.bytes;
        away.uc_stack.ss_size = sizeof whole.bytes;
        away.uc_link = &home;
        makecontext(&away, entries[which].call, 0);
        swapcontext(&home, &away);
        for (low = start; whole.bytes[low] == paints[i]; low++) {
        }
        low -= low % 8;
        if (top > whole.bytes + low && (size_t)(top - (whole.bytes + low)) > entries[which].most) {
            entries[which].most = (size_t)(top - (whole.bytes + low));
        }
    }
}

/* -------------------------------------------------------------- the inputs */

static void put(const char *bytes, size_t length)
{
    memcpy(input + input_len, bytes, length);
    input_len += length;
}

static void add(const char *bytes)
{
    put(bytes, strlen(bytes));
}

static void set(const char *bytes)
{
    input_len = 0;
    add(bytes);
}

/* Each unit of a string, escapes of every style, and each fault. */
static const char *const units[] = {
    "a", "\xc3\xa9", "\xe2\x82\xac", "\xf0\x9f\xa4\xa6", "\\n", "\\\"", "\\\\", "\\u00e9", "\\u20ac",
    "\\ud83e\\udd26", "\\ud83e", "\\udd26", "\\'", "\\u{e9}", "\\u{20ac}", "\\u{1f926}", "\\u{dc00}",
    "\\u{110000}", "\\u{0000041}", "\\yff", "\\y0", "\\q", "\\", "\x01", "\xff", "\xe2\x82", "\xed\xa0\x80",
    "\"", "'", "\" x",
};
static const char *const marks[] = { "\"", "'", "u'", "b'", "" };
/* Before a unit: nothing, less than a block, some blocks. */
static const size_t fronts[] = { 0, 1, 9, 15, 16, 17, 33, 65, 130, 700 };

#define COUNT(list) (sizeof(list) / sizeof((list)[0]))

/* -DFEWER, for an emulator: a tenth of the inputs, which on x86-64 go as deep as all. */
#ifdef FEWER
enum { FRONT_STEP = 3, BEHINDS = 1, JSON8_FRONT_STEP = 9, BLANK_STEP = 2, LEAST_DEPTH = J8_DEPTH_MAX };
#else
enum { FRONT_STEP = 1, BEHINDS = 3, JSON8_FRONT_STEP = 3, BLANK_STEP = 1, LEAST_DEPTH = 0 };
#endif

/* One string: a mark, plain letters, a unit, plain letters and the closing quote. */
static void make_string(size_t mark, size_t front, size_t unit, size_t behind)
{
    add(marks[mark]);
    memset(input + input_len, 'a', fronts[front]);
    input_len += fronts[front];
    add(units[unit]);
    memset(input + input_len, 'b', fronts[behind]);
    input_len += fronts[behind];
    if (mark < 4) {
        put(marks[mark] + strlen(marks[mark]) - 1, 1);
    }
}

static void measure_upload(void)
{
    room = J8_FEED_ROOM(J8_LINE_ROOM + 2);
    upload = j8_upload_fresh();
    measure(FEED);
    measure(FINISH);
    /* A line that only the finish reads, and one for which there is no room. */
    upload = j8_upload_fresh();
    input_len--;
    measure(FEED);
    measure(FINISH);
    room = 3;
    upload = j8_upload_feed(j8_upload_fresh(), input, input_len, line, sizeof line, out, room).upload;
    measure(FINISH);
    set("\n");
    measure(FEED);
}

/* The payload as records of both kinds. */
static void measure_records(void)
{
    static uint8_t payload[J8_LINE_ROOM];
    size_t length = input_len;
    int kind;

    memcpy(payload, input, length);
    for (kind = 1; kind <= 2; kind++) {
        input[0] = (uint8_t)length;
        input[1] = (uint8_t)(length >> 8);
        input[2] = (uint8_t)kind;
        input[3] = 0;
        memcpy(input + J8_RECORD_HEAD, payload, length);
        input_len = J8_RECORD_HEAD + length;
        for (room = 0; room <= J8_LINES_WRITE_ROOM(input_len); room += J8_LINES_WRITE_ROOM(input_len) / 3) {
            measure(LINES_WRITE);
        }
    }
}

static void measure_strings(void)
{
    size_t mark, front, unit, behind;

    for (mark = 0; mark < COUNT(marks); mark++) {
        for (front = 0; front < COUNT(fronts); front += FRONT_STEP) {
            for (unit = 0; unit < COUNT(units); unit++) {
                for (behind = 0; behind < BEHINDS; behind++) {
                    input_len = 0;
                    make_string(mark, front, unit, behind * 3);
                    if (input_len > J8_LINE_ROOM) {
                        continue;
                    }
                    for (room = 0; room <= input_len; room += input_len) {
                        measure(STRING_READ);
                    }
                    for (room = 0; room <= J8_STRING_WRITE_ROOM(input_len); room += J8_STRING_WRITE_ROOM(input_len) / 3) {
                        measure(STRING_WRITE);
                    }
                    add("\n");
                    measure_upload();
                    input_len = 0;
                    make_string(mark, front, unit, behind * 3);
                    measure_records();
                }
            }
        }
    }
}

/* A text of so many brackets, lists and dicts in turn or of one sort, with a
   string or another value inside, and so many blanks behind. */
static void make_nest(size_t depth, int sort, const char *inside, size_t blanks)
{
    size_t i;

    input_len = 0;
    for (i = 0; i < depth; i++) {
        add(sort == 2 || (sort == 1 && i % 2 == 1) ? "{\"\\u00e9\\n\":" : "[");
    }
    add(inside);
    for (i = depth; i > 0; i--) {
        add(sort == 2 || (sort == 1 && i % 2 == 0) ? "}" : "]");
    }
    memset(input + input_len, ' ', blanks);
    input_len += blanks;
}

/* Reads the text with all rooms, writes and shows what was read. */
static void measure_text(void)
{
    room = sizeof store;
    table_room = J8_TABLE_ROOM;
    measure(JSON8_READ);
    if (nodes.number == 0) {
        measure(JSON8_SHOW);
        for (room = 0; room <= 6 * input_len; room += input_len) {
            measure(JSON8_WRITE);
        }
    }
    for (table_room = 0; table_room <= J8_TABLE_ROOM; table_room += J8_TABLE_ROOM / 2) {
        for (room = 0; room <= input_len; room += input_len) {
            measure(JSON8_READ);
        }
    }
}

static void measure_json8(void)
{
    static const size_t behind[] = { 0, 8000, 20000 };
    char inside[1024];
    size_t depth, unit, mark, blanks, front;
    int sort;

    for (depth = LEAST_DEPTH; depth <= J8_DEPTH_MAX + 1; depth += depth < J8_DEPTH_MAX ? J8_DEPTH_MAX : 1) {
        for (sort = 0; sort < 3; sort++) {
            for (blanks = 0; blanks < COUNT(behind); blanks += BLANK_STEP) {
                for (mark = 0; mark < COUNT(marks); mark++) {
                    for (front = 0; front < COUNT(fronts); front += JSON8_FRONT_STEP) {
                        for (unit = 0; unit < COUNT(units); unit++) {
                            input_len = 0;
                            make_string(mark, front, unit, 2);
                            memcpy(inside, input, input_len);
                            inside[input_len] = '\0';
                            make_nest(depth, sort, inside, behind[blanks]);
                            measure_text();
                        }
                    }
                }
                make_nest(depth, sort, "-1.5e+7 # a number", behind[blanks]);
                measure_text();
                make_nest(depth, sort, "null", behind[blanks]);
                measure_text();
            }
        }
    }
    /* More nodes and decoded bytes than the reader's own arrays hold for a short text. */
    set("[");
    while (input_len < 8000) {
        add("0,'\\n',");
    }
    add("]");
    measure_text();
}

/* Reads the text with all rooms, and with none for cells or stored bytes. */
static void measure_sheet(void)
{
    for (cells_room = 0; cells_room <= J8_CELLS_ROOM; cells_room += J8_CELLS_ROOM) {
        for (room = 0; room <= sizeof store; room += sizeof store) {
            measure(TSV8_READ);
        }
    }
}

/* Each string as a name, as a cell of each type, and behind other rows; cells that
   fit their type; lines of each sort, right and wrong. */
static void measure_tsv8(void)
{
    static const char *const words[] = { "Str", "Bool", "Int", "Float" };
    static const char *const tokens[] = { "true", "false", "0", "41", "-1.5e+7", "1e", "007", "", " ", "x" };
    static const char *const rows[] = {
        "", "\n", " \r\n", "!x\t?\n", "!type\tInt\n", "\ty\n!x\t\n", "\tx\ty\n", "x\n", "!type\n", "\t\"\\n\"\n",
    };
    size_t mark, front, unit, kind, row, token;

    for (mark = 0; mark < COUNT(marks); mark++) {
        for (front = 0; front < COUNT(fronts); front += FRONT_STEP) {
            for (unit = 0; unit < COUNT(units); unit++) {
                set("!tsv8\t");
                make_string(mark, front, unit, 2);
                measure_sheet();
                for (kind = 0; kind < COUNT(words); kind += 2) {
                    set("!tsv8\ta\n!type\t");
                    add(words[kind]);
                    add("\n\t");
                    make_string(mark, front, unit, 2);
                    add("\r\n");
                    measure_sheet();
                }
            }
        }
    }
    for (kind = 0; kind < COUNT(words); kind++) {
        for (token = 0; token < COUNT(tokens); token++) {
            for (row = 0; row < COUNT(rows); row++) {
                set("\n!tsv8\t\"a\"\n!type\t");
                add(words[kind]);
                add("\n");
                add(rows[row]);
                add("\t ");
                add(tokens[token]);
                measure_sheet();
            }
        }
    }
    /* The most cells. */
    set("!tsv8");
    for (token = 0; token < 62 * 262; token++) {
        add(token % 62 == 0 && token > 0 ? "\n\tx" : "\tx");
    }
    measure_sheet();
}

static void measure_sentences(void)
{
    for (number = 0; number <= J8_EMPTY_CELL + 1; number++) {
        for (room = 0; room <= J8_SENTENCE_ROOM; room += J8_SENTENCE_ROOM) {
            measure(SENTENCE);
        }
    }
}

/* A word of the command line: a function's name, = and its bound. */
static void set_bound(const char *word)
{
    size_t i, length;

    for (i = 0; i < COUNT(entries); i++) {
        length = strlen(entries[i].name);
        if (strncmp(word, entries[i].name, length) == 0 && word[length] == '=') {
            entries[i].bound = (size_t)strtoul(word + length + 1, NULL, 10);
            return;
        }
    }
    fprintf(stderr, "no bound: %s\n", word);
    exit(2);
}

int main(int argc, char **argv)
{
    size_t i;
    int within = 1, at;

    for (at = 1; at < argc; at++) {
        set_bound(argv[at]);
    }
    measure(FRESH);
    measure(VERSION);
    measure_sentences();
    measure_strings();
    measure_json8();
    measure_tsv8();
    printf("%-18s %8s %8s\n", "", "measured", "bound");
    for (i = 0; i < COUNT(entries); i++) {
        printf("%-18s %8lu %8lu\n", entries[i].name, (unsigned long)entries[i].most, (unsigned long)entries[i].bound);
        within = within && entries[i].most <= entries[i].bound;
    }
    return within ? 0 : 1;
}
