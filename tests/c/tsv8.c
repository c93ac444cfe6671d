/* Reads TSV8 through j8.h, as a C program of the firmware would. */

#include <stdint.h>
#include <stdio.h>
#include <string.h>

#include "j8.h"
#include "characters.h"

#define NUMBER_FILL 0xA5A5A5A5u
#define FILL 0x5A
#define SPARE 8

static unsigned long checks;
static uint32_t names[J8_NAMES_ROOM + SPARE], types[J8_TYPES_ROOM + SPARE], cells[J8_CELLS_ROOM + SPARE];
static uint8_t store[J8_STORE_ROOM(J8_TEXT_MAX) + SPARE];
static uint8_t long_text[J8_TEXT_MAX + 1];
static size_t long_len;
/* How much of cells and store is painted and looked at: less for many short texts. */
static size_t cells_watched = J8_CELLS_ROOM + SPARE, store_watched = sizeof store;

/* One check; answers whether it passed. */
static int check(int passed, const char *what)
{
    checks++;
    if (!passed) {
        fprintf(stderr, "c: failed: %s\n", what);
    }
    return passed;
}

static void paint(uint32_t *numbers, size_t count)
{
    while (count > 0) {
        numbers[--count] = NUMBER_FILL;
    }
}

static int painted(const uint32_t *numbers, size_t from, size_t count)
{
    while (from < count) {
        if (numbers[from++] != NUMBER_FILL) {
            return 0;
        }
    }
    return 1;
}

/* Nothing behind so many names, types, cells and bytes was touched. */
static int untouched(size_t columns, size_t count, size_t stored)
{
    size_t at;

    for (at = stored; at < store_watched; at++) {
        if (store[at] != FILL) {
            return 0;
        }
    }
    return painted(names, columns * J8_CELL_ROOM, J8_NAMES_ROOM + SPARE)
        && painted(types, columns, J8_TYPES_ROOM + SPARE)
        && painted(cells, count * J8_CELL_ROOM, cells_watched);
}

/* The lengths of the four parts: numbers, numbers, numbers, bytes. */
typedef struct {
    size_t names, types, cells, store;
} lengths;

static const lengths ample = { J8_NAMES_ROOM, J8_TYPES_ROOM, J8_CELLS_ROOM, J8_STORE_ROOM(J8_TEXT_MAX) };
static const lengths nothing = { 0, 0, 0, 0 };

static j8_sheet reading(const void *text, size_t length, lengths lent)
{
    paint(names, J8_NAMES_ROOM + SPARE);
    paint(types, J8_TYPES_ROOM + SPARE);
    paint(cells, cells_watched);
    memset(store, FILL, store_watched);
    return j8_tsv8_read(text, length, names, lent.names, types, lent.types, cells, lent.cells,
                        store, lent.store);
}

static int refused_with(j8_sheet got, uint32_t number, size_t place, const char *what)
{
    return check(got.number == number, what)
        && check(got.place == place, what)
        && check(got.columns == 0 && got.cells == 0 && got.stored == 0, what)
        && check(untouched(0, 0, 0), what);
}

static int fails(const char *text, uint32_t number, size_t place)
{
    return refused_with(reading(text, strlen(text), ample), number, place, text)
        && refused_with(reading(text, strlen(text), nothing), number, place, text);
}

/* The log: each type, another ! line, blank lines, CRs, names and cells that are
   stored, bytes that are no UTF-8. */
static const char log_text[] =
    "\n"
    "!tsv8\tdesk\t\"scans\"\t'\\u{74}oner'\tduplex\n"
    "!type\tStr\tInt\tFloat\tBool\r\n"
    "!unit\t\tpages\t\"\t\n"
    " \r\n"
    "\tFront desk\t41\t93.5\ttrue\n"
    "\tb'caf\\ye9'\t 7 \t80\tfalse\r\n"
    "\t\"\"\t0\t-6e-1\ttrue";
#define LOG (sizeof log_text - 1)

enum { COLUMNS = 4, CELLS = 12, STORED = 9 };
static const lengths exact = { COLUMNS * J8_CELL_ROOM, COLUMNS, CELLS * J8_CELL_ROOM, STORED };
static const uint32_t log_types[COLUMNS] = { J8_TYPE_STR, J8_TYPE_INT, J8_TYPE_FLOAT, J8_TYPE_BOOL };

/* A name or cell: its kind and its bytes. */
typedef struct {
    uint32_t kind;
    const char *bytes;
} shown;

static const shown log_names[COLUMNS] = {
    { J8_CELL_STR, "desk" }, { J8_CELL_STR, "scans" }, { J8_CELL_STR_STORED, "toner" }, { J8_CELL_STR, "duplex" },
};
static const shown log_cells[CELLS] = {
    { J8_CELL_STR, "Front desk" }, { J8_CELL_INT, "41" }, { J8_CELL_FLOAT, "93.5" }, { J8_CELL_TRUE, "true" },
    { J8_CELL_STR_STORED, "caf\xe9" }, { J8_CELL_INT, "7" }, { J8_CELL_FLOAT, "80" }, { J8_CELL_FALSE, "false" },
    { J8_CELL_STR, "" }, { J8_CELL_INT, "0" }, { J8_CELL_FLOAT, "-6e-1" }, { J8_CELL_TRUE, "true" },
};

static int shows(const uint32_t *three, shown wanted)
{
    const void *bytes = three[0] == J8_CELL_STR_STORED ? (const void *)(store + three[1])
                                                       : (const void *)(log_text + three[1]);

    return three[0] == wanted.kind && three[2] == strlen(wanted.bytes)
        && memcmp(bytes, wanted.bytes, three[2]) == 0;
}

static int whole_log(lengths lent, const char *what)
{
    j8_sheet got = reading(log_text, LOG, lent);
    size_t i;

    if (!check(got.number == 0 && got.place == 0, what)
        || !check(got.columns == COLUMNS && got.cells == CELLS && got.stored == STORED, what)
        || !check(untouched(COLUMNS, CELLS, STORED), what)
        || !check(memcmp(types, log_types, sizeof log_types) == 0, what)) {
        return 0;
    }
    for (i = 0; i < COLUMNS; i++) {
        if (!check(shows(names + i * J8_CELL_ROOM, log_names[i]), what)) {
            fprintf(stderr, "c: name %u\n", (unsigned)i);
            return 0;
        }
    }
    for (i = 0; i < CELLS; i++) {
        if (!check(shows(cells + i * J8_CELL_ROOM, log_cells[i]), what)) {
            fprintf(stderr, "c: cell %u\n", (unsigned)i);
            return 0;
        }
    }
    return 1;
}

/* The exact lengths, with one of them changed. */
static lengths changed(int part, int by)
{
    lengths lent = exact;
    size_t *const all[] = { &lent.names, &lent.types, &lent.cells, &lent.store };

    *all[part] = (size_t)((long)*all[part] + by);
    return lent;
}

static int rooms(void)
{
    static const char *const parts[] = { "names", "types", "cells", "store" };
    int part, by, passed;

    passed = whole_log(ample, "log, rooms that always suffice")
        && check(LOG < J8_TEXT_MAX && CELLS * J8_CELL_ROOM <= J8_TEXT_CELLS_ROOM(LOG), "J8_TEXT_CELLS_ROOM")
        && whole_log(exact, "log, exact rooms")
        && refused_with(reading(log_text, LOG, nothing), J8_NO_ROOM, 0, "no room");
    for (part = 0; part < 4; part++) {
        for (by = 1; by <= 2; by++) {
            passed = passed && whole_log(changed(part, by), parts[part])
                && refused_with(reading(log_text, LOG, changed(part, -by)), J8_NO_ROOM, 0, parts[part]);
        }
    }
    return passed;
}

static int nothing_lent(void)
{
    j8_sheet got = j8_tsv8_read(NULL, 0, NULL, 0, NULL, 0, NULL, 0, NULL, 0);
    const char *head = "!tsv8\ta";

    if (!refused_with(reading("", 0, ample), J8_BAD_HEADER, 0, "empty text")
        || !check(got.number == J8_BAD_HEADER && got.place == 0, "NULL with length 0")
        || !check(got.columns == 0 && got.cells == 0 && got.stored == 0, "NULL with length 0")) {
        return 0;
    }
    got = j8_tsv8_read((const uint8_t *)head, strlen(head), NULL, 0, NULL, 0, NULL, 0, NULL, 0);
    if (!check(got.number == J8_NO_ROOM && got.place == 0, "nothing lent")) {
        return 0;
    }
    /* No cells and no stored bytes need no room. */
    paint(names, J8_NAMES_ROOM + SPARE);
    paint(types, J8_TYPES_ROOM + SPARE);
    got = j8_tsv8_read((const uint8_t *)head, strlen(head), names, J8_CELL_ROOM, types, 1, NULL, 0, NULL, 0);
    return check(got.number == 0 && got.columns == 1 && got.cells == 0 && got.stored == 0, "names alone")
        && check(names[0] == J8_CELL_STR && names[1] == 6 && names[2] == 1, "names alone")
        && check(types[0] == J8_TYPE_STR, "names alone")
        && check(painted(names, 3, J8_NAMES_ROOM + SPARE) && painted(types, 1, J8_TYPES_ROOM + SPARE), "names alone");
}

static int refusals(void)
{
    return fails(" \r\n\n", J8_BAD_HEADER, 0)
        && fails("!tsv8", J8_BAD_HEADER, 0)
        && fails("\n !tsv8\ta", J8_BAD_HEADER, 1)
        && fails("\xef\xbb\xbf!tsv8\ta", J8_BAD_HEADER, 0)
        && fails("!tsv8\ta\n!type\tint", J8_BAD_HEADER, 14)
        && fails("!tsv8\ta\n!type\t  Int x", J8_BAD_HEADER, 14)
        && fails("!tsv8\ta\n!x\t\n!type\tInt", J8_BAD_HEADER, 12)
        && fails("!tsv8\ta\n!type", J8_BAD_LINE, 8)
        && fails("!tsv8\ta\nx", J8_BAD_LINE, 8)
        && fails("!tsv8\ta\n\x0b\n", J8_BAD_LINE, 8)
        && fails("!tsv8\ta\n\tx\ty\n", J8_BAD_LINE, 8)
        && fails("!tsv8\ta\n\tx\n!type\tInt", J8_BAD_LINE, 11)
        && fails("!tsv8\ta\n!type\tInt\n\t 4l", J8_WRONG_TYPE, 19)
        && fails("!tsv8\ta\n!type\tInt\n\t-5", J8_WRONG_TYPE, 19)
        && fails("!tsv8\ta\n!type\tBool\n\t  \"true\"", J8_WRONG_TYPE, 20)
        && fails("!tsv8\ta\n!type\tBool\n\t\"true ", J8_CUT_OFF, 25)
        && fails("!tsv8\ta\n!type\tInt\n\t4\xff", J8_UTF8_BAD_ENCODING, 20)
        && fails("!tsv8\ta\n!type\tInt\n\t4\xe2\x82", J8_UTF8_INCOMPLETE, 20)
        && fails("!tsv8\ta\n\tx\ry", J8_CONTROL, 10)
        && fails("!tsv8\ta\r!type", J8_CONTROL, 7)
        && fails("!tsv8\ta\n\t\"\\q\"", J8_BAD_ESCAPE, 10)
        && fails("!tsv8\ta\n\t'\\u{d800}'", J8_SURROGATE, 10)
        && fails("!tsv8\ta\n\t'\\u{110000}'", J8_TOO_LARGE, 10)
        && fails("!tsv8\ta\n\t'\\yff'", J8_BYTE_ESCAPE, 10)
        && fails("!tsv8\ta\n\t'x' y", J8_TRAILING, 12)
        && fails("!tsv8\ta\tb\n\tx\t \r\n", J8_EMPTY_CELL, 13)
        && fails("!tsv8\t", J8_EMPTY_CELL, 6);
}

static void put(const char *bytes, size_t times)
{
    while (times-- > 0) {
        memcpy(long_text + long_len, bytes, strlen(bytes));
        long_len += strlen(bytes);
    }
}

static int is_read(size_t columns, size_t count, const char *what)
{
    j8_sheet got = reading(long_text, long_len, ample);

    return check(got.number == 0 && got.columns == columns && got.cells == count && got.stored == 0, what)
        && check(untouched(columns, count, 0), what);
}

static int limits(void)
{
    size_t row;

    /* 64 and 65 columns */
    long_len = 0;
    put("!tsv8", 1);
    put("\tx", J8_COLUMNS_MAX);
    if (!is_read(J8_COLUMNS_MAX, 0, "64 columns")) {
        return 0;
    }
    put("\tx", 1);
    if (!refused_with(reading(long_text, long_len, ample), J8_BAD_HEADER, 0, "65 columns")) {
        return 0;
    }
    /* the most cells, and 32,768 and 32,769 bytes */
    long_len = 0;
    put("!tsv8", 1);
    put("\tx", 62);
    for (row = 0; row < 261; row++) {
        put("\n", 1);
        put("\tx", 62);
    }
    if (!check(62 * 261 * J8_CELL_ROOM == J8_CELLS_ROOM, "J8_CELLS_ROOM") || !is_read(62, 62 * 261, "the most cells")) {
        return 0;
    }
    put(" ", J8_TEXT_MAX - long_len);
    if (!is_read(62, 62 * 261, "32,768 bytes")) {
        return 0;
    }
    put(" ", 1);
    if (!refused_with(reading(long_text, long_len, ample), J8_TOO_LONG, 0, "32,769 bytes")) {
        return 0;
    }
    /* a cell of 30,000 bytes */
    long_len = 0;
    put("!tsv8\ta\n\t", 1);
    put("n", 30000);
    return is_read(1, 1, "a long cell") && check(cells[1] == 9 && cells[2] == 30000, "a long cell");
}

/* Whether a name or cell of a type has a kind of it, and its range inside. */
static int stands(const uint32_t *three, uint32_t type, size_t text_len, size_t stored)
{
    size_t room = three[0] == J8_CELL_STR_STORED ? stored : text_len;
    int fits = type == J8_TYPE_BOOL ? three[0] == J8_CELL_FALSE || three[0] == J8_CELL_TRUE
        : type == J8_TYPE_INT ? three[0] == J8_CELL_INT
        : type == J8_TYPE_FLOAT ? three[0] == J8_CELL_FLOAT
        : type == J8_TYPE_STR && (three[0] == J8_CELL_STR || three[0] == J8_CELL_STR_STORED);

    return fits && three[1] <= room && three[2] <= room - three[1];
}

/* Any bytes get one answer of the header's list, 12 never in rooms that always suffice. A
   refusal leaves all four parts, and what is read stands whole inside. */
static int answered(const uint8_t *text, size_t length)
{
    lengths lent = { J8_NAMES_ROOM, J8_TYPES_ROOM, J8_TEXT_CELLS_ROOM(length), J8_STORE_ROOM(length) };
    j8_sheet got = reading(text, length, lent);
    size_t at;

    if (got.number != 0) {
        return check(got.number == J8_CUT_OFF || (got.number >= J8_CONTROL && got.number <= J8_TRAILING)
                         || (got.number >= J8_BAD_HEADER && got.number <= J8_UTF8_TOO_LARGE), "a number of the list")
            && check(got.place <= length, "a place in the text")
            && check(got.columns == 0 && got.cells == 0 && got.stored == 0, "no counts")
            && check(untouched(0, 0, 0), "a refusal leaves all four");
    }
    if (!check(got.place == 0 && got.columns >= 1 && got.columns <= J8_COLUMNS_MAX && got.cells % got.columns == 0, "whole rows")
        || !check(untouched(got.columns, got.cells, got.stored), "nothing behind what is read")) {
        return 0;
    }
    for (at = 0; at < got.columns; at++) {
        if (!check(stands(names + at * J8_CELL_ROOM, J8_TYPE_STR, length, got.stored), "a name's range")) {
            return 0;
        }
    }
    for (at = 0; at < got.cells; at++) {
        if (!check(stands(cells + at * J8_CELL_ROOM, types[at % got.columns], length, got.stored), "a cell's range")) {
            return 0;
        }
    }
    return 1;
}

/* A cell of each one byte, NUL with them. */
static int each_byte(void)
{
    uint8_t text[] = "!tsv8\ta\n\t?";
    const size_t at = sizeof text - 2, length = sizeof text - 1;
    unsigned byte;

    for (byte = 0; byte < 256; byte++) {
        j8_sheet got;
        int passed;

        text[at] = (uint8_t)byte;
        got = reading(text, length, ample);
        if (byte == '\t') {
            passed = refused_with(got, J8_BAD_LINE, 8, "a tab more");
        } else if (byte == ' ' || byte == '\r' || byte == '\n') {
            passed = refused_with(got, J8_EMPTY_CELL, at, "a blank cell");
        } else if (byte == '"' || byte == '\'') {
            passed = refused_with(got, J8_CUT_OFF, length, "a quote alone");
        } else if (byte < 0x20) {
            passed = refused_with(got, J8_CONTROL, at, "a control");
        } else if (byte >= 0x80) {
            uint32_t number = byte < 0xc0 || byte >= 0xf8 ? J8_UTF8_BAD_ENCODING : J8_UTF8_INCOMPLETE;

            passed = refused_with(got, number, at, "no UTF-8");
        } else {
            passed = check(got.number == 0 && got.cells == 1 && untouched(1, 1, 0), "one byte")
                && check(cells[0] == J8_CELL_STR && cells[1] == at && cells[2] == 1, "one byte");
        }
        if (!passed) {
            fprintf(stderr, "c: byte %u\n", byte);
            return 0;
        }
    }
    return 1;
}

/* The log cut off anywhere, and with a hostile byte in place of any or before it. */
static int damaged(void)
{
    static const uint8_t hostile[] = { 0, '\t', '\n', '\r', ' ', '!', '"', '\'', '\\', '0', 0x7f, 0x80, 0xed, 0xff };
    static uint8_t text[LOG + 1];
    size_t at, with;

    for (at = 0; at <= LOG; at++) {
        if (!answered((const uint8_t *)log_text, at)) {
            fprintf(stderr, "c: the log cut off at %u\n", (unsigned)at);
            return 0;
        }
        for (with = 0; with < sizeof hostile; with++) {
            memcpy(text, log_text, at);
            text[at] = hostile[with];
            memcpy(text + at + 1, log_text + at, LOG - at);
            if (!answered(text, LOG + 1)) {
                fprintf(stderr, "c: %02x before %u of the log\n", hostile[with], (unsigned)at);
                return 0;
            }
            if (at == LOG) {
                continue;
            }
            memcpy(text + at + 1, log_text + at + 1, LOG - at - 1);
            if (!answered(text, LOG)) {
                fprintf(stderr, "c: %02x at %u of the log\n", hostile[with], (unsigned)at);
                return 0;
            }
        }
    }
    return 1;
}

/* As long as a text may be, and of one byte only. */
static int monotone(void)
{
    static const char bytes[] = "\t\n !\"\\";
    const char *byte;

    for (byte = bytes; *byte != 0; byte++) {
        memset(long_text, *byte, J8_TEXT_MAX);
        if (!refused_with(reading(long_text, J8_TEXT_MAX, ample), J8_BAD_HEADER, 0, "one byte again and again")) {
            return 0;
        }
        /* The same in a cell, and in a line of its own. */
        memcpy(long_text, "!tsv8\ta\n\t", 9);
        if (!answered(long_text, J8_TEXT_MAX)) {
            return 0;
        }
        memcpy(long_text, "!tsv8\ta\n", 8);
        if (!answered(long_text, J8_TEXT_MAX)) {
            return 0;
        }
    }
    return 1;
}

/* Each fault of UTF-8 in names and in cells of each sort, before what ends a cell. Types and lines that are skipped aren't read. */
static int faults(void)
{
    static const char *const starts[] = {
        "!tsv8\t", "!tsv8\ta\t 'b", "!tsv8\ta\n\t", "!tsv8\ta\n\tx\n\t\"", "!tsv8\ta\n!type\tInt\n\t4", "!tsv8\ta\n!type\tBool\n\t b'"
    };
    static const char *const ends[] = { "", " \r", "\n", "'", "4" };
    size_t at, start, end;

    for (at = 0; at < CHARACTERS; at++) {
        for (start = 0; start < sizeof starts / sizeof starts[0]; start++) {
            for (end = 0; end < sizeof ends / sizeof ends[0]; end++) {
                if (!fails(between(starts[start], at, ends[end]), characters[at].number, strlen(starts[start]))) {
                    return 0;
                }
            }
        }
        if (!fails(between("!tsv8\ta\tb\n\t", at, "\tx"), characters[at].number, 11)
            || !fails(between("!tsv8\ta\n!type\t", at, ""), J8_BAD_HEADER, 14)
            || !check(reading(between("!tsv8\ta\n!x\t", at, ""), strlen(between("!tsv8\ta\n!x\t", at, "")), ample).number == 0, "skipped")) {
            return 0;
        }
    }
    return 1;
}

static int hostile_texts(void)
{
    int passed = monotone();

    cells_watched = J8_TEXT_CELLS_ROOM(LOG + 1) + SPARE;
    store_watched = LOG + 1 + SPARE;
    return passed && damaged() && faults();
}

int main(void)
{
    if (!rooms() || !nothing_lent() || !refusals() || !limits() || !each_byte() || !hostile_texts()) {
        return 1;
    }
    printf("c: %lu checks passed\n", checks);
    return 0;
}
