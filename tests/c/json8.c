/* Reads JSON8 through j8.h and shows its strings, as a C program of the firmware would. */

#include <stdint.h>
#include <stdio.h>
#include <string.h>

#include "j8.h"
#include "characters.h"

#define NUMBER_FILL 0xA5A5A5A5u
#define FILL 0x5A
#define SPARE 8

static unsigned long checks;
static uint32_t table[J8_TABLE_ROOM + SPARE];
static uint8_t store[J8_TEXT_MAX + SPARE];
static uint8_t long_text[J8_TEXT_MAX + 1];

/* One check; answers whether it passed. */
static int check(int passed, const char *what)
{
    checks++;
    if (!passed) {
        fprintf(stderr, "c: failed: %s\n", what);
    }
    return passed;
}

/* Nothing from these places on was touched. */
static int untouched(size_t number, size_t byte)
{
    while (number < J8_TABLE_ROOM + SPARE) {
        if (table[number++] != NUMBER_FILL) {
            return 0;
        }
    }
    while (byte < J8_TEXT_MAX + SPARE) {
        if (store[byte++] != FILL) {
            return 0;
        }
    }
    return 1;
}

static j8_nodes reading(const void *text, size_t length, size_t numbers, size_t bytes)
{
    size_t i;

    for (i = 0; i < J8_TABLE_ROOM + SPARE; i++) {
        table[i] = NUMBER_FILL;
    }
    memset(store, FILL, sizeof store);
    return j8_json8_read(text, length, table, numbers, store, bytes);
}

static int refused_with(j8_nodes got, uint32_t number, size_t place, const char *what)
{
    return check(got.number == number, what)
        && check(got.place == place, what)
        && check(got.nodes == 0 && got.stored == 0, what)
        && check(untouched(0, 0), what);
}

/* The backup: comments, trailing commas, unquoted keys, each kind of node, and
   bytes that are no UTF-8. */
static const char backup[] =
    "# settings of the front desk\n"
    "{\n"
    "  name: \"Front desk\",\n"
    "  \"tray\": [1, -2.5e3, {}],  # three\n"
    "  'folders': [b'caf\\ye9', u'\\u{e9}t\\u{e9}', [],],\n"
    "  on: true, off: false, none: null,\n"
    "}\n";
#define BACKUP (sizeof backup - 1)

/* Its nodes: kind, subtree, the text that stands at place, and length; for a
   stored string the bytes of the store. */
static const struct {
    uint32_t kind, subtree;
    const char *begins;
    uint32_t length;
} nodes[] = {
    { J8_NODE_DICT, 19, "{", 6 },
    { J8_NODE_STRING, 1, "name", 4 },
    { J8_NODE_STRING, 1, "Front desk", 10 },
    { J8_NODE_STRING, 1, "tray", 4 },
    { J8_NODE_LIST, 4, "[", 3 },
    { J8_NODE_INTEGER, 1, "1", 1 },
    { J8_NODE_DECIMAL, 1, "-2.5e3", 6 },
    { J8_NODE_DICT, 1, "{", 0 },
    { J8_NODE_STRING, 1, "folders", 7 },
    { J8_NODE_LIST, 4, "[", 3 },
    { J8_NODE_STRING_STORED, 1, "caf\xe9", 4 },
    { J8_NODE_STRING_STORED, 1, "\xc3\xa9t\xc3\xa9", 5 },
    { J8_NODE_LIST, 1, "[", 0 },
    { J8_NODE_STRING, 1, "on", 2 },
    { J8_NODE_TRUE, 1, "true", 4 },
    { J8_NODE_STRING, 1, "off", 3 },
    { J8_NODE_FALSE, 1, "false", 5 },
    { J8_NODE_STRING, 1, "none", 4 },
    { J8_NODE_NULL, 1, "null", 4 },
};
#define NODES (sizeof nodes / sizeof nodes[0])
#define NUMBERS (NODES * J8_NODE_ROOM)
#define STORED 9

static int whole_backup(size_t numbers, size_t bytes, const char *what)
{
    j8_nodes got = reading(backup, BACKUP, numbers, bytes);
    size_t at = 0, i;

    if (!check(got.number == 0 && got.place == 0, what)
        || !check(got.nodes == NODES && got.stored == STORED, what)
        || !check(untouched(NUMBERS, STORED), what)) {
        return 0;
    }
    for (i = 0; i < NODES; i++) {
        const uint32_t *node = table + i * J8_NODE_ROOM;
        int stored = nodes[i].kind == J8_NODE_STRING_STORED;
        const void *bytes_there = stored ? (const void *)(store + node[2])
                                         : (const void *)(backup + node[2]);

        if (!check(node[0] == nodes[i].kind && node[1] == nodes[i].subtree, what)
            || !check(node[3] == nodes[i].length, what)
            || !check(memcmp(bytes_there, nodes[i].begins, strlen(nodes[i].begins)) == 0, what)) {
            fprintf(stderr, "c: node %u\n", (unsigned)i);
            return 0;
        }
        if (!stored) {
            /* Tokens come in the order of their nodes. */
            if (!check(i == 0 || node[2] > at, what)) {
                return 0;
            }
            at = node[2];
        }
    }
    return 1;
}

static int rooms(void)
{
    return whole_backup(J8_TABLE_ROOM, J8_STORE_ROOM(BACKUP), "backup, rooms that always suffice")
        && whole_backup(NUMBERS, STORED, "backup, exact rooms")
        && whole_backup(NUMBERS + 3, STORED, "backup, numbers that are no whole node")
        && refused_with(reading(backup, BACKUP, NUMBERS - 1, STORED), J8_NO_ROOM, 0,
                        "a number short")
        && refused_with(reading(backup, BACKUP, NUMBERS - J8_NODE_ROOM, STORED), J8_NO_ROOM, 0,
                        "a node short")
        && refused_with(reading(backup, BACKUP, NUMBERS, STORED - 1), J8_NO_ROOM, 0, "a byte short")
        && refused_with(reading(backup, BACKUP, 0, 0), J8_NO_ROOM, 0, "no room")
        && refused_with(reading(backup, BACKUP - 2, 0, 0), J8_CUT_OFF, BACKUP - 2,
                        "a fault comes before the room");
}

/* Children by their subtrees: as many as the length says, key and value in turn. */
static int walk(size_t node, size_t depth, size_t *visited)
{
    const uint32_t *row = table + node * J8_NODE_ROOM;
    size_t end = node + row[1], at = node + 1, members = 0;

    ++*visited;
    if (row[0] == J8_NODE_LIST || row[0] == J8_NODE_DICT) {
        while (at < end) {
            uint32_t kind = table[at * J8_NODE_ROOM];

            if (row[0] == J8_NODE_DICT && members % 2 == 0
                && !check(kind == J8_NODE_STRING || kind == J8_NODE_STRING_STORED, "a key")) {
                return 0;
            }
            if (!walk(at, depth + 1, visited)) {
                return 0;
            }
            at += table[at * J8_NODE_ROOM + 1];
            members++;
        }
        if (!check(members == (row[0] == J8_NODE_DICT ? 2 : 1) * (size_t)row[3], "members")) {
            return 0;
        }
    }
    return check(at == end, "subtree") && check(depth <= J8_DEPTH_MAX, "depth");
}

static int walked(void)
{
    size_t visited = 0;

    reading(backup, BACKUP, J8_TABLE_ROOM, J8_TEXT_MAX);
    return walk(0, 0, &visited) && check(visited == NODES, "every node is visited");
}

static int nothing_shown(j8_shown got, const char *what)
{
    return check(got.number == J8_UNFIT, what)
        && check(got.stored == 0 && got.place == 0 && got.length == 0, what);
}

/* Every node of the backup: a string's bytes, or nothing. */
static int shown(void)
{
    const uint8_t *text = (const uint8_t *)backup;
    size_t i;

    reading(backup, BACKUP, J8_TABLE_ROOM, J8_TEXT_MAX);
    for (i = 0; i < NODES; i++) {
        j8_shown got = j8_json8_show(table, NUMBERS, text, BACKUP, store, STORED, i);
        uint32_t kind = nodes[i].kind;

        if (kind != J8_NODE_STRING && kind != J8_NODE_STRING_STORED) {
            if (!nothing_shown(got, "no string")) {
                return 0;
            }
            continue;
        }
        if (!check(got.number == 0, "a string")
            || !check(got.stored == (kind == J8_NODE_STRING_STORED), "which buffer")
            || !check(got.place == table[i * J8_NODE_ROOM + 2], "place")
            || !check(got.length == strlen(nodes[i].begins), "length")
            || !check(memcmp((got.stored ? store : text) + got.place, nodes[i].begins,
                             got.length) == 0, "bytes")) {
            return 0;
        }
    }
    return nothing_shown(j8_json8_show(table, NUMBERS, text, BACKUP, store, STORED, NODES),
                         "behind the table")
        && nothing_shown(j8_json8_show(table, NUMBERS, text, BACKUP, store, STORED, (size_t)-1),
                         "far behind the table")
        && nothing_shown(j8_json8_show(table, 7, text, BACKUP, store, STORED, 1),
                         "a node that is cut short")
        && nothing_shown(j8_json8_show(table, NUMBERS, text, BACKUP, store, STORED - 1, 11),
                         "a store that is cut short");
}

/* One node made by hand over a text of four bytes and a store of two. */
static int shows(uint32_t kind, uint32_t place, uint32_t length, uint32_t number, const char *what)
{
    static const uint8_t text[] = { 't', 'e', 'x', 't' }, stored[] = { 's', 't' };
    uint32_t node[J8_NODE_ROOM];
    j8_shown got;

    node[0] = kind;
    node[1] = 99;
    node[2] = place;
    node[3] = length;
    got = j8_json8_show(node, J8_NODE_ROOM, text, sizeof text, stored, sizeof stored, 0);
    if (number != 0) {
        return nothing_shown(got, what);
    }
    return check(got.number == 0 && got.stored == (kind == J8_NODE_STRING_STORED), what)
        && check(got.place == place && got.length == length, what);
}

static int made_by_hand(void)
{
    uint32_t kind;

    for (kind = 0; kind < 300; kind++) {
        uint32_t number = kind == J8_NODE_STRING || kind == J8_NODE_STRING_STORED ? 0 : J8_UNFIT;

        if (!shows(kind, 1, 1, number, "a kind")) {
            return 0;
        }
    }
    return shows(J8_NODE_STRING, 0, 4, 0, "the whole text")
        && shows(J8_NODE_STRING, 4, 0, 0, "nothing at the text's end")
        && shows(J8_NODE_STRING, 5, 0, J8_UNFIT, "nothing past the text's end")
        && shows(J8_NODE_STRING, 2, 3, J8_UNFIT, "past the text's end")
        && shows(J8_NODE_STRING_STORED, 0, 2, 0, "the whole store")
        && shows(J8_NODE_STRING_STORED, 1, 2, J8_UNFIT, "past the store's end")
        && shows(J8_NODE_STRING, 0xffffffffu, 1, J8_UNFIT, "2^32")
        && shows(J8_NODE_STRING, 1, 0xffffffffu, J8_UNFIT, "2^32, by the length")
        && shows(J8_NODE_STRING_STORED, 0x80000000u, 0x80000001u, J8_UNFIT, "past 2^32");
}

static int refuses(const char *text, uint32_t number, size_t place)
{
    j8_nodes got = reading(text, strlen(text), J8_TABLE_ROOM, J8_TEXT_MAX);

    return refused_with(got, number, place, text);
}

static int refusals(void)
{
    return refuses("", J8_CUT_OFF, 0)
        && refuses("{a:1", J8_CUT_OFF, 4)
        && refuses("1 # \xe2\x82", J8_UTF8_INCOMPLETE, 4)
        && refuses("['a\tb']", J8_CONTROL, 3)
        && refuses("[\"\\yff\"]", J8_BAD_ESCAPE, 2)
        && refuses("{'\\u{dc00}':1}", J8_SURROGATE, 2)
        && refuses("[u'\\u{110000}']", J8_TOO_LARGE, 3)
        && refuses("['\\yff']", J8_BYTE_ESCAPE, 2)
        && refuses("{} x", J8_TRAILING, 3)
        && refuses("[,]", J8_MISPLACED, 1)
        && refuses("[1,,]", J8_MISPLACED, 3)
        && refuses("[1 01]", J8_MISPLACED, 3)
        && refuses("\f1", J8_MISPLACED, 0)
        && refuses("# \r1", J8_CUT_OFF, 4)
        && refuses("[01]", J8_NUMBER, 1);
}

/* Each fault of UTF-8 in strings and in comments, before, inside and after the value. Elsewhere such a byte can't stand, or is behind the value. */
static int faults(void)
{
    static const char *const starts[] = { "\"", "[1, 'a", "{b'", "{a: u'\xc3\xa9", "#", "[# c", "{a: 1 #\t", "1 # c\n#" };
    static const char *const ends[] = { "", "\n", "\"]", "'" };
    size_t at, start, end;

    for (at = 0; at < CHARACTERS; at++) {
        for (start = 0; start < sizeof starts / sizeof starts[0]; start++) {
            for (end = 0; end < sizeof ends / sizeof ends[0]; end++) {
                if (!refuses(between(starts[start], at, ends[end]), characters[at].number, strlen(starts[start]))) {
                    return 0;
                }
            }
        }
        if (!refuses(between("[", at, "]"), J8_MISPLACED, 1) || !refuses(between("1 ", at, ""), J8_TRAILING, 2)) {
            return 0;
        }
    }
    return 1;
}

/* A list of so many nodes in all, the last ones as told. */
static size_t wide(size_t count, const char *last)
{
    size_t length = 0, i;

    long_text[length++] = '[';
    for (i = 1; i < count; i++) {
        memcpy(long_text + length, "0,", 2);
        length += 2;
    }
    memcpy(long_text + length, last, strlen(last));
    return length + strlen(last);
}

static int limits(void)
{
    size_t length, visited = 0;
    j8_nodes got;

    /* 32 brackets, and 33. */
    memset(long_text, '[', 33);
    memset(long_text + 33, ']', 33);
    got = reading(long_text + 1, 64, 32 * J8_NODE_ROOM, 0);
    if (!check(got.number == 0 && got.nodes == 32 && walk(0, 1, &visited), "32 deep")
        || !check(visited == 32, "32 deep")
        || !refused_with(reading(long_text, 66, J8_TABLE_ROOM, 0), J8_TOO_DEEP, 32, "33 deep")) {
        return 0;
    }

    /* 1,024 nodes, and 1,025: a number, a key, a string, a bracket. */
    length = wide(J8_NODES_MAX, "]");
    got = reading(long_text, length, J8_TABLE_ROOM, 0);
    if (!check(got.number == 0 && got.nodes == J8_NODES_MAX, "1,024 nodes")
        || !check(untouched(J8_TABLE_ROOM, 0), "1,024 nodes")
        || !refused_with(reading(long_text, length, J8_TABLE_ROOM - 1, 0), J8_NO_ROOM, 0,
                         "1,024 nodes, a number short")
        || !refused_with(reading(long_text, wide(J8_NODES_MAX, "0]"), J8_TABLE_ROOM, 0),
                         J8_TOO_MANY_NODES, 2047, "a number as node 1,025")
        || !refused_with(reading(long_text, wide(J8_NODES_MAX - 1, "{k:0}]"), J8_TABLE_ROOM, 0),
                         J8_TOO_MANY_NODES, 2046, "a key as node 1,025")
        || !refused_with(reading(long_text, wide(J8_NODES_MAX, "'\\q"), J8_TABLE_ROOM, 0),
                         J8_TOO_MANY_NODES, 2047, "a string as node 1,025")
        || !refused_with(reading(long_text, wide(J8_NODES_MAX, "[]]"), J8_TABLE_ROOM, 0),
                         J8_TOO_MANY_NODES, 2047, "a bracket as node 1,025")
        || !refused_with(reading(long_text, wide(J8_NODES_MAX, "nul"), J8_TABLE_ROOM, 0),
                         J8_MISPLACED, 2047, "no word as node 1,025")
        || !refused_with(reading(long_text, wide(J8_NODES_MAX, "01"), J8_TABLE_ROOM, 0),
                         J8_NUMBER, 2047, "no number as node 1,025")) {
        return 0;
    }

    /* The longest text with the longest string, and a byte more. */
    memset(long_text, 'a', sizeof long_text);
    memcpy(long_text, "'\\n", 3);
    long_text[J8_TEXT_MAX - 1] = '\'';
    got = reading(long_text, J8_TEXT_MAX, J8_NODE_ROOM, J8_TEXT_MAX - 3);
    if (!check(got.number == 0 && got.stored == J8_TEXT_MAX - 3, "longest text")
        || !check(store[0] == '\n' && memcmp(store + 1, long_text + 3, J8_TEXT_MAX - 4) == 0,
                  "longest text")
        || !check(untouched(J8_NODE_ROOM, J8_TEXT_MAX - 3), "longest text")) {
        return 0;
    }
    got = reading(long_text, J8_TEXT_MAX, J8_NODE_ROOM, J8_TEXT_MAX - 4);
    if (!refused_with(got, J8_NO_ROOM, 0, "longest text, a byte short")) {
        return 0;
    }
    got = reading(long_text, J8_TEXT_MAX + 1, J8_TABLE_ROOM, J8_TEXT_MAX);
    return refused_with(got, J8_TOO_LONG, 0, "a byte more");
}

static int nothing_lent(void)
{
    j8_shown got;
    uint32_t node[J8_NODE_ROOM] = { J8_NODE_STRING, 1, 0, 0 };
    j8_nodes none = j8_json8_read(NULL, 0, NULL, 0, NULL, 0);

    if (!check(none.number == J8_CUT_OFF && none.place == 0, "no text")
        || !check(none.nodes == 0 && none.stored == 0, "no text")
        || !nothing_shown(j8_json8_show(NULL, 0, NULL, 0, NULL, 0, 0), "no table")) {
        return 0;
    }
    got = j8_json8_show(node, J8_NODE_ROOM, NULL, 0, NULL, 0, 0);
    return check(got.number == 0 && got.stored == 0 && got.place == 0 && got.length == 0,
                 "an empty string of no text");
}

int main(void)
{
    if (!rooms() || !walked() || !shown() || !made_by_hand() || !refusals() || !faults() || !limits()
        || !nothing_lent()) {
        return 1;
    }
    printf("c: %lu checks passed\n", checks);
    return 0;
}
