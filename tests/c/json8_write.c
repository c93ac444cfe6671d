/* Writes JSON8 through j8.h, as a C program of the firmware would: what was read, what was made by
   hand, and tables that are unfit. */

#include <stdint.h>
#include <stdio.h>
#include <string.h>

#include "j8.h"

#define FILL 0x5A
#define ROOM J8_JSON8_WRITE_ROOM(J8_TEXT_MAX)
#define SPARE 8

static unsigned long checks;
static uint32_t table[J8_TABLE_ROOM], again_table[J8_TABLE_ROOM];
static uint8_t store[J8_TEXT_MAX], again_store[J8_TEXT_MAX];
static uint8_t out[ROOM + SPARE], again[ROOM + SPARE];

/* One check; answers whether it passed. */
static int check(int passed, const char *what)
{
    checks++;
    if (!passed) {
        fprintf(stderr, "c: failed: %s\n", what);
    }
    return passed;
}

static int untouched(const uint8_t *buffer, size_t from)
{
    while (from < ROOM + SPARE) {
        if (buffer[from++] != FILL) {
            return 0;
        }
    }
    return 1;
}

static int gives(j8_result put, const char *text, const char *what)
{
    size_t length = strlen(text);

    return check(put.number == 0 && put.place == 0, what)
        && check(put.length == length, what)
        && check(memcmp(out, text, length) == 0, what)
        && check(untouched(out, length), what);
}

static int refused_with(j8_result put, uint32_t number, const char *what)
{
    return check(put.number == number, what)
        && check(put.place == 0 && put.length == 0, what)
        && check(untouched(out, 0), what);
}

/* The backup: comments, trailing commas, unquoted keys, each kind of node, and
   bytes that are no UTF-8. */
static const char backup[] =
    "# settings of the front desk\n"
    "{\n"
    "  name: \"Front desk\",\n"
    "  \"tray\": [1, -2.5e3, {}],  # three\n"
    "  'folders': [b'caf\\ye9', u'\\u{e9}t\\u{e9}', [],],\n"
    "  on: true, off: false, none: null, quote: '\"',\n"
    "}\n";
#define BACKUP (sizeof backup - 1)

static const char form[] =
    "{\"name\":\"Front desk\",\"tray\":[1,-2.5e3,{}],"
    "\"folders\":[b'caf\\ye9',\"\xc3\xa9t\xc3\xa9\",[]],"
    "\"on\":true,\"off\":false,\"none\":null,\"quote\":\"\\\"\"}";
#define FORM (sizeof form - 1)

static j8_nodes got;

static j8_result writing(size_t numbers, size_t room)
{
    memset(out, FILL, sizeof out);
    return j8_json8_write(table, numbers, (const uint8_t *)backup, BACKUP, store, got.stored,
                          out, room);
}

static int read_backup(void)
{
    got = j8_json8_read((const uint8_t *)backup, BACKUP, table, J8_TABLE_ROOM,
                        store, sizeof store);
    return check(got.number == 0, "the backup is read");
}

static int rooms(void)
{
    size_t numbers;

    if (!read_backup()) {
        return 0;
    }
    numbers = got.nodes * J8_NODE_ROOM;
    return gives(writing(numbers, J8_JSON8_WRITE_ROOM(BACKUP)), form, "room that always suffices")
        && gives(writing(numbers, FORM), form, "exact room")
        && gives(writing(J8_TABLE_ROOM, FORM), form, "numbers behind the nodes")
        && gives(writing(numbers + 3, FORM), form, "numbers that are no whole node")
        && refused_with(writing(numbers, FORM - 1), J8_NO_ROOM, "a byte short")
        && refused_with(writing(numbers, 0), J8_NO_ROOM, "no room")
        && refused_with(writing(numbers - 1, FORM), J8_UNFIT, "a number short")
        && refused_with(writing(numbers - 1, 0), J8_UNFIT, "unfit comes before the room");
}

/* The same bytes, by two tables. */
static int same_string(size_t node)
{
    j8_shown one = j8_json8_show(table, J8_TABLE_ROOM, (const uint8_t *)backup, BACKUP,
                                 store, got.stored, node);
    j8_shown other = j8_json8_show(again_table, J8_TABLE_ROOM, out, FORM,
                                   again_store, sizeof again_store, node);
    const uint8_t *bytes = one.stored ? store : (const uint8_t *)backup;
    const uint8_t *others = other.stored ? again_store : out;

    return check(one.number == other.number, "a string or none")
        && check(one.length == other.length, "its length")
        && check(memcmp(bytes + one.place, others + other.place, one.length) == 0, "its bytes");
}

/* Read back it is the same tree, and written again the same text. */
static int there_and_back(void)
{
    j8_nodes back;
    j8_result put;
    size_t i;

    if (!read_backup() || !gives(writing(got.nodes * J8_NODE_ROOM, FORM), form, "written")) {
        return 0;
    }
    back = j8_json8_read(out, FORM, again_table, J8_TABLE_ROOM, again_store, sizeof again_store);
    if (!check(back.number == 0 && back.nodes == got.nodes, "the same nodes")) {
        return 0;
    }
    for (i = 0; i < got.nodes; i++) {
        const uint32_t *one = table + i * J8_NODE_ROOM, *other = again_table + i * J8_NODE_ROOM;
        int is_string = one[0] == J8_NODE_STRING || one[0] == J8_NODE_STRING_STORED;
        int is_number = one[0] == J8_NODE_INTEGER || one[0] == J8_NODE_DECIMAL;

        if (!check(is_string || one[0] == other[0], "kind")
            || !check(one[1] == other[1] && one[3] == other[3], "subtree and length")
            || !same_string(i)
            || (is_number && !check(memcmp(backup + one[2], out + other[2], one[3]) == 0,
                                    "a number's text"))) {
            fprintf(stderr, "c: node %u\n", (unsigned)i);
            return 0;
        }
    }
    memset(again, FILL, sizeof again);
    put = j8_json8_write(again_table, back.nodes * J8_NODE_ROOM, out, FORM,
                         again_store, back.stored, again, FORM);
    return check(put.number == 0 && put.length == FORM, "written again")
        && check(memcmp(again, form, FORM) == 0 && untouched(again, FORM), "the same text");
}

/* Nodes made by hand over a text of six bytes and a store of two. */
static j8_result by_hand(const uint32_t *rows, size_t numbers)
{
    static const uint8_t text[] = { 'k', 'e', 'y', '1', '.', '5' }, stored[] = { '\n', 0xff };

    memset(out, FILL, sizeof out);
    return j8_json8_write(rows, numbers, text, sizeof text, stored, sizeof stored, out, ROOM);
}

#define COUNT(rows) (sizeof(rows) / sizeof(rows)[0])
#define GIVES(rows, text) gives(by_hand(rows, COUNT(rows)), text, #rows)
#define UNFIT(rows) refused_with(by_hand(rows, COUNT(rows)), J8_UNFIT, #rows)

static int made_by_hand(void)
{
    /* What isn't looked at has any number. */
    static const uint32_t words[] = { 7, 4, 99, 3, 0, 1, 99, 99, 1, 1, 99, 99, 2, 1, 99, 99 };
    static const uint32_t leaves[] = { 8, 7, 0, 3, 5, 1, 0, 3, 3, 1, 3, 1, 6, 1, 0, 1, 4, 1, 3, 3,
                                       5, 1, 6, 0, 6, 1, 1, 1 };
    static const uint32_t shared[] = { 7, 3, 0, 2, 5, 1, 0, 3, 5, 1, 1, 2 };

    return GIVES(words, "[null,false,true]")
        && GIVES(leaves, "{\"key\":1,\"\\n\":1.5,\"\":b'\\yff'}")
        && GIVES(shared, "[\"key\",\"ey\"]");
}

static int unfit(void)
{
    static const uint32_t kind[] = { 9, 1, 0, 0 };
    static const uint32_t wide_kind[] = { 256, 1, 0, 0 };
    static const uint32_t no_nodes[] = { 0, 0, 0, 0 };
    static const uint32_t all_nodes[] = { 0, 0xffffffffu, 0, 0 };
    static const uint32_t leaf_of_two[] = { 0, 2, 0, 0, 0, 1, 0, 0 };
    static const uint32_t outside_table[] = { 7, 3, 0, 2, 0, 1, 0, 0 };
    static const uint32_t past_parent[] = { 7, 3, 0, 1, 7, 3, 0, 1, 0, 1, 0, 0, 0, 1, 0, 0 };
    static const uint32_t members[] = { 7, 2, 0, 2, 0, 1, 0, 0 };
    static const uint32_t pairs[] = { 8, 3, 0, 2, 5, 1, 0, 3, 0, 1, 0, 0 };
    static const uint32_t half_a_pair[] = { 8, 2, 0, 1, 5, 1, 0, 3 };
    static const uint32_t number_as_key[] = { 8, 3, 0, 1, 3, 1, 3, 1, 0, 1, 0, 0 };
    static const uint32_t past_text[] = { 5, 1, 4, 3 };
    static const uint32_t past_store[] = { 6, 1, 3, 0 };
    static const uint32_t past_32_bits[] = { 5, 1, 2, 0xffffffffu };
    static const uint32_t no_number[] = { 3, 1, 0, 1 };
    static const uint32_t empty_number[] = { 3, 1, 3, 0 };
    static const uint32_t decimal_as_integer[] = { 3, 1, 3, 3 };
    static const uint32_t integer_as_decimal[] = { 4, 1, 3, 1 };

    return UNFIT(kind) && UNFIT(wide_kind) && UNFIT(no_nodes) && UNFIT(all_nodes)
        && UNFIT(leaf_of_two) && UNFIT(outside_table) && UNFIT(past_parent) && UNFIT(members)
        && UNFIT(pairs) && UNFIT(half_a_pair) && UNFIT(number_as_key) && UNFIT(past_text)
        && UNFIT(past_store) && UNFIT(past_32_bits) && UNFIT(no_number) && UNFIT(empty_number)
        && UNFIT(decimal_as_integer) && UNFIT(integer_as_decimal);
}

/* So many lists in each other, and a list of so many nodes. */
static j8_result nested(uint32_t depth)
{
    uint32_t i;

    for (i = 0; i < depth; i++) {
        uint32_t row[J8_NODE_ROOM] = { J8_NODE_LIST, 0, 0, 1 };

        row[1] = depth - i;
        row[3] = i + 1 < depth;
        memcpy(table + i * J8_NODE_ROOM, row, sizeof row);
    }
    return by_hand(table, depth * J8_NODE_ROOM);
}

static j8_result wide(uint32_t nodes)
{
    static uint32_t rows[J8_TABLE_ROOM + J8_NODE_ROOM];
    uint32_t i;

    memset(rows, 0, sizeof rows);
    rows[0] = J8_NODE_LIST;
    for (i = 1; i < nodes; i++) {
        rows[i * J8_NODE_ROOM] = J8_NODE_FALSE;
        rows[i * J8_NODE_ROOM + 1] = 1;
    }
    rows[1] = nodes;
    rows[3] = nodes - 1;
    return by_hand(rows, nodes * J8_NODE_ROOM);
}

static int limits(void)
{
    j8_result put = nested(J8_DEPTH_MAX);

    if (!gives(put, "[[[[[[[[[[[[[[[[[[[[[[[[[[[[[[[[]]]]]]]]]]]]]]]]]]]]]]]]]]]]]]]]", "32 deep")
        || !refused_with(nested(J8_DEPTH_MAX + 1), J8_UNFIT, "33 deep")) {
        return 0;
    }
    put = wide(J8_NODES_MAX);
    return check(put.number == 0 && put.length == 6 * (J8_NODES_MAX - 1) + 1, "1,024 nodes")
        && check(put.length <= J8_TABLE_WRITE_ROOM(J8_NODES_MAX, 0), "six bytes a node")
        && check(untouched(out, put.length), "1,024 nodes")
        && refused_with(wide(J8_NODES_MAX + 1), J8_UNFIT, "1,025 nodes");
}

static int nothing_lent(void)
{
    static const uint32_t empty[J8_NODE_ROOM] = { J8_NODE_STRING, 1, 0, 0 };
    j8_result put = j8_json8_write(NULL, 0, NULL, 0, NULL, 0, NULL, 0);

    if (!check(put.number == J8_UNFIT && put.place == 0 && put.length == 0, "no table")) {
        return 0;
    }
    put = j8_json8_write(empty, J8_NODE_ROOM, NULL, 0, NULL, 0, NULL, 0);
    if (!check(put.number == J8_NO_ROOM && put.place == 0 && put.length == 0, "no room")) {
        return 0;
    }
    memset(out, FILL, sizeof out);
    put = j8_json8_write(empty, J8_NODE_ROOM, NULL, 0, NULL, 0, out, 2);
    return gives(put, "\"\"", "an empty string of no text");
}

int main(void)
{
    if (!rooms() || !there_and_back() || !made_by_hand() || !unfit() || !limits()
        || !nothing_lent()) {
        return 1;
    }
    printf("c: %lu checks passed\n", checks);
    return 0;
}
