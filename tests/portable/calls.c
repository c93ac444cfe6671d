/*
 * Makes the calls of j8.h that stdin names, one line each, and prints of each all
 * that it answered and every lent byte and number, so that two programs linked
 * with two builds of the library can be compared. calls.py writes the lines.
 *
 * Bytes are as in tests/vectors: - for none, or parts joined by a dot, each hex
 * digits or hh*n. Numbers of a table are joined by a comma, n*k for k times n.
 * Every part stands between margins, which are looked at behind each call; parts
 * that are only read must be as they were. -DMARGIN=0 leaves the margins off, for
 * a tool that watches the ends of allocated memory.
 */
#include <stdint.h>
#include <stdio.h>
#include <stdlib.h>
#include <string.h>

#include "j8.h"

#ifndef MARGIN
#define MARGIN 16
#endif
#define EDGE 0xe7
#define LONGEST (1 << 23)

static char line[LONGEST];

static void fail(const char *what)
{
    printf("FAILED: %s\n", what);
    exit(1);
}

/* A lent part: count units of size bytes at `at`, inside a longer block. */
typedef struct {
    unsigned char *whole;
    void *at;
    size_t count, size;
    unsigned char *before;
} part;

static part lend(const void *filled, size_t count, size_t size)
{
    part lent = { NULL, NULL, count, size, NULL };
    size_t bytes = count * size;

    lent.whole = malloc(bytes + 2 * MARGIN);
    lent.before = malloc(bytes + 1);
    if (lent.before == NULL || (lent.whole == NULL && bytes + 2 * MARGIN > 0)) {
        fail("no memory");
    }
    if (bytes + 2 * MARGIN > 0) {
        memset(lent.whole, EDGE, bytes + 2 * MARGIN);
    }
    if (bytes > 0) {
        memcpy(lent.whole + MARGIN, filled, bytes);
        memcpy(lent.before, filled, bytes);
        lent.at = lent.whole + MARGIN;
    }
    return lent;
}

/* Looks at the margins, and whether a part that is only read is as it was. */
static void give_back(part *lent, int written)
{
    size_t bytes = lent->count * lent->size;
#if MARGIN > 0
    size_t i;

    for (i = 0; i < MARGIN; i++) {
        if (lent->whole[i] != EDGE || lent->whole[MARGIN + bytes + i] != EDGE) {
            fail("a margin is written");
        }
    }
#endif
    if (!written && bytes > 0 && memcmp(lent->at, lent->before, bytes) != 0) {
        fail("a part that is only read is written");
    }
    free(lent->whole);
    free(lent->before);
}

/* ------------------------------------------------------------- the words */

static char *word(void)
{
    char *found = strtok(NULL, " \n");

    if (found == NULL) {
        fail("a word is missing");
    }
    return found;
}

static size_t number(const char *text)
{
    unsigned long long value = strtoull(text, NULL, 10);

    if (value > SIZE_MAX) {
        fail("a number that size_t doesn't hold");
    }
    return (size_t)value;
}

static uint8_t byte_of(const char *two)
{
    char text[3] = { two[0], two[1], '\0' };

    return (uint8_t)strtoul(text, NULL, 16);
}

/* The bytes that a word denotes, at out, which holds LONGEST of them. */
static size_t bytes_of(const char *text, uint8_t *out)
{
    size_t count = 0, times;

    while (*text != '\0' && *text != '-') {
        out[count++] = byte_of(text);
        text += 2;
        if (*text == '*') {
            times = (size_t)strtoul(text + 1, (char **)&text, 10);
            memset(out + count, out[count - 1], times - 1);
            count += times - 1;
        }
        if (*text == '.') {
            text++;
        }
    }
    return count;
}

static uint8_t scratch[LONGEST];
static uint32_t numbers[LONGEST / 4];

static part bytes(const char *text)
{
    size_t count = bytes_of(text, scratch);

    return lend(scratch, count, 1);
}

static part room(size_t count, int fill)
{
    memset(scratch, fill, count);
    return lend(scratch, count, 1);
}

static part table(const char *text)
{
    size_t count = 0;
    unsigned long times;

    while (*text != '\0' && *text != '-') {
        numbers[count++] = (uint32_t)strtoul(text, (char **)&text, 10);
        if (*text == '*') {
            for (times = strtoul(text + 1, (char **)&text, 10); times > 1; times--, count++) {
                numbers[count] = numbers[count - 1];
            }
        }
        if (*text == ',') {
            text++;
        }
    }
    return lend(numbers, count, sizeof numbers[0]);
}

/* ---------------------------------------------------------- what is printed */

static void show_numbers(const size_t *list, size_t count)
{
    size_t i;

    for (i = 0; i < count; i++) {
        printf("%s%lu", i > 0 ? "," : "", (unsigned long)list[i]);
    }
}

/* A run of four or more is shown once, and how often. */
static void show_bytes(const part *lent)
{
    const uint8_t *at = lent->at;
    size_t i = 0, run;
    int dot = 0;

    putchar(' ');
    if (lent->count == 0) {
        putchar('-');
    }
    while (i < lent->count) {
        for (run = 1; i + run < lent->count && at[i + run] == at[i]; run++) {
        }
        if (run >= 4) {
            printf("%s%02x*%lu", i > 0 ? "." : "", at[i], (unsigned long)run);
            dot = 1;
        } else {
            run = 1;
            printf("%s%02x", dot ? "." : "", at[i]);
            dot = 0;
        }
        i += run;
    }
}

static void show_table(const part *lent)
{
    const uint32_t *at = lent->at;
    size_t i = 0, run;

    putchar(' ');
    if (lent->count == 0) {
        putchar('-');
    }
    while (i < lent->count) {
        for (run = 1; i + run < lent->count && at[i + run] == at[i]; run++) {
        }
        printf("%s%lu", i > 0 ? "," : "", (unsigned long)at[i]);
        if (run >= 4) {
            printf("*%lu", (unsigned long)run);
            i += run;
        } else {
            i++;
        }
    }
}

static void show_result(j8_result r)
{
    size_t list[3];

    list[0] = r.number;
    list[1] = r.place;
    list[2] = r.length;
    show_numbers(list, 3);
}

/* -------------------------------------------------------------- the calls */

typedef j8_result maker(const uint8_t *, size_t, uint8_t *, size_t);

static void make_text(maker *call)
{
    part in = bytes(word()), out = room(number(word()), 0xcc);

    show_result(call(in.at, in.count, out.at, out.count));
    show_bytes(&out);
    give_back(&in, 0);
    give_back(&out, 1);
}

static void sentence(void)
{
    uint32_t which = (uint32_t)number(word());
    part out = room(number(word()), 0xcc);

    show_result(j8_sentence(which, out.at, out.count));
    show_bytes(&out);
    give_back(&out, 1);
}

static void show_state(j8_upload u)
{
    size_t list[8];

    list[0] = u.taken;
    list[1] = u.lfs;
    list[2] = u.held;
    list[3] = u.used;
    list[4] = u.ended;
    list[5] = u.refusal;
    list[6] = u.line;
    list[7] = u.place;
    putchar(' ');
    show_numbers(list, 8);
}

/* A state by hand: its eight numbers. */
static j8_upload state_of(char *text)
{
    size_t list[8], i;
    j8_upload u;

    for (i = 0; i < 8; i++) {
        list[i] = number(text);
        text = strchr(text, ',');
        text = text == NULL ? "0" : text + 1;
    }
    u.taken = list[0];
    u.lfs = list[1];
    u.held = list[2];
    u.used = list[3];
    u.ended = (uint32_t)list[4];
    u.refusal = (uint32_t)list[5];
    u.line = list[6];
    u.place = list[7];
    return u;
}

/* Words: F and bytes, a feed; E, a finish; Z, used set to 0; S and numbers, another state. */
static void upload(void)
{
    part held = room(number(word()), 0xaa), out = room(number(word()), 0xbb);
    size_t answer[3];
    j8_fed fed;
    char *next;

    fed.upload = j8_upload_fresh();
    while ((next = strtok(NULL, " \n")) != NULL) {
        if (*next == 'Z') {
            fed.upload.used = 0;
            continue;
        }
        if (*next == 'S') {
            fed.upload = state_of(next + 1);
            continue;
        }
        if (*next == 'E') {
            fed = j8_upload_finish(fed.upload, held.at, held.count, out.at, out.count);
        } else {
            part piece = bytes(next + 1);
            fed = j8_upload_feed(fed.upload, piece.at, piece.count, held.at, held.count, out.at, out.count);
            give_back(&piece, 0);
        }
        answer[0] = fed.answer.number;
        answer[1] = fed.answer.line;
        answer[2] = fed.answer.place;
        show_numbers(answer, 3);
        putchar(';');
    }
    show_state(fed.upload);
    show_bytes(&out);
    show_bytes(&held);
    give_back(&out, 1);
    give_back(&held, 1);
}

static part room_of_numbers(size_t count)
{
    size_t i;

    for (i = 0; i < count; i++) {
        numbers[i] = UINT32_C(0xdddddddd);
    }
    return lend(numbers, count, sizeof numbers[0]);
}

static void json8_read(void)
{
    part text = bytes(word()), nodes = room_of_numbers(number(word())), store = room(number(word()), 0xbb);
    size_t list[4];
    j8_nodes r;

    r = j8_json8_read(text.at, text.count, nodes.at, nodes.count, store.at, store.count);
    list[0] = r.number;
    list[1] = r.place;
    list[2] = r.nodes;
    list[3] = r.stored;
    show_numbers(list, 4);
    show_table(&nodes);
    show_bytes(&store);
    give_back(&text, 0);
    give_back(&nodes, 1);
    give_back(&store, 1);
}

static void json8_write(void)
{
    part nodes = table(word()), text = bytes(word()), store = bytes(word()), out = room(number(word()), 0xcc);

    show_result(j8_json8_write(nodes.at, nodes.count, text.at, text.count, store.at, store.count, out.at, out.count));
    show_bytes(&out);
    give_back(&nodes, 0);
    give_back(&text, 0);
    give_back(&store, 0);
    give_back(&out, 1);
}

/* The bytes that are shown, too. */
static void json8_show(void)
{
    part nodes = table(word()), text = bytes(word()), store = bytes(word()), shown;
    size_t node = number(word()), list[4];
    const part *from;
    j8_shown r = j8_json8_show(nodes.at, nodes.count, text.at, text.count, store.at, store.count, node);

    list[0] = r.number;
    list[1] = r.stored;
    list[2] = r.place;
    list[3] = r.length;
    show_numbers(list, 4);
    from = r.stored != 0 ? &store : &text;
    if (r.place > from->count || r.length > from->count - r.place) {
        fail("what is shown isn't inside");
    }
    shown = *from;
    shown.at = from->count == 0 ? NULL : (uint8_t *)from->at + r.place;
    shown.count = r.length;
    show_bytes(&shown);
    give_back(&nodes, 0);
    give_back(&text, 0);
    give_back(&store, 0);
}

static void tsv8_read(void)
{
    part text = bytes(word()), names = room_of_numbers(number(word())), types = room_of_numbers(number(word()));
    part cells = room_of_numbers(number(word())), store = room(number(word()), 0xbb);
    size_t list[5];
    j8_sheet r = j8_tsv8_read(text.at, text.count, names.at, names.count, types.at, types.count, cells.at, cells.count, store.at, store.count);

    list[0] = r.number;
    list[1] = r.place;
    list[2] = r.columns;
    list[3] = r.cells;
    list[4] = r.stored;
    show_numbers(list, 5);
    show_table(&names);
    show_table(&types);
    show_table(&cells);
    show_bytes(&store);
    give_back(&text, 0);
    give_back(&names, 1);
    give_back(&types, 1);
    give_back(&cells, 1);
    give_back(&store, 1);
}

static void version(void)
{
    printf("%lu", (unsigned long)j8_version());
}

static void make_call(const char *name)
{
    if (strcmp(name, "string_read") == 0) {
        make_text(j8_string_read);
    } else if (strcmp(name, "string_write") == 0) {
        make_text(j8_string_write);
    } else if (strcmp(name, "lines_write") == 0) {
        make_text(j8_lines_write);
    } else if (strcmp(name, "sentence") == 0) {
        sentence();
    } else if (strcmp(name, "upload") == 0) {
        upload();
    } else if (strcmp(name, "json8_read") == 0) {
        json8_read();
    } else if (strcmp(name, "json8_write") == 0) {
        json8_write();
    } else if (strcmp(name, "json8_show") == 0) {
        json8_show();
    } else if (strcmp(name, "tsv8_read") == 0) {
        tsv8_read();
    } else if (strcmp(name, "version") == 0) {
        version();
    } else {
        fail("an unknown call");
    }
}

/* With a word, prints how many bits a size_t has. */
int main(int argc, char **argv)
{
    size_t calls = 0;

    (void)argv;
    if (argc > 1) {
        printf("%lu\n", (unsigned long)(8 * sizeof(size_t)));
        return 0;
    }
    while (fgets(line, sizeof line, stdin) != NULL) {
        make_call(strtok(line, " \n"));
        putchar('\n');
        calls++;
    }
    printf("%lu calls\n", (unsigned long)calls);
    return 0;
}
