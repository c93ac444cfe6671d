/*
 * libFuzzer's harness: -DENTRY=string_read and so on makes that of a function. The
 * fuzzer's bytes become one call, which is made by the C file under test and by
 * the archive, whose symbols are renamed to archive_j8_..; answers and all lent
 * bytes must be equal. Every part is allocated to its very length.
 *
 * -DPRINT instead makes a program that prints the call of each file that it is
 * handed, as calls.c reads it: so the inputs that were found run on every target.
 */
#include <stdint.h>
#include <stdio.h>
#include <stdlib.h>
#include <string.h>

#include "j8.h"

#define JOINED(a, b) a##b
#define NAMED(a, b) JOINED(a, b)

/* ------------------------------------------------------- the fuzzer's bytes */

static const uint8_t *at, *end;

static uint8_t one(void)
{
    return at < end ? *at++ : 0;
}

static size_t two(void)
{
    size_t low = one();

    return low | (size_t)one() << 8;
}

/* A number of which the last stands for the greatest of 32 bits. */
static uint32_t number(void)
{
    size_t value = two();

    return value == 0xffff ? UINT32_C(0xffffffff) : (uint32_t)value;
}

/* A part: count bytes, or numbers, of its own. */
typedef struct {
    void *at;
    size_t count, size;
} part;

static part lend(size_t count, size_t size, int fill)
{
    part lent = { NULL, count, size };

    if (count > 0) {
        lent.at = malloc(count * size);
        if (lent.at == NULL) {
            abort();
        }
        memset(lent.at, fill, count * size);
    }
    return lent;
}

static part bytes(size_t count)
{
    size_t left = (size_t)(end - at);
    part lent = lend(count < left ? count : left, 1, 0);

    if (lent.count > 0) {
        memcpy(lent.at, at, lent.count);
        at += lent.count;
    }
    return lent;
}

static part rest(void)
{
    return bytes((size_t)(end - at));
}

static part table(void)
{
    part lent = lend(one(), sizeof(uint32_t), 0);
    size_t i;

    for (i = 0; i < lent.count; i++) {
        ((uint32_t *)lent.at)[i] = number();
    }
    return lent;
}

#ifdef PRINT

/* -------------------------------------------------------- the call, printed */

static void print_bytes(const part *lent)
{
    size_t i;

    if (lent->count == 0) {
        putchar('-');
    }
    for (i = 0; i < lent->count; i++) {
        printf("%02x", ((const uint8_t *)lent->at)[i]);
    }
    free(lent->at);
}

static void print_table(const part *lent)
{
    size_t i;

    if (lent->count == 0) {
        putchar('-');
    }
    for (i = 0; i < lent->count; i++) {
        printf("%s%lu", i > 0 ? "," : "", (unsigned long)((const uint32_t *)lent->at)[i]);
    }
    free(lent->at);
}

#define TEXT_ENTRY(name)                                  \
    static void name(void)                                \
    {                                                     \
        size_t room = two();                              \
        part in = rest();                                 \
        printf(#name " ");                                \
        print_bytes(&in);                                 \
        printf(" %lu\n", (unsigned long)room);            \
    }

#else

/* ----------------------------------------------- by both, and held together */

#define OTHER(result, name, params) extern result NAMED(archive_, name) params;
OTHER(j8_result, j8_string_read, (const uint8_t *, size_t, uint8_t *, size_t))
OTHER(j8_result, j8_string_write, (const uint8_t *, size_t, uint8_t *, size_t))
OTHER(j8_result, j8_lines_write, (const uint8_t *, size_t, uint8_t *, size_t))
OTHER(j8_result, j8_sentence, (uint32_t, uint8_t *, size_t))
OTHER(j8_upload, j8_upload_fresh, (void))
OTHER(j8_fed, j8_upload_feed, (j8_upload, const uint8_t *, size_t, uint8_t *, size_t, uint8_t *, size_t))
OTHER(j8_fed, j8_upload_finish, (j8_upload, const uint8_t *, size_t, uint8_t *, size_t))
OTHER(j8_nodes, j8_json8_read, (const uint8_t *, size_t, uint32_t *, size_t, uint8_t *, size_t))
OTHER(j8_result, j8_json8_write, (const uint32_t *, size_t, const uint8_t *, size_t, const uint8_t *, size_t, uint8_t *, size_t))
OTHER(j8_shown, j8_json8_show, (const uint32_t *, size_t, const uint8_t *, size_t, const uint8_t *, size_t, size_t))
OTHER(j8_sheet, j8_tsv8_read, (const uint8_t *, size_t, uint32_t *, size_t, uint32_t *, size_t, uint32_t *, size_t, uint8_t *, size_t))

static void need(int holds)
{
    if (!holds) {
        abort();
    }
}

static void same_result(j8_result a, j8_result b)
{
    need(a.number == b.number && a.place == b.place && a.length == b.length);
}

/* Two parts that were written, one by each side. */
static void same_parts(part a, part b)
{
    need(a.count == 0 || memcmp(a.at, b.at, a.count * a.size) == 0);
    free(a.at);
    free(b.at);
}

#define TEXT_ENTRY(name)                                                       \
    static void name(void)                                                     \
    {                                                                          \
        size_t room = two();                                                   \
        part in = rest(), a = lend(room, 1, 0xcc), b = lend(room, 1, 0xcc);    \
        same_result(NAMED(j8_, name)(in.at, in.count, a.at, a.count),          \
                    NAMED(archive_j8_, name)(in.at, in.count, b.at, b.count)); \
        same_parts(a, b);                                                      \
        free(in.at);                                                           \
    }

#endif

/* ------------------------------------------------------------ the functions */

TEXT_ENTRY(string_read)
TEXT_ENTRY(string_write)
TEXT_ENTRY(lines_write)

static void sentence(void)
{
    uint32_t which = number();
    size_t room = one();
#ifdef PRINT
    printf("sentence %lu %lu\n", (unsigned long)which, (unsigned long)room);
#else
    part a = lend(room, 1, 0xcc), b = lend(room, 1, 0xcc);

    same_result(j8_sentence(which, a.at, a.count), archive_j8_sentence(which, b.at, b.count));
    same_parts(a, b);
#endif
}

static void json8_read(void)
{
    size_t nodes = two(), store = two();
    part text = rest();
#ifdef PRINT
    printf("json8_read ");
    print_bytes(&text);
    printf(" %lu %lu\n", (unsigned long)nodes, (unsigned long)store);
#else
    part t = lend(nodes, sizeof(uint32_t), 0xdd), u = lend(nodes, sizeof(uint32_t), 0xdd), a = lend(store, 1, 0xbb), b = lend(store, 1, 0xbb);
    j8_nodes left = j8_json8_read(text.at, text.count, t.at, t.count, a.at, a.count);
    j8_nodes right = archive_j8_json8_read(text.at, text.count, u.at, u.count, b.at, b.count);

    need(left.number == right.number && left.place == right.place && left.nodes == right.nodes && left.stored == right.stored);
    same_parts(t, u);
    same_parts(a, b);
    free(text.at);
#endif
}

static void json8_write(void)
{
    size_t room = two();
    part nodes = table(), text = bytes(one()), store = rest();
#ifdef PRINT
    printf("json8_write ");
    print_table(&nodes);
    putchar(' ');
    print_bytes(&text);
    putchar(' ');
    print_bytes(&store);
    printf(" %lu\n", (unsigned long)room);
#else
    part a = lend(room, 1, 0xcc), b = lend(room, 1, 0xcc);

    same_result(j8_json8_write(nodes.at, nodes.count, text.at, text.count, store.at, store.count, a.at, a.count),
                archive_j8_json8_write(nodes.at, nodes.count, text.at, text.count, store.at, store.count, b.at, b.count));
    same_parts(a, b);
    free(nodes.at);
    free(text.at);
    free(store.at);
#endif
}

static void json8_show(void)
{
    size_t node = number();
    part nodes = table(), text = bytes(one()), store = rest();
#ifdef PRINT
    printf("json8_show ");
    print_table(&nodes);
    putchar(' ');
    print_bytes(&text);
    putchar(' ');
    print_bytes(&store);
    printf(" %lu\n", (unsigned long)node);
#else
    j8_shown a = j8_json8_show(nodes.at, nodes.count, text.at, text.count, store.at, store.count, node);
    j8_shown b = archive_j8_json8_show(nodes.at, nodes.count, text.at, text.count, store.at, store.count, node);

    need(a.number == b.number && a.stored == b.stored && a.place == b.place && a.length == b.length);
    free(nodes.at);
    free(text.at);
    free(store.at);
#endif
}

static void tsv8_read(void)
{
    size_t names = one(), types = one(), cells = two(), store = two();
    part text = rest();
#ifdef PRINT
    printf("tsv8_read ");
    print_bytes(&text);
    printf(" %lu %lu %lu %lu\n", (unsigned long)names, (unsigned long)types, (unsigned long)cells, (unsigned long)store);
#else
    part n = lend(names, sizeof(uint32_t), 0xdd), m = lend(names, sizeof(uint32_t), 0xdd), t = lend(types, sizeof(uint32_t), 0xdd), u = lend(types, sizeof(uint32_t), 0xdd);
    part c = lend(cells, sizeof(uint32_t), 0xdd), d = lend(cells, sizeof(uint32_t), 0xdd), a = lend(store, 1, 0xbb), b = lend(store, 1, 0xbb);
    j8_sheet left = j8_tsv8_read(text.at, text.count, n.at, n.count, t.at, t.count, c.at, c.count, a.at, a.count);
    j8_sheet right = archive_j8_tsv8_read(text.at, text.count, m.at, m.count, u.at, u.count, d.at, d.count, b.at, b.count);

    need(left.number == right.number && left.place == right.place);
    need(left.columns == right.columns && left.cells == right.cells && left.stored == right.stored);
    same_parts(n, m);
    same_parts(t, u);
    same_parts(c, d);
    same_parts(a, b);
    free(text.at);
#endif
}

/* A state by hand: small numbers, and for the two with great limits some about these. */
static j8_upload by_hand(void)
{
    j8_upload u;
    size_t taken = two();

    u.taken = taken >= 0xff00 ? J8_UPLOAD_MAX - 100 + (taken & 0xff) : taken;
    u.lfs = two();
    u.held = two();
    u.used = two();
    u.ended = one();
    u.refusal = one();
    u.line = one();
    u.place = one();
    return u;
}

#ifdef PRINT
static void print_state(j8_upload u)
{
    printf(" S%lu,%lu,%lu,%lu,", (unsigned long)u.taken, (unsigned long)u.lfs, (unsigned long)u.held, (unsigned long)u.used);
    printf("%lu,%lu,%lu,%lu", (unsigned long)u.ended, (unsigned long)u.refusal, (unsigned long)u.line, (unsigned long)u.place);
}
#else
static void same_state(j8_upload a, j8_upload b)
{
    need(a.taken == b.taken && a.lfs == b.lfs && a.held == b.held && a.used == b.used);
    need(a.ended == b.ended && a.refusal == b.refusal && a.line == b.line && a.place == b.place);
}
#endif

/* The output's room, and the line buffer's length. Then calls: 0 a finish, 1 used set to 0, 2 a state by hand, 255 a feed of the next two bytes' count, else a feed of
   three bytes less than it says. */
static size_t out_room, held;

static void lengths(void)
{
    size_t kind;

    out_room = two();
    kind = one();
    held = kind < 8 ? J8_LINE_ROOM - 4 + kind : J8_LINE_ROOM;
}

static part piece_of(size_t op)
{
    return bytes(op == 255 ? two() : op - 3);
}

#ifdef PRINT
static void upload(void)
{
    size_t op;
    part piece;

    lengths();
    printf("upload %lu %lu", (unsigned long)held, (unsigned long)out_room);
    while (at < end) {
        op = one();
        if (op < 2) {
            printf(op == 0 ? " E" : " Z");
        } else if (op == 2) {
            print_state(by_hand());
        } else {
            piece = piece_of(op);
            printf(" F");
            print_bytes(&piece);
        }
    }
    putchar('\n');
}
#else
static part line[2], out[2];

/* A finish, or a feed, by both. */
static void call_both(size_t op, j8_fed *a, j8_fed *b)
{
    part piece;

    if (op == 0) {
        *a = j8_upload_finish(a->upload, line[0].at, held, out[0].at, out_room);
        *b = archive_j8_upload_finish(b->upload, line[1].at, held, out[1].at, out_room);
    } else {
        piece = piece_of(op);
        *a = j8_upload_feed(a->upload, piece.at, piece.count, line[0].at, held, out[0].at, out_room);
        *b = archive_j8_upload_feed(b->upload, piece.at, piece.count, line[1].at, held, out[1].at, out_room);
        free(piece.at);
    }
    same_state(a->upload, b->upload);
    need(a->answer.number == b->answer.number && a->answer.line == b->answer.line && a->answer.place == b->answer.place);
}

static void upload(void)
{
    size_t op, i;
    j8_fed a, b;

    lengths();
    for (i = 0; i < 2; i++) {
        line[i] = lend(held, 1, 0xaa);
        out[i] = lend(out_room, 1, 0xbb);
    }
    a.upload = j8_upload_fresh();
    b.upload = archive_j8_upload_fresh();
    same_state(a.upload, b.upload);
    while (at < end) {
        op = one();
        if (op == 1) {
            a.upload.used = b.upload.used = 0;
        } else if (op == 2) {
            a.upload = b.upload = by_hand();
        } else {
            call_both(op, &a, &b);
        }
    }
    same_parts(line[0], line[1]);
    same_parts(out[0], out[1]);
}
#endif

/* ----------------------------------------------------------- the one asked */

#define QUOTED(name) #name
#define ASKED(name) QUOTED(name)

static void make_call(const uint8_t *data, size_t size)
{
    static const struct {
        const char *name;
        void (*call)(void);
    } entries[] = {
        { "string_read", string_read }, { "string_write", string_write }, { "lines_write", lines_write }, { "sentence", sentence },
        { "json8_read", json8_read }, { "json8_write", json8_write }, { "json8_show", json8_show }, { "upload", upload },
        { "tsv8_read", tsv8_read },
    };
    size_t i;

    at = data;
    end = data + size;
    for (i = 0; i < sizeof entries / sizeof entries[0]; i++) {
        if (strcmp(entries[i].name, ASKED(ENTRY)) == 0) {
            entries[i].call();
            return;
        }
    }
    abort();
}

#ifdef PRINT
int main(int argc, char **argv)
{
    static uint8_t all[1 << 20];
    FILE *file;
    size_t size;
    int i;

    for (i = 1; i < argc; i++) {
        file = fopen(argv[i], "rb");
        if (file == NULL) {
            perror(argv[i]);
            return 1;
        }
        size = fread(all, 1, sizeof all, file);
        fclose(file);
        make_call(all, size);
    }
    return 0;
}
#else
int LLVMFuzzerTestOneInput(const uint8_t *data, size_t size);

int LLVMFuzzerTestOneInput(const uint8_t *data, size_t size)
{
    make_call(data, size);
    return 0;
}
#endif
