/*
 * An upload whose records are handed on between the calls, used being set to 0,
 * through j8.h: how much output a piece needs, by trying all pieces over a small
 * alphabet; and generated uploads beside the same ones whose records are all left
 * in one output.
 */

#include <stdint.h>
#include <stdio.h>
#include <string.h>

#include "j8.h"

#define UPLOADS 3000
#define TEXT_MOST 12000
#define PIECE_MOST 3000

static unsigned long checks;

static int check(int passed, const char *what)
{
    checks++;
    if (!passed) {
        fprintf(stderr, "c: failed: %s\n", what);
    }
    return passed;
}

/* ---------------------------------------------------------- the room needed */

static uint8_t line[J8_LINE_ROOM], other_line[J8_LINE_ROOM];
static uint8_t out[J8_FEED_ROOM(PIECE_MOST)], other_out[J8_FEED_ROOM(PIECE_MOST)], all[J8_UPLOAD_OUTPUT_MAX];

/* A letter, an LF, a quote and a blank: lines that are bare, quoted, ignored and refused. */
static const uint8_t alphabet[] = { 'a', '\n', '\'', ' ' };

/* The most record bytes of a feed of n bytes behind so many held. */
static size_t most_used(size_t held, size_t n)
{
    uint8_t piece[16];
    unsigned long code, codes = 1, rest;
    size_t i, most = 0;
    j8_fed fed, fed_held;

    memset(line, 'a', held);
    fed_held = j8_upload_feed(j8_upload_fresh(), line, held, other_line, sizeof other_line, out, 0);
    for (i = 0; i < n; i++) {
        codes *= sizeof alphabet;
    }
    for (code = 0; code < codes; code++) {
        for (i = 0, rest = code; i < n; i++, rest /= sizeof alphabet) {
            piece[i] = alphabet[rest % sizeof alphabet];
        }
        /* Bytes behind those held are stored in the buffer, but the held ones stay. */
        fed = j8_upload_feed(fed_held.upload, piece, n, other_line, sizeof other_line, out, sizeof out);
        /* A closed line took the buffer's front for the next one. */
        memset(other_line, 'a', n < held ? n : held);
        most = fed.upload.used > most ? fed.upload.used : most;
    }
    return most;
}

static int rooms(void)
{
    static const size_t helds[] = { 0, 1, 2, 1000, 1020, 1021, 1022, 1023, 1024 };
    size_t n, i, most, used;

    for (n = 1; n <= 8; n++) {
        for (i = 0, most = 0; i < sizeof helds / sizeof helds[0]; i++) {
            used = most_used(helds[i], n);
            most = used > most ? used : most;
        }
        /* An odd piece may need all of it, an even one leaves four bytes or, at two, five. */
        if (!check(most == J8_FEED_ROOM(n) - (n % 2 == 1 ? 0 : n == 2 ? 5 : 4), "the room of a piece")) {
            fprintf(stderr, "c: %lu bytes need %lu\n", (unsigned long)n, (unsigned long)most);
            return 0;
        }
    }
    return check(J8_FEED_ROOM(1460) == 4678, "the room of a packet")
        && check(J8_FEED_ROOM(0) == J8_RECORD_HEAD + J8_LINE_ROOM, "the room of a finish");
}

/* ------------------------------------------------------- generated uploads */

static uint64_t seed = 0x9e3779b97f4a7c15u;

static size_t below(size_t n)
{
    seed ^= seed >> 12;
    seed ^= seed << 25;
    seed ^= seed >> 27;
    return (size_t)((seed * 0x2545f4914f6cdd1du) >> 33) % n;
}

static uint8_t text[TEXT_MOST + 2 * J8_LINE_ROOM];
static size_t text_len;

static void make_text(void)
{
    static const char *const lines[] = {
        "a", "a", "a", "", " ", "\r", "scans/in", "''", "\"caf\xc3\xa9\"", "b'caf\\ye9'", "  b'\\yff'\t",
        "\"\\ud83e\\udd26\"",
    };
    static const char *const faults[] = { "\"a\" x", "b'", "\xff", "\"caf\xe9\"", "\xed\xa0\x80", "u'\\yff'", "\"\\q\"" };
    size_t most = below(TEXT_MOST), length;
    const char *next;

    text_len = 0;
    while (text_len < most) {
        next = below(900) == 0 ? faults[below(7)] : lines[below(12)];
        length = strlen(next);
        memcpy(text + text_len, next, length);
        text_len += length;
        if (below(40) == 0) {
            /* About the longest line that is read. */
            length = J8_LINE_ROOM - 3 + (below(200) == 0 ? below(6) : below(3));
            memset(text + text_len, 'n', length);
            text_len += length;
        }
        text[text_len++] = '\n';
    }
    if (below(2) == 0 && text_len > 0) {
        text_len--;
    }
}

/* Whether two calls answered the same and left the same upload, used apart. */
static int same(j8_fed a, j8_fed b)
{
    return a.answer.number == b.answer.number && a.answer.line == b.answer.line
        && a.answer.place == b.answer.place && a.upload.taken == b.upload.taken
        && a.upload.lfs == b.upload.lfs && a.upload.held == b.upload.held
        && a.upload.ended == b.upload.ended && a.upload.refusal == b.upload.refusal
        && a.upload.line == b.upload.line && a.upload.place == b.upload.place;
}

/* One text by both ways, in pieces of at most so many bytes. The drained one has just the room for such a piece, now in one output, now in another. */
static int both(size_t most, unsigned long *refused)
{
    size_t at = 0, handed = 0, n, room = J8_FEED_ROOM(most);
    uint8_t *lent;
    int ends = 0;
    j8_fed kept, drained;

    kept.upload = drained.upload = j8_upload_fresh();
    memset(line, 1, sizeof line);
    memset(other_line, 1, sizeof other_line);
    while (ends < 2) {
        lent = below(2) == 0 ? out : other_out;
        if (at < text_len) {
            n = 1 + below(most);
            n = n < text_len - at ? n : text_len - at;
            kept = j8_upload_feed(kept.upload, text + at, n, line, sizeof line, all, sizeof all);
            drained = j8_upload_feed(drained.upload, text + at, n, other_line, sizeof other_line, lent, room);
            at += n;
        } else {
            /* Twice, so that a finish behind the end is compared too. */
            kept = j8_upload_finish(kept.upload, line, sizeof line, all, sizeof all);
            drained = j8_upload_finish(drained.upload, other_line, sizeof other_line, lent, room);
            ends++;
        }
        if (!check(same(kept, drained), "the same answer and state")
            || !check(memcmp(line, other_line, sizeof line) == 0, "the same line buffer")
            || !check(handed + drained.upload.used == kept.upload.used, "as many record bytes")
            || !check(memcmp(all + handed, lent, drained.upload.used) == 0, "the same records")) {
            return 0;
        }
        handed += drained.upload.used;
        drained.upload.used = 0;
        /* Handed on, they may be written over. */
        memset(lent, 0xEE, room);
    }
    *refused += kept.upload.refusal != 0;
    return check(kept.upload.refusal != J8_NO_ROOM, "room enough");
}

static int uploads(void)
{
    static const size_t mosts[] = { 1, 2, 7, 64, 1460, PIECE_MOST };
    unsigned long refused = 0, i;

    for (i = 0; i < UPLOADS; i++) {
        make_text();
        if (!both(mosts[below(6)], &refused)) {
            return 0;
        }
    }
    return check(refused > UPLOADS / 10 && refused < UPLOADS * 9 / 10, "some refused, some not");
}

/* The upload that gives the most records, in the packets of a network. */
static int longest(void)
{
    static uint8_t packet[1460];
    size_t taken = 0, handed = 0, i, n;
    j8_fed fed;

    fed.upload = j8_upload_fresh();
    for (i = 0; i < sizeof packet; i++) {
        packet[i] = i % 2 == 0 ? 'a' : '\n';
    }
    while (taken < J8_UPLOAD_MAX) {
        n = J8_UPLOAD_MAX - taken < sizeof packet ? J8_UPLOAD_MAX - taken : sizeof packet;
        fed = j8_upload_feed(fed.upload, packet, n, line, sizeof line, out, J8_FEED_ROOM(sizeof packet));
        taken += n;
        handed += fed.upload.used;
        fed.upload.used = 0;
    }
    fed = j8_upload_finish(fed.upload, line, sizeof line, out, J8_FEED_ROOM(sizeof packet));
    return check(fed.answer.number == 0 && fed.upload.ended == 1, "the longest upload ends")
        && check(handed == J8_UPLOAD_MAX / 2 * 5, "and all its records were handed on");
}

int main(void)
{
    if (!rooms() || !uploads() || !longest()) {
        return 1;
    }
    printf("c: drain: %lu checks passed\n", checks);
    return 0;
}
