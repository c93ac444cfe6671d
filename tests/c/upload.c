/* Uploads J8 Lines through j8.h in pieces and writes them, as a C program of the firmware would. */

#include <stdint.h>
#include <stdio.h>
#include <string.h>

#include "j8.h"
#include "characters.h"

#define LINE_FILL 0xA5
#define FILL 0x5A
#define SPARE 8

static unsigned long checks;
static uint8_t line[J8_LINE_ROOM + SPARE];
static uint8_t out[J8_UPLOAD_OUTPUT_MAX + SPARE];
static uint8_t text[J8_UPLOAD_MAX + 1];

/* One check; answers whether it passed. */
static int check(int passed, const char *what)
{
    checks++;
    if (!passed) {
        fprintf(stderr, "c: failed: %s\n", what);
    }
    return passed;
}

static int filled(const uint8_t *bytes, size_t from, size_t to, uint8_t fill)
{
    while (from < to) {
        if (bytes[from++] != fill) {
            return 0;
        }
    }
    return 1;
}

/* Fills both buffers up to their spare bytes, and hands out a fresh state. */
static j8_upload begin(size_t room)
{
    memset(line, LINE_FILL, sizeof line);
    memset(out, FILL, room + SPARE);
    return j8_upload_fresh();
}

static j8_fed feed(j8_upload upload, const void *piece, size_t length, size_t room)
{
    return j8_upload_feed(upload, piece, length, line, J8_LINE_ROOM, out, room);
}

static j8_fed finish(j8_upload upload, size_t room)
{
    return j8_upload_finish(upload, line, J8_LINE_ROOM, out, room);
}

static int answered(j8_fed fed, uint32_t number, size_t line_number, size_t place, const char *what)
{
    return check(fed.answer.number == number, what)
        && check(fed.answer.line == line_number, what)
        && check(fed.answer.place == place, what);
}

/* Every field of a state. */
static int same(j8_upload got, j8_upload told, const char *what)
{
    return check(got.taken == told.taken && got.lfs == told.lfs, what)
        && check(got.held == told.held && got.used == told.used, what)
        && check(got.ended == told.ended && got.refusal == told.refusal, what)
        && check(got.line == told.line && got.place == told.place, what);
}

static j8_upload state(size_t taken, size_t lfs, size_t held, size_t used, uint32_t ended)
{
    j8_upload told = j8_upload_fresh();

    told.taken = taken;
    told.lfs = lfs;
    told.held = held;
    told.used = used;
    told.ended = ended;
    return told;
}

static j8_upload refused(j8_upload told, uint32_t number, size_t line_number, size_t place)
{
    told.refusal = number;
    told.line = line_number;
    told.place = place;
    return told;
}

/* The whole case: 22 bytes, 23 bytes of records. */
static const char whole[] = "scans/a b\nb'x\\yff'\n\n''";
static const char records[] = "\x09\0\x01\0scans/a b" "\x02\0\x02\0x\xff" "\0\0\x01\0";
#define WHOLE (sizeof whole - 1)
#define RECORDS (sizeof records - 1)

/* The buffers after the whole case. */
static int whole_buffers(size_t room, const char *what)
{
    return check(memcmp(out, records, RECORDS) == 0, what)
        && check(filled(out, RECORDS, room + SPARE, FILL), what)
        && check(memcmp(line, "''x\\yff'b", 9) == 0, what)
        && check(filled(line, 9, sizeof line, LINE_FILL), what);
}

/* In every three pieces, empty ones too, with exact room and with room to spare. */
static int whole_case(void)
{
    size_t first, second, room;
    j8_fed fed;

    for (room = RECORDS; room <= RECORDS + 5; room += 5) {
        for (first = 0; first <= WHOLE; first++) {
            for (second = first; second <= WHOLE; second++) {
                fed = feed(begin(room), whole, first, room);
                if (!answered(fed, 0, 0, 0, "first piece")) {
                    return 0;
                }
                fed = feed(fed.upload, whole + first, second - first, room);
                if (!answered(fed, 0, 0, 0, "second piece")) {
                    return 0;
                }
                fed = feed(fed.upload, whole + second, WHOLE - second, room);
                if (!answered(fed, 0, 0, 0, "third piece")
                    || !same(fed.upload, state(22, 3, 2, 19, 0), "whole case, fed")) {
                    return 0;
                }
                fed = finish(fed.upload, room);
                if (!answered(fed, 0, 0, 0, "finish")
                    || !same(fed.upload, state(22, 3, 0, 23, 1), "whole case, finished")
                    || !whole_buffers(room, "whole case, buffers")) {
                    return 0;
                }
                fed = feed(fed.upload, "x\n", 2, room);
                if (!answered(fed, J8_ENDED, 0, 0, "feed after the end")
                    || !same(fed.upload, state(22, 3, 0, 23, 1), "feed after the end")) {
                    return 0;
                }
                fed = finish(fed.upload, room);
                if (!answered(fed, J8_ENDED, 0, 0, "finish after the end")
                    || !same(fed.upload, state(22, 3, 0, 23, 1), "finish after the end")
                    || !whole_buffers(room, "whole case, after the end")) {
                    return 0;
                }
            }
        }
    }

    /* One byte short: the last line isn't written, and all else is kept. */
    room = RECORDS - 1;
    fed = feed(begin(room), whole, WHOLE, room);
    fed = finish(fed.upload, room);
    return answered(fed, J8_NO_ROOM, 4, 0, "one byte short")
        && same(fed.upload, refused(state(22, 3, 2, 19, 0), J8_NO_ROOM, 4, 0), "one byte short")
        && check(memcmp(out, records, 19) == 0, "one byte short")
        && check(filled(out, 19, room + SPARE, FILL), "one byte short");
}

/* A text with one record before its bad line; the refusal comes by the LF, or
   by the finish where there is none, in every two pieces, and stays. */
static int refuses(const char *bad, uint32_t number, size_t place)
{
    static char joined[64];
    size_t length, cut, room = 40;
    j8_upload told;
    j8_fed fed;
    int by_finish;

    for (by_finish = 0; by_finish <= 1; by_finish++) {
        strcpy(joined, "ok\n");
        strcat(joined, bad);
        if (!by_finish) {
            strcat(joined, "\nmore\n");
        }
        length = strlen(joined);
        told = refused(state(3 + strlen(bad), 1, strlen(bad), 6, 0), number, 2, place);
        for (cut = 0; cut <= length; cut++) {
            fed = feed(begin(room), joined, cut, room);
            fed = feed(fed.upload, joined + cut, length - cut, room);
            if (by_finish) {
                if (!answered(fed, 0, 0, 0, bad)) {
                    return 0;
                }
                fed = finish(fed.upload, room);
            }
            if (!answered(fed, number, 2, place, bad) || !same(fed.upload, told, bad)) {
                return 0;
            }
            fed = feed(fed.upload, "x\n", 2, room);
            if (!answered(fed, number, 2, place, bad) || !same(fed.upload, told, bad)) {
                return 0;
            }
            fed = finish(fed.upload, room);
            if (!answered(fed, number, 2, place, bad) || !same(fed.upload, told, bad)
                || !check(memcmp(out, "\2\0\1\0ok", 6) == 0, bad)
                || !check(filled(out, 6, room + SPARE, FILL), bad)
                || !check(memcmp(line, bad, strlen(bad)) == 0, bad)) {
                return 0;
            }
        }
    }
    return 1;
}

static int refusals(void)
{
    /* A fault comes before the room. */
    j8_fed fed = feed(begin(0), "''x\n", 4, 0);

    return answered(fed, J8_TRAILING, 1, 2, "fault without room")
        && refuses(" \"a ", J8_CUT_OFF, 3)
        && refuses("a\xe2\x82", J8_UTF8_INCOMPLETE, 1)
        && refuses("\"\xe2\x82\"", J8_UTF8_INCOMPLETE, 1)
        && refuses("a\rb", J8_CONTROL, 1)
        && refuses("\t\"a\tb\"", J8_CONTROL, 3)
        && refuses("\"\\yff\"", J8_BAD_ESCAPE, 1)
        && refuses("'\\u{dc00}'", J8_SURROGATE, 1)
        && refuses("u'\\u{110000}'", J8_TOO_LARGE, 2)
        && refuses(" u'\\yff'", J8_BYTE_ESCAPE, 3)
        && refuses("\"a\" # x", J8_TRAILING, 3);
}

/* Each fault of UTF-8 in bare and quoted lines. Where a piece ends makes no difference, inside the character too; blanks are no part of the line. */
static int faults(void)
{
    static const char *const starts[] = { "", " \xc3\xa9", "\"", "\tb'\\yff" };
    static const char *const ends[] = { "", " \r", "\t.", "'", "\"" };
    size_t at, start, end;

    for (at = 0; at < CHARACTERS; at++) {
        for (start = 0; start < sizeof starts / sizeof starts[0]; start++) {
            for (end = 0; end < sizeof ends / sizeof ends[0]; end++) {
                if (!refuses(between(starts[start], at, ends[end]), characters[at].number, strlen(starts[start]))) {
                    return 0;
                }
            }
        }
    }
    return 1;
}

/* 5 stood for these faults and isn't given any more. A state that keeps it repeats it, as any number. */
static int kept(void)
{
    static const uint32_t numbers[] = { 5, J8_UTF8_BAD_ENCODING, J8_UTF8_TOO_LARGE, J8_UTF8_TOO_LARGE + 1 };
    size_t i;

    for (i = 0; i < sizeof numbers / sizeof numbers[0]; i++) {
        j8_upload told = refused(begin(40), numbers[i], 3, 4);
        j8_fed fed = feed(told, "x\n", 2, 40);

        if (!answered(fed, numbers[i], 3, 4, "kept") || !same(fed.upload, told, "kept")) {
            return 0;
        }
        fed = finish(told, 40);
        if (!answered(fed, numbers[i], 3, 4, "kept") || !same(fed.upload, told, "kept")) {
            return 0;
        }
    }
    return 1;
}

/* Unfit buffers and states change nothing. */
static int unfit_one(j8_upload upload, size_t line_room, size_t room, const char *what)
{
    j8_fed fed;

    begin(room);
    fed = j8_upload_feed(upload, (const uint8_t *)"x\n", 2, line, line_room, out, room);
    if (!answered(fed, J8_UNFIT, 0, 0, what) || !same(fed.upload, upload, what)) {
        return 0;
    }
    fed = j8_upload_finish(upload, line, line_room, out, room);
    return answered(fed, J8_UNFIT, 0, 0, what)
        && same(fed.upload, upload, what)
        && check(filled(line, 0, sizeof line, LINE_FILL), what)
        && check(filled(out, 0, room + SPARE, FILL), what);
}

static int unfit(void)
{
    j8_upload full = state(J8_UPLOAD_MAX, J8_UPLOAD_MAX, J8_LINE_ROOM, 10, 0);
    j8_fed fed;

    begin(10);
    fed = j8_upload_feed(j8_upload_fresh(), NULL, 0, NULL, 0, NULL, 0);
    if (!answered(fed, J8_UNFIT, 0, 0, "no buffers")) {
        return 0;
    }
    fed = j8_upload_feed(j8_upload_fresh(), NULL, 0, line, J8_LINE_ROOM, NULL, 0);
    if (!answered(fed, 0, 0, 0, "no output") || !same(fed.upload, j8_upload_fresh(), "no output")) {
        return 0;
    }
    fed = j8_upload_finish(fed.upload, line, J8_LINE_ROOM, NULL, 0);
    if (!answered(fed, 0, 0, 0, "no text") || !same(fed.upload, state(0, 0, 0, 0, 1), "no text")) {
        return 0;
    }
    /* The greatest state is fit: it refuses by the limit. */
    fed = feed(full, "x", 1, 10);
    return answered(fed, J8_UPLOAD_LIMIT, J8_UPLOAD_MAX + 1, J8_LINE_ROOM, "greatest state")
        && unfit_one(j8_upload_fresh(), J8_LINE_ROOM - 1, 10, "short line buffer")
        && unfit_one(full, J8_LINE_ROOM, 9, "used over the output")
        && unfit_one(state(0, 0, J8_LINE_ROOM + 1, 0, 0), J8_LINE_ROOM, 10, "held")
        && unfit_one(state(J8_UPLOAD_MAX + 1, 0, 0, 0, 0), J8_LINE_ROOM, 10, "taken")
        && unfit_one(state(5, 6, 0, 0, 0), J8_LINE_ROOM, 10, "LFs over taken")
        && unfit_one(state(5, 6, 0, 0, 1), J8_LINE_ROOM, 10, "unfit comes before the end")
        && unfit_one(refused(state(5, 6, 0, 0, 0), 99, 7, 8), J8_LINE_ROOM, 10,
                     "unfit comes before a refusal");
}

/* A line of exactly the limit is read, one byte more is refused at its byte. */
static int line_limit(void)
{
    size_t room = J8_RECORD_HEAD + J8_LINE_ROOM;
    j8_fed fed;

    memset(text, 'a', J8_LINE_ROOM);
    text[J8_LINE_ROOM] = '\n';
    fed = feed(begin(room), text, J8_LINE_ROOM + 1, room);
    if (!answered(fed, 0, 0, 0, "longest line")
        || !same(fed.upload, state(J8_LINE_ROOM + 1, 1, 0, room, 0), "longest line")
        || !check(memcmp(out, "\0\4\1\0", 4) == 0, "longest line")
        || !check(memcmp(out + J8_RECORD_HEAD, text, J8_LINE_ROOM) == 0, "longest line")
        || !check(filled(line, J8_LINE_ROOM, sizeof line, LINE_FILL), "longest line")) {
        return 0;
    }
    fed = feed(begin(room), text, J8_LINE_ROOM, room);
    fed = feed(fed.upload, "\r\n", 2, room);
    return answered(fed, J8_TOO_LONG, 1, J8_LINE_ROOM, "line too long")
        && same(fed.upload, refused(state(J8_LINE_ROOM, 0, J8_LINE_ROOM, 0, 0),
                                    J8_TOO_LONG, 1, J8_LINE_ROOM), "line too long")
        && check(filled(line, J8_LINE_ROOM, sizeof line, LINE_FILL), "line too long")
        && check(filled(out, 0, room + SPARE, FILL), "line too long");
}

/* The longest upload, with the text that needs the most output of all. */
static int upload_limit(void)
{
    size_t at, length, lfs = J8_UPLOAD_MAX / 2 - 1, room = J8_UPLOAD_OUTPUT_MAX;
    j8_upload told = state(J8_UPLOAD_MAX, lfs, 2, room - 6, 0);
    j8_fed fed;

    for (at = 0; at < J8_UPLOAD_MAX; at += 2) {
        memcpy(text + at, at < J8_UPLOAD_MAX - 2 ? "a\n" : "ab", 2);
    }
    fed.upload = begin(room);
    for (at = 0; at < J8_UPLOAD_MAX; at += length) {
        length = J8_UPLOAD_MAX - at < 1460 ? J8_UPLOAD_MAX - at : 1460;
        fed = feed(fed.upload, text + at, length, room);
        if (!answered(fed, 0, 0, 0, "longest upload")) {
            return 0;
        }
    }
    if (!same(fed.upload, told, "longest upload")) {
        return 0;
    }
    fed = finish(fed.upload, room);
    if (!answered(fed, 0, 0, 0, "longest upload, finished")
        || !same(fed.upload, state(J8_UPLOAD_MAX, lfs, 0, room, 1), "longest upload, finished")
        || !check(filled(out, room, room + SPARE, FILL), "longest upload, finished")) {
        return 0;
    }
    for (at = 0; at < room - 6; at += 5) {
        if (memcmp(out + at, "\1\0\1\0a", 5) != 0) {
            return check(0, "longest upload, records");
        }
    }
    if (!check(memcmp(out + room - 6, "\2\0\1\0ab", 6) == 0, "longest upload, last record")) {
        return 0;
    }

    /* One byte less of room, and one byte more of text. */
    fed = feed(begin(room), text, J8_UPLOAD_MAX, room - 1);
    fed = finish(fed.upload, room - 1);
    if (!answered(fed, J8_NO_ROOM, lfs + 1, 0, "most output, one byte short")) {
        return 0;
    }
    text[J8_UPLOAD_MAX] = '\n';
    fed = feed(begin(room), text, J8_UPLOAD_MAX + 1, room);
    return answered(fed, J8_UPLOAD_LIMIT, lfs + 1, 2, "upload over the limit")
        && same(fed.upload, refused(told, J8_UPLOAD_LIMIT, lfs + 1, 2), "upload over the limit");
}

static int writes(const void *data, size_t length, size_t room,
                  uint32_t number, const char *lines, const char *what)
{
    size_t n = strlen(lines);
    j8_result got;

    memset(out, FILL, room + SPARE);
    got = j8_lines_write(data, length, out, room);
    return check(got.number == number && got.place == 0 && got.length == n, what)
        && check(memcmp(out, lines, n) == 0, what)
        && check(filled(out, n, room + SPARE, FILL), what);
}

/* The whole case's records as lines: without the ignored line, all quoted. */
static int lines_written(void)
{
    static const char lines[] = "\"scans/a b\"\nb'x\\yff'\n\"\"\n";
    size_t n = sizeof lines - 1, cut;

    if (!writes(records, RECORDS, J8_LINES_WRITE_ROOM(RECORDS), 0, lines, "lines")
        || !writes(records, RECORDS, n, 0, lines, "lines, exact room")
        || !writes(records, RECORDS, n - 1, J8_NO_ROOM, "", "lines, one byte short")
        || !writes(NULL, 0, 0, 0, "", "no records")
        || !writes("\1\0\2\0a", 5, 9, J8_UNFIT, "", "text as bytes")
        || !writes("\1\0\1\0\xff", 5, 9, J8_UNFIT, "", "bytes as text")
        || !writes("\1\0\1\1a", 5, 9, J8_UNFIT, "", "kind 257")) {
        return 0;
    }
    for (cut = 1; cut < RECORDS; cut++) {
        /* Whole records end at 13 and 19; the room comes after them. */
        uint32_t number = cut == 13 || cut == 19 ? J8_NO_ROOM : J8_UNFIT;

        if (!writes(records, cut, 0, number, "", "records cut short")) {
            return 0;
        }
    }
    return 1;
}

/* Every byte beside every other as a record: written, uploaded in pieces of
   each length up to 40, and the same records again. */
static int round_trip(void)
{
    static uint8_t list[256 * 6], lines[J8_LINES_WRITE_ROOM(256 * 6)];
    size_t at, length, n;
    unsigned first, second;
    j8_result put;
    j8_fed fed;

    for (first = 0; first < 256; first++) {
        n = 0;
        for (second = 0; second < 256; second++) {
            /* Valid UTF-8: both below 0x80, or one character of two bytes. */
            int valid = (first < 0x80 && second < 0x80)
                || (first >= 0xc2 && first <= 0xdf && second >= 0x80 && second <= 0xbf);

            list[n++] = 2;
            list[n++] = 0;
            list[n++] = valid ? J8_KIND_TEXT : J8_KIND_BYTES;
            list[n++] = 0;
            list[n++] = (uint8_t)first;
            list[n++] = (uint8_t)second;
        }
        put = j8_lines_write(list, n, lines, sizeof lines);
        if (!check(put.number == 0 && put.length <= sizeof lines, "write, to come back")) {
            return 0;
        }
        fed.upload = begin(n);
        for (at = 0; at < put.length; at += length) {
            length = 1 + (first + at) % 40;
            if (length > put.length - at) {
                length = put.length - at;
            }
            fed = feed(fed.upload, lines + at, length, n);
        }
        fed = finish(fed.upload, n);
        if (!answered(fed, 0, 0, 0, "lines come back")
            || !same(fed.upload, state(put.length, 256, 0, n, 1), "lines come back")
            || !check(memcmp(out, list, n) == 0, "records come back")
            || !check(filled(out, n, n + SPARE, FILL), "records come back")) {
            fprintf(stderr, "c: byte %02x\n", first);
            return 0;
        }
    }
    return 1;
}

int main(void)
{
    if (!whole_case() || !refusals() || !faults() || !kept() || !unfit() || !line_limit() || !upload_limit()
        || !lines_written() || !round_trip()) {
        return 1;
    }
    printf("c: %lu checks passed\n", checks);
    return 0;
}
