/* Reads and writes J8 strings through j8.h, as a C program of the firmware would. */

#include <stdint.h>
#include <stdio.h>
#include <string.h>

#include "j8.h"
#include "characters.h"

#define FILL 0xA5
#define SPARE 8

static unsigned long checks;
static uint8_t out[J8_TEXT_MAX + SPARE];
static uint8_t long_text[J8_TEXT_MAX + 1];

/* One check; answers whether it passed. */
static int check(int passed, const char *what)
{
    checks++;
    if (!passed) {
        fprintf(stderr, "c: failed: %s\n", what);
    }
    return passed;
}

static int filled(size_t from, size_t to)
{
    while (from < to) {
        if (out[from++] != FILL) {
            return 0;
        }
    }
    return 1;
}

/* The answer is as told, and so is every byte of out. */
static int answered(j8_result got, uint32_t number, size_t place,
                    const void *bytes, size_t length, const char *what)
{
    return check(got.number == number, what)
        && check(got.place == place, what)
        && check(got.length == length, what)
        && check(length == 0 || memcmp(out, bytes, length) == 0, what)
        && check(filled(length, sizeof out), what);
}

static j8_result reading(const void *text, size_t length, size_t room)
{
    memset(out, FILL, sizeof out);
    return j8_string_read(text, length, out, room);
}

static j8_result writing(const void *data, size_t length, size_t room)
{
    memset(out, FILL, sizeof out);
    return j8_string_write(data, length, out, room);
}

/* The text gives these bytes: with room to spare, with exact room, and not
   with one less. */
static int gives(const char *text, const char *bytes, size_t length)
{
    size_t n = strlen(text);

    return answered(reading(text, n, J8_STRING_READ_ROOM(n)), 0, 0, bytes, length, text)
        && answered(reading(text, n, length), 0, 0, bytes, length, text)
        && (length == 0
            || answered(reading(text, n, length - 1), J8_NO_ROOM, 0, "", 0, text));
}

static int refuses(const char *text, uint32_t number, size_t place)
{
    size_t n = strlen(text);

    return answered(reading(text, n, J8_STRING_READ_ROOM(n)), number, place, "", 0, text)
        && answered(reading(text, n, 0), number, place, "", 0, text);
}

/* The bytes are written as this text, again with three rooms. */
static int written(const char *bytes, size_t length, const char *text)
{
    size_t n = strlen(text);

    return check(n <= J8_STRING_WRITE_ROOM(length), text)
        && answered(writing(bytes, length, J8_STRING_WRITE_ROOM(length)), 0, 0, text, n, text)
        && answered(writing(bytes, length, n), 0, 0, text, n, text)
        && answered(writing(bytes, length, n - 1), J8_NO_ROOM, 0, "", 0, text);
}

static int examples(void)
{
    return gives("\"\"", "", 0)
        && gives("''", "", 0)
        && gives("\"\\ud83e\\udd26\"", "\xf0\x9f\xa4\xa6", 4)
        && gives("\"\\udd26\"", "\xed\xb4\xa6", 3)
        && gives("\"\\ud83eA\"", "\xed\xa0\xbe" "A", 4)
        && gives("b'\\yff'", "\xff", 1)
        && gives("b'\\yff\\fe'", "\xff\x0c" "e", 3)
        && refuses("u'\\yff'", J8_BYTE_ESCAPE, 2)
        && refuses("u'\\u{dc00}'", J8_SURROGATE, 2)
        && refuses("u'\\u{110000}'", J8_TOO_LARGE, 2)
        && refuses("\"\\'\"", J8_BAD_ESCAPE, 1)
        && refuses("\"a", J8_CUT_OFF, 2)
        && refuses("'a' x", J8_TRAILING, 3)
        && gives("u'\\u{10ffff}'", "\xf4\x8f\xbf\xbf", 4)
        && gives("u'\\u{0}'", "\0", 1)
        && refuses("u'\\u{0000041}'", J8_BAD_ESCAPE, 2)
        && refuses("\"\\yff\"", J8_BAD_ESCAPE, 1)
        && refuses("\"\\", J8_BAD_ESCAPE, 1)
        && refuses("b'\\yf'", J8_BAD_ESCAPE, 2)
        && gives("\"\\udbff\\udfff\"", "\xf4\x8f\xbf\xbf", 4)
        && refuses("scans", J8_NO_OPENING, 0)
        && refuses("\"a\xe2\x82\"", J8_UTF8_INCOMPLETE, 2)
        && refuses("\"a\tb\"", J8_CONTROL, 2);
}

/* Each fault of UTF-8 in each style, before the end of the text and before bytes that end the character. */
static int faults(void)
{
    static const char *const marks[] = { "\"", "'\\n", "u'a", "b'\xc3\xa9" };
    static const char *const ends[] = { "", "\"", "'", "\\", "\xc0" };
    size_t at, mark, end;

    for (at = 0; at < CHARACTERS; at++) {
        for (mark = 0; mark < sizeof marks / sizeof marks[0]; mark++) {
            for (end = 0; end < sizeof ends / sizeof ends[0]; end++) {
                if (!refuses(between(marks[mark], at, ends[end]), characters[at].number, strlen(marks[mark]))) {
                    return 0;
                }
            }
        }
    }
    return gives("'\xc2\x80\xdf\xbf\xe0\xa0\x80\xed\x9f\xbf\xee\x80\x80\xef\xbf\xbf'", "\xc2\x80\xdf\xbf\xe0\xa0\x80\xed\x9f\xbf\xee\x80\x80\xef\xbf\xbf", 16)
        && gives("'\xf0\x90\x80\x80\xf4\x8f\xbf\xbf'", "\xf0\x90\x80\x80\xf4\x8f\xbf\xbf", 8);
}

static int forms(void)
{
    return written("", 0, "\"\"")
        && written("scans/in", 8, "\"scans/in\"")
        && written("it's \"so\"", 9, "\"it's \\\"so\\\"\"")
        && written("\b\f\n\r\t\\\0\x1f\x7f", 9, "\"\\b\\f\\n\\r\\t\\\\\\u0000\\u001f\x7f\"")
        && written("caf\xc3\xa9", 5, "\"caf\xc3\xa9\"")
        && written("caf\xe9", 4, "b'caf\\ye9'")
        && written("\xff'\"\\\n\x01", 6, "b'\\yff\\'\"\\\\\\n\\y01'")
        && written("\xed\xa0\xbe", 3, "b'\\yed\\ya0\\ybe'");
}

/* A pointer may be NULL where its length is 0. */
static int nulls(void)
{
    j8_result got;

    memset(out, FILL, sizeof out);
    got = j8_string_read(NULL, 0, NULL, 0);
    if (!answered(got, J8_NO_OPENING, 0, "", 0, "read NULL")) {
        return 0;
    }
    got = j8_string_read((const uint8_t *)"''", 2, NULL, 0);
    if (!answered(got, 0, 0, "", 0, "read '' into NULL")) {
        return 0;
    }
    got = j8_string_read((const uint8_t *)"'a'", 3, NULL, 0);
    if (!answered(got, J8_NO_ROOM, 0, "", 0, "read 'a' into NULL")) {
        return 0;
    }
    got = j8_string_write(NULL, 0, NULL, 0);
    if (!answered(got, J8_NO_ROOM, 0, "", 0, "write NULL into NULL")) {
        return 0;
    }
    got = j8_string_write(NULL, 0, out, sizeof out);
    return answered(got, 0, 0, "\"\"", 2, "write NULL");
}

/* A text of exactly the cap is read, one byte more is refused before all else. */
static int cap(void)
{
    memset(long_text, 'a', sizeof long_text);
    long_text[0] = '"';
    long_text[J8_TEXT_MAX - 1] = '"';
    return answered(reading(long_text, J8_TEXT_MAX, J8_TEXT_MAX - 2), 0, 0,
                    long_text + 1, J8_TEXT_MAX - 2, "text at the cap")
        && answered(reading(long_text, J8_TEXT_MAX, J8_TEXT_MAX - 3), J8_NO_ROOM, 0,
                    "", 0, "text at the cap, one short")
        && answered(reading(long_text, J8_TEXT_MAX + 1, J8_TEXT_MAX), J8_TOO_LONG, 0,
                    "", 0, "text over the cap");
}

/* Written, read back, and nothing past either result touched. */
static int comes_back(const uint8_t *data, size_t length)
{
    uint8_t text[J8_STRING_WRITE_ROOM(2) + SPARE];
    uint8_t back[2 + SPARE];
    size_t room = J8_STRING_WRITE_ROOM(length);
    size_t i;
    j8_result put, got;

    memset(text, FILL, sizeof text);
    put = j8_string_write(data, length, text, room);
    if (!check(put.number == 0 && put.place == 0 && put.length <= room, "write, to come back")) {
        return 0;
    }
    for (i = put.length; i < sizeof text; i++) {
        if (text[i] != FILL) {
            return check(0, "write touches bytes past its text");
        }
    }
    memset(back, FILL, sizeof back);
    got = j8_string_read(text, put.length, back, length);
    if (!check(got.number == 0 && got.place == 0 && got.length == length
               && memcmp(back, data, length) == 0, "bytes come back")) {
        return 0;
    }
    for (i = length; i < sizeof back; i++) {
        if (back[i] != FILL) {
            return check(0, "read touches bytes past its result");
        }
    }
    return 1;
}

static int round_trips(void)
{
    uint8_t data[2];
    unsigned first, second;

    for (first = 0; first < 256; first++) {
        data[0] = (uint8_t)first;
        if (!comes_back(data, 1)) {
            fprintf(stderr, "c: byte %02x\n", first);
            return 0;
        }
        for (second = 0; second < 256; second++) {
            data[1] = (uint8_t)second;
            if (!comes_back(data, 2)) {
                fprintf(stderr, "c: bytes %02x %02x\n", first, second);
                return 0;
            }
        }
    }
    return 1;
}

/* The version by its numbers is the version by its text. */
static int version(void)
{
    char text[32];

    sprintf(text, "%d.%d.%d", J8_VERSION_MAJOR, J8_VERSION_MINOR, J8_VERSION_PATCH);
    return check(strcmp(text, J8_VERSION) == 0, "version");
}

int main(void)
{
    if (!version() || !examples() || !faults() || !forms() || !nulls() || !cap() || !round_trips()) {
        return 1;
    }
    printf("c: %lu checks passed\n", checks);
    return 0;
}
