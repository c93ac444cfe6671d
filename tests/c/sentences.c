/* Asks the archive for its version, and for what each number says. */

#include <stdint.h>
#include <stdio.h>
#include <string.h>

#include "j8.h"

#define FILL 0xA5
#define LAST J8_UTF8_TOO_LARGE
/* No refusal has this number any more: 23 to 27 took its place. */
#define GONE 5

static unsigned long checks;
static uint8_t told[LAST + 1][J8_SENTENCE_ROOM];
static size_t lengths[LAST + 1];

/* One check; answers whether it passed. */
static int check(int passed, const char *what)
{
    checks++;
    if (!passed) {
        fprintf(stderr, "c: failed: %s\n", what);
    }
    return passed;
}

static int filled(const uint8_t *bytes, size_t from, size_t to)
{
    while (from < to) {
        if (bytes[from++] != FILL) {
            return 0;
        }
    }
    return 1;
}

/* The sentence stands in a room that is longer, and in one that just holds it; one byte less is refused, and no byte is written. */
static int asked(uint32_t number, uint8_t *sentence, size_t *length)
{
    uint8_t out[J8_SENTENCE_ROOM];
    j8_result said;
    size_t i;

    memset(sentence, FILL, J8_SENTENCE_ROOM);
    said = j8_sentence(number, sentence, J8_SENTENCE_ROOM);
    *length = said.length;
    if (!check(said.number == 0 && said.place == 0 && said.length > 0 && said.length <= J8_SENTENCE_ROOM, "it is told")
        || !check(filled(sentence, said.length, J8_SENTENCE_ROOM), "nothing behind it is written")) {
        return 0;
    }
    for (i = 0; i < said.length; i++) {
        if (!check(sentence[i] >= 0x20 && sentence[i] < 0x7f, "it is one line of ASCII")) {
            return 0;
        }
    }
    memset(out, FILL, sizeof out);
    said = j8_sentence(number, out, *length);
    if (!check(said.number == 0 && said.length == *length && memcmp(out, sentence, *length) == 0, "it fits exactly")) {
        return 0;
    }
    memset(out, FILL, sizeof out);
    said = j8_sentence(number, out, *length - 1);
    return check(said.number == J8_NO_ROOM && said.place == 0 && said.length == 0, "a byte less is refused")
        && check(filled(out, 0, sizeof out), "a refused call writes nothing");
}

/* What the five faults of UTF-8 say, from 23 on. */
static const char *const faults[] = {
    "no UTF-8 character begins with this byte; only b'' can hold it, written as \\yhh",
    "this UTF-8 character isn't whole: it is cut off, or in another encoding; only b'' can hold it, written as \\yhh",
    "overlong: UTF-8 writes this character with fewer bytes; only b'' can hold it, written as \\yhh",
    "this is half of a surrogate pair, which UTF-8 never has; only b'' can hold it, written as \\yhh",
    "this UTF-8 form is of a number above 10ffff, which no character has; only b'' can hold it, written as \\yhh"
};

static int sentences(void)
{
    static const uint32_t others[] = { 0, GONE, LAST + 1, 256, 256 + GONE, 65537, 4294967295u };
    static const char unknown[] = "no refusal has this number", trailing[] = "there is more behind the end of the string or value";
    uint8_t sentence[J8_SENTENCE_ROOM];
    uint32_t m, n;
    size_t i, length;
    j8_result said;

    for (n = 1; n <= LAST; n++) {
        if (n == GONE) {
            continue;
        }
        if (!asked(n, told[n], &lengths[n])) {
            return 0;
        }
        for (m = 1; m < n; m++) {
            if (m != GONE && !check(lengths[m] != lengths[n] || memcmp(told[m], told[n], lengths[n]) != 0, "no two are alike")) {
                return 0;
            }
        }
        if (!check(lengths[n] != sizeof unknown - 1 || memcmp(told[n], unknown, lengths[n]) != 0, "none is that of no refusal")) {
            return 0;
        }
    }
    for (i = 0; i < sizeof faults / sizeof faults[0]; i++) {
        n = (uint32_t)(J8_UTF8_BAD_ENCODING + i);
        if (!check(lengths[n] == strlen(faults[i]) && memcmp(told[n], faults[i], lengths[n]) == 0, "what a fault of UTF-8 says")) {
            return 0;
        }
    }
    for (i = 0; i < sizeof others / sizeof others[0]; i++) {
        if (!asked(others[i], sentence, &length)
            || !check(length == sizeof unknown - 1 && memcmp(sentence, unknown, length) == 0, "no refusal has it")) {
            return 0;
        }
    }
    said = j8_sentence(J8_TRAILING, NULL, 0);
    return check(said.number == J8_NO_ROOM && said.place == 0 && said.length == 0, "no room at all")
        && check(lengths[J8_TRAILING] == sizeof trailing - 1 && memcmp(told[J8_TRAILING], trailing, sizeof trailing - 1) == 0, "what 11 says");
}

static int version(void)
{
    char text[64];

    sprintf(text, "%d.%d.%d", J8_VERSION_MAJOR, J8_VERSION_MINOR, J8_VERSION_PATCH);
    return check(j8_version() == 1000000u * J8_VERSION_MAJOR + 1000u * J8_VERSION_MINOR + J8_VERSION_PATCH, "the archive's version is the header's")
        && check(strcmp(text, J8_VERSION) == 0, "the version's numbers are its text");
}

int main(void)
{
    if (!version() || !sentences()) {
        return 1;
    }
    printf("c: version and sentences, %lu checks\n", checks);
    return 0;
}
