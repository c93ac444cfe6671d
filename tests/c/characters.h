/* Ill-formed UTF-8 characters, each with the fault that it has: the first and the last of each range of bytes, and both sides of each value where the
   answer changes. */

static const struct {
    const char *bytes;
    uint32_t number;
} characters[] = {
    { "\x80", J8_UTF8_BAD_ENCODING },
    { "\xbf\xbf\xbf\xbf", J8_UTF8_BAD_ENCODING },
    { "\xf8\x88\x80\x80\x80", J8_UTF8_BAD_ENCODING },
    { "\xff", J8_UTF8_BAD_ENCODING },
    { "\xc0", J8_UTF8_INCOMPLETE },
    { "\xc1", J8_UTF8_INCOMPLETE },
    { "\xc2", J8_UTF8_INCOMPLETE },
    { "\xdf", J8_UTF8_INCOMPLETE },
    { "\xe0", J8_UTF8_INCOMPLETE },
    { "\xe0\x80", J8_UTF8_INCOMPLETE },
    { "\xe2\x82", J8_UTF8_INCOMPLETE },
    { "\xed\xa0", J8_UTF8_INCOMPLETE },
    { "\xef\xbf", J8_UTF8_INCOMPLETE },
    { "\xf0", J8_UTF8_INCOMPLETE },
    { "\xf0\x8d\xa0", J8_UTF8_INCOMPLETE },
    { "\xf4\x90", J8_UTF8_INCOMPLETE },
    { "\xf5\x80\x80", J8_UTF8_INCOMPLETE },
    { "\xf7\xbf\xbf", J8_UTF8_INCOMPLETE },
    { "\xc0\x80", J8_UTF8_OVERLONG },
    { "\xc1\xbf", J8_UTF8_OVERLONG },
    { "\xe0\x80\x80", J8_UTF8_OVERLONG },
    { "\xe0\x9f\xbf", J8_UTF8_OVERLONG },
    { "\xf0\x80\x80\x80", J8_UTF8_OVERLONG },
    { "\xf0\x8d\xa0\x80", J8_UTF8_OVERLONG },
    { "\xf0\x8f\xbf\xbf", J8_UTF8_OVERLONG },
    { "\xed\xa0\x80", J8_UTF8_SURROGATE },
    { "\xed\xbf\xbf", J8_UTF8_SURROGATE },
    { "\xf4\x90\x80\x80", J8_UTF8_TOO_LARGE },
    { "\xf5\x80\x80\x80", J8_UTF8_TOO_LARGE },
    { "\xf7\xbf\xbf\xbf", J8_UTF8_TOO_LARGE }
};
#define CHARACTERS (sizeof characters / sizeof characters[0])

/* One of them between two texts. */
static const char *between(const char *before, size_t at, const char *behind)
{
    static char joined[64];

    strcpy(joined, before);
    strcat(joined, characters[at].bytes);
    return strcat(joined, behind);
}
