/*
 * An upload on a Cortex-M3 without an operating system, on a stack of 16 KiB: 3,000
 * lines of every style in packets of 1,460 bytes, each packet's records handed on;
 * then one with a bad line. Prints what came out, and what the calls took of the
 * stack, painted before. -DHOST makes the same program for the build machine,
 * whose first two lines must be the same. Bounds of the stack, for a feed and a
 * finish: FEED_BOUND, FINISH_BOUND.
 */
#include <stdio.h>
#include <string.h>

#include "j8.h"

#define STACK 16384
#define PAINT 0xa5
#define PACKET 1460

static uint8_t stack[STACK] __attribute__((aligned(8), used));
static uint8_t line[J8_LINE_ROOM], out[J8_FEED_ROOM(PACKET)], text[200000];

static const char *const lines[] = {
    "scans/in", "\"caf\\u00e9 \\ud83e\\udd26\"", "b'\\yff\\y00x'", "u'\\u{20ac}'", "", "  \t", "'plain'", "\xc3\xa9t\xc3\xa9",
};

#ifdef HOST
static void paint(void)
{
}

static size_t used(void)
{
    return 0;
}
#else
static void paint(void)
{
    volatile uint8_t *at = stack, *end = (uint8_t *)__builtin_frame_address(0) - 64;

    while (at < end) {
        *at++ = PAINT;
    }
}

/* From the frame of the function that asks. */
static size_t used(void)
{
    size_t low = 0;

    while (stack[low] == PAINT) {
        low++;
    }
    return (size_t)((uint8_t *)__builtin_frame_address(0) - (stack + low));
}
#endif

static size_t feed_most, finish_most;
static unsigned long records, sum;

static void hand_on(size_t count)
{
    size_t at, length;

    for (at = 0; at < count; at += J8_RECORD_HEAD + length) {
        length = J8_RECORD_LENGTH(out + at);
        records++;
    }
    for (at = 0; at < count; at++) {
        sum = (sum * 31 + out[at]) & 0xffffffff;
    }
}

static void upload(size_t length)
{
    j8_fed fed;
    size_t at, count;

    records = sum = 0;
    fed.upload = j8_upload_fresh();
    for (at = 0; at < length; at += count) {
        count = length - at < PACKET ? length - at : PACKET;
        paint();
        fed = j8_upload_feed(fed.upload, text + at, count, line, sizeof line, out, sizeof out);
        feed_most = used() > feed_most ? used() : feed_most;
        hand_on(fed.upload.used);
        fed.upload.used = 0;
    }
    paint();
    fed = j8_upload_finish(fed.upload, line, sizeof line, out, sizeof out);
    finish_most = used() > finish_most ? used() : finish_most;
    hand_on(fed.upload.used);
    printf("%lu bytes, %lu records, sum %lx; answer %lu in line %lu at %lu\n", (unsigned long)length, records, sum,
           (unsigned long)fed.answer.number, (unsigned long)fed.answer.line, (unsigned long)fed.answer.place);
}

int main(void)
{
    size_t i, length = 0;

    for (i = 0; i < 3000; i++) {
        const char *one = lines[i % (sizeof lines / sizeof lines[0])];
        memcpy(text + length, one, strlen(one));
        length += strlen(one);
        text[length++] = '\n';
    }
    /* The last line's LF is left off, so that the finish reads it. */
    upload(length - 1);
    memcpy(text + length / 2, "\n\"a\" b\n", 7);
    upload(length);
#ifndef HOST
    printf("stack: feed %lu of %d, finish %lu of %d\n", (unsigned long)feed_most, FEED_BOUND, (unsigned long)finish_most, FINISH_BOUND);
    return feed_most <= FEED_BOUND && finish_most <= FINISH_BOUND ? 0 : 1;
#else
    return 0;
#endif
}

#ifndef HOST
void initialise_monitor_handles(void);
void _exit(int);

static void start(void)
{
    int status;

    initialise_monitor_handles();
    status = main();
    fflush(stdout);
    _exit(status);
}

/* Where the processor begins: its stack pointer and its first function. */
__attribute__((section(".vectors"), used)) static const struct {
    void *top;
    void (*first)(void);
} vectors = { stack + STACK, start };
#endif
