/*
 * A settings page takes a backup of scan folders: J8 Lines, one folder a line,
 * in pieces as the network brings them. This is the page's handler, and a main
 * that plays the network: it hands on standard input in pieces of as many bytes
 * as its argument says.
 *
 *     upload 1460 < folders.j8l
 *
 * The handler needs less than 6 KiB for an upload of any length: it hands each
 * folder on when its line ends, and keeps none.
 */

#include <stdio.h>
#include <stdlib.h>

#include "j8.h"

/* The most bytes that are fed at once. Longer pieces are fed in parts. */
#define PIECE 1460

/* ------------------------------------------------------------- the handler */

/* One upload. It holds no pointer and owns nothing else: forgetting it ends it. */
typedef struct {
    j8_upload state;
    uint8_t line[J8_LINE_ROOM];
    uint8_t out[J8_FEED_ROOM(PIECE)];
    size_t folders;
} session;

/* What the handler does with a folder. kind says whether it is valid UTF-8. The
   bytes are good until the function returns. */
static void take_folder(session *it, unsigned kind, const uint8_t *name, size_t length)
{
    /* A J8 string stands on one line whatever its bytes are. */
    uint8_t text[J8_STRING_WRITE_ROOM(J8_LINE_ROOM)];
    j8_result put = j8_string_write(name, length, text, sizeof text);

    it->folders++;
    printf("folder %lu, %s: %.*s\n", (unsigned long)it->folders,
           kind == J8_KIND_TEXT ? "text" : "bytes", (int)put.length, (const char *)text);
}

/* Hands on the records that a call appended, and makes their room free again. */
static void hand_on(session *it)
{
    size_t at, length;
    const uint8_t *record;

    for (at = 0; at < it->state.used; at += J8_RECORD_HEAD + length) {
        record = it->out + at;
        length = J8_RECORD_LENGTH(record);
        take_folder(it, J8_RECORD_KIND(record), record + J8_RECORD_HEAD, length);
    }
    it->state.used = 0;
}

static void session_begin(session *it)
{
    it->state = j8_upload_fresh();
    it->folders = 0;
}

/* A piece of any length. Answers whether more is wanted: after a refusal none is. */
static int session_piece(session *it, const uint8_t *piece, size_t length)
{
    size_t part;
    j8_fed fed;

    while (length > 0) {
        part = length < PIECE ? length : PIECE;
        fed = j8_upload_feed(it->state, piece, part, it->line, sizeof it->line, it->out, sizeof it->out);
        it->state = fed.upload;
        hand_on(it);
        if (fed.answer.number != 0) {
            return 0;
        }
        piece += part;
        length -= part;
    }
    return 1;
}

/* The sender is done, or was stopped: a refusal of an earlier piece is repeated. */
static j8_answer session_end(session *it)
{
    j8_fed fed = j8_upload_finish(it->state, it->line, sizeof it->line, it->out, sizeof it->out);

    it->state = fed.upload;
    hand_on(it);
    return fed.answer;
}

/* The reply; refusals say where, so that the desk can look at that byte. */
static void reply(const session *it, j8_answer answer)
{
    uint8_t sentence[J8_SENTENCE_ROOM];
    j8_result said = j8_sentence(answer.number, sentence, sizeof sentence);

    if (answer.number == 0) {
        printf("200 folders restored: %lu\n", (unsigned long)it->folders);
    } else {
        printf("400 refusal %lu in line %lu at byte %lu: %.*s; folders before it: %lu\n",
               (unsigned long)answer.number, (unsigned long)answer.line, (unsigned long)answer.place,
               (int)said.length, (const char *)sentence, (unsigned long)it->folders);
    }
}

/* ------------------------------------------------------------- the network */

int main(int count, char **words)
{
    static uint8_t packet[65536];
    static session upload;
    size_t size, got;

    size = count == 2 ? (size_t)strtoul(words[1], NULL, 10) : 0;
    if (size < 1 || size > sizeof packet) {
        fprintf(stderr, "usage: upload BYTES < BACKUP, pieces of 1 to %lu bytes\n",
                (unsigned long)sizeof packet);
        return 2;
    }
    session_begin(&upload);
    do {
        got = fread(packet, 1, size, stdin);
    } while (got > 0 && session_piece(&upload, packet, got));
    reply(&upload, session_end(&upload));
    return upload.state.ended ? 0 : 1;
}
