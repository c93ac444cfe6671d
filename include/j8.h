/*
 * j8.h - J8 Notation strings, lines, JSON8 and TSV8 for printer backups and logs.
 *
 * C99 and C++. Link with libj8.a; `pkg-config --cflags --libs j8` says how. The
 * archive is for x86-64 (any, SSE2 suffices), with the calling convention of
 * Linux, and needs nothing but memcpy and memset. For any other processor compile
 * j8.c, the whole library in one C99 file, with this header beside it.
 *
 *   strings   j8_string_read, j8_string_write
 *   lines     j8_upload_fresh, j8_upload_feed, j8_upload_finish: a text that
 *             arrives in pieces; j8_lines_write
 *   JSON8     j8_json8_read: a text to a node table; j8_json8_show: a string of
 *             it; j8_json8_write: the table to a text again
 *   TSV8      j8_tsv8_read: a counter log to names, types and cells
 *   besides   j8_sentence: what a refusal's number says; j8_version
 *
 * What holds for every call:
 *  - A part is a pointer and a length, in bytes, or in numbers where the part
 *    is a node table, or names, types or cells. A pointer may be NULL only if its
 *    length is 0, and then always. Parts of numbers are aligned for uint32_t;
 *    bytes may stand anywhere.
 *  - The parts handed to one call must not overlap. Parts that are only read
 *    may, if nothing that is written overlaps them.
 *  - The caller owns all memory. It is lent for the time of the call: no call
 *    keeps a pointer, allocates or frees.
 *  - Any bytes, states and tables may be handed in; the call always ends with
 *    an answer.
 *  - A refused call leaves every byte and number of the lent parts as it was.
 *    A call that is done writes its result from the start of the lent part,
 *    and never touches anything past it. An upload appends instead, and keeps
 *    the records of the good lines before a bad one.
 *  - Structs are handed over and returned by value; of an answer every field is
 *    set.
 *  - No NUL is looked for or put behind a result.
 *  - Nothing is kept between calls: no global state, no I/O, no errno. Every
 *    call is reentrant: threads and signal handlers may call at the same time,
 *    each with its own parts.
 *  - Stack of the archive, in bytes, at most: j8_json8_read 16,384; j8_json8_write
 *    12,288; j8_upload_feed, j8_upload_finish, j8_tsv8_read and j8_sentence 2,048;
 *    every other call 1,024. `make stack` measures it. Of j8.c it depends on
 *    processor and compiler: docs/TRUST.md of the repository has a table.
 */
#ifndef J8_H
#define J8_H

#include <stddef.h>
#include <stdint.h>

#if SIZE_MAX < 0xffffffff
#error "j8 needs a size_t of 32 bits or more"
#endif

/* The version of this header and of the library beside it; j8_version() asks the
   library. */
#define J8_VERSION "0.3.0"
#define J8_VERSION_MAJOR 0
#define J8_VERSION_MINOR 3
#define J8_VERSION_PATCH 0

#ifdef __cplusplus
extern "C" {
#endif

/*
 * Refusal numbers. 0 is no refusal. Each call can answer only these:
 *
 *   j8_string_read     0, 2 to 4, 6 to 12, 23 to 27
 *   j8_string_write    0, 12
 *   j8_upload_feed     0, 1, 2, 4, 6 to 12, 17, 18, 23 to 27
 *   j8_upload_finish   the same; by itself 0, 1, 4, 6 to 12, 18 and 23 to 27, and
 *                      it repeats what a feed was refused with
 *   j8_lines_write     0, 1, 12
 *   j8_json8_read      0, 2, 4, 6 to 16, 23 to 27
 *   j8_json8_write     0, 1, 12
 *   j8_json8_show      0, 1
 *   j8_tsv8_read       0, 2, 4, 6 to 12, 19 to 27
 *   j8_sentence        0, 12
 *
 * 5 stood for all of 23 to 27 up to version 0.2.0, at the same place in the order,
 * and isn't given any more.
 *
 * Order: 1, then 2 on whole texts, then the leftmost fault in the text, then
 * 12. In an upload the faults and 12 are judged for each line by itself, when
 * its LF or the finish reads it; 2 and 17 come at their byte, before any fault
 * in the line held. At one place of a JSON8 text 11 comes first, then 13, 14,
 * 15 and 16, then the rest. In a line of a TSV8 text 20 comes first, and in a cell
 * 22, then its own text wherever it fails, then 21. Places are byte offsets from 0.
 */

/* a lent buffer, table or state is unfit; place 0 */
#define J8_UNFIT 1
/* string, JSON8 or TSV8 text over 32,768 bytes (place 0), or a line of an upload
   over 1,024 (place 1,024) */
#define J8_TOO_LONG 2
/* a string text doesn't begin with " ' u' b'; place 0 */
#define J8_NO_OPENING 3
/* the text ends where more is needed; place: the text's length, in a line or a TSV8
   cell the end of what is left without blanks */
#define J8_CUT_OFF 4
/* literal control byte, below 0x20; place: that byte */
#define J8_CONTROL 6
/* escape unknown, cut off or malformed; place: the backslash */
#define J8_BAD_ESCAPE 7
/* single-quoted \u{h} of one to six digits, from d800 to dfff; place: the backslash */
#define J8_SURROGATE 8
/* single-quoted \u{h} of one to six digits, above 10ffff; place: the backslash */
#define J8_TOO_LARGE 9
/* \y in u'' or '', whatever follows it; place: the backslash */
#define J8_BYTE_ESCAPE 10
/* bytes after the closing quote, or after the JSON8 value other than whitespace
   and comments; place: the first of them */
#define J8_TRAILING 11
/* all else is right, and the result is longer than the room; place 0 */
#define J8_NO_ROOM 12
/* JSON8: this can't stand here; place: the token's start */
#define J8_MISPLACED 13
/* JSON8: malformed number; place: the token's start */
#define J8_NUMBER 14
/* JSON8: a 33rd open bracket; place: the bracket */
#define J8_TOO_DEEP 15
/* JSON8: a 1,025th node; place: the token's start */
#define J8_TOO_MANY_NODES 16
/* upload: byte 1,048,577; place: bytes held of this line */
#define J8_UPLOAD_LIMIT 17
/* upload already ended; place 0 */
#define J8_ENDED 18
/* TSV8: the first line is missing or not !tsv8 with 1 to 64 cells after it, or a
   !type isn't second (place: the line's start, 0 if no line is left); or a type
   cell is none of Bool, Int, Float and Str (place: after its tab) */
#define J8_BAD_HEADER 19
/* TSV8: wrong cell count, or a line after the first that begins with neither tab
   nor !, or a ! line after data; place: the line's start */
#define J8_BAD_LINE 20
/* TSV8: cell unfit for its type; place: after its tab */
#define J8_WRONG_TYPE 21
/* TSV8: cell empty or blank; place: after its tab */
#define J8_EMPTY_CELL 22
/*
 * The five faults of UTF-8. A character of several bytes begins with c0 to df, e0 to
 * ef or f0 to f7; 1, 2 or 3 continuation bytes, 80 to bf, follow. Place of each fault:
 * the character's first byte.
 */
/* 80 to bf or f8 to ff, with which no character begins */
#define J8_UTF8_BAD_ENCODING 23
/* else: too few continuation bytes, at the end of the text, the stripped line, the
   cell or the comment too, and whatever the value would be */
#define J8_UTF8_INCOMPLETE 24
/* else: a value that fewer bytes can have, f0 8d a0 80 too */
#define J8_UTF8_OVERLONG 25
/* else: a value from d800 to dfff */
#define J8_UTF8_SURROGATE 26
/* else: a value above 10ffff */
#define J8_UTF8_TOO_LARGE 27

/*
 * Sizes, in bytes; of a node table, of names, types and cells, in numbers.
 */

/* Room that suffices for the sentence of any number, in this version and in
   those that add refusals. */
#define J8_SENTENCE_ROOM 128

/* The longest text that is read; a longer one is J8_TOO_LONG. */
#define J8_TEXT_MAX 32768

/* Room that always suffices to read a text of n bytes: the decoded bytes are
   never more than the text's. */
#define J8_STRING_READ_ROOM(n) ((size_t)(n))

/* Room that always suffices to write n bytes as a string: six for each byte,
   and the two quotes. n must be at most (SIZE_MAX - 2) / 6. */
#define J8_STRING_WRITE_ROOM(n) ((size_t)6 * (size_t)(n) + (size_t)2)

/* The line buffer of an upload, and the longest line that is read, its LF not
   counted but blanks and CR with it; the 1,025th byte is J8_TOO_LONG. A longer
   buffer is fit too, a shorter one is J8_UNFIT. */
#define J8_LINE_ROOM 1024

/* The longest upload, LFs with it; one byte more is J8_UPLOAD_LIMIT. */
#define J8_UPLOAD_MAX 1048576

/* Room that always suffices for an upload's whole output, where records are
   handed on at the end only. Each a LF becomes five bytes, and a last line
   without its LF saves one more: 524,287 times a LF and then ab, 1,048,576 bytes
   in all, need just this. */
#define J8_UPLOAD_OUTPUT_MAX 2621441

/* The bytes of a record before its payload: length and kind. */
#define J8_RECORD_HEAD 4

/* Room that always suffices for the records of one feed of n bytes, and for
   those of a finish, if the records of the calls before were handed on and used
   was set to 0. The first LF may end a line of 1,024 bytes that was held; behind
   it each a LF becomes five bytes. For packets of 1,460 bytes it is 4,678. n must
   be at most SIZE_MAX / 5. */
#define J8_FEED_ROOM(n) \
    ((size_t)(J8_RECORD_HEAD + J8_LINE_ROOM) + (size_t)5 * ((size_t)(n) / 2))

/* Room that always suffices to write n bytes of records as lines: a payload
   byte becomes six at most, and the quotes and the LF are fewer than six times
   the head. n must be at most SIZE_MAX / 6. */
#define J8_LINES_WRITE_ROOM(n) ((size_t)6 * (size_t)(n))

/* The most nodes of a JSON8 text, keys with them; one more is
   J8_TOO_MANY_NODES. */
#define J8_NODES_MAX 1024

/* The most brackets of a JSON8 text that are open at once; one more is
   J8_TOO_DEEP. */
#define J8_DEPTH_MAX 32

/* The numbers of a node in the table: kind, subtree, place and length. */
#define J8_NODE_ROOM 4

/* Numbers that always suffice for the node table of a JSON8 text: 4,096, four
   for each of 1,024 nodes. */
#define J8_TABLE_ROOM (J8_NODES_MAX * J8_NODE_ROOM)

/* Room that always suffices for the store of a JSON8 or TSV8 text of n bytes:
   decoded bytes are never more than the text's. J8_TEXT_MAX suffices for every
   text. */
#define J8_STORE_ROOM(n) ((size_t)(n))

/* Room that always suffices to write the table that a JSON8 text of n bytes was
   read to: twice the text. What grows most just doubles: an unquoted key of one
   letter and its colon (a: becomes "a":), a " between single quotes, a \u half
   without its other half (\ud83e becomes \yed\ya0\ybe). */
#define J8_JSON8_WRITE_ROOM(n) ((size_t)2 * (size_t)(n))

/* Room that always suffices to write any fit table, made by hand too, of n nodes
   whose strings and numbers have so many bytes in all: six for each node and
   each byte. A byte counts as often as nodes have it in their range. Ranges may
   overlap, so the lengths of text and store alone bound nothing; where none do,
   bytes is at most text_len + store_len. The sum must be at most SIZE_MAX / 6. */
#define J8_TABLE_WRITE_ROOM(n, bytes) ((size_t)6 * ((size_t)(n) + (size_t)(bytes)))

/* The most columns of a TSV8 text; one more is J8_BAD_HEADER. */
#define J8_COLUMNS_MAX 64

/* The numbers of a name or cell: kind, place and length. */
#define J8_CELL_ROOM 3

/* Numbers that always suffice for the names of a TSV8 text: 192, three for each of
   64 columns; and for its types, one for each. */
#define J8_NAMES_ROOM (J8_COLUMNS_MAX * J8_CELL_ROOM)
#define J8_TYPES_ROOM J8_COLUMNS_MAX

/* Numbers that always suffice for the cells of any TSV8 text. The text of 32,768
   bytes with the most cells has 62 columns and 261 rows of cells of one byte, which
   need just this. */
#define J8_CELLS_ROOM 48546

/* Numbers that always suffice for the cells of a TSV8 text of n bytes: a cell is a
   tab and a byte at least. J8_STORE_ROOM(n) bytes suffice for its store. */
#define J8_TEXT_CELLS_ROOM(n) ((size_t)J8_CELL_ROOM * ((size_t)(n) / 2))

/*
 * The answer of a call.
 *
 * number 0: done; place is 0, and length is the length of the result.
 * Otherwise number is the refusal and place its place; length is 0.
 */
typedef struct {
    uint32_t number;
    size_t place;
    size_t length;
} j8_result;

/*
 * The version of the library: major times 1,000,000, minor times 1,000, patch.
 * So 0.3.0 is 3000. A program that was compiled with another header sees it here:
 *
 *     if (j8_version() / 1000 != J8_VERSION_MAJOR * 1000 + J8_VERSION_MINOR) {
 *         complain("libj8.a is of another version than j8.h");
 *     }
 */
uint32_t j8_version(void);

/*
 * Puts what a refusal's number says, one English sentence in ASCII without a line
 * end, in front of out: the command j8 prints the same.
 *
 * Every number has one, so that a page can show it unasked: for 0 and for numbers
 * that no refusal has it is "no refusal has this number". No two refusals have
 * the same.
 *
 *     uint8_t sentence[J8_SENTENCE_ROOM];
 *     j8_result said = j8_sentence(fed.answer.number, sentence, sizeof sentence);
 *
 *     printf("line %zu: %.*s\n", fed.answer.line, (int)said.length, (char *)sentence);
 *
 * J8_SENTENCE_ROOM bytes of room always suffice.
 *
 * Refusals: 12.
 */
j8_result j8_sentence(uint32_t number, uint8_t *out, size_t out_len);

/*
 * Reads one J8 string, "..." '...' u'...' or b'...', and puts the bytes that
 * it denotes into out. The text is the whole string and nothing more: no
 * blanks are skipped before or after it.
 *
 * The bytes of u'...' and '...' are always valid UTF-8. Those of "..." may
 * not be (a lone surrogate half gives its three bytes), and those of b'...'
 * may be anything.
 *
 * J8_STRING_READ_ROOM(text_len) bytes of room always suffice. Without any (out
 * NULL, out_len 0) a text is judged all the same: the answer is 0 if it is right
 * and empty, J8_NO_ROOM if it is right and not empty, and else the fault.
 *
 * Refusals: 2 to 4, 6 to 12 and 23 to 27.
 */
j8_result j8_string_read(const uint8_t *text, size_t text_len,
                         uint8_t *out, size_t out_len);

/*
 * Writes any bytes as one J8 string: "..." if they are valid UTF-8, b'...'
 * otherwise. There is one form for each byte string, and a text of at most
 * J8_TEXT_MAX bytes reads back the same. No NUL is put after the text.
 *
 * J8_STRING_WRITE_ROOM(data_len) bytes of room always suffice.
 *
 * Refusals: 12.
 */
j8_result j8_string_write(const uint8_t *data, size_t data_len,
                          uint8_t *out, size_t out_len);

/*
 * J8 Lines.
 *
 * LF ends a line. Space, tab and CR are stripped at both ends of it. If nothing
 * is left, the line is ignored. If it begins with " ' u' b' it must be one J8
 * string and nothing more. Otherwise it is bare: valid UTF-8, with no control
 * but tab.
 *
 * Each line that isn't ignored becomes a record: the payload's length in two
 * bytes, its kind in two bytes, both little-endian, then the payload. Records
 * stand one behind the other with nothing between them.
 */

/* A record's kind: its payload is valid UTF-8. The payload alone decides, and
   not the style that the line was written in. */
#define J8_KIND_TEXT 1
/* A record's kind: its payload is anything else. */
#define J8_KIND_BYTES 2

/* The length of a record's payload, and its kind; record points to the record's
   first byte. */
#define J8_RECORD_LENGTH(record) ((size_t)(record)[0] | (size_t)(record)[1] << 8)
#define J8_RECORD_KIND(record) ((unsigned)(record)[2] | (unsigned)(record)[3] << 8)

/*
 * The state of an upload: everything that is known between two calls besides
 * the two buffers. It is a value: it may be copied, kept and dropped, and there
 * is nothing to free. Begin with j8_upload_fresh and hand each call the state
 * that the last one returned.
 *
 * One field may be changed between two calls: used may be set to 0 when the
 * records were handed on. The next call then appends from the output's start, and
 * may be lent another output. used says where the next record goes and nothing
 * else; the other fields, the line buffer and the answers are what they would
 * have been, but for J8_NO_ROOM, which J8_FEED_ROOM bytes of output rule out. A
 * refusal that is kept stays so.
 *
 * Any state may be handed in, and none can make a call go outside its parts. One
 * is unfit (J8_UNFIT) if held is over J8_LINE_ROOM, taken over J8_UPLOAD_MAX, lfs
 * over taken, or used over the output lent with it.
 */
typedef struct {
    /* bytes taken, LFs with them; the byte that causes a refusal isn't */
    size_t taken;
    /* LFs among the bytes taken */
    size_t lfs;
    /* bytes of the open line, from the start of the line buffer */
    size_t held;
    /* bytes of the output that hold records */
    size_t used;
    /* whether a finish ended the upload: 0 or 1; a call takes all but 0 as 1 */
    uint32_t ended;
    /* the refusal that is kept, or 0: every later call repeats it and changes
       nothing. J8_UNFIT and J8_ENDED aren't kept. */
    uint32_t refusal;
    /* the line of that refusal, counted from 1, or 0 */
    size_t line;
    /* its place in the line as received, blanks with it, or 0 */
    size_t place;
} j8_upload;

/*
 * What one call of an upload answers.
 *
 * number 0: nothing is refused; line and place are 0.
 * Otherwise number is the refusal, line its line from 1 and place its place in
 * that line as received. J8_UNFIT and J8_ENDED have line 0 and place 0.
 */
typedef struct {
    uint32_t number;
    size_t line;
    size_t place;
} j8_answer;

/*
 * What a feed or a finish returns.
 */
typedef struct {
    /* the new state, for the next call */
    j8_upload upload;
    /* the answer of this call */
    j8_answer answer;
} j8_fed;

/*
 * The state of an upload that nothing was fed to: 0 in each field.
 *
 * A whole upload, its records handed on as they come. How the text is cut into
 * pieces makes no difference to the state, the records or the refusal.
 *
 *     static uint8_t line[J8_LINE_ROOM], out[J8_FEED_ROOM(1460)];
 *     uint8_t piece[1460];
 *     size_t got;
 *     j8_fed fed;
 *
 *     fed.upload = j8_upload_fresh();
 *     while ((got = receive(piece, sizeof piece)) > 0) {
 *         fed = j8_upload_feed(fed.upload, piece, got,
 *                              line, sizeof line, out, sizeof out);
 *         hand_on(out, fed.upload.used);
 *         fed.upload.used = 0;
 *         if (fed.answer.number != 0) {
 *             break;
 *         }
 *     }
 *     fed = j8_upload_finish(fed.upload, line, sizeof line, out, sizeof out);
 *     hand_on(out, fed.upload.used);
 *     if (fed.answer.number != 0) {
 *         complain(fed.answer.number, fed.answer.line, fed.answer.place);
 *     }
 *
 * where the records are gone through like this:
 *
 *     void hand_on(const uint8_t *records, size_t used)
 *     {
 *         size_t at, length;
 *
 *         for (at = 0; at < used; at += J8_RECORD_HEAD + length) {
 *             length = J8_RECORD_LENGTH(records + at);
 *             entry(J8_RECORD_KIND(records + at),
 *                   records + at + J8_RECORD_HEAD, length);
 *         }
 *     }
 *
 * After a refused feed the finish repeats its refusal; so it is enough to look
 * at the finish. The records are then those of the lines before the bad one.
 * With an output of J8_UPLOAD_OUTPUT_MAX bytes all records may be left there
 * until the end, and used is left alone.
 */
j8_upload j8_upload_fresh(void);

/*
 * Feeds a piece of the text, of any length, 0 too. Its bytes are taken one by
 * one: an LF reads the line held and appends its record to the output, any
 * other byte is stored in the line buffer. At a refusal that byte and the ones
 * behind it aren't taken.
 *
 * Hand every call of an upload the same line buffer and output, and write to
 * neither in between; the output is free once its records were handed on and used
 * was set to 0. Nothing of them is touched but the line buffer's places where
 * bytes are stored and the output's where records are appended.
 *
 * piece may be NULL with length 0. A line buffer under J8_LINE_ROOM bytes, NULL
 * with it, is J8_UNFIT. out may be NULL with length 0: every record is then
 * J8_NO_ROOM, while blank lines pass.
 *
 * Refusals: 1, then the one that is kept, then 18; then 2, 4, 6 to 12, 17 and 23
 * to 27. A line whose record doesn't fit whole is 12 at place 0. A state made by
 * hand may keep any number, 5 too, which is repeated.
 */
j8_fed j8_upload_feed(j8_upload upload,
                      const uint8_t *piece, size_t piece_len,
                      uint8_t *line, size_t line_len,
                      uint8_t *out, size_t out_len);

/*
 * Ends an upload. A line that is still held is read as if an LF came; no LF or
 * byte is counted for it. A refused finish doesn't end the upload. The line
 * buffer is only read. Both buffers are those of the feeds.
 *
 * Refusals: 1, then the one that is kept, then 18; then 4, 6 to 12 and 23 to 27.
 */
j8_fed j8_upload_finish(j8_upload upload,
                        const uint8_t *line, size_t line_len,
                        uint8_t *out, size_t out_len);

/*
 * Writes records as J8 Lines: each payload as j8_string_write has it, an LF
 * after each, however long the line. No records give no text. Uploaded again,
 * lines of at most J8_LINE_ROOM bytes give the same records.
 *
 * J8_LINES_WRITE_ROOM(records_len) bytes of room always suffice.
 *
 * Refusals, both at place 0: 1 if a record is cut short or its kind doesn't fit
 * its payload, then 12.
 */
j8_result j8_lines_write(const uint8_t *records, size_t records_len,
                         uint8_t *out, size_t out_len);

/*
 * JSON8.
 *
 * JSON with J8 strings, comments from # to LF or the text's end, a trailing
 * comma after at least one member, and keys that may stand unquoted if they
 * are letters, digits and _ and don't begin with a digit. Equal keys are all
 * kept, in order.
 *
 * A text is read to a node table, four numbers a node, a parent before its
 * children and these in their order, in a dict key, value, key, value:
 *
 *   kind     one of the nine below
 *   subtree  nodes in its subtree, itself with them; so what comes behind a
 *            node at number n is at n + subtree, and a leaf has 1
 *   place    J8_NODE_STRING_STORED: a byte of the store. J8_NODE_STRING: the
 *            first byte behind the opening mark, in the text. All others: the
 *            token's first byte in the text, the bracket for a list or dict
 *   length   a list's members or a dict's pairs, else bytes from place on
 *
 * Node 0 is the value itself. Nothing of the text is copied but the strings
 * with a backslash in them, whose decoded bytes stand in the store one behind
 * the other. So the table is of use only together with its text and store.
 *
 * A table is written to a text again in one form: no spaces, no comments, no
 * trailing commas, every key quoted, numbers as they stand.
 */

/* null */
#define J8_NODE_NULL 0
/* false */
#define J8_NODE_FALSE 1
/* true */
#define J8_NODE_TRUE 2
/* a number with no . e E */
#define J8_NODE_INTEGER 3
/* any other number, so one with . e or E */
#define J8_NODE_DECIMAL 4
/* a string without a backslash, or an unquoted key: its bytes in the text, marks
   left off */
#define J8_NODE_STRING 5
/* a string with a backslash: its decoded bytes in the store */
#define J8_NODE_STRING_STORED 6
/* a list */
#define J8_NODE_LIST 7
/* a dict */
#define J8_NODE_DICT 8

/*
 * What reading JSON8 answers.
 *
 * number 0: done; place is 0, nodes is how many nodes the table holds, at least
 * one, and stored how many bytes the store holds.
 * Otherwise number is the refusal and place its place; nodes and stored are 0.
 */
typedef struct {
    uint32_t number;
    size_t place;
    size_t nodes;
    size_t stored;
} j8_nodes;

/*
 * What showing a string answers.
 *
 * number 0: its bytes are length bytes from place on, all of them inside: of
 * the store if stored is 1, of the text if stored is 0.
 * number 1: there is nothing to show; stored, place and length are 0.
 */
typedef struct {
    uint32_t number;
    uint32_t stored;
    size_t place;
    size_t length;
} j8_shown;

/*
 * Reads a JSON8 text, at most J8_TEXT_MAX bytes, to a node table and a store.
 *
 * table is aligned for uint32_t, and table_len counts its numbers, not bytes
 * or nodes. J8_TABLE_ROOM numbers and J8_STORE_ROOM(text_len) bytes always
 * suffice. Numbers behind the last whole node that fits are never touched.
 *
 * A settings backup and its strings:
 *
 *     static uint32_t table[J8_TABLE_ROOM];
 *     static uint8_t store[J8_STORE_ROOM(J8_TEXT_MAX)];
 *     j8_nodes got;
 *     j8_shown shown;
 *     size_t node;
 *
 *     got = j8_json8_read(text, text_len, table, J8_TABLE_ROOM,
 *                         store, sizeof store);
 *     if (got.number != 0) {
 *         complain(got.number, got.place);
 *     }
 *     for (node = 0; node < got.nodes; node++) {
 *         shown = j8_json8_show(table, got.nodes * J8_NODE_ROOM,
 *                               text, text_len, store, got.stored, node);
 *         if (shown.number == 0) {
 *             entry(node, (shown.stored ? store : text) + shown.place,
 *                   shown.length);
 *         }
 *     }
 *
 * The children of a list or dict at node n begin at n + 1, each as many nodes
 * behind the one before as that one's subtree has:
 *
 *     end = n + table[n * J8_NODE_ROOM + 1];
 *     for (at = n + 1; at < end; at += table[at * J8_NODE_ROOM + 1]) {
 *         child(at);
 *     }
 *
 * Refusals: 2, then the leftmost of 4, 6 to 11, 13 to 16 and 23 to 27, then 12 if
 * the table or the store is short. A refusal leaves both as they were.
 */
j8_nodes j8_json8_read(const uint8_t *text, size_t text_len,
                       uint32_t *table, size_t table_len,
                       uint8_t *store, size_t store_len);

/*
 * Writes a node table as a JSON8 text, in its one form. No NUL is put after the
 * text.
 *
 * text and store are those that the table speaks of: after j8_json8_read the
 * text that was read and the store that it filled. Nothing of the three is
 * written to, and out must not overlap them, so a text can't be written over
 * itself. table is aligned for uint32_t, and table_len counts its numbers.
 *
 * A settings backup read, and written in its one form:
 *
 *     static uint8_t out[J8_JSON8_WRITE_ROOM(J8_TEXT_MAX)];
 *     j8_result put;
 *
 *     put = j8_json8_write(table, got.nodes * J8_NODE_ROOM, text, text_len,
 *                          store, got.stored, out, sizeof out);
 *     if (put.number == 0) {
 *         save(out, put.length);
 *     }
 *
 * Any table may be handed in, also one that no reader made. Its nodes are as
 * many as node 0's subtree says, and numbers behind them aren't looked at. It
 * is fit if
 *  - these nodes are 1 to J8_NODES_MAX and all inside the table as lent (four
 *    numbers each);
 *  - each kind is one of the nine;
 *  - each subtree is the node and just the subtrees of its children, a leaf's
 *    is 1, and a list's length is its members, a dict's its pairs;
 *  - at most J8_DEPTH_MAX lists and dicts stand in each other;
 *  - each key is a J8_NODE_STRING or J8_NODE_STRING_STORED;
 *  - each string's range is wholly inside its buffer (an empty one at the very
 *    end is inside), and so is each number's inside the text, which there is a
 *    JSON number, without . e E for J8_NODE_INTEGER and with one of them for
 *    J8_NODE_DECIMAL.
 * The other places and lengths aren't looked at: both of null, false and true,
 * the place of a list or dict. A string's range may hold any bytes, and ranges
 * may overlap. What j8_json8_read filled is always fit.
 *
 * A written text of at most J8_TEXT_MAX bytes, read with room enough, gives the
 * same tree: the same nodes, bytes of strings and texts of numbers, where
 * J8_NODE_STRING and J8_NODE_STRING_STORED count as one kind; places differ. So
 * written once more it is the same text. There is no cap on what is written: a
 * longer text is no fault, but j8_json8_read won't take it.
 *
 * For the room there are J8_JSON8_WRITE_ROOM, for a table as it was read, and
 * J8_TABLE_WRITE_ROOM, for any.
 *
 * Refusals, both at place 0: 1 if the table is unfit, then 12 if the text is
 * longer than out_len. Either leaves out as it was.
 */
j8_result j8_json8_write(const uint32_t *table, size_t table_len,
                         const uint8_t *text, size_t text_len,
                         const uint8_t *store, size_t store_len,
                         uint8_t *out, size_t out_len);

/*
 * Shows the string at a node: says where its bytes stand, in the text or in the
 * store, as its kind says. Nothing is copied or written.
 *
 * Any table may be handed in, also one that no reader made. Only the node's own
 * kind, place and length are looked at.
 *
 * Refusals: 1 if the node is outside the table as lent (fewer than four numbers
 * at four times its number), is no string, or has a range that isn't wholly
 * inside its buffer. An empty string at the buffer's very end is inside.
 */
j8_shown j8_json8_show(const uint32_t *table, size_t table_len,
                       const uint8_t *text, size_t text_len,
                       const uint8_t *store, size_t store_len,
                       size_t node);

/*
 * TSV8.
 *
 * A table as tab-separated values, as a spreadsheet opens it: the counter log.
 *
 *     !tsv8   desk         scans   duplex
 *     !type   Str          Int     Bool
 *             Front desk   41      true
 *             b'caf\ye9'   7       false
 *
 * with one tab before each cell in place of the blanks. LF ends a line. Empty lines
 * and those of only spaces and CR are ignored. Of the others the first is !tsv8 and
 * the names of 1 to J8_COLUMNS_MAX columns. The second may be !type and a type for
 * each column; without it all columns are Str. Other lines that begin with ! may
 * come before the first data line, with one cell for each column, and are skipped
 * unread. A data line begins with a tab.
 *
 * Tabs divide cells first, so no cell has one in it, quoted or not: \t stands for
 * it. Then space and CR are stripped at both ends of each cell but a line's first.
 * A cell is read as a line of J8 Lines is, bare or one J8 string. Names are strings.
 * Bool (true, false), Int (a JSON number of digits only) and Float (a JSON number)
 * stand bare.
 *
 * A text is read to names, types and cells. Each name and each cell is three
 * numbers; names and cells stand in reading order, so the cell of a row and column,
 * both counted from 0, is cell row * columns + column:
 *
 *   kind     one of the six below
 *   place    J8_CELL_STR_STORED: a byte of the store. J8_CELL_STR: the first byte
 *            of the string in the text, behind the mark if it is quoted. All
 *            others: the first byte in the text
 *   length   bytes from place on
 *
 * A type is one number. Nothing of the text is copied but the quoted strings with a
 * backslash in them, whose decoded bytes stand in the store one behind the other,
 * those of the names first. So the numbers are of use only together with the text
 * and the store.
 */

/* A column's type: true and false */
#define J8_TYPE_BOOL 1
/* numbers of digits only */
#define J8_TYPE_INT 2
/* JSON numbers */
#define J8_TYPE_FLOAT 3
/* strings */
#define J8_TYPE_STR 4

/* A cell's kind, in a column of Bool: false */
#define J8_CELL_FALSE 1
/* the same: true */
#define J8_CELL_TRUE 2
/* a number in a column of Int */
#define J8_CELL_INT 3
/* a number in a column of Float, with . e E or without */
#define J8_CELL_FLOAT 4
/* a bare string, or a quoted one without a backslash: its bytes in the text, marks
   left off */
#define J8_CELL_STR 5
/* a quoted string with a backslash: its decoded bytes in the store */
#define J8_CELL_STR_STORED 6

/*
 * What reading TSV8 answers.
 *
 * number 0: done; place is 0, columns is how many names there are, and types, cells
 * how many cells, a whole number of rows, and stored how many bytes the store holds.
 * Otherwise number is the refusal and place its place; columns, cells and stored are
 * 0.
 */
typedef struct {
    uint32_t number;
    size_t place;
    size_t columns;
    size_t cells;
    size_t stored;
} j8_sheet;

/*
 * Reads a TSV8 text, at most J8_TEXT_MAX bytes, to names, types, cells and a store.
 *
 * names, types and cells are aligned for uint32_t, and their lengths count numbers.
 * J8_NAMES_ROOM, J8_TYPES_ROOM and J8_TEXT_CELLS_ROOM(text_len) numbers and
 * J8_STORE_ROOM(text_len) bytes always suffice. Numbers behind the last whole three
 * that fits are never touched. The line limit of an upload doesn't hold here: a line
 * or cell may be as long as the text.
 *
 * A counter log, cell by cell:
 *
 *     static uint32_t names[J8_NAMES_ROOM], types[J8_TYPES_ROOM], cells[J8_CELLS_ROOM];
 *     static uint8_t store[J8_STORE_ROOM(J8_TEXT_MAX)];
 *     j8_sheet got;
 *     size_t at;
 *
 *     got = j8_tsv8_read(text, text_len, names, J8_NAMES_ROOM, types, J8_TYPES_ROOM,
 *                        cells, J8_CELLS_ROOM, store, sizeof store);
 *     if (got.number != 0) {
 *         complain(got.number, got.place);
 *     }
 *     for (at = 0; at < got.cells; at++) {
 *         const uint32_t *cell = cells + at * J8_CELL_ROOM;
 *
 *         entry(at / got.columns, at % got.columns, cell[0],
 *               (cell[0] == J8_CELL_STR_STORED ? store : text) + cell[1], cell[2]);
 *     }
 *
 * Refusals: 2, then the leftmost of 4, 6 to 11 and 19 to 27, then 12 if names,
 * types, cells or the store are short. A refusal leaves all four as they were.
 */
j8_sheet j8_tsv8_read(const uint8_t *text, size_t text_len,
                      uint32_t *names, size_t names_len,
                      uint32_t *types, size_t types_len,
                      uint32_t *cells, size_t cells_len,
                      uint8_t *store, size_t store_len);

#ifdef __cplusplus
}
#endif

#endif
