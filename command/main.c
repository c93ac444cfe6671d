/* The command j8: what crates/command_c proves, with its buffers as static arrays, so that it runs in little stack, with a status, and with the file
 * that the words name in the place of standard input: a file's name may have any bytes. */
#define _POSIX_C_SOURCE 200809L
#include <errno.h>
#include <fcntl.h>
#include <stdbool.h>
#include <stddef.h>
#include <stdint.h>
#include <string.h>
#include <unistd.h>

size_t j8_file(const uint8_t *words, size_t words_len, const uintptr_t *addresses, size_t addresses_len, uint8_t *name, size_t name_len);
uint32_t j8_run(int32_t error, bool terminal, const uint8_t *words, size_t words_len, const uintptr_t *addresses, size_t addresses_len,
                uint8_t *text, size_t text_len, uint32_t *table, size_t table_len, uint8_t *store, size_t store_len, uint8_t *record,
                size_t record_len, uint8_t *page, size_t page_len, uint8_t *shown, size_t shown_len);

/* The longest text, a line's end behind it, and a byte more: a text that fills this is too long. A file's name and its NUL stand here before it is
 * read: 4,096 bytes at most. */
static uint8_t text[32768 + 3];

/* The nodes of a JSON8 text, 1,024 at most, or the cells of a TSV8 text, which need more (J8_CELLS_ROOM of j8.h); and the bytes of their strings; of
 * J8 Lines the line that is held. */
static uint32_t table[48546];
static uint8_t store[32768];

/* A record: its head and a line. */
static uint8_t record[4 + 1024];

/* What is printed: a text has at most twice its bytes in the written form, and a number, a tab and LF stand around a string. A cell's line has two
 * strings of one text, which !tsv8, two tabs and an LF are left out of: it is no longer. On a terminal a byte takes eight at most. */
static uint8_t page[2 * 32768 + 24];
static uint8_t shown[8 * sizeof page];

/* The bytes of the words with their NULs, which Linux hands over one behind another, and how many words these are. */
static size_t size_of(int count, char **words, size_t *whole) {
    size_t size = 0;
    int i = 0;
    while (i < count && words[i] == words[0] + size) {
        size += strlen(words[i]) + 1;
        i++;
    }
    *whole = (size_t)i;
    return size;
}

/* Opens a file in the place of standard input: 0, or what the system says. */
static int open_input(const char *name) {
    int file = open(name, O_RDONLY | O_NOCTTY | O_CLOEXEC);
    if (file < 0) {
        return errno;
    }
    if (file == STDIN_FILENO) {
        return 0;
    }
    int error = dup2(file, STDIN_FILENO) < 0 ? errno : 0;
    close(file);
    return error;
}

int main(int argc, char **argv) {
    const uint8_t *words = (const uint8_t *)(argc > 0 ? argv[0] : "");
    /* A pointer is its address here: x86-64 and Linux. */
    const uintptr_t *addresses = (const uintptr_t *)(const void *)argv;
    size_t count = 0;
    size_t size = size_of(argc, argv, &count);
    bool terminal = isatty(STDOUT_FILENO) == 1;
    size_t name = j8_file(words, size, addresses, count, text, sizeof text);
    int error = 0;
    if (name > 0) {
        text[name] = 0;
        error = open_input((const char *)text);
    }
    return (int)j8_run(error, terminal, words, size, addresses, count, text, sizeof text, table, sizeof table / sizeof *table, store, sizeof store,
                       record, sizeof record, page, sizeof page, shown, sizeof shown);
}
