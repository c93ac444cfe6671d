/*
 * Restores a settings backup: reads JSON8 from standard input to a node table,
 * walks it and fills a struct. Nothing is restored unless everything fits.
 *
 *     restore < samples/settings.json8
 */

#include <stdio.h>
#include <string.h>

#include "j8.h"

/* ------------------------------------------------------------- the settings */

#define NAME_MAX_BYTES 32
#define FOLDERS_MAX 8
#define PORTS_MAX 4

/* A name is bytes and may hold any, NUL with them. */
typedef struct {
    uint8_t bytes[NAME_MAX_BYTES];
    size_t length;
} name;

typedef struct {
    name printer;
    int dhcp;
    unsigned long ports[PORTS_MAX];
    size_t port_count;
    name folders[FOLDERS_MAX];
    size_t folder_count;
} settings;

/* --------------------------------------------------------------- the backup */

/* A text with the table and store that it was read to: the three go together. The
   text has a byte more than is read, so that a longer one is noticed. */
typedef struct {
    uint8_t text[J8_TEXT_MAX + 1];
    size_t length;
    uint32_t table[J8_TABLE_ROOM];
    uint8_t store[J8_STORE_ROOM(J8_TEXT_MAX)];
    j8_nodes read;
} backup;

/* What is wrong with a setting, and the node where it is. */
typedef struct {
    const char *what;
    size_t node;
} fault;

static const fault fine = { NULL, 0 };

static fault at_node(size_t node, const char *what)
{
    fault it;

    it.what = what;
    it.node = node;
    return it;
}

/* The four numbers of a node. */
static uint32_t kind_of(const backup *it, size_t node) { return it->table[node * J8_NODE_ROOM]; }
static uint32_t subtree_of(const backup *it, size_t node) { return it->table[node * J8_NODE_ROOM + 1]; }
static uint32_t place_of(const backup *it, size_t node) { return it->table[node * J8_NODE_ROOM + 2]; }
static uint32_t length_of(const backup *it, size_t node) { return it->table[node * J8_NODE_ROOM + 3]; }

/* A string's bytes, in the text or in the store, or NULL if the node is none. */
static const uint8_t *string_at(const backup *it, size_t node, size_t *length)
{
    j8_shown shown = j8_json8_show(it->table, it->read.nodes * J8_NODE_ROOM, it->text, it->length,
                                   it->store, it->read.stored, node);

    *length = shown.length;
    return shown.number != 0 ? NULL : (shown.stored ? it->store : it->text) + shown.place;
}

static int is_key(const backup *it, size_t node, const char *key)
{
    size_t length;
    const uint8_t *bytes = string_at(it, node, &length);

    return bytes != NULL && length == strlen(key) && memcmp(bytes, key, length) == 0;
}

/* ------------------------------------------------------------- the restoring */

static fault restore_name(const backup *it, size_t node, name *to)
{
    size_t length;
    const uint8_t *bytes = string_at(it, node, &length);

    if (bytes == NULL) {
        return at_node(node, "a name is no string");
    }
    if (length > sizeof to->bytes) {
        return at_node(node, "a name is over 32 bytes");
    }
    memcpy(to->bytes, bytes, length);
    to->length = length;
    return fine;
}

static fault restore_flag(const backup *it, size_t node, int *to)
{
    if (kind_of(it, node) != J8_NODE_TRUE && kind_of(it, node) != J8_NODE_FALSE) {
        return at_node(node, "a flag is neither true nor false");
    }
    *to = kind_of(it, node) == J8_NODE_TRUE;
    return fine;
}

/* A number is left as text, so the program decides what it may be. */
static fault restore_port(const backup *it, size_t node, unsigned long *to)
{
    size_t i;

    *to = 0;
    if (kind_of(it, node) != J8_NODE_INTEGER || it->text[place_of(it, node)] == '-') {
        return at_node(node, "a port is no whole number");
    }
    for (i = 0; i < length_of(it, node); i++) {
        *to = 10 * *to + (unsigned long)(it->text[place_of(it, node) + i] - '0');
        if (*to > 65535) {
            return at_node(node, "a port is over 65,535");
        }
    }
    return fine;
}

/* The members of a list, each as many nodes behind the one before as that one's
   subtree has. */
static fault restore_ports(const backup *it, size_t node, settings *to)
{
    size_t at, end = node + subtree_of(it, node);
    fault found = fine;

    if (kind_of(it, node) != J8_NODE_LIST || length_of(it, node) > PORTS_MAX) {
        return at_node(node, "ports are no list of at most 4");
    }
    to->port_count = 0;
    for (at = node + 1; at < end && found.what == NULL; at += subtree_of(it, at)) {
        found = restore_port(it, at, &to->ports[to->port_count++]);
    }
    return found;
}

static fault restore_folders(const backup *it, size_t node, settings *to)
{
    size_t at, end = node + subtree_of(it, node);
    fault found = fine;

    if (kind_of(it, node) != J8_NODE_LIST || length_of(it, node) > FOLDERS_MAX) {
        return at_node(node, "folders are no list of at most 8");
    }
    to->folder_count = 0;
    for (at = node + 1; at < end && found.what == NULL; at += subtree_of(it, at)) {
        found = restore_name(it, at, &to->folders[to->folder_count++]);
    }
    return found;
}

/* The pairs of a dict: a key is one node, and its value follows. A later pair of
   the same key counts. */
static fault restore_network(const backup *it, size_t node, settings *to)
{
    size_t key, end = node + subtree_of(it, node);
    fault found = fine;

    if (kind_of(it, node) != J8_NODE_DICT) {
        return at_node(node, "the network is no dict");
    }
    for (key = node + 1; key < end && found.what == NULL; key += 1 + subtree_of(it, key + 1)) {
        if (is_key(it, key, "dhcp")) {
            found = restore_flag(it, key + 1, &to->dhcp);
        } else if (is_key(it, key, "ports")) {
            found = restore_ports(it, key + 1, to);
        }
    }
    return found;
}

/* Keys that this printer doesn't know are passed over. */
static fault restore(const backup *it, settings *to)
{
    size_t key, end = it->read.nodes;
    fault found = fine;

    if (kind_of(it, 0) != J8_NODE_DICT) {
        return at_node(0, "the settings are no dict");
    }
    for (key = 1; key < end && found.what == NULL; key += 1 + subtree_of(it, key + 1)) {
        if (is_key(it, key, "name")) {
            found = restore_name(it, key + 1, &to->printer);
        } else if (is_key(it, key, "network")) {
            found = restore_network(it, key + 1, to);
        } else if (is_key(it, key, "folders")) {
            found = restore_folders(it, key + 1, to);
        }
    }
    return found;
}

/* ------------------------------------------------------------------ the rest */

static void print_name(const char *label, const name *it)
{
    uint8_t text[J8_STRING_WRITE_ROOM(NAME_MAX_BYTES)];
    j8_result put = j8_string_write(it->bytes, it->length, text, sizeof text);

    printf("%s %.*s\n", label, (int)put.length, (const char *)text);
}

int main(void)
{
    static backup file;
    static settings current, restored;
    size_t i;
    fault found;

    file.length = fread(file.text, 1, sizeof file.text, stdin);
    file.read = j8_json8_read(file.text, file.length, file.table, J8_TABLE_ROOM, file.store, sizeof file.store);
    if (file.read.number != 0) {
        printf("not restored: refusal %lu at byte %lu\n", (unsigned long)file.read.number,
               (unsigned long)file.read.place);
        return 1;
    }
    restored = current;
    found = restore(&file, &restored);
    if (found.what != NULL) {
        printf("not restored: node %lu, %s\n", (unsigned long)found.node, found.what);
        return 1;
    }
    current = restored;

    print_name("name", &current.printer);
    printf("dhcp %s\n", current.dhcp ? "on" : "off");
    for (i = 0; i < current.port_count; i++) {
        printf("port %lu\n", current.ports[i]);
    }
    for (i = 0; i < current.folder_count; i++) {
        print_name("folder", &current.folders[i]);
    }
    return 0;
}
