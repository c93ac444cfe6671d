/* Calls the functions of one group, or of all, and does nothing else: what they add to a program is measured by `make size`. */

#include "j8.h"

static uint8_t text[64], out[64], line[J8_LINE_ROOM];
static uint32_t table[64];

int main(void)
{
    size_t sum = 0;

#if defined(STRINGS) || defined(ALL)
    sum += j8_string_read(text, sizeof text, out, sizeof out).length;
    sum += j8_string_write(text, sizeof text, out, sizeof out).length;
#endif
#if defined(UPLOADS) || defined(ALL)
    j8_fed fed = j8_upload_feed(j8_upload_fresh(), text, sizeof text, line, sizeof line, out, sizeof out);
    fed = j8_upload_finish(fed.upload, line, sizeof line, out, sizeof out);
    sum += fed.upload.used;
#endif
#if defined(JSON8) || defined(ALL)
    sum += j8_json8_read(text, sizeof text, table, 64, out, sizeof out).nodes;
    sum += j8_json8_show(table, 64, text, sizeof text, out, sizeof out, 0).length;
    sum += j8_json8_write(table, 64, text, sizeof text, out, sizeof out, line, sizeof line).length;
#endif
#if defined(TSV8) || defined(ALL)
    sum += j8_tsv8_read(text, sizeof text, table, 24, table + 24, 8, table + 32, 32, out, sizeof out).cells;
#endif
#if defined(ALL)
    sum += j8_version() + j8_sentence(1, out, sizeof out).length;
    sum += j8_lines_write(text, sizeof text, out, sizeof out).length;
#endif
    return (int)(sum + text[0] + out[0] + line[0] + table[0]);
}
