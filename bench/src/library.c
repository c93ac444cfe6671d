/* The functions of j8.h under measure, as one table, so that one program can hold several builds of the C file beside the archive. build.rs gives each build's
   functions and its table names of their own. */
#include "j8.h"

extern const struct library TABLE;

const struct library {
    j8_result (*string_read)(const uint8_t *, size_t, uint8_t *, size_t);
    j8_result (*string_write)(const uint8_t *, size_t, uint8_t *, size_t);
    j8_upload (*upload_fresh)(void);
    j8_fed (*upload_feed)(j8_upload, const uint8_t *, size_t, uint8_t *, size_t, uint8_t *, size_t);
    j8_fed (*upload_finish)(j8_upload, const uint8_t *, size_t, uint8_t *, size_t);
    j8_nodes (*json8_read)(const uint8_t *, size_t, uint32_t *, size_t, uint8_t *, size_t);
    j8_result (*json8_write)(const uint32_t *, size_t, const uint8_t *, size_t, const uint8_t *, size_t, uint8_t *, size_t);
    j8_sheet (*tsv8_read)(const uint8_t *, size_t, uint32_t *, size_t, uint32_t *, size_t, uint32_t *, size_t, uint8_t *, size_t);
} TABLE = {
    j8_string_read,  j8_string_write, j8_upload_fresh,  j8_upload_feed,
    j8_upload_finish, j8_json8_read,   j8_json8_write,   j8_tsv8_read,
};
