/* What the parts of the fuzz driver share: a model as rows of cells, the input it is read from, and memory with guards. */
#ifndef FUZZ_H
#define FUZZ_H

#include "varitmol.h"

#define ROW_BYTES 4096
#define LENT_BYTES (1 << 20)

/* The columns of a model in the order of the flat functions, and then what a call is given beside them. */
enum row_name {
    PIECE_BYTES, PIECE_OFFSETS, LOOKUP, FALLBACK, LEFT, RIGHT, RESULT, RANK,
    FIRST_BYTES, FIRST_OFFSETS, FIRST_IDS, FIRST_LSTRIP, FIRST_RSTRIP,
    SECOND_BYTES, SECOND_OFFSETS, SECOND_IDS, SECOND_LSTRIP, SECOND_RSTRIP,
    STEP_BYTES, STEP_KINDS, STEP_SPANS, COLUMNS,
    TEXT = COLUMNS, IDS, ROWS
};

/* A row of bytes, flags or 32-bit words. A row of more than its cells hold is one of zeros. */
struct row {
    size_t len;
    union {
        uint8_t octets[ROW_BYTES];
        uint32_t words[ROW_BYTES / 4];
    } cells;
};

struct tables {
    struct row rows[COLUMNS];
    uint8_t metaspace, split;
};

/* The elements' width in bytes: 1 or 4. */
size_t row_width(enum row_name name);

/* ---- input.c */

struct input {
    const uint8_t *at, *end;
};

uint8_t next_byte(struct input *in); /* 0 when there are no more */
uint32_t next_number(struct input *in);
void next_text(struct input *in, struct row *text, bool coded);
void next_ids(struct input *in, struct row *ids);
void take_tables(struct input *in, struct tables *tables);  /* any columns, as they stand in the input */
void make_tables(struct input *in, struct tables *tables);  /* a model that is accepted */
void break_tables(struct input *in, struct tables *tables); /* one cell or length of it changed */

/* ---- pages.c */

/* Puts the row where the library may read it: behind its last cell, or before its first if `low`, comes a page that may not be touched, and
 * nothing there can be written. */
const void *placed(enum row_name name, const struct row *row, bool low);

/* Memory for the library to write: which of the three, how many bytes. A guard page as above; the other neighbours hold canaries. */
uint8_t *lent(int which, size_t bytes, bool low);
bool canaries_live(int which, const uint8_t *at, size_t bytes);

#endif
