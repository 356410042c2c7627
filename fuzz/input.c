/* Models and texts from the fuzzer's bytes. fuzz/seeds.py writes the same form.
 *
 * A number is one byte, but 250 stands for 4,294,967,295, and behind 251 and 252 come two and four bytes, the lowest first.
 * Taken tables are one row after the other: a length, then that many bytes or numbers; the length 255 and a byte more make a row of zeros
 * that is too long for some limit, as is a text or list of ids of that length. The fallback ids are pairs of a byte and an id, or, if their length is 255, a row of another length.
 */
#include <stdlib.h>
#include <string.h>

#include "fuzz.h"

static const char *const alphabet[16] = {
    "\xe2\x96\x81", "a", "b", " ", ".", "\xc3\xa9", "<", "n", ">", "\t", "\xc2\xa0", "\xe3\x80\x80", "\xf0\x9f\x98\x80", ",", "c", "!",
};

size_t row_width(enum row_name name) {
    switch (name) {
    case PIECE_BYTES: case FIRST_BYTES: case FIRST_LSTRIP: case FIRST_RSTRIP: case SECOND_BYTES: case SECOND_LSTRIP: case SECOND_RSTRIP:
    case STEP_BYTES: case STEP_KINDS: case TEXT:
        return 1;
    default:
        return 4;
    }
}

static bool is_flags(enum row_name name) {
    return name == FIRST_LSTRIP || name == FIRST_RSTRIP || name == SECOND_LSTRIP || name == SECOND_RSTRIP;
}

uint8_t next_byte(struct input *in) {
    return in->at < in->end ? *in->at++ : 0;
}

uint32_t next_number(struct input *in) {
    uint32_t first = next_byte(in), number = 0;
    if (first == 250)
        return VARITMOL_NO_ID;
    if (first != 251 && first != 252)
        return first;
    for (int shift = 0; shift < (first == 251 ? 16 : 32); shift += 8)
        number |= (uint32_t)next_byte(in) << shift;
    return number;
}

static void push_octets(struct row *row, const void *octets, size_t count) {
    if (row->len + count <= ROW_BYTES) {
        memcpy(row->cells.octets + row->len, octets, count);
        row->len += count;
    }
}

static void push_octet(struct row *row, uint8_t octet) {
    push_octets(row, &octet, 1);
}

static void push_word(struct row *row, uint32_t word) {
    if (row->len < ROW_BYTES / 4)
        row->cells.words[row->len++] = word;
}

/* A byte's character, thirty times if the byte is a high one, in a string of at most some bytes from a place on. */
static void push_character(struct row *bytes, uint8_t code, size_t from, size_t most) {
    const char *character = alphabet[code % 16];
    for (int times = code >= 0xe0 ? 30 : 1; times > 0 && bytes->len - from + strlen(character) <= most; times--)
        push_octets(bytes, character, strlen(character));
}

void next_text(struct input *in, struct row *text, bool coded) {
    size_t count = next_byte(in);
    text->len = 0;
    if (count == 255) {
        text->len = VARITMOL_MAX_TEXT_LEN + 1;
        return;
    }
    for (size_t i = 0; i < count; i++) {
        uint8_t byte = next_byte(in);
        if (coded)
            push_character(text, byte, 0, ROW_BYTES);
        else
            push_octet(text, byte);
    }
}

void next_ids(struct input *in, struct row *ids) {
    size_t count = next_byte(in);
    ids->len = 0;
    if (count == 255) {
        ids->len = VARITMOL_MAX_TEXT_LEN + 1;
        return;
    }
    for (size_t i = 0; i < count; i++)
        push_word(ids, next_number(in));
}

/* ---- taken */

static void take_row(struct input *in, enum row_name name, struct row *row) {
    static const size_t too_long[] = {17, 8193, 8194, 524290, 1048577, 8388609};
    size_t count = next_byte(in);
    row->len = 0;
    if (count == 255) {
        row->len = too_long[next_byte(in) % (sizeof too_long / sizeof too_long[0])];
        if (row->len * row_width(name) <= ROW_BYTES)
            memset(row->cells.octets, 0, row->len * row_width(name));
        return;
    }
    for (size_t i = 0; i < count; i++)
        if (row_width(name) == 4)
            push_word(row, next_number(in));
        else
            push_octet(row, is_flags(name) ? next_byte(in) % 2 : next_byte(in));
}

static void no_fallback(struct row *row) {
    row->len = 256;
    for (size_t byte = 0; byte < 256; byte++)
        row->cells.words[byte] = VARITMOL_NO_ID;
}

static void take_fallback(struct input *in, struct row *row) {
    size_t pairs = next_byte(in);
    if (pairs == 255) {
        take_row(in, FALLBACK, row);
        return;
    }
    no_fallback(row);
    for (size_t i = 0; i < pairs; i++) {
        uint8_t byte = next_byte(in);
        row->cells.words[byte] = next_number(in);
    }
}

void take_tables(struct input *in, struct tables *tables) {
    for (int name = 0; name < COLUMNS; name++)
        if (name == FALLBACK)
            take_fallback(in, &tables->rows[name]);
        else
            take_row(in, name, &tables->rows[name]);
    tables->metaspace = next_byte(in);
    tables->split = next_byte(in);
}

/* ---- made */

#define MOST_PIECES 48

static const uint8_t *piece_at(const struct tables *tables, uint32_t id, size_t *len) {
    const uint32_t *offsets = tables->rows[PIECE_OFFSETS].cells.words;
    *len = offsets[id + 1] - offsets[id];
    return tables->rows[PIECE_BYTES].cells.octets + offsets[id];
}

static bool is_stray(const uint8_t *piece, size_t len) {
    return len == 1 && piece[0] >= 0x80;
}

static const struct tables *sorted_tables;

static int by_piece(const void *x, const void *y) {
    uint32_t one = *(const uint32_t *)x, other = *(const uint32_t *)y;
    size_t one_len, other_len;
    const uint8_t *one_piece = piece_at(sorted_tables, one, &one_len), *other_piece = piece_at(sorted_tables, other, &other_len);
    int order = memcmp(one_piece, other_piece, one_len < other_len ? one_len : other_len);
    if (order == 0)
        order = (one_len > other_len) - (one_len < other_len);
    return order ? order : (one > other) - (one < other);
}

static bool same_piece(const struct tables *tables, uint32_t one, uint32_t other) {
    size_t one_len, other_len;
    const uint8_t *one_piece = piece_at(tables, one, &one_len), *other_piece = piece_at(tables, other, &other_len);
    return one_len == other_len && memcmp(one_piece, other_piece, one_len) == 0;
}

static void push_string(struct input *in, struct row *bytes, size_t least, size_t most) {
    size_t from = bytes->len, count = least + next_byte(in) % (most - least + 1);
    for (size_t i = 0; i < count; i++)
        push_character(bytes, next_byte(in), from, VARITMOL_MAX_STRING_LEN);
}

struct pair {
    uint32_t left, right, result, rank;
};

static int by_pair(const void *x, const void *y) {
    const struct pair *one = x, *other = y;
    if (one->left != other->left)
        return one->left < other->left ? -1 : 1;
    return (one->right > other->right) - (one->right < other->right);
}

/* Pieces: characters, single bytes, empty ones, and two earlier ones joined, which with their sides make a merge row. */
static size_t make_pieces(struct input *in, struct tables *tables, struct pair *pairs) {
    struct row *bytes = &tables->rows[PIECE_BYTES], *offsets = &tables->rows[PIECE_OFFSETS];
    size_t count = next_byte(in) % MOST_PIECES, made = 0;
    push_word(offsets, 0);
    for (uint32_t id = 0; id < count; id++) {
        uint8_t kind = next_byte(in);
        size_t left_len, right_len;
        if (kind < 96) {
            push_octets(bytes, alphabet[kind % 16], strlen(alphabet[kind % 16]));
        } else if (kind < 176 && id > 0) {
            uint32_t left = next_byte(in) % id, right = next_byte(in) % id;
            const uint8_t *left_piece = piece_at(tables, left, &left_len), *right_piece = piece_at(tables, right, &right_len);
            bool fits = left_len + right_len <= 255 && bytes->len + left_len + right_len <= ROW_BYTES / 2;
            if (fits && !is_stray(left_piece, left_len) && !is_stray(right_piece, right_len)) {
                push_octets(bytes, left_piece, left_len);
                push_octets(bytes, right_piece, right_len);
                pairs[made++] = (struct pair){left, right, id, next_byte(in) % 8};
            }
        } else if (kind < 208) {
            push_string(in, bytes, 0, 4);
        } else if (kind < 250) {
            push_octet(bytes, next_byte(in));
        }
        push_word(offsets, (uint32_t)bytes->len);
    }
    return made;
}

static void make_lookup(struct tables *tables, bool last) {
    uint32_t ids[MOST_PIECES];
    size_t count = tables->rows[PIECE_OFFSETS].len - 1, kept = 0, len;
    for (uint32_t id = 0; id < count; id++)
        if (piece_at(tables, id, &len), len > 0)
            ids[kept++] = id;
    sorted_tables = tables;
    qsort(ids, kept, sizeof ids[0], by_piece);
    for (size_t i = 0; i < kept; i++) {
        bool repeats = last ? i + 1 < kept && same_piece(tables, ids[i], ids[i + 1]) : i > 0 && same_piece(tables, ids[i], ids[i - 1]);
        if (!repeats)
            push_word(&tables->rows[LOOKUP], ids[i]);
    }
}

static void make_fallback(struct input *in, struct tables *tables) {
    size_t count = tables->rows[PIECE_OFFSETS].len - 1, len;
    uint8_t some = next_byte(in);
    no_fallback(&tables->rows[FALLBACK]);
    for (uint32_t id = 0; id < count; id++) {
        const uint8_t *piece = piece_at(tables, id, &len);
        if (len == 1 && (some >> id % 8 & 1))
            tables->rows[FALLBACK].cells.words[piece[0]] = id;
    }
}

static void make_rows(struct tables *tables, struct pair *pairs, size_t count) {
    qsort(pairs, count, sizeof pairs[0], by_pair);
    for (size_t i = 0; i < count; i++)
        if (i == 0 || by_pair(&pairs[i - 1], &pairs[i]) != 0) {
            push_word(&tables->rows[LEFT], pairs[i].left);
            push_word(&tables->rows[RIGHT], pairs[i].right);
            push_word(&tables->rows[RESULT], pairs[i].result);
            push_word(&tables->rows[RANK], pairs[i].rank == 7 ? VARITMOL_NO_ID : pairs[i].rank);
        }
}

static void make_tokens(struct input *in, struct row *rows, size_t most) {
    size_t count = next_byte(in) % (most + 1);
    push_word(&rows[1], 0);
    for (size_t i = 0; i < count; i++) {
        uint8_t flags = next_byte(in);
        push_string(in, &rows[0], 1, 4);
        push_word(&rows[1], (uint32_t)rows[0].len);
        push_word(&rows[2], next_number(in));
        push_octet(&rows[3], flags & 1);
        push_octet(&rows[4], flags >> 1 & 1);
    }
}

static void push_span(struct row *spans, size_t from, size_t to) {
    push_word(spans, (uint32_t)from);
    push_word(spans, (uint32_t)(to - from));
}

static void push_step(struct tables *tables, uint8_t kind, const char *one, const char *two) {
    struct row *bytes = &tables->rows[STEP_BYTES], *spans = &tables->rows[STEP_SPANS];
    size_t from = bytes->len;
    push_octet(&tables->rows[STEP_KINDS], kind);
    push_octets(bytes, one, strlen(one));
    push_span(spans, from, bytes->len);
    from = bytes->len;
    push_octets(bytes, two, strlen(two));
    push_span(spans, from, bytes->len);
}

/* None, those of the raw paths, or some. */
static void make_steps(struct input *in, struct tables *tables) {
    uint8_t shape = next_byte(in);
    if (shape % 4 == 1)
        push_step(tables, VARITMOL_PREPEND, alphabet[0], "");
    if (shape % 4 == 1 || shape % 4 == 2)
        push_step(tables, VARITMOL_REPLACE, " ", alphabet[0]);
    for (size_t count = shape % 4 == 3 ? shape / 4 % 5 : 0; count > 0; count--) {
        struct row one = {0}, two = {0};
        uint8_t kind = next_byte(in) % 4;
        if (kind == VARITMOL_STRIP) {
            uint8_t ends = next_byte(in);
            push_octet(&tables->rows[STEP_KINDS], kind);
            push_word(&tables->rows[STEP_SPANS], ends & 1);
            push_word(&tables->rows[STEP_SPANS], ends >> 1 & 1);
            push_span(&tables->rows[STEP_SPANS], 0, 0);
            continue;
        }
        push_string(in, &one, 0, 3);
        if (kind == VARITMOL_REPLACE)
            push_string(in, &two, 0, 3);
        push_octet(&one, 0);
        push_octet(&two, 0);
        push_step(tables, kind, (const char *)one.cells.octets, (const char *)two.cells.octets);
    }
}

void make_tables(struct input *in, struct tables *tables) {
    struct pair pairs[MOST_PIECES];
    for (int name = 0; name < COLUMNS; name++)
        tables->rows[name].len = 0;
    size_t made = make_pieces(in, tables, pairs);
    uint8_t shape = next_byte(in);
    make_lookup(tables, shape & 1);
    make_fallback(in, tables);
    make_rows(tables, pairs, made);
    make_tokens(in, &tables->rows[FIRST_BYTES], 4);
    make_tokens(in, &tables->rows[SECOND_BYTES], shape & 2 ? 3 : 0);
    make_steps(in, tables);
    tables->metaspace = shape >> 2 & 3;
    tables->split = shape >> 4 & 1;
}

void break_tables(struct input *in, struct tables *tables) {
    uint8_t which = next_byte(in) % (COLUMNS + 1);
    uint8_t way = next_byte(in), place = next_byte(in);
    uint32_t value = next_number(in);
    if (which == COLUMNS) {
        tables->metaspace = way;
        tables->split = place;
        return;
    }
    struct row *row = &tables->rows[which];
    if (way % 4 == 0 && row->len > 0)
        row->len--;
    else if (way % 4 == 1 && row_width(which) == 4)
        push_word(row, value);
    else if (way % 4 == 1)
        push_octet(row, is_flags(which) ? value & 1 : (uint8_t)value);
    else if (row->len > 0 && row_width(which) == 4)
        row->cells.words[place % row->len] = value;
    else if (row->len > 0)
        row->cells.octets[place % row->len] = is_flags(which) ? value & 1 : (uint8_t)value;
}
