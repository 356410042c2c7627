/* Varitmol for C: text to token ids, ids back to text, safe cuts for workers.
 *
 * Fill a struct varitmol_model, call varitmol_model_prepare once, then varitmol_model_encode_prepared for each text:
 *
 *     struct varitmol_model model = {0};
 *     model.piece_bytes = ..;                        every column that the model has; what stays 0 is empty or absent
 *     static struct varitmol_prepared prepared;
 *     varitmol_answer said = varitmol_model_prepare(&model, &prepared);
 *     if (said.number == VARITMOL_ACCEPTED)
 *         said = varitmol_model_encode_prepared(&model, &prepared, text, text_len, false, ids, ids_len, scratch, scratch_len);
 *
 * bindings/c/lines.c is a whole program. Below stand first the numbers, then the flat functions that the library exports, then
 * the struct and the calls that take it.
 *
 * THE LIBRARY is libvaritmol.a, for x86-64 Linux and its C calling convention. Of the C library it needs memcpy and memset.
 * A call keeps nothing, allocates nothing and reads nothing but its arguments, so any number of threads may use one model. Of stack
 * varitmol_encode and varitmol_fragments take some 680 KiB, as they hold there what varitmol_prepare derives; varitmol_encode and
 * varitmol_encode_prepared take 200 KiB more, for units and pairs that they remember; all others take 10 KiB or less.
 *
 * WHAT A CALLER ANSWERS FOR. A slice is a pointer and a length in elements. In the flat functions a pointer is aligned for its type and not
 * NULL, even for a slice of no elements; the calls that take the struct also take NULL where the length is 0. A slice that is not const
 * overlaps no other slice of the call. A bool is 0 or 1. Any bytes and numbers may stand in the slices: a call answers, it never fails.
 *
 * THE CHECK. varitmol_check, normalise, prepare, encode, fragments and decode test the whole model on every call: some 3 ms for 32,003
 * pieces and 100,000 merge rows (the model of tools/check_speed.py), however short the text; encode and fragments then derive what prepare
 * does. The twins, whose names end in _checked or _prepared, do neither. They are for whoever has called varitmol_check or
 * varitmol_prepare, was answered 0, and has changed no column since. That is the caller's duty, which they do not test: where it is not met,
 * they may do anything.
 */
#ifndef VARITMOL_H
#define VARITMOL_H

#include <stdbool.h>
#include <stddef.h>
#include <stdint.h>

#ifdef __cplusplus
extern "C" {
#endif

/* The columns of a model, in the order in which every flat function takes them, each a pointer and then a length:
 *
 *   piece_bytes, piece_offsets   the pieces end to end; one offset more than there are pieces, from 0 to the length of the bytes. A piece's id
 *                                is its place. A piece may be empty, and two may be equal
 *   lookup                       ids in the byte order of their pieces, each distinct piece that is not empty once
 *   fallback                     256 ids, for each byte that of the piece which is this byte alone; VARITMOL_NO_ID where there is none
 *   left, right, result, rank    the merge rows, ascending by left, then right. The piece of result is the two pieces joined; lower ranks
 *                                merge first
 *   first_.., second_..          the two lists of added tokens: contents end to end, their offsets, their ids, and whether a token strips
 *                                white space on its left and on its right. The first list is searched in the text, the second in what the
 *                                steps make of it. A list without tokens has the offsets {0}, one number, and no other elements
 *   step_bytes                   the bytes that the strings of the steps lie in
 *   step_kinds, step_spans       a kind for each step, and four numbers for each: place and length of its first string, place and length of its
 *                                second. Prepend and CollapseSpaces have one string, the content; Replace has two, pattern and content. A Strip
 *                                has two flags as its first two numbers, left and right, 0 or 1. What a kind does not use is 0
 *   metaspace, split             VARITMOL_ABSENT or a scheme, and whether it splits at every mark, 0 or 1
 */
#define VARITMOL_COLUMNS \
    const uint8_t *piece_bytes, size_t piece_bytes_len, \
    const uint32_t *piece_offsets, size_t piece_offsets_len, \
    const uint32_t *lookup, size_t lookup_len, \
    const uint32_t *fallback, size_t fallback_len, \
    const uint32_t *left, size_t left_len, \
    const uint32_t *right, size_t right_len, \
    const uint32_t *result, size_t result_len, \
    const uint32_t *rank, size_t rank_len, \
    const uint8_t *first_bytes, size_t first_bytes_len, \
    const uint32_t *first_offsets, size_t first_offsets_len, \
    const uint32_t *first_ids, size_t first_ids_len, \
    const bool *first_lstrip, size_t first_lstrip_len, \
    const bool *first_rstrip, size_t first_rstrip_len, \
    const uint8_t *second_bytes, size_t second_bytes_len, \
    const uint32_t *second_offsets, size_t second_offsets_len, \
    const uint32_t *second_ids, size_t second_ids_len, \
    const bool *second_lstrip, size_t second_lstrip_len, \
    const bool *second_rstrip, size_t second_rstrip_len, \
    const uint8_t *step_bytes, size_t step_bytes_len, \
    const uint8_t *step_kinds, size_t step_kinds_len, \
    const uint32_t *step_spans, size_t step_spans_len, \
    uint8_t metaspace, uint8_t split

#define VARITMOL_NO_ID UINT32_C(4294967295)

/* The kinds of a step. */
#define VARITMOL_PREPEND 0
#define VARITMOL_REPLACE 1
#define VARITMOL_COLLAPSE_SPACES 2
#define VARITMOL_STRIP 3

/* Metaspace: absent, or present with a scheme that says where it puts a mark (U+2581) in front: never, always, or in a first section. The
 * first section of a text is what stands before its first added token: the whole text where none occurs, nothing where the text begins with one. */
#define VARITMOL_ABSENT 0
#define VARITMOL_NEVER 1
#define VARITMOL_ALWAYS 2
#define VARITMOL_FIRST 3

/* The largest there are; what is larger answers 1. */
#define VARITMOL_MAX_TEXT_LEN 1048576      /* bytes of a text, and ids given to decode */
#define VARITMOL_MAX_PIECES 524288
#define VARITMOL_MAX_PIECE_BYTES 8388608   /* of all pieces together */
#define VARITMOL_MAX_ROWS 1048576          /* merge rows */
#define VARITMOL_MAX_TOKENS 8192           /* in each of the two lists */
#define VARITMOL_MAX_STEPS 16
#define VARITMOL_MAX_STRING_LEN 255        /* bytes of one piece, one token's content, one string of a step */

/* How many words varitmol_prepare derives: of the byte neighbours, and of the index. */
#define VARITMOL_ADJACENCY_LEN 1024
#define VARITMOL_INDEX_LEN 169032

/* The answer's number: 0, or the lowest of the others that applies. Every call tests 1 to 8 over the whole model, save the twins: of these
 * eight they give 1 alone, for a text or list of ids that is too long and for steps or metaspace that are no such numbers.
 *
 *   check                       1 to 8
 *   normalise                   1 to 9, 11, 12
 *   prepare                     1 to 8, 12
 *   encode                      1 to 12
 *   fragments                   1 to 10, 12
 *   decode                      1 to 8, 12
 */
#define VARITMOL_ACCEPTED 0
#define VARITMOL_WRONG_SIZE 1         /* something exceeds its largest size, columns of one table differ in length, an offset row is empty,
                                         fallback has not 256 ids, or steps or metaspace are no such numbers */
#define VARITMOL_OFFSETS_ASTRAY 2     /* offsets do not run in order from 0 to the end of their bytes, or a step's string passes that end */
#define VARITMOL_BAD_PIECE 3          /* a piece of two bytes or more is not valid UTF-8 */
#define VARITMOL_BAD_LOOKUP 4         /* the lookup list is out of order, incomplete, or names no piece or an empty one */
#define VARITMOL_BAD_FALLBACK 5       /* a fallback id is not that of the byte's piece */
#define VARITMOL_BAD_ROW 6            /* merge rows out of order, an id without a piece, or a result that does not join its sides */
#define VARITMOL_BAD_TOKEN 7          /* the content of an added token is empty or not valid UTF-8 */
#define VARITMOL_BAD_STEP 8           /* a string of a step is not valid UTF-8 */
#define VARITMOL_BAD_TEXT 9           /* the text is no valid UTF-8 */
#define VARITMOL_NO_RAW_PATH 10       /* fragments, or encode as a continuation, of a model that is not encoded straight from the text: it has no
                                         raw path. varitmol_has_raw_path tells beforehand */
#define VARITMOL_SCRATCH_TOO_SHORT 11 /* an output of a step or of metaspace is longer than the shorter scratch buffer; in encode only where the
                                         model has no raw path */
#define VARITMOL_RESULT_TOO_SHORT 12  /* the result does not fit: bytes for normalise and decode, two numbers a range for fragments, derived
                                         words for prepare; for encode the ids before merging, mostly more than it then writes */

/* After 0 the result buffer holds the result and then zeros to its end. After any other number it is as it was. Scratch, which only normalise and
 * encode take, is zero from end to end after 0, 11 and 12 and else as it was. */
typedef struct {
    uint32_t number;
    size_t place;   /* with VARITMOL_BAD_TEXT the length of the longest valid prefix, else 0 */
    size_t written; /* cells of the result; 0 after a refusal, and from check */
    size_t drops;   /* encode: characters, and marks put in front, that no ids spell whole; 0 from the other calls and after a refusal */
    size_t skips;   /* decode: ids that have no piece; 0 from the other calls and after a refusal */
} varitmol_answer;

/* ---- The flat functions. */

/* Whether the model is accepted. */
varitmol_answer varitmol_check(VARITMOL_COLUMNS);

/* Steps and metaspace on the whole text, without a look at tokens. first says whether metaspace runs as in a first section. */
varitmol_answer varitmol_normalise(
    VARITMOL_COLUMNS,
    const uint8_t *text, size_t text_len,
    bool first,
    uint8_t *out, size_t out_len,
    uint8_t *scratch_a, size_t scratch_a_len,
    uint8_t *scratch_b, size_t scratch_b_len);

/* Its twin. The duty: varitmol_check answers 0 for these columns. */
varitmol_answer varitmol_normalise_checked(
    VARITMOL_COLUMNS,
    const uint8_t *text, size_t text_len,
    bool first,
    uint8_t *out, size_t out_len,
    uint8_t *scratch_a, size_t scratch_a_len,
    uint8_t *scratch_b, size_t scratch_b_len);

/* What all texts of a model share, derived once: which bytes stand side by side in pieces, and the index. 12 if adjacency has fewer than
 * VARITMOL_ADJACENCY_LEN words or index fewer than VARITMOL_INDEX_LEN. Both are results; written counts the words of both. */
varitmol_answer varitmol_prepare(
    VARITMOL_COLUMNS,
    uint64_t *adjacency, size_t adjacency_len,
    uint32_t *index, size_t index_len);

/* The ids of a text. continuation says that the text goes on from an earlier one, as the fragments of a text after its first do: its
 * first section then gets no mark in front. */
varitmol_answer varitmol_encode(
    VARITMOL_COLUMNS,
    const uint8_t *text, size_t text_len,
    bool continuation,
    uint32_t *out, size_t out_len,
    uint8_t *scratch_a, size_t scratch_a_len,
    uint8_t *scratch_b, size_t scratch_b_len);

/* Its twin. The duty: varitmol_check answers 0 for these columns, and adjacency and index have exactly VARITMOL_ADJACENCY_LEN and
 * VARITMOL_INDEX_LEN words and hold what varitmol_prepare wrote for the same columns. */
varitmol_answer varitmol_encode_prepared(
    VARITMOL_COLUMNS,
    const uint64_t *adjacency, size_t adjacency_len,
    const uint32_t *index, size_t index_len,
    const uint8_t *text, size_t text_len,
    bool continuation,
    uint32_t *out, size_t out_len,
    uint8_t *scratch_a, size_t scratch_a_len,
    uint8_t *scratch_b, size_t scratch_b_len);

/* Ranges of a text that may be encoded apart, the first as a text and the others as continuations: two numbers a range, its start and its
 * end in bytes. No range but the last is shorter than target bytes. */
varitmol_answer varitmol_fragments(
    VARITMOL_COLUMNS,
    const uint8_t *text, size_t text_len,
    size_t target,
    uint32_t *out, size_t out_len);

/* Its twin. The duty is that of varitmol_encode_prepared. */
varitmol_answer varitmol_fragments_prepared(
    VARITMOL_COLUMNS,
    const uint64_t *adjacency, size_t adjacency_len,
    const uint32_t *index, size_t index_len,
    const uint8_t *text, size_t text_len,
    size_t target,
    uint32_t *out, size_t out_len);

/* The text of ids: their pieces joined, EF BF BD for every byte that belongs to no UTF-8 character, a space for every mark, and without
 * one space in front where the model puts something in front of texts. An id without a piece, as those of added tokens mostly are, is
 * passed over and counted as a skip. */
varitmol_answer varitmol_decode(
    VARITMOL_COLUMNS,
    const uint32_t *ids, size_t ids_len,
    uint8_t *out, size_t out_len);

/* Its twin. The duty: varitmol_check answers 0 for these columns. */
varitmol_answer varitmol_decode_checked(
    VARITMOL_COLUMNS,
    const uint32_t *ids, size_t ids_len,
    uint8_t *out, size_t out_len);

/* ---- The same with a model as a struct. */

/* A list of added tokens. One of zeros has none. */
struct varitmol_tokens {
    size_t count;
    const uint8_t *bytes;    /* the contents end to end */
    size_t bytes_len;
    const uint32_t *offsets; /* count + 1 */
    const uint32_t *ids;     /* count of each of these */
    const bool *lstrip;
    const bool *rstrip;
};

/* The columns, each with the length that its table has. What is left 0 is empty or absent; only fallback always has its 256 ids. */
struct varitmol_model {
    size_t piece_count;
    const uint8_t *piece_bytes;
    size_t piece_bytes_len;
    const uint32_t *piece_offsets; /* piece_count + 1 */
    const uint32_t *lookup;
    size_t lookup_len;             /* piece_count, less the empty pieces and those that are equal to another */
    const uint32_t *fallback;      /* 256 */
    size_t row_count;
    const uint32_t *left;          /* row_count of each of these */
    const uint32_t *right;
    const uint32_t *result;
    const uint32_t *rank;
    struct varitmol_tokens first;
    struct varitmol_tokens second;
    const uint8_t *step_bytes;
    size_t step_bytes_len;
    size_t step_count;
    const uint8_t *step_kinds;     /* step_count */
    const uint32_t *step_spans;    /* 4 * step_count */
    uint8_t metaspace;
    uint8_t split;
};

/* What varitmol_model_prepare derives of a model. It is for that model alone, and for as long as no column of it changes. It has some 670 KiB,
 * more than some threads have of stack. */
struct varitmol_prepared {
    uint64_t adjacency[VARITMOL_ADJACENCY_LEN];
    uint32_t index[VARITMOL_INDEX_LEN];
};

/* A pointer for a slice of no elements where there is none, and the offsets of a list without strings. */
static inline const void *varitmol_some_(const void *pointer) {
    static const uint32_t none[1] = {0};
    return pointer ? pointer : none;
}

static inline void *varitmol_lent_(void *pointer) {
    static uint32_t none[1];
    return pointer ? pointer : none;
}

#define VARITMOL_OCTETS_(pointer) ((const uint8_t *)varitmol_some_(pointer))
#define VARITMOL_WORDS_(pointer) ((const uint32_t *)varitmol_some_(pointer))
#define VARITMOL_FLAGS_(pointer) ((const bool *)varitmol_some_(pointer))
#define VARITMOL_TOKENS_(tokens) \
    VARITMOL_OCTETS_((tokens).bytes), (tokens).bytes_len, VARITMOL_WORDS_((tokens).offsets), (tokens).count + 1, \
    VARITMOL_WORDS_((tokens).ids), (tokens).count, VARITMOL_FLAGS_((tokens).lstrip), (tokens).count, \
    VARITMOL_FLAGS_((tokens).rstrip), (tokens).count
#define VARITMOL_COLUMNS_OF_(model) \
    VARITMOL_OCTETS_((model)->piece_bytes), (model)->piece_bytes_len, \
    VARITMOL_WORDS_((model)->piece_offsets), (model)->piece_count + 1, \
    VARITMOL_WORDS_((model)->lookup), (model)->lookup_len, VARITMOL_WORDS_((model)->fallback), (size_t)((model)->fallback ? 256 : 0), \
    VARITMOL_WORDS_((model)->left), (model)->row_count, VARITMOL_WORDS_((model)->right), (model)->row_count, \
    VARITMOL_WORDS_((model)->result), (model)->row_count, VARITMOL_WORDS_((model)->rank), (model)->row_count, \
    VARITMOL_TOKENS_((model)->first), VARITMOL_TOKENS_((model)->second), \
    VARITMOL_OCTETS_((model)->step_bytes), (model)->step_bytes_len, VARITMOL_OCTETS_((model)->step_kinds), (model)->step_count, \
    VARITMOL_WORDS_((model)->step_spans), 4 * (model)->step_count, (model)->metaspace, (model)->split
/* Scratch is lent as two halves, of which the second has the odd byte; only the shorter of the two lengths ever counts. */
#define VARITMOL_HALVES_(scratch, scratch_len) \
    (uint8_t *)varitmol_lent_(scratch), (scratch_len) / 2, \
    (uint8_t *)varitmol_lent_(scratch) + (scratch_len) / 2, (scratch_len) - (scratch_len) / 2

static inline varitmol_answer varitmol_model_check(const struct varitmol_model *model) {
    return varitmol_check(VARITMOL_COLUMNS_OF_(model));
}

static inline varitmol_answer varitmol_model_normalise(
    const struct varitmol_model *model, const uint8_t *text, size_t text_len, bool first,
    uint8_t *out, size_t out_len, uint8_t *scratch, size_t scratch_len) {
    return varitmol_normalise(VARITMOL_COLUMNS_OF_(model), VARITMOL_OCTETS_(text), text_len, first,
                              (uint8_t *)varitmol_lent_(out), out_len, VARITMOL_HALVES_(scratch, scratch_len));
}

static inline varitmol_answer varitmol_model_normalise_checked(
    const struct varitmol_model *model, const uint8_t *text, size_t text_len, bool first,
    uint8_t *out, size_t out_len, uint8_t *scratch, size_t scratch_len) {
    return varitmol_normalise_checked(VARITMOL_COLUMNS_OF_(model), VARITMOL_OCTETS_(text), text_len, first,
                                      (uint8_t *)varitmol_lent_(out), out_len, VARITMOL_HALVES_(scratch, scratch_len));
}

static inline varitmol_answer varitmol_model_prepare(const struct varitmol_model *model, struct varitmol_prepared *prepared) {
    return varitmol_prepare(VARITMOL_COLUMNS_OF_(model), prepared->adjacency, VARITMOL_ADJACENCY_LEN, prepared->index, VARITMOL_INDEX_LEN);
}

static inline varitmol_answer varitmol_model_encode(
    const struct varitmol_model *model, const uint8_t *text, size_t text_len, bool continuation,
    uint32_t *out, size_t out_len, uint8_t *scratch, size_t scratch_len) {
    return varitmol_encode(VARITMOL_COLUMNS_OF_(model), VARITMOL_OCTETS_(text), text_len, continuation,
                           (uint32_t *)varitmol_lent_(out), out_len, VARITMOL_HALVES_(scratch, scratch_len));
}

static inline varitmol_answer varitmol_model_encode_prepared(
    const struct varitmol_model *model, const struct varitmol_prepared *prepared, const uint8_t *text, size_t text_len, bool continuation,
    uint32_t *out, size_t out_len, uint8_t *scratch, size_t scratch_len) {
    return varitmol_encode_prepared(VARITMOL_COLUMNS_OF_(model),
                                    prepared->adjacency, VARITMOL_ADJACENCY_LEN, prepared->index, VARITMOL_INDEX_LEN,
                                    VARITMOL_OCTETS_(text), text_len, continuation,
                                    (uint32_t *)varitmol_lent_(out), out_len, VARITMOL_HALVES_(scratch, scratch_len));
}

static inline varitmol_answer varitmol_model_fragments(
    const struct varitmol_model *model, const uint8_t *text, size_t text_len, size_t target, uint32_t *out, size_t out_len) {
    return varitmol_fragments(VARITMOL_COLUMNS_OF_(model), VARITMOL_OCTETS_(text), text_len, target,
                              (uint32_t *)varitmol_lent_(out), out_len);
}

static inline varitmol_answer varitmol_model_fragments_prepared(
    const struct varitmol_model *model, const struct varitmol_prepared *prepared, const uint8_t *text, size_t text_len, size_t target,
    uint32_t *out, size_t out_len) {
    return varitmol_fragments_prepared(VARITMOL_COLUMNS_OF_(model),
                                       prepared->adjacency, VARITMOL_ADJACENCY_LEN, prepared->index, VARITMOL_INDEX_LEN,
                                       VARITMOL_OCTETS_(text), text_len, target, (uint32_t *)varitmol_lent_(out), out_len);
}

static inline varitmol_answer varitmol_model_decode(
    const struct varitmol_model *model, const uint32_t *ids, size_t ids_len, uint8_t *out, size_t out_len) {
    return varitmol_decode(VARITMOL_COLUMNS_OF_(model), VARITMOL_WORDS_(ids), ids_len, (uint8_t *)varitmol_lent_(out), out_len);
}

static inline varitmol_answer varitmol_model_decode_checked(
    const struct varitmol_model *model, const uint32_t *ids, size_t ids_len, uint8_t *out, size_t out_len) {
    return varitmol_decode_checked(VARITMOL_COLUMNS_OF_(model), VARITMOL_WORDS_(ids), ids_len, (uint8_t *)varitmol_lent_(out), out_len);
}

#undef VARITMOL_HALVES_
#undef VARITMOL_COLUMNS_OF_
#undef VARITMOL_TOKENS_
#undef VARITMOL_FLAGS_
#undef VARITMOL_WORDS_
#undef VARITMOL_OCTETS_

/* Whether the model is encoded straight from the text: then encode needs no scratch, continuations are encoded, and fragments cuts. */
static inline bool varitmol_has_raw_path(const struct varitmol_prepared *prepared) {
    return prepared->index[1] != 0;
}

/* ---- Room that always suffices. It is more than is needed mostly; where it is too much, begin with less and double it after 11 or 12,
 * which leave the result buffer as it was. */

static inline size_t varitmol_plus_(size_t x, size_t y) {
    return y > SIZE_MAX - x ? SIZE_MAX : x + y;
}

static inline size_t varitmol_times_(size_t x, size_t y) {
    return x && y > SIZE_MAX / x ? SIZE_MAX : x * y;
}

/* The most bytes that the steps make of some sections with that many bytes in all; SIZE_MAX where it is no less. A Prepend adds its content to
 * each section. A Replace puts its content for at most every pattern_len bytes, or, if the pattern is empty, before every byte and at the end
 * of each section. CollapseSpaces puts its content for at least two bytes, and between two such runs stands another byte. */
static inline size_t varitmol_stepped_(const struct varitmol_model *model, size_t bytes, size_t sections) {
    size_t step;
    for (step = 0; step < model->step_count; step++) {
        const uint32_t *span = model->step_spans + 4 * step;
        size_t times = 0, growth = 0;
        switch (model->step_kinds[step]) {
        case VARITMOL_PREPEND:
            times = sections;
            growth = span[1];
            break;
        case VARITMOL_REPLACE:
            times = span[1] ? bytes / span[1] : varitmol_plus_(bytes, sections);
            growth = span[3] > span[1] ? span[3] - span[1] : 0;
            break;
        case VARITMOL_COLLAPSE_SPACES:
            times = varitmol_plus_(bytes, sections) / 3;
            growth = span[1] > 2 ? span[1] - 2 : 0;
            break;
        default:
            break;
        }
        bytes = varitmol_plus_(bytes, varitmol_times_(times, growth));
    }
    return bytes;
}

/* Bytes of normalise's result: what the steps make of the text; metaspace turns a byte into three at most and puts three in front. */
static inline size_t varitmol_model_normalise_room(const struct varitmol_model *model, size_t text_len) {
    size_t bytes = varitmol_stepped_(model, text_len, 1);
    return model->metaspace == VARITMOL_ABSENT ? bytes : varitmol_plus_(varitmol_times_(bytes, 3), 3);
}

/* Bytes of scratch, both halves together: each half holds outputs that are no longer than normalise's room. */
static inline size_t varitmol_model_scratch_room(const struct varitmol_model *model, size_t text_len) {
    return varitmol_times_(varitmol_model_normalise_room(model, text_len), 2);
}

/* Cells of encode's result. A character gives one id or at most one a byte. Straight from the text a space counts as the mark and gives three
 * at most, and so does the mark in front of a section; a section and the token behind it together are two bytes at least. So a text of n bytes with t
 * tokens and t + 1 sections gives at most 3 (n - t) + 3 (t + 1) + t, which is no more than 4 n + 3. For a model without a raw path it is
 * what the steps make of the sections that counts, and metaspace and the second list's tokens do to that what was said of spaces and tokens. */
static inline size_t varitmol_model_encode_room(const struct varitmol_model *model, size_t text_len) {
    size_t raw = varitmol_plus_(varitmol_times_(text_len, 4), 3);
    size_t tokens = model->first.count ? text_len : 0;
    size_t sections = model->first.count ? text_len / 2 + 1 : 1;
    size_t cells = varitmol_stepped_(model, text_len, sections);
    if (model->metaspace != VARITMOL_ABSENT)
        cells = varitmol_plus_(varitmol_times_(cells, 4), 3 * sections);
    cells = varitmol_plus_(cells, tokens);
    return cells > raw ? cells : raw;
}

/* Cells of fragments' result: each range but the last has target bytes or more, and at least one. */
static inline size_t varitmol_fragments_room(size_t text_len, size_t target) {
    return varitmol_times_(2, text_len / (target ? target : 1) + 1);
}

/* Bytes of decode's result for a model that is accepted. Only a byte that is a piece by itself can be no part of a character, and then gives
 * three; all other pieces are valid UTF-8 and give no more bytes than they have. So 255 bytes an id are always enough. */
static inline size_t varitmol_model_decode_room(const struct varitmol_model *model, const uint32_t *ids, size_t ids_len) {
    size_t bytes = 0, i;
    for (i = 0; i < ids_len; i++)
        if (ids[i] < model->piece_count) {
            uint32_t piece_len = model->piece_offsets[ids[i] + 1] - model->piece_offsets[ids[i]];
            bytes += piece_len == 1 ? 3 : piece_len;
        }
    return bytes;
}

#ifdef __cplusplus
}
#endif

#endif
