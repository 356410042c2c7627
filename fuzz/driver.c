/* Fuzzes the calls of the library: tables and texts come from the input, and what a call leaves is held to what the header promises.
 *
 * The input is a byte of modes, the tables, and then calls to its end (input.c has their form). Every call is made twice, the second time
 * in other memory, and where the model is accepted also as its twin and by the struct: all must leave the same. A promise that is
 * broken aborts.
 */
#include <stdio.h>
#include <stdlib.h>
#include <string.h>

#include "fuzz.h"

#define BEFORE 0x99
#define MOST_CALLS 8
#define MOST_ROOM 65536
#define MOST_IDS (4 * ROW_BYTES + 4)

enum op { CHECK, PREPARE, NORMALISE, ENCODE, FRAGMENTS, DECODE, OPS };

/* One call: what it is given, and how many bytes it is lent of each buffer. */
struct call {
    enum op op;
    struct row given;
    bool flag;      /* first, or continuation */
    size_t target;
    size_t lent[3]; /* the result and both scratch buffers; for prepare the index and the byte neighbours */
    bool enough;    /* lent what the header calls room that always suffices */
};

/* What a call left. */
struct left {
    varitmol_answer answer;
    uint8_t cells[3][LENT_BYTES];
};

#define HOLDS(promise) \
    do { \
        if (!(promise)) { \
            fprintf(stderr, "%s:%d: broken: %s\n", __FILE__, __LINE__, #promise); \
            abort(); \
        } \
    } while (0)

/* What libFuzzer takes for coverage beside the driver's own: the library has no counters in it. */
__attribute__((section("__libfuzzer_extra_counters"))) static uint8_t seen[1 << 15];

static void notice(uint32_t op, uint32_t number, uint32_t kind, size_t amount) {
    uint32_t bucket = 0;
    while (amount >> bucket)
        bucket++;
    seen[(((op * 13 + number) * 64 + kind) * 12 + bucket) % sizeof seen] = 1;
}

/* ---- calling */

static const void *at[ROWS];
static size_t len[ROWS];
static uint8_t metaspace, split;
static struct varitmol_prepared prepared;

static void place_tables(const struct tables *tables, bool low) {
    for (int name = 0; name < COLUMNS; name++) {
        at[name] = placed(name, &tables->rows[name], low);
        len[name] = tables->rows[name].len;
    }
    metaspace = tables->metaspace;
    split = tables->split;
}

#define ROW(name) at[name], len[name]
#define MODEL \
    ROW(PIECE_BYTES), ROW(PIECE_OFFSETS), ROW(LOOKUP), ROW(FALLBACK), ROW(LEFT), ROW(RIGHT), ROW(RESULT), ROW(RANK), \
    ROW(FIRST_BYTES), ROW(FIRST_OFFSETS), ROW(FIRST_IDS), ROW(FIRST_LSTRIP), ROW(FIRST_RSTRIP), \
    ROW(SECOND_BYTES), ROW(SECOND_OFFSETS), ROW(SECOND_IDS), ROW(SECOND_LSTRIP), ROW(SECOND_RSTRIP), \
    ROW(STEP_BYTES), ROW(STEP_KINDS), ROW(STEP_SPANS), metaspace, split
#define DERIVED prepared.adjacency, VARITMOL_ADJACENCY_LEN, prepared.index, VARITMOL_INDEX_LEN

static void make_call(const struct call *call, bool twin, bool low, struct left *left) {
    uint8_t *lends[3];
    for (int which = 0; which < 3; which++) {
        lends[which] = lent(which, call->lent[which], low);
        memset(lends[which], BEFORE, call->lent[which]);
    }
    enum row_name name = call->op == DECODE ? IDS : TEXT;
    at[name] = placed(name, &call->given, low);
    len[name] = call->given.len;
    uint8_t *out = lends[0], *a = lends[1], *b = lends[2];
    size_t out_len = call->lent[0], a_len = call->lent[1], b_len = call->lent[2];
    uint32_t *words = (uint32_t *)out;
    switch (call->op) {
    case CHECK:
        left->answer = varitmol_check(MODEL);
        break;
    case PREPARE:
        left->answer = varitmol_prepare(MODEL, (uint64_t *)a, a_len / 8, words, out_len / 4);
        break;
    case NORMALISE:
        left->answer = (twin ? varitmol_normalise_checked : varitmol_normalise)(MODEL, ROW(TEXT), call->flag, out, out_len, a, a_len, b, b_len);
        break;
    case ENCODE:
        left->answer = twin ? varitmol_encode_prepared(MODEL, DERIVED, ROW(TEXT), call->flag, words, out_len / 4, a, a_len, b, b_len)
                            : varitmol_encode(MODEL, ROW(TEXT), call->flag, words, out_len / 4, a, a_len, b, b_len);
        break;
    case FRAGMENTS:
        left->answer = twin ? varitmol_fragments_prepared(MODEL, DERIVED, ROW(TEXT), call->target, words, out_len / 4)
                            : varitmol_fragments(MODEL, ROW(TEXT), call->target, words, out_len / 4);
        break;
    default:
        left->answer = (twin ? varitmol_decode_checked : varitmol_decode)(MODEL, ROW(IDS), out, out_len);
    }
    for (int which = 0; which < 3; which++) {
        HOLDS(canaries_live(which, lends[which], call->lent[which]));
        memcpy(left->cells[which], lends[which], call->lent[which]);
    }
}

/* An accepted model as a struct, with NULL for what is empty. */
#define FIELD(name) (len[name] ? at[name] : NULL)

static struct varitmol_tokens as_tokens(enum row_name bytes) {
    enum row_name offsets = bytes + 1, ids = bytes + 2, lstrip = bytes + 3, rstrip = bytes + 4;
    struct varitmol_tokens tokens = {
        .count = len[ids], .bytes = FIELD(bytes), .bytes_len = len[bytes], .offsets = len[ids] ? at[offsets] : NULL,
        .ids = FIELD(ids), .lstrip = FIELD(lstrip), .rstrip = FIELD(rstrip),
    };
    return tokens;
}

static struct varitmol_model as_struct(void) {
    struct varitmol_model model = {
        .piece_count = len[PIECE_OFFSETS] - 1, .piece_bytes = FIELD(PIECE_BYTES), .piece_bytes_len = len[PIECE_BYTES],
        .piece_offsets = len[PIECE_OFFSETS] > 1 ? at[PIECE_OFFSETS] : NULL, .lookup = FIELD(LOOKUP), .lookup_len = len[LOOKUP],
        .fallback = at[FALLBACK], .row_count = len[LEFT], .left = FIELD(LEFT), .right = FIELD(RIGHT), .result = FIELD(RESULT),
        .rank = FIELD(RANK), .first = as_tokens(FIRST_BYTES), .second = as_tokens(SECOND_BYTES),
        .step_bytes = FIELD(STEP_BYTES), .step_bytes_len = len[STEP_BYTES], .step_count = len[STEP_KINDS],
        .step_kinds = FIELD(STEP_KINDS), .step_spans = FIELD(STEP_SPANS), .metaspace = metaspace, .split = split,
    };
    return model;
}

/* The call by the struct; what make_call placed is still there. Both scratch buffers are halves of one, and of the same length. */
static void make_struct_call(const struct call *call, bool twin, struct left *left) {
    struct varitmol_model model = as_struct();
    size_t out_len = call->lent[0], half = call->lent[1];
    uint8_t *out = lent(0, out_len, false), *scratch = lent(1, 2 * half, false);
    uint32_t *words = (uint32_t *)out;
    memset(out, BEFORE, out_len);
    memset(scratch, BEFORE, 2 * half);
    switch (call->op) {
    case NORMALISE:
        left->answer = (twin ? varitmol_model_normalise_checked : varitmol_model_normalise)(
            &model, ROW(TEXT), call->flag, out, out_len, scratch, 2 * half);
        break;
    case ENCODE:
        left->answer = twin ? varitmol_model_encode_prepared(&model, &prepared, ROW(TEXT), call->flag, words, out_len / 4, scratch, 2 * half)
                            : varitmol_model_encode(&model, ROW(TEXT), call->flag, words, out_len / 4, scratch, 2 * half);
        break;
    case FRAGMENTS:
        left->answer = twin ? varitmol_model_fragments_prepared(&model, &prepared, ROW(TEXT), call->target, words, out_len / 4)
                            : varitmol_model_fragments(&model, ROW(TEXT), call->target, words, out_len / 4);
        break;
    default:
        left->answer = (twin ? varitmol_model_decode_checked : varitmol_model_decode)(&model, ROW(IDS), out, out_len);
    }
    memcpy(left->cells[0], out, out_len);
    memcpy(left->cells[1], scratch, half);
    memcpy(left->cells[2], scratch + half, half);
}

/* ---- judging */

static bool all(const uint8_t *cells, size_t count, uint8_t value) {
    for (size_t i = 0; i < count; i++)
        if (cells[i] != value)
            return false;
    return true;
}

static bool same(const struct call *call, const struct left *one, const struct left *other) {
    for (int which = 0; which < 3; which++)
        if (memcmp(one->cells[which], other->cells[which], call->lent[which]) != 0)
            return false;
    return one->answer.number == other->answer.number && one->answer.place == other->answer.place
        && one->answer.written == other->answer.written && one->answer.drops == other->answer.drops
        && one->answer.skips == other->answer.skips;
}

/* How many bytes the character at the front has by RFC 3629; 0 if none stands there. */
static size_t character_width(const uint8_t *bytes, size_t count) {
    uint8_t lead = bytes[0], low = 0x80, high = 0xbf;
    size_t width = lead < 0x80 ? 1 : lead < 0xc2 ? 0 : lead < 0xe0 ? 2 : lead < 0xf0 ? 3 : lead < 0xf5 ? 4 : 0;
    if (width == 0 || width > count)
        return 0;
    if (lead == 0xe0)
        low = 0xa0;
    if (lead == 0xf0)
        low = 0x90;
    if (lead == 0xed)
        high = 0x9f;
    if (lead == 0xf4)
        high = 0x8f;
    for (size_t i = 1; i < width; i++, low = 0x80, high = 0xbf)
        if (bytes[i] < low || bytes[i] > high)
            return 0;
    return width;
}

static size_t valid_prefix(const uint8_t *bytes, size_t count) {
    size_t place = 0, width;
    while (place < count && (width = character_width(bytes + place, count - place)) > 0)
        place += width;
    return place;
}

static bool has_raw_path(void) {
    return varitmol_has_raw_path(&prepared);
}

/* The number that the call must give, or 0 where it is for the call to find 11 or 12. */
static uint32_t number_due(const struct call *call, uint32_t checked) {
    bool has_text = call->op == NORMALISE || call->op == ENCODE || call->op == FRAGMENTS;
    if ((has_text || call->op == DECODE) && call->given.len > VARITMOL_MAX_TEXT_LEN)
        return VARITMOL_WRONG_SIZE;
    if (checked != 0)
        return checked;
    if (has_text && valid_prefix(call->given.cells.octets, call->given.len) < call->given.len)
        return VARITMOL_BAD_TEXT;
    if ((call->op == FRAGMENTS || (call->op == ENCODE && call->flag)) && !has_raw_path())
        return VARITMOL_NO_RAW_PATH;
    return 0;
}

static void judge_number(const struct call *call, uint32_t number, uint32_t checked) {
    bool scratched = call->op == NORMALISE || (call->op == ENCODE && !has_raw_path());
    uint32_t due = number_due(call, checked);
    if (due != 0) {
        HOLDS(number == due);
    } else if (call->op == CHECK || call->enough) {
        HOLDS(number == 0);
    } else {
        HOLDS(number == 0 || number == VARITMOL_RESULT_TOO_SHORT || (number == VARITMOL_SCRATCH_TOO_SHORT && scratched));
    }
}

static void judge(const struct call *call, const struct left *left, uint32_t checked) {
    const varitmol_answer *answer = &left->answer;
    const uint8_t *out = left->cells[0];
    uint32_t number = answer->number;
    size_t width = call->op == NORMALISE || call->op == DECODE ? 1 : 4;
    judge_number(call, number, checked);
    HOLDS(answer->place == (number == VARITMOL_BAD_TEXT ? valid_prefix(call->given.cells.octets, call->given.len) : 0));
    if (number != 0) {
        HOLDS(answer->written == 0 && answer->drops == 0 && answer->skips == 0);
        HOLDS(all(out, call->lent[0], BEFORE));
        HOLDS(call->op != PREPARE || all(left->cells[1], call->lent[1], BEFORE));
    } else if (call->op == PREPARE) {
        HOLDS(answer->written == VARITMOL_ADJACENCY_LEN + VARITMOL_INDEX_LEN && answer->drops == 0 && answer->skips == 0);
        HOLDS(all(out + 4 * VARITMOL_INDEX_LEN, call->lent[0] - 4 * VARITMOL_INDEX_LEN, 0));
        HOLDS(all(left->cells[1] + 8 * VARITMOL_ADJACENCY_LEN, call->lent[1] - 8 * VARITMOL_ADJACENCY_LEN, 0));
    } else {
        HOLDS(answer->written <= call->lent[0] / width);
        HOLDS(all(out + width * answer->written, call->lent[0] - width * answer->written, 0));
        HOLDS(call->op == ENCODE || answer->drops == 0);
        HOLDS(call->op == DECODE || answer->skips == 0);
        HOLDS(width == 4 || valid_prefix(out, answer->written) == answer->written);
    }
    if (call->op == NORMALISE || call->op == ENCODE) {
        uint8_t value = number == 0 || number == VARITMOL_SCRATCH_TOO_SHORT || number == VARITMOL_RESULT_TOO_SHORT ? 0 : BEFORE;
        HOLDS(all(left->cells[1], call->lent[1], value) && all(left->cells[2], call->lent[2], value));
    }
}

static void judge_skips(const struct call *call, const struct left *left) {
    size_t skips = 0;
    for (size_t i = 0; i < call->given.len; i++)
        skips += call->given.cells.words[i] >= len[PIECE_OFFSETS] - 1;
    HOLDS(left->answer.skips == skips);
}

/* The ids of a part of the text, behind those that stand in ids. Gives the drops. */
static size_t encode_part(const uint8_t *text, size_t from, size_t to, uint32_t *ids, size_t *count, size_t room) {
    varitmol_answer answer = varitmol_encode_prepared(MODEL, DERIVED, text + from, to - from, from > 0, ids + *count, room - *count,
                                                      lent(1, 0, false), 0, lent(2, 0, false), 0);
    HOLDS(answer.number == 0);
    *count += answer.written;
    return answer.drops;
}

/* The ranges follow one another from end to end, none but the last below the target, and their ids are those of the whole text. */
static void judge_ranges(const struct call *call, const struct left *left) {
    static uint32_t whole[MOST_IDS], parts[MOST_IDS];
    const uint32_t *numbers = (const uint32_t *)left->cells[0];
    size_t numbers_len = left->answer.written, text_len = call->given.len, whole_len = 0, parts_len = 0, end = 0, parts_drops = 0;
    size_t whole_drops = encode_part(call->given.cells.octets, 0, text_len, whole, &whole_len, MOST_IDS);
    HOLDS(numbers_len >= 2 && numbers_len % 2 == 0);
    for (size_t i = 0; i < numbers_len; i += 2) {
        HOLDS(numbers[i] == end && numbers[i + 1] >= end);
        end = numbers[i + 1];
        HOLDS(i + 2 == numbers_len || end - numbers[i] >= (call->target ? call->target : 1));
        parts_drops += encode_part(call->given.cells.octets, numbers[i], end, parts, &parts_len, MOST_IDS);
    }
    HOLDS(end == text_len);
    HOLDS(parts_len == whole_len && memcmp(parts, whole, 4 * whole_len) == 0 && parts_drops == whole_drops);
}

/* The call again in other memory, as its twin, and by the struct: each leaves what the first left. */
static void make_again(const struct call *call, bool low, bool accepted, const struct left *first) {
    static struct left other;
    bool has_twin = accepted && call->op != CHECK && call->op != PREPARE;
    bool halves = call->lent[1] == call->lent[2];
    for (int twin = 0; twin <= has_twin; twin++) {
        make_call(call, twin, low, &other);
        HOLDS(same(call, first, &other));
        if (has_twin && halves) {
            make_struct_call(call, twin, &other);
            HOLDS(same(call, first, &other));
        }
    }
}

/* ---- the input's calls */

static void lend_enough(struct call *call) {
    struct varitmol_model model = as_struct();
    size_t text_len = call->given.len, needs[3] = {0, 0, 0};
    if (call->op == NORMALISE || (call->op == ENCODE && !has_raw_path()))
        needs[1] = needs[2] = varitmol_model_scratch_room(&model, text_len) / 2;
    if (call->op == NORMALISE)
        needs[0] = varitmol_model_normalise_room(&model, text_len);
    else if (call->op == ENCODE)
        needs[0] = varitmol_times_(varitmol_model_encode_room(&model, text_len), 4);
    else if (call->op == FRAGMENTS)
        needs[0] = varitmol_times_(varitmol_fragments_room(text_len, call->target), 4);
    else if (call->op == DECODE)
        needs[0] = varitmol_model_decode_room(&model, call->given.cells.words, call->given.len);
    call->enough = needs[0] <= MOST_ROOM && needs[1] <= MOST_ROOM;
    if (call->enough)
        memcpy(call->lent, needs, sizeof needs);
}

static void next_call(struct input *in, struct call *call, uint32_t checked) {
    uint8_t head = next_byte(in);
    call->op = head % OPS;
    call->flag = head >= 128;
    call->enough = false;
    call->target = 0;
    call->given.len = 0;
    memset(call->lent, 0, sizeof call->lent);
    if (call->op == CHECK)
        return;
    if (call->op == PREPARE) {
        uint8_t beyond = next_byte(in);
        call->lent[0] = 4 * (size_t)(VARITMOL_INDEX_LEN - 1 + beyond % 4);
        call->lent[1] = 8 * (size_t)(VARITMOL_ADJACENCY_LEN - 1 + beyond / 4 % 4);
        return;
    }
    if (call->op == DECODE)
        next_ids(in, &call->given);
    else
        next_text(in, &call->given, head / OPS % 2);
    if (call->op == FRAGMENTS)
        call->target = next_byte(in) == 255 ? SIZE_MAX : next_number(in);
    uint8_t cells = next_byte(in);
    call->lent[0] = cells * (size_t)(call->op == ENCODE || call->op == FRAGMENTS ? 4 : 1);
    if (call->op == NORMALISE || call->op == ENCODE) {
        call->lent[1] = next_byte(in);
        call->lent[2] = next_byte(in);
    }
    if (cells == 255 && checked == 0 && call->given.len <= VARITMOL_MAX_TEXT_LEN)
        lend_enough(call);
}

int LLVMFuzzerTestOneInput(const uint8_t *data, size_t size) {
    static struct tables tables;
    static struct call call;
    static struct left left;
    struct input in = {data, data + size};
    uint8_t mode = next_byte(&in);
    bool low = mode & 1, made = mode & 2, broken = mode & 4;
    (made ? make_tables : take_tables)(&in, &tables);
    if (broken)
        break_tables(&in, &tables);
    place_tables(&tables, low);

    uint32_t checked = varitmol_check(MODEL).number, kind = 0;
    HOLDS(checked <= VARITMOL_BAD_STEP);
    HOLDS(checked == 0 || !made || broken);
    if (checked == 0) {
        HOLDS(varitmol_prepare(MODEL, DERIVED).number == 0);
        kind = prepared.index[0] * 5 + prepared.index[1] + (len[FIRST_IDS] > 0) * 16 + (len[SECOND_IDS] > 0) * 32;
    }
    notice(CHECK, checked, kind, len[LEFT]);

    for (int calls = 0; in.at < in.end && calls < MOST_CALLS; calls++) {
        next_call(&in, &call, checked);
        place_tables(&tables, !low);
        make_call(&call, false, !low, &left);
        judge(&call, &left, checked);
        place_tables(&tables, low);
        make_again(&call, low, checked == 0, &left);
        if (call.op == DECODE && left.answer.number == 0)
            judge_skips(&call, &left);
        if (call.op == FRAGMENTS && left.answer.number == 0)
            judge_ranges(&call, &left);
        notice(call.op, left.answer.number, kind, left.answer.written);
        notice(call.op + OPS, left.answer.number, kind, left.answer.drops + left.answer.skips);
    }
    return 0;
}
