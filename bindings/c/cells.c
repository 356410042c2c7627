/* Every cell that the struct functions are lent is as the header says afterwards: with results and scratch of all small lengths, odd ones too.
 *
 *     cells      says how many calls it made, or the first that left another cell
 *
 * The model is the toy model T of docs/RULES.md, on its raw path and, with a step, off it.
 */
#include <stdio.h>
#include <stdlib.h>
#include <string.h>

#include "varitmol.h"

#define COUNT(row) (sizeof(row) / sizeof((row)[0]))
#define MARK "\xe2\x96\x81"
#define MOST 20
#define BEFORE 0xEE

static const char piece_bytes[] = MARK "a" "b" "ab" MARK "a" "." "\xc3" "\xa9";
static const uint32_t piece_offsets[] = {0, 3, 4, 5, 7, 11, 12, 13, 14};
static const uint32_t lookup[] = {5, 1, 3, 2, 7, 6, 0, 4};
static const uint32_t left[] = {0, 1}, right[] = {1, 2}, result[] = {4, 3}, rank[] = {1, 0};
static const uint8_t step_kinds[] = {VARITMOL_PREPEND};
static const uint32_t step_spans[] = {0, 1, 0, 0};
static const char *const texts[] = {"", "a", "ab a", "c", "\xc3\xa9", "a\xff"};

static struct varitmol_prepared prepared;
static size_t calls;

/* A result of words or of bytes, and scratch; what was there before stands also behind their ends. */
struct lent {
    uint32_t words[MOST + 1];
    uint8_t bytes[MOST + 1], scratch[MOST + 1];
};

static struct lent lend(void) {
    struct lent lent;
    memset(&lent, BEFORE, sizeof lent);
    return lent;
}

static void expect(bool holds, const char *call, const char *what, const char *text, size_t out_len, size_t scratch_len) {
    if (holds)
        return;
    fprintf(stderr, "cells: %s of '%s' with a result of %zu and scratch of %zu: %s\n", call, text, out_len, scratch_len, what);
    exit(EXIT_FAILURE);
}

static void look(const char *call, varitmol_answer said, const struct lent *lent, bool has_words, const char *text, size_t out_len, size_t scratch_len) {
    bool cleared = said.number == VARITMOL_ACCEPTED || said.number == VARITMOL_SCRATCH_TOO_SHORT || said.number == VARITMOL_RESULT_TOO_SHORT;
    uint32_t word_before;
    size_t i;
    calls++;
    memset(&word_before, BEFORE, sizeof word_before);
    for (i = 0; i <= MOST; i++) {
        bool inside = i < scratch_len && cleared;
        expect(lent->scratch[i] == (inside ? 0 : BEFORE), call, "a byte of scratch", text, out_len, scratch_len);
    }
    for (i = 0; i <= MOST; i++) {
        uint32_t cell = has_words ? lent->words[i] : lent->bytes[i], before = has_words ? word_before : BEFORE;
        if (said.number != VARITMOL_ACCEPTED || i >= out_len)
            expect(cell == before, call, "a cell that was to stay", text, out_len, scratch_len);
        else if (i >= said.written)
            expect(cell == 0, call, "a cell behind the result", text, out_len, scratch_len);
    }
}

static void run(const struct varitmol_model *model, const char *words, size_t out_len, size_t scratch_len) {
    const uint8_t *text = (const uint8_t *)words;
    size_t len = strlen(words);
    struct lent lent = lend();
    varitmol_answer said = varitmol_model_encode(model, text, len, false, lent.words, out_len, lent.scratch, scratch_len);
    look("encode", said, &lent, true, words, out_len, scratch_len);
    lent = lend();
    said = varitmol_model_encode_prepared(model, &prepared, text, len, false, lent.words, out_len, lent.scratch, scratch_len);
    look("encode_prepared", said, &lent, true, words, out_len, scratch_len);
    lent = lend();
    said = varitmol_model_normalise(model, text, len, true, lent.bytes, out_len, lent.scratch, scratch_len);
    look("normalise", said, &lent, false, words, out_len, scratch_len);
    lent = lend();
    said = varitmol_model_normalise_checked(model, text, len, true, lent.bytes, out_len, lent.scratch, scratch_len);
    look("normalise_checked", said, &lent, false, words, out_len, scratch_len);
}

int main(void) {
    static uint32_t fallback[256];
    struct varitmol_model model = {0};
    size_t steps, text, out_len, scratch_len, i;
    for (i = 0; i < COUNT(fallback); i++)
        fallback[i] = VARITMOL_NO_ID;
    fallback[0xC3] = 6;
    fallback[0xA9] = 7;
    model.piece_count = COUNT(piece_offsets) - 1;
    model.piece_bytes = (const uint8_t *)piece_bytes;
    model.piece_bytes_len = sizeof piece_bytes - 1;
    model.piece_offsets = piece_offsets;
    model.lookup = lookup;
    model.lookup_len = COUNT(lookup);
    model.fallback = fallback;
    model.row_count = COUNT(rank);
    model.left = left;
    model.right = right;
    model.result = result;
    model.rank = rank;
    model.step_bytes = (const uint8_t *)"a";
    model.step_bytes_len = 1;
    model.step_kinds = step_kinds;
    model.step_spans = step_spans;
    model.metaspace = VARITMOL_ALWAYS;
    for (steps = 0; steps <= 1; steps++) {
        model.step_count = steps;
        if (varitmol_model_prepare(&model, &prepared).number != VARITMOL_ACCEPTED || varitmol_has_raw_path(&prepared) != (steps == 0)) {
            fprintf(stderr, "cells: the model with %zu steps is not what it should be\n", steps);
            return EXIT_FAILURE;
        }
        for (text = 0; text < COUNT(texts); text++)
            for (out_len = 0; out_len <= MOST; out_len++)
                for (scratch_len = 0; scratch_len <= MOST; scratch_len++)
                    run(&model, texts[text], out_len, scratch_len);
    }
    printf("cells: %zu calls, every cell as it should be\n", calls);
    return EXIT_SUCCESS;
}
