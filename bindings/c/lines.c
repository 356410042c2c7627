/* Encodes lines and decodes their ids again, with a model that is prepared once.
 *
 *     lines      its own lines
 *     lines -    the lines of standard input
 *
 * The model is the toy model T of docs/RULES.md with two added tokens: <n> has an id that is no piece's, so decode skips it; <dot> has the id
 * of the piece `.`.
 */
#define _POSIX_C_SOURCE 200809L

#include <errno.h>
#include <stdio.h>
#include <stdlib.h>
#include <string.h>
#include <sys/types.h>

#include "varitmol.h"

#define COUNT(row) (sizeof(row) / sizeof((row)[0]))
#define MARK "\xe2\x96\x81"

/* The pieces: the mark, a, b, ab, mark and a, the full stop, and the two bytes of U+00E9. */
static const char piece_bytes[] = MARK "a" "b" "ab" MARK "a" "." "\xc3" "\xa9";
static const uint32_t piece_offsets[] = {0, 3, 4, 5, 7, 11, 12, 13, 14};
static const uint32_t lookup[] = {5, 1, 3, 2, 7, 6, 0, 4};
static const uint32_t left[] = {0, 1}, right[] = {1, 2}, result[] = {4, 3}, rank[] = {1, 0};
static const char token_bytes[] = "<n><dot>";
static const uint32_t token_offsets[] = {0, 3, 8}, token_ids[] = {50, 5};
static const bool token_lstrip[] = {false, true}, token_rstrip[] = {false, false};

/* Room for one line; it grows with the longest. */
struct buffers {
    uint32_t *ids;
    size_t ids_len;
    uint8_t *scratch;
    size_t scratch_len;
    uint8_t *text;
    size_t text_len;
};

static void *grown(void *buffer, size_t *len, size_t wanted, size_t width) {
    if (wanted <= *len)
        return buffer;
    buffer = wanted > SIZE_MAX / width ? NULL : realloc(buffer, wanted * width);
    if (!buffer) {
        fprintf(stderr, "lines: no memory for %zu cells of %zu bytes\n", wanted, width);
        exit(EXIT_FAILURE);
    }
    *len = wanted;
    return buffer;
}

static void encode_line(const struct varitmol_model *model, const struct varitmol_prepared *prepared, struct buffers *room,
                        const char *line, size_t len) {
    const uint8_t *text = (const uint8_t *)line;
    if (!varitmol_has_raw_path(prepared))
        room->scratch = grown(room->scratch, &room->scratch_len, varitmol_model_scratch_room(model, len), 1);
    room->ids = grown(room->ids, &room->ids_len, varitmol_model_encode_room(model, len), sizeof *room->ids);

    varitmol_answer encoded = varitmol_model_encode_prepared(model, prepared, text, len, false, room->ids, room->ids_len,
                                                             room->scratch, room->scratch_len);
    printf("%.*s\n", (int)len, line);
    if (encoded.number != VARITMOL_ACCEPTED) {
        printf("    refused: %u, place %zu\n", (unsigned)encoded.number, encoded.place);
        return;
    }
    printf("    ids");
    for (size_t i = 0; i < encoded.written; i++)
        printf(" %u", (unsigned)room->ids[i]);
    printf("; %zu dropped\n", encoded.drops);

    room->text = grown(room->text, &room->text_len, varitmol_model_decode_room(model, room->ids, encoded.written), 1);
    varitmol_answer decoded = varitmol_model_decode_checked(model, room->ids, encoded.written, room->text, room->text_len);
    if (decoded.number != VARITMOL_ACCEPTED) {
        printf("    not decoded: %u\n", (unsigned)decoded.number);
        return;
    }
    printf("    decoded '%.*s'; %zu skipped\n", (int)decoded.written, (const char *)room->text, decoded.skips);
}

int main(int argc, char **argv) {
    if (argc > 2 || (argc == 2 && strcmp(argv[1], "-") != 0)) {
        fprintf(stderr, "usage: lines [-]    encodes its own lines, or with - those of standard input\n");
        return 2;
    }

    static uint32_t fallback[256];
    for (size_t byte = 0; byte < COUNT(fallback); byte++)
        fallback[byte] = VARITMOL_NO_ID;
    fallback[0xc3] = 6;
    fallback[0xa9] = 7;

    struct varitmol_model model = {0};
    model.piece_count = COUNT(piece_offsets) - 1;
    model.piece_bytes = (const uint8_t *)piece_bytes;
    model.piece_bytes_len = sizeof piece_bytes - 1;
    model.piece_offsets = piece_offsets;
    model.lookup = lookup;
    model.lookup_len = COUNT(lookup);
    model.fallback = fallback;
    model.row_count = COUNT(left);
    model.left = left;
    model.right = right;
    model.result = result;
    model.rank = rank;
    model.first.count = COUNT(token_ids);
    model.first.bytes = (const uint8_t *)token_bytes;
    model.first.bytes_len = sizeof token_bytes - 1;
    model.first.offsets = token_offsets;
    model.first.ids = token_ids;
    model.first.lstrip = token_lstrip;
    model.first.rstrip = token_rstrip;
    model.metaspace = VARITMOL_ALWAYS;

    static struct varitmol_prepared prepared;
    varitmol_answer said = varitmol_model_prepare(&model, &prepared);
    if (said.number != VARITMOL_ACCEPTED) {
        fprintf(stderr, "lines: the model is refused: %u\n", (unsigned)said.number);
        return EXIT_FAILURE;
    }

    struct buffers room = {0};
    if (argc == 1) {
        static const char *const own[] = {"ab a", " a", "\xc3\xa9", "c", "a.b", "a<n>b", "a b  <dot>a", "", "a\xe2\x96"};
        for (size_t i = 0; i < COUNT(own); i++)
            encode_line(&model, &prepared, &room, own[i], strlen(own[i]));
    } else {
        char *line = NULL;
        size_t size = 0;
        ssize_t len;
        while ((len = getline(&line, &size, stdin)) >= 0)
            encode_line(&model, &prepared, &room, line, (size_t)len - (len > 0 && line[len - 1] == '\n'));
        free(line);
        if (ferror(stdin)) {
            fprintf(stderr, "lines: standard input: %s\n", strerror(errno));
            return EXIT_FAILURE;
        }
    }
    free(room.ids);
    free(room.scratch);
    free(room.text);
    return EXIT_SUCCESS;
}
