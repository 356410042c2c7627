/* Memory with guard pages. The library is not instrumented, so what it reads or writes beyond a slice is caught by the pages around it. */
#define _GNU_SOURCE

#include <stdio.h>
#include <stdlib.h>
#include <string.h>
#include <sys/mman.h>
#include <unistd.h>

#include "fuzz.h"

#define PAGE 4096
#define LENT_COUNT 3
#define CANARY 0xa5
#define CANARIES 256
#define ZEROS_BYTES ((size_t)64 << 20)

static uint8_t *row_writes[ROWS], *row_reads[ROWS], *lent_pages[LENT_COUNT], *zeros;

static void *mapped(void *wish, size_t bytes, int rights, int flags, int file, off_t place) {
    void *at = mmap(wish, bytes, rights, flags, file, place);
    if (at == MAP_FAILED) {
        perror("mmap");
        abort();
    }
    return at;
}

/* Address space with a page on either side that may not be touched. */
static uint8_t *guarded(size_t bytes) {
    return (uint8_t *)mapped(NULL, bytes + 2 * PAGE, PROT_NONE, MAP_PRIVATE | MAP_ANONYMOUS | MAP_NORESERVE, -1, 0) + PAGE;
}

__attribute__((constructor)) static void map_all(void) {
    int file = memfd_create("rows", 0);
    if (file < 0 || ftruncate(file, (off_t)ROWS * ROW_BYTES) != 0) {
        perror("memfd");
        abort();
    }
    /* The same pages twice: the driver writes the one, the library can only read the other. */
    for (int name = 0; name < ROWS; name++) {
        row_writes[name] = mapped(NULL, ROW_BYTES, PROT_READ | PROT_WRITE, MAP_SHARED, file, (off_t)name * ROW_BYTES);
        row_reads[name] = mapped(guarded(ROW_BYTES), ROW_BYTES, PROT_READ, MAP_SHARED | MAP_FIXED, file, (off_t)name * ROW_BYTES);
    }
    close(file);
    for (int which = 0; which < LENT_COUNT; which++) {
        lent_pages[which] = mapped(guarded(LENT_BYTES), LENT_BYTES, PROT_READ | PROT_WRITE, MAP_PRIVATE | MAP_ANONYMOUS | MAP_FIXED, -1, 0);
        memset(lent_pages[which], CANARY, LENT_BYTES);
    }
    zeros = mapped(guarded(ZEROS_BYTES), ZEROS_BYTES, PROT_READ, MAP_PRIVATE | MAP_ANONYMOUS | MAP_FIXED | MAP_NORESERVE, -1, 0);
}

const void *placed(enum row_name name, const struct row *row, bool low) {
    size_t bytes = row->len * row_width(name);
    if (bytes > ROW_BYTES)
        return low ? zeros : zeros + ZEROS_BYTES - bytes;
    size_t from = low ? 0 : ROW_BYTES - bytes;
    memcpy(row_writes[name] + from, row->cells.octets, bytes);
    return row_reads[name] + from;
}

uint8_t *lent(int which, size_t bytes, bool low) {
    uint8_t *at = lent_pages[which] + (low ? 0 : LENT_BYTES - bytes);
    size_t canaries = LENT_BYTES - bytes < CANARIES ? LENT_BYTES - bytes : CANARIES;
    memset(low ? at + bytes : at - canaries, CANARY, canaries);
    return at;
}

bool canaries_live(int which, const uint8_t *at, size_t bytes) {
    size_t canaries = LENT_BYTES - bytes < CANARIES ? LENT_BYTES - bytes : CANARIES;
    const uint8_t *from = at == lent_pages[which] ? at + bytes : at - canaries;
    for (size_t i = 0; i < canaries; i++)
        if (from[i] != CANARY)
            return false;
    return true;
}
