/* Tables as differences in plain C: one loop over the words, without a test; and memcpy of the table, which is what storing costs without them. */
#include "peers.h"
#include <string.h>

static size_t n, words;
static uint32_t table[LARGEST_TABLE], image[LARGEST_TABLE];

static void prepare(const inputs *in) {
    n = in->n, words = in->words;
    memcpy(table, in->table, sizeof table);
}

static void differences(size_t k) {
    memcpy(image, table, n * sizeof *image);
    for (size_t i = n; i < words; i++)
        image[i] = table[i] - table[i - n];
}

static void restore(size_t k) {
    memcpy(image, table, n * sizeof *image);
    for (size_t i = n; i < words; i++)
        image[i] = table[i] + image[i - n];
}

static void copy_table(size_t k) { memcpy(image, table, words * sizeof *image); }

static size_t written(uint32_t *out) {
    memcpy(out, image, words * sizeof *out);
    return words;
}

const peer plain_differences = {"plain C", prepare, {[DIFFERENCES] = {differences, written}, [RESTORE] = {restore, written}}};

const peer copy = {"memcpy", prepare, {[DIFFERENCES] = {copy_table}, [RESTORE] = {copy_table}}};
