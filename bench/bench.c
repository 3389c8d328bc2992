/* Compares the answers of our library with those of PARI, FLINT, NTL and plain C on the inputs of every row, and then, unless called with
 * --check, times the rows and prints the tables. Moduli and residues are a few kilobytes for all jobs of a row; a table of 16,384 words is
 * 64 KiB in and 64 KiB out, and was read and written in the job before, and so was a catalogue, which is up to 256 KiB. */
#include "rows.h"
#include <stdio.h>
#include <string.h>

const peer *const peers[PEERS] = {
    &ours, &session, &pari, &flint, &flint_columns, &ntl, &plain, &plain_card, &plain_differences, &plain_catalogue, &copy,
};

int does(const peer *who, int what, uint32_t n) {
    const work *w = &who->works[what];
    return w->run && (!w->most || n <= w->most);
}

/* The largest p is 1,048,573, and 14 the highest degree that divides p - 1; 1,048,433 is the largest p for which 16 does. */
static const row rows[] = {
    {"FIND", FIND, 3, 2},
    {"FIND", FIND, 7, 3},
    {"FIND", FIND, 13, 12},
    {"FIND", FIND, 17, 16},
    {"FIND", FIND, 1009, 16},
    {"FIND", FIND, 65521, 2},
    {"FIND", FIND, 65521, 4},
    {"FIND", FIND, 65521, 8},
    {"FIND", FIND, 65521, 12},
    {"FIND", FIND, 65521, 16},
    {"FIND", FIND, 1048573, 2},
    {"FIND", FIND, 1048573, 4},
    {"FIND", FIND, 1048573, 14},
    {"FIND", FIND, 2, 2},
    {"FIND", FIND, 2, 4},
    {"FIND", FIND, 2, 8},
    {"FIND", FIND, 2, 16},
    {"FIND", FIND, 3, 3},
    {"FIND", FIND, 3, 9},
    {"FIND", FIND, 5, 5},
    {"FIND", FIND, 7, 7},
    {"FIND", FIND, 11, 11},
    {"FIND", FIND, 13, 13},
    {"CHECK", CHECK, 7, 3},
    {"CHECK", CHECK, 65521, 16},
    {"CHECK", CHECK, 1048573, 14},
    {"MAPS", MAPS, 7, 3},
    {"MAPS", MAPS, 65521, 4},
    {"MAPS", MAPS, 65521, 16},
    {"MATRICES", MATRICES, 7, 3},
    {"MATRICES", MATRICES, 65521, 2},
    {"MATRICES", MATRICES, 65521, 4},
    {"MATRICES", MATRICES, 65521, 8},
    {"MATRICES", MATRICES, 65521, 16},
    {"MATRICES", MATRICES, 1048573, 14},
    {"IRREDUCIBLE", IRREDUCIBLE, 3, 2},
    {"IRREDUCIBLE", IRREDUCIBLE, 7, 3},
    {"IRREDUCIBLE", IRREDUCIBLE, 251, 10},
    {"IRREDUCIBLE", IRREDUCIBLE, 65521, 16},
    {"CATALOGUE", CATALOGUE, 2, 16},
    {"CATALOGUE", CATALOGUE, 3, 10},
    {"CATALOGUE", CATALOGUE, 251, 2},
    {"CATALOGUE", CATALOGUE, 65521, 1},
    {"CONVERT", CONVERT, 65521, 2},
    {"CONVERT", CONVERT, 65521, 4},
    {"CONVERT", CONVERT, 65521, 8},
    {"CONVERT", CONVERT, 65521, 16},
    {"CONVERT", CONVERT, 1048573, 2},
    {"CONVERT", CONVERT, 1048573, 4},
    {"CONVERT", CONVERT, 1048573, 14},
    {"CONVERT one residue", CONVERT, 65521, 2, .single = 1},
    {"CONVERT one residue", CONVERT, 65521, 16, .single = 1},
    {"product", PRODUCT, 65521, 2, .inside = 1},
    {"product", PRODUCT, 65521, 4, .inside = 1},
    {"product", PRODUCT, 65521, 8, .inside = 1},
    {"product", PRODUCT, 65521, 16, .inside = 1},
    {"product, one call", PRODUCT, 65521, 16},
    {"power", POWER, 65521, 16},
    {"substitute", SUBSTITUTE, 65521, 16},
    {"read a card", READ, 65521, 16},
    {"read a card", READ, 1048433, 16},
    {"write a card", WRITE, 65521, 16},
    {"write a card", WRITE, 1048433, 16},
};

/* The sizes of the rows CONVERT. */
static const row by_matrix[] = {
    {"BY MATRIX", BY_MATRIX, 65521, 2},
    {"BY MATRIX", BY_MATRIX, 65521, 4},
    {"BY MATRIX", BY_MATRIX, 65521, 8},
    {"BY MATRIX", BY_MATRIX, 65521, 16},
    {"BY MATRIX", BY_MATRIX, 1048573, 2},
    {"BY MATRIX", BY_MATRIX, 1048573, 4},
    {"BY MATRIX", BY_MATRIX, 1048573, 14},
    {"BY MATRIX one residue", BY_MATRIX, 65521, 2, .single = 1},
    {"BY MATRIX one residue", BY_MATRIX, 65521, 16, .single = 1},
};

static const row differences[] = {
    {"DIFFERENCES", DIFFERENCES, 0, 1},
    {"DIFFERENCES", DIFFERENCES, 0, 2},
    {"DIFFERENCES", DIFFERENCES, 0, 3},
    {"DIFFERENCES", DIFFERENCES, 0, 4},
    {"DIFFERENCES", DIFFERENCES, 0, 8},
    {"DIFFERENCES", DIFFERENCES, 0, 15},
    {"DIFFERENCES", DIFFERENCES, 0, 16},
    {"RESTORE", RESTORE, 0, 1},
    {"RESTORE", RESTORE, 0, 2},
    {"RESTORE", RESTORE, 0, 3},
    {"RESTORE", RESTORE, 0, 4},
    {"RESTORE", RESTORE, 0, 8},
    {"RESTORE", RESTORE, 0, 15},
    {"RESTORE", RESTORE, 0, 16},
};

static const struct {
    const char *label, *columns[PEERS];
    const row *rows;
    size_t count;
} tables[] = {
    {"work, p, n", {"PARI", "FLINT", "NTL", "plain C"}, rows, sizeof rows / sizeof *rows},
    {"work, p, n", {"session", "FLINT", "FLINT columns", "NTL", "plain C"}, by_matrix, sizeof by_matrix / sizeof *by_matrix},
    {"work, n", {"memcpy", "plain C"}, differences, sizeof differences / sizeof *differences},
};
enum { TABLES = sizeof tables / sizeof *tables };

static size_t compare_rows(const row *first, size_t count) {
    static inputs in;
    for (const row *r = first; r < first + count; r++) {
        choose(r, &in);
        compare(&in);
    }
    return count;
}

static void print_times(const char *label, const char *const *columns, const row *first, size_t count) {
    static inputs in;
    times all[PEERS];
    print_header(label, columns);
    for (const row *r = first; r < first + count; r++) {
        choose(r, &in);
        print_row(columns, r, all, time_row(r, &in, all));
    }
}

int main(int count, char **arguments) {
    size_t compared = 0;
    for (size_t t = 0; t < TABLES; t++)
        compared += compare_rows(tables[t].rows, tables[t].count);
    if (count == 2 && !strcmp(arguments[1], "--check")) {
        printf("benchmark: all answers agree in %zu rows\n", compared);
        return 0;
    }
    for (size_t t = 0; t < TABLES; t++) {
        if (t)
            printf("\n");
        print_times(tables[t].label, tables[t].columns, tables[t].rows, tables[t].count);
    }
    return 0;
}
