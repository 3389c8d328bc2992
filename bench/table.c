/* The tables in Markdown: for each row our median and minimum in microseconds, and each peer's with the ratio of our median to the peer's. */
#include "rows.h"
#include <stdio.h>
#include <string.h>

enum { LABEL = 31, OWN = 15, WIDTH = 27 };

static double rounded(double time, double unit) { return (double)(long)(time / unit + 0.5) * unit; }

/* Three digits that count. */
static int show(char *out, size_t length, const times *t) {
    int digits = t->median < 0.1 ? 4 : t->median < 1 ? 3 : t->median < 10 ? 2 : t->median < 100 ? 1 : 0;
    if (digits)
        return snprintf(out, length, "%.*f (%.*f)", digits, t->median, digits, t->minimum);
    double unit = 1;
    while (t->median / unit >= 1000)
        unit *= 10;
    return snprintf(out, length, "%.0f (%.0f)", rounded(t->median, unit), rounded(t->minimum, unit));
}

static void show_ratio(char *out, size_t length, double ratio) {
    snprintf(out, length, " **%.*f**", ratio < 0.001 ? 5 : ratio < 0.01 ? 4 : ratio < 0.1 ? 3 : ratio < 10 ? 2 : 1, ratio);
}

void print_header(const char *label, const char *const *columns) {
    printf("| %-*s | %-*s |", LABEL, label, OWN, ours.name);
    for (const char *const *column = columns; *column; column++)
        printf(" %-*s |", WIDTH, *column);
    printf("\n|---|---|");
    for (const char *const *column = columns; *column; column++)
        printf("---|");
    printf("\n");
}

void print_row(const char *const *columns, const row *which, const times *all, size_t count) {
    char cell[64];
    if (which->p)
        snprintf(cell, sizeof cell, "%s %u, %u", which->name, which->p, which->n);
    else
        snprintf(cell, sizeof cell, "%s %u", which->name, which->n);
    printf("| %-*s |", LABEL, cell);
    show(cell, sizeof cell, &all[0]);
    printf(" %-*s |", OWN, cell);
    for (const char *const *column = columns; *column; column++) {
        *cell = 0;
        for (size_t i = 1; i < count; i++)
            if (!strcmp(all[i].name, *column)) {
                int used = show(cell, sizeof cell, &all[i]);
                show_ratio(cell + used, sizeof cell - (size_t)used, all[0].median / all[i].median);
            }
        printf(" %-*s |", WIDTH, cell);
    }
    printf("\n");
    fflush(stdout);
}
