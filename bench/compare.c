/* Compares the answers of all who do a work, before anything is timed, and ends the program at the first that differs. A pair found is not
 * compared with another, as a field has several, but judged: each peer checks it. */
#include "rows.h"
#include "yokebean.h"
#include <stdarg.h>
#include <stdio.h>
#include <stdlib.h>
#include <string.h>

static const char *const names[WORKS] = {
    "FIND",    "CHECK",   "IRREDUCIBLE", "CATALOGUE",  "MAPS",        "MATRICES",     "CONVERT", "BY MATRIX", "DIFFERENCES",
    "RESTORE", "product", "power",       "substitute", "read a card", "write a card", "power",   "power",
};

static void fail(const inputs *in, int what, size_t k, const char *why, ...) {
    va_list rest;
    va_start(rest, why);
    fprintf(stderr, "%s, p = %u, n = %u, pair %zu: ", names[what], in->p, in->n, k + 1);
    vfprintf(stderr, why, rest);
    fprintf(stderr, "\n");
    va_end(rest);
    exit(1);
}

static uint32_t degree;

static int from_the_top(const void *left, const void *right) {
    const uint32_t *u = left, *v = right;
    for (uint32_t i = degree; i-- > 0;)
        if (u[i] != v[i])
            return u[i] < v[i] ? -1 : 1;
    return 0;
}

size_t sorted(uint32_t n, size_t residues, uint32_t *words) {
    degree = n;
    qsort(words, residues, n * sizeof *words, from_the_top);
    return residues * n;
}

static size_t answer(const inputs *in, const peer *who, int what, size_t k, uint32_t *out) {
    who->works[what].run(k);
    size_t count = who->works[what].answer(out);
    if (!count)
        fail(in, what, k, "%s: no answer", who->name);
    return count;
}

/* Everyone must answer `right`, 1 or 0, to all jobs; `maker` is who or what made them. */
static void judge(const inputs *in, int what, uint32_t right, const char *maker) {
    for (size_t i = 0; i < PEERS; i++)
        if (does(peers[i], what, in->n)) {
            peers[i]->prepare(in);
            for (size_t k = 0; k < in->jobs; k++) {
                uint32_t given;
                answer(in, peers[i], what, k, &given);
                if (given != right)
                    fail(in, what, k, "%s: %s what was made by %s", peers[i]->name, right ? "refuses" : "accepts", maker);
            }
        }
}

static void compare_found(const inputs *in) {
    static inputs found;
    for (size_t i = 0; i < PEERS; i++)
        if (does(peers[i], FIND, in->n)) {
            found = *in;
            peers[i]->prepare(in);
            for (size_t k = 0; k < in->jobs; k++) {
                uint32_t pair[2 * LARGEST_DEGREE];
                answer(in, peers[i], FIND, k, pair);
                memcpy(found.job[k].s, pair, in->n * sizeof *pair);
                memcpy(found.job[k].r, pair + in->n, in->n * sizeof *pair);
            }
            judge(&found, CHECK, 1, peers[i]->name);
        }
}

/* Wrong in turn by another constant in S, and by the p-th power of R, which is a root of T2 as R is but does not undo S. */
static void compare_refused(const inputs *in) {
    static inputs wrong;
    wrong = *in;
    for (size_t k = 0; k < in->jobs; k++) {
        job *j = &wrong.job[k];
        if (k % 2)
            yokebean_power(in->p, in->n, j->t1, in->n, in->job[k].r, in->n, in->p, j->r, in->n);
        else
            j->s[0] = (j->s[0] + 1) % in->p;
    }
    judge(&wrong, CHECK, 0, "changing S or R");
}

static void compare_moduli(const inputs *in) {
    static inputs reducible;
    choose_reducible(in, &reducible);
    judge(in, IRREDUCIBLE, 1, "drawing until PARI accepts");
    judge(&reducible, IRREDUCIBLE, 0, "multiplying two factors");
    judge(&reducible, CHECK, 0, "multiplying two factors");
}

static void compare_words(const inputs *in, int what) {
    static uint32_t own[LARGEST_CATALOGUE], other[LARGEST_CATALOGUE];
    ours.prepare(in);
    for (size_t i = 1; i < PEERS; i++)
        if (does(peers[i], what, in->n) && peers[i]->works[what].answer) {
            peers[i]->prepare(in);
            for (size_t k = 0; k < in->jobs; k++) {
                size_t count = answer(in, &ours, what, k, own);
                if (answer(in, peers[i], what, k, other) != count)
                    fail(in, what, k, "%s: another number of words than ours", peers[i]->name);
                for (size_t place = 0; place < count; place++)
                    if (own[place] != other[place])
                        fail(in, what, k, "%s: word %zu is %u, ours is %u", peers[i]->name, place, other[place], own[place]);
            }
        }
}

void compare(const inputs *in) {
    if (!in->models) {
        if (in->p)
            compare_words(in, CATALOGUE);
        else
            compare_words(in, DIFFERENCES), compare_words(in, RESTORE);
        return;
    }
    compare_found(in);
    compare_refused(in);
    compare_moduli(in);
    for (int what = MAPS; what < WORKS; what++)
        compare_words(in, what);
}
