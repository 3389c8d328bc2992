/* The inputs of a row: random irreducible moduli, the same in every run, and the pairs that our finder gives for them. Beside them reducible
 * moduli, which are compared and not timed. */
#include "rows.h"
#include "yokebean.h"
#include <stdio.h>
#include <stdlib.h>
#include <string.h>

static uint64_t state;

static uint32_t random_below(uint32_t p) {
    state ^= state << 13, state ^= state >> 7, state ^= state << 17;
    return (uint32_t)((state >> 16) % p);
}

static void random_words(uint32_t p, size_t count, uint32_t *out) {
    for (size_t i = 0; i < count; i++)
        out[i] = random_below(p);
}

static void random_modulus(uint32_t p, uint32_t n, uint32_t *t) {
    do
        random_words(p, n, t);
    while (!is_irreducible(p, n, t));
}

static int is_new(const inputs *in, const job *j) {
    for (size_t k = 0; k < in->jobs; k++)
        if (!memcmp(in->job[k].t1, j->t1, sizeof j->t1) && !memcmp(in->job[k].t2, j->t2, sizeof j->t2))
            return 0;
    return 1;
}

static void complete(inputs *in, job *j) {
    uint32_t p = in->p, n = in->n;
    uint32_t *lists[] = {j->t1, j->t2, j->s, j->r};
    random_words(p, n, j->u), random_words(p, n, j->v);
    uint32_t number = yokebean_find(p, n, j->t1, n, j->t2, n, j->s, n, j->r, n);
    for (size_t i = 0; i < 4; i++)
        memcpy(j->coefficients + i * n, lists[i], n * sizeof *j->coefficients);
    if (!number)
        number = yokebean_card_write(p, n, 2, j->coefficients, 4 * n, j->card, in->card_length);
    if (number) {
        fprintf(stderr, "p = %u, n = %u: our library refuses irreducible moduli or their card with %u\n", p, n, number);
        exit(1);
    }
}

/* Sixteen different pairs of moduli, or all that there are: a thousand draws meet each of the nine pairs of p = 3, n = 2 and of p = 2, n = 4, and
 * the one pair of p = 2, n = 2. */
static void choose_models(inputs *in) {
    size_t width = 0;
    while ((in->p - 1) >> width)
        width++;
    in->card_length = ((in->p > 65535 ? 48 : 24) + 4 * in->n * width + 7) / 8;
    for (int draws = 0; draws < 1000 && in->jobs < MOST_JOBS; draws++) {
        job *next = &in->job[in->jobs];
        random_modulus(in->p, in->n, next->t1), random_modulus(in->p, in->n, next->t2);
        if (is_new(in, next)) {
            complete(in, next);
            in->jobs++;
        }
    }
    in->models = in->jobs;
}

void choose(const row *which, inputs *in) {
    memset(in, 0, sizeof *in);
    in->p = which->p, in->n = which->n, in->words = which->single ? in->n : LARGEST_TABLE / in->n * in->n;
    state = 88172645463325252ull + in->p * 32 + in->n;
    if (in->p && which->work != CATALOGUE)
        choose_models(in);
    else
        in->jobs = 1;
    random_words(in->p ? in->p : UINT32_MAX, in->words, in->table);
}

/* A monic factor with its leading 1, irreducible or any. */
static void random_factor(uint32_t p, uint32_t degree, int irreducible, uint32_t *f) {
    if (irreducible)
        random_modulus(p, degree, f);
    else
        random_words(p, degree, f);
    f[degree] = 1;
}

static void random_product(uint32_t p, uint32_t n, uint32_t degree, int irreducible, uint32_t *t) {
    uint32_t f[LARGEST_DEGREE], g[LARGEST_DEGREE];
    uint64_t product[LARGEST_DEGREE + 1] = {0};
    random_factor(p, degree, irreducible, f), random_factor(p, n - degree, irreducible, g);
    for (uint32_t i = 0; i <= degree; i++)
        for (uint32_t j = 0; j <= n - degree; j++)
            product[i + j] += (uint64_t)f[i] * g[j];
    for (uint32_t i = 0; i < n; i++)
        t[i] = (uint32_t)(product[i] % p);
}

/* As many jobs with the same p and n, n above 1: T1 is the product of two factors, in turn irreducible and any, T2 is T1(-X) made monic, and
 * S = R = -X, so that the four congruences hold and only the moduli are to be refused. */
void choose_reducible(const inputs *in, inputs *out) {
    memset(out, 0, sizeof *out);
    out->p = in->p, out->n = in->n, out->words = in->n, out->jobs = out->models = in->jobs;
    for (size_t k = 0; k < in->jobs; k++) {
        job *j = &out->job[k];
        random_product(in->p, in->n, 1 + (uint32_t)k / 2 % (in->n - 1), k % 2 == 0, j->t1);
        for (uint32_t i = 0; i < in->n; i++)
            j->t2[i] = (in->n - i) % 2 ? (in->p - j->t1[i]) % in->p : j->t1[i];
        j->s[1] = j->r[1] = in->p - 1;
    }
}
