/* Plain C: the product by Horner's rule on u64, the top word reduced in each step and all words at the end; power and substitution by such
 * products; the conversion of a table by the matrix of the powers of S, with sums of products in a u64 and one division for each word, from a matrix
 * of u64 or, where the matrix is given, of u32, row after row; the matrices by products, and the maps as the conjugates of S, each from the one before
 * by the matrix of the powers of X^p, sorted, both without a test of the pair. */
#include "peers.h"
#include <string.h>

typedef struct {
    uint64_t t1[LARGEST_DEGREE], t2[LARGEST_DEGREE], s[LARGEST_DEGREE], r[LARGEST_DEGREE], u[LARGEST_DEGREE], v[LARGEST_DEGREE];
    uint64_t powers[LARGEST_DEGREE][LARGEST_DEGREE];
    uint32_t matrix[LARGEST_MATRIX];
} forms;

static uint64_t p;
static size_t n, words;
static forms form[MOST_JOBS];
static uint64_t value[LARGEST_DEGREE];
static uint32_t list[2 * LARGEST_MATRIX], table[LARGEST_TABLE], image[LARGEST_TABLE];

static void multiply(const uint64_t *t, const uint64_t *u, const uint64_t *v, uint64_t *out) {
    uint64_t w[LARGEST_DEGREE] = {0};
    for (size_t k = n; k-- > 0;) {
        uint64_t minus_top = p - w[n - 1] % p;
        for (size_t i = n - 1; i > 0; i--)
            w[i] = w[i - 1] + minus_top * t[i] + u[k] * v[i];
        w[0] = minus_top * t[0] + u[k] * v[0];
    }
    for (size_t i = 0; i < n; i++)
        out[i] = w[i] % p;
}

/* Row i becomes s^i. */
static void set_powers(const uint64_t *t, const uint64_t *s, uint64_t rows[][LARGEST_DEGREE]) {
    memset(rows[0], 0, sizeof rows[0]);
    rows[0][0] = 1;
    for (size_t i = 1; i < n; i++)
        multiply(t, rows[i - 1], s, rows[i]);
}

/* Row after row, the matrix whose columns are the powers of s. */
static void set_matrix(const uint64_t *t, const uint64_t *s, uint32_t *matrix) {
    uint64_t rows[LARGEST_DEGREE][LARGEST_DEGREE];
    set_powers(t, s, rows);
    for (size_t i = 0; i < n; i++)
        for (size_t j = 0; j < n; j++)
            matrix[i * n + j] = (uint32_t)rows[j][i];
}

static void widen(const uint32_t *from, uint64_t *to) {
    for (size_t i = 0; i < n; i++)
        to[i] = from[i];
}

static void prepare(const inputs *in) {
    p = in->p, n = in->n, words = in->words;
    memcpy(table, in->table, sizeof table);
    memset(form, 0, sizeof form);
    for (size_t k = 0; k < in->models; k++) {
        const job *j = &in->job[k];
        forms *f = &form[k];
        widen(j->t1, f->t1), widen(j->t2, f->t2), widen(j->s, f->s), widen(j->r, f->r), widen(j->u, f->u), widen(j->v, f->v);
        set_powers(f->t2, f->s, f->powers);
        set_matrix(f->t2, f->s, f->matrix);
    }
}

static void product(size_t k) { multiply(form[k].t2, form[k].u, form[k].v, value); }

/* value := u^exponent modulo t. */
static void raise(const uint64_t *t, const uint64_t *u, uint64_t exponent) {
    memcpy(value, u, sizeof value);
    for (int bit = 62 - __builtin_clzll(exponent); bit >= 0; bit--) {
        multiply(t, value, value, value);
        if (exponent >> bit & 1)
            multiply(t, value, u, value);
    }
}

static void power(size_t k) { raise(form[k].t2, form[k].u, EXPONENT); }
static void long_power(size_t k) { raise(form[k].t2, form[k].u, 1ull << 60); }
static void short_power(size_t k) { raise(form[k].t2, form[k].u, 1ull << 12); }

static void substitute(size_t k) {
    const forms *f = &form[k];
    memset(value, 0, sizeof value);
    for (size_t i = n; i-- > 0;) {
        multiply(f->t2, value, f->s, value);
        value[0] = (value[0] + f->u[i]) % p;
    }
}

static int lower(const uint32_t *u, const uint32_t *v) {
    for (size_t i = n; i-- > 0;)
        if (u[i] != v[i])
            return u[i] < v[i];
    return 0;
}

/* Inserts value into the first k residues of the list, which are in ascending order. */
static void insert(size_t k) {
    uint32_t u[LARGEST_DEGREE];
    for (size_t i = 0; i < n; i++)
        u[i] = (uint32_t)value[i];
    for (; k > 0 && lower(u, list + (k - 1) * n); k--)
        memcpy(list + k * n, list + (k - 1) * n, n * sizeof *list);
    memcpy(list + k * n, u, n * sizeof *list);
}

static void maps(size_t k) {
    static const uint64_t x[LARGEST_DEGREE] = {0, 1};
    const forms *f = &form[k];
    uint64_t frobenius[LARGEST_DEGREE][LARGEST_DEGREE], next[LARGEST_DEGREE];
    raise(f->t2, x, p);
    set_powers(f->t2, value, frobenius);
    memcpy(value, f->s, sizeof value);
    for (size_t i = 0; i < n; i++) {
        insert(i);
        for (size_t j = 0; j < n; j++) {
            next[j] = 0;
            for (size_t m = 0; m < n; m++)
                next[j] += frobenius[m][j] * value[m];
        }
        for (size_t j = 0; j < n; j++)
            value[j] = next[j] % p;
    }
}

static void matrices(size_t k) {
    const forms *f = &form[k];
    set_matrix(f->t2, f->s, list);
    set_matrix(f->t1, f->r, list + n * n);
}

static void convert(size_t k) {
    const forms *f = &form[k];
    for (size_t g = 0; g < words; g += n)
        for (size_t i = 0; i < n; i++) {
            uint64_t sum = 0;
            for (size_t j = 0; j < n; j++)
                sum += f->powers[j][i] * table[g + j];
            image[g + i] = (uint32_t)(sum % p);
        }
}

static void by_matrix(size_t k) {
    const uint32_t *matrix = form[k].matrix;
    for (size_t g = 0; g < words; g += n)
        for (size_t i = 0; i < n; i++) {
            uint64_t sum = 0;
            for (size_t j = 0; j < n; j++)
                sum += (uint64_t)matrix[i * n + j] * table[g + j];
            image[g + i] = (uint32_t)(sum % p);
        }
}

static size_t residue(uint32_t *out) {
    for (size_t i = 0; i < n; i++)
        out[i] = (uint32_t)value[i];
    return n;
}

static size_t residues(uint32_t *out) {
    memcpy(out, list, n * n * sizeof *out);
    return n * n;
}

static size_t both(uint32_t *out) {
    memcpy(out, list, 2 * n * n * sizeof *out);
    return 2 * n * n;
}

static size_t converted(uint32_t *out) {
    memcpy(out, image, words * sizeof *out);
    return words;
}

const peer plain = {"plain C", prepare, {
    [MAPS] = {maps, residues}, [MATRICES] = {matrices, both}, [CONVERT] = {convert, converted}, [BY_MATRIX] = {by_matrix, converted},
    [PRODUCT] = {product, residue}, [POWER] = {power, residue}, [SUBSTITUTE] = {substitute, residue},
    [LONG] = {long_power, residue}, [SHORT] = {short_power, residue},
}};
