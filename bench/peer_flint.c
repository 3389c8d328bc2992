/* FLINT: for each work the call that is fastest at its size, which from degree 8 is the one with a prepared inverse; a table is converted by
 * nmod_mat_mul, the table times the matrix of the powers of S, or that matrix, transposed, times the table with a residue in each column; the powers
 * of S and R go into the rows of two matrices, with a prepared inverse; a modulus is tested by FLINT's default, the degrees of its factors, and at the
 * smallest sizes by Rabin's test; for the catalogue every monic polynomial is tested so, since to split the product of the irreducible ones by
 * nmod_poly_factor_equal_deg takes more than ten times as long; the maps are the roots of T1 in the field of T2, by fq_nmod_poly_roots, which takes
 * 0.5 ms in degree 4 and 70 ms in degree 16. */
#include "peers.h"
#include <flint/fq_nmod_poly.h>
#include <flint/fq_nmod_poly_factor.h>
#include <flint/nmod_mat.h>
#include <flint/nmod_poly.h>
#include <flint/nmod_poly_factor.h>
#include <string.h>

enum { PREPARED_FROM = 8 /* n */, RABIN_BELOW = 22 /* p·n */, ROOTS_UP_TO = 4 /* n */ };

typedef struct {
    nmod_poly_t t1, t2, inverse1, inverse2, s, r, u, v, x1, x2;
    nmod_mat_t powers, transposed;
    fq_nmod_ctx_t field;
    fq_nmod_poly_t t1_over_field;
    fq_nmod_poly_factor_t roots;
} forms;

static forms form[MOST_JOBS];
static nmod_mat_t table, image, columns, columns_image, forward, back;
static nmod_poly_t value, tested;
static const forms *solved;
static int right, prepared;
static uint32_t p, n, moduli[LARGEST_CATALOGUE];
static size_t models, moduli_words;

static void set(nmod_poly_t f, const uint32_t *words, int monic) {
    nmod_poly_init(f, p);
    for (uint32_t i = 0; i < n; i++)
        nmod_poly_set_coeff_ui(f, i, words[i]);
    if (monic)
        nmod_poly_set_coeff_ui(f, n, 1);
}

static void set_inverse(nmod_poly_t inverse, const nmod_poly_t t) {
    nmod_poly_init(inverse, p);
    nmod_poly_reverse(inverse, t, n + 1);
    nmod_poly_inv_series(inverse, inverse, n + 1);
}

static void set_residue_of_x(nmod_poly_t f, const nmod_poly_t t) {
    nmod_poly_init(f, p);
    nmod_poly_set_coeff_ui(f, 1, 1);
    nmod_poly_rem(f, f, t);
}

static void set_powers(forms *f) {
    nmod_mat_init(f->powers, n, n, p);
    nmod_poly_one(value);
    for (slong k = 0; k < n; k++) {
        for (slong i = 0; i < n; i++)
            nmod_mat_entry(f->powers, k, i) = nmod_poly_get_coeff_ui(value, i);
        nmod_poly_mulmod(value, value, f->s, f->t2);
    }
    nmod_mat_init(f->transposed, n, n, p);
    nmod_mat_transpose(f->transposed, f->powers);
}

static void set_field(forms *f) {
    fq_nmod_ctx_init_modulus(f->field, f->t2, "X");
    fq_nmod_poly_init(f->t1_over_field, f->field), fq_nmod_poly_factor_init(f->roots, f->field);
    fq_nmod_poly_set_nmod_poly(f->t1_over_field, f->t1, f->field);
}

static void clear(void) {
    for (forms *f = form; f < form + models; f++) {
        nmod_poly_clear(f->t1), nmod_poly_clear(f->t2), nmod_poly_clear(f->inverse1), nmod_poly_clear(f->inverse2);
        nmod_poly_clear(f->s), nmod_poly_clear(f->r), nmod_poly_clear(f->u), nmod_poly_clear(f->v);
        nmod_poly_clear(f->x1), nmod_poly_clear(f->x2), nmod_mat_clear(f->powers), nmod_mat_clear(f->transposed);
        fq_nmod_poly_clear(f->t1_over_field, f->field), fq_nmod_poly_factor_clear(f->roots, f->field), fq_nmod_ctx_clear(f->field);
    }
    if (prepared) {
        nmod_mat_clear(table), nmod_mat_clear(image), nmod_mat_clear(columns), nmod_mat_clear(columns_image);
        nmod_mat_clear(forward), nmod_mat_clear(back), nmod_poly_clear(value), nmod_poly_clear(tested);
    }
}

static void prepare(const inputs *in) {
    clear();
    p = in->p, n = in->n, models = in->models, prepared = 1;
    nmod_poly_init(value, p), nmod_poly_init(tested, p);
    for (size_t k = 0; k < models; k++) {
        const job *j = &in->job[k];
        forms *f = &form[k];
        set(f->t1, j->t1, 1), set(f->t2, j->t2, 1);
        set(f->s, j->s, 0), set(f->r, j->r, 0), set(f->u, j->u, 0), set(f->v, j->v, 0);
        set_inverse(f->inverse1, f->t1), set_inverse(f->inverse2, f->t2);
        set_residue_of_x(f->x1, f->t1), set_residue_of_x(f->x2, f->t2);
        set_powers(f);
        set_field(f);
    }
    slong groups = (slong)(in->words / n);
    nmod_mat_init(table, groups, n, p), nmod_mat_init(image, groups, n, p);
    for (slong g = 0; g < groups; g++)
        for (slong i = 0; i < n; i++)
            nmod_mat_entry(table, g, i) = in->table[g * n + i];
    nmod_mat_init(columns, n, groups, p), nmod_mat_init(columns_image, n, groups, p);
    nmod_mat_transpose(columns, table);
    nmod_mat_init(forward, n, n, p), nmod_mat_init(back, n, n, p);
}

/* value := f(s) modulo t, where f has degree below n. */
static void evaluate(const nmod_poly_t f, const nmod_poly_t s, const nmod_poly_t t, const nmod_poly_t inverse) {
    if (n < PREPARED_FROM)
        nmod_poly_compose_mod(value, f, s, t);
    else
        nmod_poly_compose_mod_brent_kung_preinv(value, f, s, t, inverse);
}

static int test(const nmod_poly_t t) { return p * n < RABIN_BELOW ? nmod_poly_is_irreducible_rabin(t) : nmod_poly_is_irreducible(t); }

static void irreducible(size_t k) { right = test(form[k].t1); }

/* The next list of n words in ascending order, or 0 after the last. */
static int advance(nmod_poly_t f) {
    for (uint32_t i = 0; i < n; i++) {
        if (++f->coeffs[i] < p)
            return 1;
        f->coeffs[i] = 0;
    }
    return 0;
}

static void catalogue(size_t k) {
    nmod_poly_zero(tested);
    nmod_poly_set_coeff_ui(tested, n, 1);
    moduli_words = 0;
    do {
        if (test(tested))
            for (uint32_t i = 0; i < n; i++)
                moduli[moduli_words++] = (uint32_t)tested->coeffs[i];
    } while (advance(tested));
}

static void check(size_t k) {
    const forms *f = &form[k];
    right = test(f->t1) && test(f->t2);
    nmod_poly_compose_mod(value, f->t1, f->s, f->t2);
    right &= nmod_poly_is_zero(value);
    nmod_poly_compose_mod(value, f->t2, f->r, f->t1);
    right &= nmod_poly_is_zero(value);
    evaluate(f->s, f->r, f->t1, f->inverse1);
    right &= nmod_poly_equal(value, f->x1);
    evaluate(f->r, f->s, f->t2, f->inverse2);
    right &= nmod_poly_equal(value, f->x2);
}

static void maps(size_t k) {
    forms *f = &form[k];
    fq_nmod_poly_roots(f->roots, f->t1_over_field, 0, f->field);
    solved = f;
}

static void powers_in_rows(nmod_mat_t rows, const nmod_poly_t s, const nmod_poly_t t, const nmod_poly_t inverse) {
    _nmod_poly_powers_mod_preinv_naive(rows->rows, s->coeffs, s->length, n, t->coeffs, t->length, inverse->coeffs, inverse->length, t->mod);
}

static void matrices(size_t k) {
    const forms *f = &form[k];
    check(k);
    powers_in_rows(forward, f->s, f->t2, f->inverse2);
    powers_in_rows(back, f->r, f->t1, f->inverse1);
}

static void convert(size_t k) { nmod_mat_mul(image, table, form[k].powers); }
static void convert_columns(size_t k) { nmod_mat_mul(columns_image, form[k].transposed, columns); }

static void product(size_t k) {
    const forms *f = &form[k];
    if (n < PREPARED_FROM)
        nmod_poly_mulmod(value, f->u, f->v, f->t2);
    else
        nmod_poly_mulmod_preinv(value, f->u, f->v, f->t2, f->inverse2);
}

static void power(size_t k) {
    const forms *f = &form[k];
    if (n < PREPARED_FROM)
        nmod_poly_powmod_ui_binexp(value, f->u, EXPONENT, f->t2);
    else
        nmod_poly_powmod_ui_binexp_preinv(value, f->u, EXPONENT, f->t2, f->inverse2);
}

static void substitute(size_t k) { evaluate(form[k].u, form[k].s, form[k].t2, form[k].inverse2); }

static size_t residue(uint32_t *out) {
    for (uint32_t i = 0; i < n; i++)
        out[i] = (uint32_t)nmod_poly_get_coeff_ui(value, i);
    return n;
}

static size_t listed(uint32_t *out) {
    memcpy(out, moduli, moduli_words * sizeof *out);
    return moduli_words;
}

/* A root is given as a factor, X less the root. */
static size_t residues(uint32_t *out) {
    const fq_nmod_poly_factor_struct *all = solved->roots;
    fq_nmod_t root;
    fq_nmod_init(root, solved->field);
    for (slong k = 0; k < all->num; k++) {
        fq_nmod_poly_get_coeff(root, all->poly + k, 0, solved->field);
        fq_nmod_neg(root, root, solved->field);
        for (slong i = 0; i < n; i++)
            out[k * n + i] = (uint32_t)nmod_poly_get_coeff_ui(root, i);
    }
    fq_nmod_clear(root, solved->field);
    return sorted(n, (size_t)all->num, out);
}

static size_t both(uint32_t *out) {
    for (slong i = 0; i < n; i++)
        for (slong j = 0; j < n; j++) {
            out[i * n + j] = (uint32_t)nmod_mat_entry(forward, j, i);
            out[(n + i) * n + j] = (uint32_t)nmod_mat_entry(back, j, i);
        }
    return right ? 2 * n * n : 0;
}

static size_t converted(uint32_t *out) {
    for (slong g = 0; g < image->r; g++)
        for (slong i = 0; i < n; i++)
            out[g * n + i] = (uint32_t)nmod_mat_entry(image, g, i);
    return (size_t)image->r * n;
}

static size_t converted_columns(uint32_t *out) {
    nmod_mat_transpose(image, columns_image);
    return converted(out);
}

static size_t accepted(uint32_t *out) {
    *out = (uint32_t)right;
    return 1;
}

const peer flint = {"FLINT", prepare, {
    [CHECK] = {check, accepted}, [IRREDUCIBLE] = {irreducible, accepted}, [CATALOGUE] = {catalogue, listed},
    [MAPS] = {maps, residues, ROOTS_UP_TO}, [MATRICES] = {matrices, both}, [CONVERT] = {convert, converted}, [BY_MATRIX] = {convert, converted},
    [PRODUCT] = {product, residue}, [POWER] = {power, residue}, [SUBSTITUTE] = {substitute, residue},
}};

const peer flint_columns = {"FLINT columns", prepare, {[BY_MATRIX] = {convert_columns, converted_columns}}};
