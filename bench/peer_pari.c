/* PARI: Flx_ffisom finds an isomorphism, Flxq_ffisom_inv its inverse; Flx_Flxq_eval substitutes; Flx_is_irred tests a modulus as
 * polisirreducible does, by the degrees of its factors, and Flx_rootsff finds the roots of T1 in the field of T2 as polrootsmod does, both without
 * conversions; Flxq_matrix_pow gives the matrix of the powers; for the catalogue every monic polynomial is tested, for p = 2 too by Flx_is_irred, which
 * takes as long as F2x_is_irred. Its prepared form of a modulus of these degrees is the modulus itself. */
#include "peers.h"
#include <pari/pari.h>
#include <string.h>

static ulong p;
static uint32_t n;
static GEN t1[MOST_JOBS], t2[MOST_JOBS], s[MOST_JOBS], r[MOST_JOBS], u[MOST_JOBS], v[MOST_JOBS], x;
static pari_sp prepared;

/* The last answers; they stay on PARI's stack until the next work begins. */
static GEN value, back;
static int right;
static uint32_t moduli[LARGEST_CATALOGUE];
static size_t moduli_words;

static void start(void) {
    static int started;
    if (!started++)
        pari_init(64 << 20, 2);
}

static GEN polynomial(const uint32_t *words, uint32_t count, int monic) {
    GEN f = cgetg((long)count + 2 + monic, t_VECSMALL);
    f[1] = 0;
    for (uint32_t i = 0; i < count; i++)
        f[2 + i] = words[i];
    if (monic)
        f[2 + count] = 1;
    return Flx_renormalize(f, lg(f));
}

int is_irreducible(uint32_t prime, uint32_t degree, const uint32_t *t) {
    start();
    pari_sp before = avma;
    int answer = Flx_is_irred(polynomial(t, degree, 1), prime);
    set_avma(before);
    return answer;
}

static void prepare(const inputs *in) {
    start();
    set_avma(pari_mainstack->top);
    p = in->p, n = in->n, x = polx_Flx(0);
    for (size_t k = 0; k < in->models; k++) {
        const job *j = &in->job[k];
        t1[k] = polynomial(j->t1, n, 1), t2[k] = polynomial(j->t2, n, 1);
        s[k] = polynomial(j->s, n, 0), r[k] = polynomial(j->r, n, 0), u[k] = polynomial(j->u, n, 0), v[k] = polynomial(j->v, n, 0);
    }
    prepared = avma;
}

static void find(size_t k) {
    set_avma(prepared);
    value = Flx_ffisom(t1[k], t2[k], p);
    back = Flxq_ffisom_inv(value, t2[k], p);
}

static void irreducible(size_t k) {
    set_avma(prepared);
    right = Flx_is_irred(t1[k], p);
}

/* The next list of n words in ascending order, or 0 after the last. */
static int advance(GEN f) {
    for (uint32_t i = 0; i < n; i++) {
        if ((ulong)++f[2 + i] < p)
            return 1;
        f[2 + i] = 0;
    }
    return 0;
}

static void catalogue(size_t k) {
    static const uint32_t first[LARGEST_DEGREE];
    set_avma(prepared);
    GEN f = polynomial(first, n, 1);
    pari_sp before = avma;
    moduli_words = 0;
    do {
        if (Flx_is_irred(f, p))
            for (uint32_t i = 0; i < n; i++)
                moduli[moduli_words++] = (uint32_t)f[2 + i];
        set_avma(before);
    } while (advance(f));
}

static void check(size_t k) {
    set_avma(prepared);
    right = Flx_is_irred(t1[k], p) && Flx_is_irred(t2[k], p)
            && lgpol(Flx_Flxq_eval(t1[k], s[k], t2[k], p)) == 0 && lgpol(Flx_Flxq_eval(t2[k], r[k], t1[k], p)) == 0
            && Flx_equal(Flx_Flxq_eval(s[k], r[k], t1[k], p), Flx_rem(x, t1[k], p))
            && Flx_equal(Flx_Flxq_eval(r[k], s[k], t2[k], p), Flx_rem(x, t2[k], p));
}

static void maps(size_t k) {
    set_avma(prepared);
    value = Flx_rootsff(t1[k], t2[k], p);
}

static void matrices(size_t k) {
    check(k);
    value = Flxq_matrix_pow(s[k], n, n, t2[k], p);
    back = Flxq_matrix_pow(r[k], n, n, t1[k], p);
}

static void product(size_t k) {
    set_avma(prepared);
    value = Flxq_mul(u[k], v[k], t2[k], p);
}

static void power(size_t k) {
    set_avma(prepared);
    value = Flxq_powu(u[k], EXPONENT, t2[k], p);
}

static void substitute(size_t k) {
    set_avma(prepared);
    value = Flx_Flxq_eval(u[k], s[k], t2[k], p);
}

static void list(GEN f, uint32_t *out) {
    for (uint32_t i = 0; i < n; i++)
        out[i] = i < lgpol(f) ? (uint32_t)f[2 + i] : 0;
}

static size_t residue(uint32_t *out) {
    list(value, out);
    return n;
}

static size_t listed(uint32_t *out) {
    memcpy(out, moduli, moduli_words * sizeof *out);
    return moduli_words;
}

static size_t pair(uint32_t *out) {
    list(value, out), list(back, out + n);
    return 2 * n;
}

static size_t residues(uint32_t *out) {
    size_t count = lg(value) - 1;
    for (size_t i = 0; i < count; i++)
        list(gel(value, i + 1), out + i * n);
    return sorted(n, count, out);
}

static size_t both(uint32_t *out) {
    for (uint32_t i = 0; i < n; i++)
        for (uint32_t j = 0; j < n; j++) {
            out[i * n + j] = (uint32_t)coeff(value, i + 1, j + 1);
            out[(n + i) * n + j] = (uint32_t)coeff(back, i + 1, j + 1);
        }
    return right ? 2 * n * n : 0;
}

static size_t accepted(uint32_t *out) {
    *out = (uint32_t)right;
    return 1;
}

const peer pari = {"PARI", prepare, {
    [FIND] = {find, pair}, [CHECK] = {check, accepted}, [IRREDUCIBLE] = {irreducible, accepted}, [CATALOGUE] = {catalogue, listed},
    [MAPS] = {maps, residues}, [MATRICES] = {matrices, both}, [PRODUCT] = {product, residue}, [POWER] = {power, residue},
    [SUBSTITUTE] = {substitute, residue},
}};
