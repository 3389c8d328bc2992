// NTL: CompMod substitutes modulo a prepared modulus; a table is converted by mul, the table times the matrix of the powers of S; IterIrredTest
// is the faster of the two tests that do not err; for the catalogue it tests every monic polynomial, for p = 2 as a GF2X, whose coefficients are bits,
// which takes a third of the time; the maps are the roots of T1 in the field of T2, by FindRoots, which takes 0.5 ms in degree 4 and 190 ms in degree
// 16.
#include "peers.h"
#include <NTL/GF2XFactoring.h>
#include <NTL/lzz_pEXFactoring.h>
#include <NTL/lzz_pX.h>
#include <NTL/lzz_pXFactoring.h>
#include <NTL/mat_lzz_p.h>
#include <algorithm>
#include <vector>

using namespace NTL;

namespace {

enum { ROOTS_UP_TO = 4 /* n */ };

struct Forms {
    zz_pX t1, t2, s, r, u, v, x1, x2;
    zz_pXModulus modulus1, modulus2;
    mat_zz_p powers;
    zz_pEContext field;
    zz_pEX t1_over_field;
};

// All that depends on p, made anew for each p.
struct Prepared {
    Forms form[MOST_JOBS];
    mat_zz_p table, image, forward, back;
    zz_pX value;
    vec_zz_pE roots;
    std::vector<uint32_t> moduli;
    bool right;
    long p, n;
};

Prepared *prepared;

zz_pX polynomial(const uint32_t *words, long n, bool monic) {
    zz_pX f;
    for (long i = 0; i < n; i++)
        SetCoeff(f, i, words[i]);
    if (monic)
        SetCoeff(f, n, 1);
    return f;
}

// Row k becomes s^k.
void set_powers(mat_zz_p &powers, const zz_pX &s, const zz_pXModulus &modulus) {
    long n = deg(modulus);
    powers.SetDims(n, n);
    zz_pX value(1);
    for (long k = 0; k < n; k++) {
        if (k > 0)
            MulMod(value, value, s, modulus);
        for (long i = 0; i < n; i++)
            powers[k][i] = coeff(value, i);
    }
}

void prepare(const inputs *in) {
    delete prepared;
    zz_p::init(in->p);
    prepared = new Prepared;
    prepared->p = in->p, prepared->moduli.reserve(LARGEST_CATALOGUE);
    long n = prepared->n = in->n, groups = in->words / in->n;
    zz_pX x;
    SetX(x);
    for (size_t k = 0; k < in->models; k++) {
        const job &j = in->job[k];
        Forms &f = prepared->form[k];
        f.t1 = polynomial(j.t1, n, true), f.t2 = polynomial(j.t2, n, true);
        f.s = polynomial(j.s, n, false), f.r = polynomial(j.r, n, false);
        f.u = polynomial(j.u, n, false), f.v = polynomial(j.v, n, false);
        build(f.modulus1, f.t1), build(f.modulus2, f.t2);
        rem(f.x1, x, f.modulus1), rem(f.x2, x, f.modulus2);
        set_powers(f.powers, f.s, f.modulus2);
        f.field = zz_pEContext(f.t2);
        f.field.restore();
        conv(f.t1_over_field, f.t1);
    }
    prepared->table.SetDims(groups, n);
    for (long g = 0; g < groups; g++)
        for (long i = 0; i < n; i++)
            prepared->table[g][i] = in->table[g * n + i];
}

// T(S) as S^n + t(S): CompMod takes polynomials of degree below n.
bool is_root(const zz_pX &t, const zz_pX &s, const zz_pXModulus &modulus) {
    long n = deg(t);
    zz_pX lower = trunc(t, n), low, high;
    CompMod(low, lower, s, modulus);
    PowerMod(high, s, n, modulus);
    return IsZero(low + high);
}

void irreducible(size_t k) { prepared->right = IterIrredTest(prepared->form[k].t1); }

// The next list of n words in ascending order, or false after the last.
bool advance(zz_pX &f, long n) {
    for (long i = 0; i < n; i++) {
        f[i] += 1;
        if (!IsZero(f[i]))
            return true;
    }
    return false;
}

void list_words(long n) {
    zz_pX f(INIT_MONO, n);
    do
        if (IterIrredTest(f))
            for (long i = 0; i < n; i++)
                prepared->moduli.push_back(uint32_t(rep(f[i])));
    while (advance(f, n));
}

// For p = 2.
void list_bits(long n) {
    GF2X f(INIT_MONO, n);
    for (unsigned long code = 1ul << n; code < 2ul << n; code++) {
        f.xrep[0] = code;
        if (IterIrredTest(f))
            for (long i = 0; i < n; i++)
                prepared->moduli.push_back(uint32_t(code >> i & 1));
    }
}

void catalogue(size_t k) {
    prepared->moduli.clear();
    if (prepared->p == 2)
        list_bits(prepared->n);
    else
        list_words(prepared->n);
}

void check(size_t k) {
    const Forms &f = prepared->form[k];
    zz_pX value;
    bool right = IterIrredTest(f.t1) && IterIrredTest(f.t2) && is_root(f.t1, f.s, f.modulus2) && is_root(f.t2, f.r, f.modulus1);
    CompMod(value, f.s, f.r, f.modulus1);
    right = right && value == f.x1;
    CompMod(value, f.r, f.s, f.modulus2);
    prepared->right = right && value == f.x2;
}

void maps(size_t k) {
    const Forms &f = prepared->form[k];
    f.field.restore();
    FindRoots(prepared->roots, f.t1_over_field);
}

void matrices(size_t k) {
    const Forms &f = prepared->form[k];
    check(k);
    set_powers(prepared->forward, f.s, f.modulus2);
    set_powers(prepared->back, f.r, f.modulus1);
}

void convert(size_t k) { mul(prepared->image, prepared->table, prepared->form[k].powers); }

void product(size_t k) {
    const Forms &f = prepared->form[k];
    MulMod(prepared->value, f.u, f.v, f.modulus2);
}

void power(size_t k) { PowerMod(prepared->value, prepared->form[k].u, long(EXPONENT), prepared->form[k].modulus2); }

void substitute(size_t k) {
    const Forms &f = prepared->form[k];
    CompMod(prepared->value, f.u, f.s, f.modulus2);
}

size_t residue(uint32_t *out) {
    for (long i = 0; i < prepared->n; i++)
        out[i] = uint32_t(rep(coeff(prepared->value, i)));
    return size_t(prepared->n);
}

size_t listed(uint32_t *out) {
    std::copy(prepared->moduli.begin(), prepared->moduli.end(), out);
    return prepared->moduli.size();
}

size_t residues(uint32_t *out) {
    long n = prepared->n, count = prepared->roots.length();
    for (long k = 0; k < count; k++)
        for (long i = 0; i < n; i++)
            out[k * n + i] = uint32_t(rep(coeff(rep(prepared->roots[k]), i)));
    return sorted(uint32_t(n), size_t(count), out);
}

size_t both(uint32_t *out) {
    long n = prepared->n;
    for (long i = 0; i < n; i++)
        for (long j = 0; j < n; j++) {
            out[i * n + j] = uint32_t(rep(prepared->forward[j][i]));
            out[(n + i) * n + j] = uint32_t(rep(prepared->back[j][i]));
        }
    return prepared->right ? size_t(2 * n * n) : 0;
}

size_t converted(uint32_t *out) {
    long n = prepared->n, groups = prepared->image.NumRows();
    for (long g = 0; g < groups; g++)
        for (long i = 0; i < n; i++)
            out[g * n + i] = uint32_t(rep(prepared->image[g][i]));
    return size_t(groups * n);
}

size_t accepted(uint32_t *out) {
    *out = prepared->right;
    return 1;
}

const work none = {nullptr, nullptr};

}

extern "C" const peer ntl = {"NTL", prepare, {
    /* FIND */ none, /* CHECK */ {check, accepted}, /* IRREDUCIBLE */ {irreducible, accepted}, /* CATALOGUE */ {catalogue, listed},
    /* MAPS */ {maps, residues, ROOTS_UP_TO}, /* MATRICES */ {matrices, both}, /* CONVERT */ {convert, converted},
    /* BY_MATRIX */ {convert, converted}, /* DIFFERENCES */ none, /* RESTORE */ none, /* PRODUCT */ {product, residue}, /* POWER */ {power, residue},
    /* SUBSTITUTE */ {substitute, residue}, /* READ */ none, /* WRITE */ none, /* LONG */ none, /* SHORT */ none,
}};
