/* The catalogue in plain C, by a sieve. A polynomial is the number whose digits in base p are its coefficients, so that a monic one of degree m is
 * p^m plus its m lower words. For each irreducible D of degree d up to m/2 the multiples of degree m are struck out: whatever the words above the
 * lowest d are, there is one multiple, whose lowest d words are those of h(X)·l modulo D, where h has the words above and l the lower words of D.
 * They are summed up from the residues X^k·l, and the sums of any two residues, no more than 256 by 256, are in a table. */
#include "peers.h"
#include <string.h>

enum { RESIDUES = 256 /* p^d is at most the square root of p^n */ };

static uint32_t p, n, power[LARGEST_DEGREE + 1];
static uint8_t struck[2 * LARGEST_CATALOGUE], lowest[LARGEST_CATALOGUE / 4], sum[RESIDUES * RESIDUES];
static uint32_t list[LARGEST_CATALOGUE];
static size_t words;

static void prepare(const inputs *in) {
    p = in->p, n = in->n, power[0] = 1;
    for (uint32_t k = 0; k < n; k++)
        power[k + 1] = power[k] * p;
}

/* Row u, column v: u + v, for residues of d words. Row p^k adds 1 to word k, and row p^k + u adds it to the sums of row u. */
static void set_sums(uint32_t d) {
    uint32_t q = power[d];
    for (uint32_t v = 0; v < q; v++)
        sum[v] = (uint8_t)v;
    for (uint32_t k = 0; k < d; k++) {
        uint8_t *next = sum + power[k] * q;
        for (uint32_t v = 0; v < q; v++)
            next[v] = (uint8_t)(v / power[k] % p < p - 1 ? v + power[k] : v + power[k] - power[k + 1]);
        for (uint32_t u = power[k] + 1; u < power[k + 1]; u++)
            for (uint32_t v = 0; v < q; v++)
                sum[u * q + v] = next[sum[(u - power[k]) * q + v]];
    }
}

static uint32_t scaled(uint32_t d, uint32_t factor, uint32_t u) {
    uint32_t v = 0;
    for (uint32_t k = d; k-- > 0;)
        v = v * p + u / power[k] % p * factor % p;
    return v;
}

/* Strikes out the multiples of degree m of D, of degree d and with the lower words l. */
static void strike(uint32_t d, uint32_t l, uint32_t m) {
    uint32_t q = power[d], above = m - d, size = 1, multiple[LARGEST_DEGREE] = {l}; /* X^k·l */
    for (uint32_t k = 0; k < above; k++) {
        uint32_t top = multiple[k] / power[d - 1], rest = multiple[k] % power[d - 1];
        multiple[k + 1] = sum[rest * p * q + scaled(d, (p - top) % p, l)];
    }
    for (uint32_t k = 0; k < above - 1; k++, size *= p)
        for (uint32_t a = 1, u = multiple[k]; a < p; a++, u = sum[multiple[k] * q + u])
            for (uint32_t h = 0; h < size; h++)
                lowest[a * size + h] = sum[u * q + lowest[h]];
    uint8_t *at = struck + power[m];
    for (uint32_t a = 0, u = multiple[above]; a < p; a++, u = sum[multiple[above - 1] * q + u])
        for (uint32_t h = 0; h < size; h++, at += q)
            at[sum[u * q + lowest[h]]] = 1;
}

static void sieve(uint32_t m) {
    for (uint32_t d = 1; d <= m / 2; d++) {
        set_sums(d);
        for (uint32_t l = 0; l < power[d]; l++)
            if (!struck[power[d] + l])
                strike(d, l, m);
    }
}

static void catalogue(size_t k) {
    uint32_t t[LARGEST_DEGREE] = {0}, *next = list;
    memset(struck, 0, 2 * power[n]);
    for (uint32_t m = 2; m <= n / 2; m++)
        sieve(m);
    sieve(n);
    for (const uint8_t *at = struck + power[n]; at < struck + 2 * power[n]; at += p) {
        for (uint32_t constant = 0; constant < p; constant++)
            if (!at[constant]) {
                *next++ = constant;
                for (uint32_t i = 1; i < n; i++)
                    *next++ = t[i];
            }
        for (uint32_t i = 1; i < n && ++t[i] == p; i++)
            t[i] = 0;
    }
    words = (size_t)(next - list);
}

static size_t listed(uint32_t *out) {
    memcpy(out, list, words * sizeof *out);
    return words;
}

const peer plain_catalogue = {"plain C", prepare, {[CATALOGUE] = {catalogue, listed}}};
