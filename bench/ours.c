/* Our calls, each as a user makes it: a session holds the pair that converts, a matrix was built before a table is converted by it, and a catalogue was
 * counted before it is listed; all else is passed with each call and tested there. */
#include "peers.h"
#include "yokebean.h"
#include <string.h>

static const inputs *in;
static uint32_t p, n, number;
static yokebean_session paired[MOST_JOBS];
static uint32_t forward[MOST_JOBS][LARGEST_MATRIX], back[LARGEST_MATRIX];
static yokebean_card card;
static uint32_t value[2 * LARGEST_DEGREE], list[2 * LARGEST_MATRIX], image[LARGEST_TABLE], words[CARD_WORDS], moduli[LARGEST_CATALOGUE];
static size_t moduli_words;
static uint8_t bytes[LARGEST_CARD];

static void prepare(const inputs *given) {
    in = given, p = in->p, n = in->n, moduli_words = (size_t)n * yokebean_catalogue_count(p, n).count;
    for (size_t k = 0; k < in->models; k++) {
        const job *j = &in->job[k];
        yokebean_step step = yokebean_session_load(yokebean_session_new(), p, n, j->t1, n, j->t2, n);
        paired[k] = yokebean_session_propose(step.session, j->s, n, j->r, n).session;
        yokebean_matrices(p, n, j->t1, n, j->t2, n, j->s, n, j->r, n, forward[k], n * n, back, n * n);
    }
}

static void find(size_t k) {
    const job *j = &in->job[k];
    number = yokebean_find(p, n, j->t1, n, j->t2, n, value, n, value + n, n);
}

static void check(size_t k) {
    const job *j = &in->job[k];
    number = yokebean_check(p, n, j->t1, n, j->t2, n, j->s, n, j->r, n);
}

static void irreducible(size_t k) { number = yokebean_irreducible(p, n, in->job[k].t1, n); }

static void catalogue(size_t k) { number = yokebean_catalogue_list(p, n, moduli, moduli_words); }

static void maps(size_t k) {
    const job *j = &in->job[k];
    number = yokebean_maps(p, n, j->t1, n, j->t2, n, j->s, n, j->r, n, list, n * n);
}

static void matrices(size_t k) {
    const job *j = &in->job[k];
    number = yokebean_matrices(p, n, j->t1, n, j->t2, n, j->s, n, j->r, n, list, n * n, list + n * n, n * n);
}

static void convert(size_t k) { number = yokebean_session_forward(paired[k], in->table, in->words, image, in->words).number; }

static void by_matrix(size_t k) { number = yokebean_matrix_convert(p, n, forward[k], n * n, in->table, in->words, image, in->words); }

static void differences(size_t k) { number = yokebean_differences(n, in->table, in->words, image, in->words); }
static void restore(size_t k) { number = yokebean_restore(n, in->table, in->words, image, in->words); }

static void product(size_t k) {
    const job *j = &in->job[k];
    number = yokebean_product(p, n, j->t2, n, j->u, n, j->v, n, value, n);
}

static void raise(size_t k, uint64_t exponent) {
    const job *j = &in->job[k];
    number = yokebean_power(p, n, j->t2, n, j->u, n, exponent, value, n);
}

static void power(size_t k) { raise(k, EXPONENT); }
static void long_power(size_t k) { raise(k, 1ull << 60); }
static void short_power(size_t k) { raise(k, 1ull << 12); }

static void substitute(size_t k) {
    const job *j = &in->job[k];
    number = yokebean_substitute(p, n, j->t2, n, j->s, n, j->u, n, value, n);
}

static void read_card(size_t k) {
    card = yokebean_card_read(in->job[k].card, in->card_length, words, CARD_WORDS);
    number = card.number;
}

static void write_card(size_t k) { number = yokebean_card_write(p, n, 2, in->job[k].coefficients, 4 * n, bytes, in->card_length); }

static size_t given(const uint32_t *from, size_t count, uint32_t *out) {
    memcpy(out, from, count * sizeof *out);
    return number ? 0 : count;
}

static size_t accepted(uint32_t *out) {
    *out = number == 0;
    return 1;
}

static size_t pair(uint32_t *out) { return given(value, 2 * n, out); }
static size_t residue(uint32_t *out) { return given(value, n, out); }
static size_t listed(uint32_t *out) { return given(moduli, moduli_words, out); }
static size_t residues(uint32_t *out) { return given(list, n * n, out); }
static size_t both(uint32_t *out) { return given(list, 2 * n * n, out); }
static size_t table(uint32_t *out) { return given(image, in->words, out); }

static size_t card_read(uint32_t *out) {
    out[0] = card.p, out[1] = card.n, out[2] = card.kind;
    return given(words, CARD_WORDS, out + 3) ? 3 + CARD_WORDS : 0;
}

static size_t card_written(uint32_t *out) {
    for (size_t i = 0; i < in->card_length; i++)
        out[i] = bytes[i];
    return number ? 0 : in->card_length;
}

const peer ours = {"ours", prepare, {
    [FIND] = {find, pair}, [CHECK] = {check, accepted}, [IRREDUCIBLE] = {irreducible, accepted}, [CATALOGUE] = {catalogue, listed},
    [MAPS] = {maps, residues}, [MATRICES] = {matrices, both}, [CONVERT] = {convert, table}, [BY_MATRIX] = {by_matrix, table},
    [DIFFERENCES] = {differences, table}, [RESTORE] = {restore, table}, [PRODUCT] = {product, residue}, [POWER] = {power, residue},
    [SUBSTITUTE] = {substitute, residue}, [READ] = {read_card, card_read}, [WRITE] = {write_card, card_written}, [LONG] = {long_power, residue},
    [SHORT] = {short_power, residue},
}};

const peer session = {"session", prepare, {[BY_MATRIX] = {convert, table}}};
