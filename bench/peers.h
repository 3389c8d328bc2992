/* What the benchmark times: the same work by our library, PARI, FLINT, NTL and plain C. Each gets the inputs once, in its own form, before the
 * clock starts. Lists are constant first. */
#ifndef PEERS_H
#define PEERS_H

#include <stddef.h>
#include <stdint.h>

#ifdef __cplusplus
extern "C" {
#endif

enum { MOST_JOBS = 16, LARGEST_DEGREE = 16, LARGEST_MATRIX = 16 * 16, LARGEST_TABLE = 16384, LARGEST_CARD = 166, CARD_WORDS = 64 };
enum { LARGEST_CATALOGUE = 65536 }; /* words: there are at most p^n/n irreducible polynomials */

/* What a residue is raised to: the first binary digits of the square root of 2 after its point, about half of them 1. */
#define EXPONENT 0x6a09e667f3bcc909ull

/* Two models and a pair of theirs, two residues, and the pair card with its coefficients in card order. */
typedef struct {
    uint32_t t1[LARGEST_DEGREE], t2[LARGEST_DEGREE], s[LARGEST_DEGREE], r[LARGEST_DEGREE], u[LARGEST_DEGREE], v[LARGEST_DEGREE];
    uint32_t coefficients[CARD_WORDS];
    uint8_t card[LARGEST_CARD];
} job;

/* The inputs of a row: jobs with one p and n, and a table that all of them convert. Either all jobs have models, and `models` is their number, or it is
 * 0 and there is one job: for the catalogue, and where the work has no p, which is then 0, and the table's words may have any values. */
typedef struct {
    uint32_t p, n;
    size_t jobs, models, words, card_length;
    job job[MOST_JOBS];
    uint32_t table[LARGEST_TABLE];
} inputs;

/* The works and their answers in words:
 *   FIND         a pair: S, then R
 *   CHECK        whether T1 and T2 are irreducible and the four congruences hold: 1 or 0
 *   IRREDUCIBLE  whether T1 is irreducible: 1 or 0
 *   CATALOGUE    all irreducible monic polynomials of degree n, each as its n lower words, in ascending order
 *   MAPS         the n residues S' modulo T2 with T1(S') = 0, in ascending order
 *   MATRICES     of an accepted pair, the matrix of the powers of S modulo T2, then that of the powers of R modulo T1, row after row
 *   CONVERT      the table's image
 *   BY_MATRIX    the same, the matrix of the powers of S being ready
 *   DIFFERENCES  the table as differences
 *   RESTORE      the table that has the table's words for its differences
 *   PRODUCT      u·v modulo T2
 *   POWER        u^EXPONENT modulo T2
 *   SUBSTITUTE   u(S) modulo T2
 *   READ         p, n, kind and the 64 words of a card
 *   WRITE        the bytes of a card
 *   LONG         u^(2^60) modulo T2
 *   SHORT        u^(2^12) modulo T2, which takes BETWEEN products fewer */
enum {
    FIND, CHECK, IRREDUCIBLE, CATALOGUE, MAPS, MATRICES, CONVERT, BY_MATRIX, DIFFERENCES, RESTORE, PRODUCT, POWER, SUBSTITUTE, READ, WRITE, LONG,
    SHORT, WORKS
};
enum { BETWEEN = 60 - 12 };

/* `run` does the work of the k-th job and keeps the answer in the peer's own form, where the compiler cannot tell that nobody reads it;
 * `answer` writes that answer as words and gives their number, 0 if there is none. Both are null where a peer lacks the work, and `answer` alone
 * where it does another, which is timed beside and not compared. `most`, where it is not 0, is the highest degree in which the peer takes part; in
 * higher ones it takes too long. */
typedef struct {
    void (*run)(size_t k);
    size_t (*answer)(uint32_t *words);
    uint32_t most;
} work;

typedef struct {
    const char *name;
    void (*prepare)(const inputs *);
    work works[WORKS];
} peer;

/* `session` is our session's conversion, and `flint_columns` FLINT with a residue in each column of its table, both beside a conversion by matrix;
 * `copy` copies the table by memcpy, beside differences. */
extern const peer ours, session, pari, flint, flint_columns, ntl, plain, plain_card, plain_differences, plain_catalogue, copy;

/* PARI's test of X^n + t. */
int is_irreducible(uint32_t p, uint32_t n, const uint32_t *t);

/* Puts residues of n words in ascending order, compared from the highest power down, and gives the number of their words. */
size_t sorted(uint32_t n, size_t residues, uint32_t *words);

#ifdef __cplusplus
}
#endif

#endif
