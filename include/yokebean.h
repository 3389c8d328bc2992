/* Yokebean: isomorphisms of finite fields, proved.
 *
 * A model is a prime p up to 1,048,575, a degree n from 1 to 16 and a modulus T = X^n + t[n-1] X^(n-1) + ... + t[0], passed as the n words t[0] to
 * t[n-1], each below p; the leading 1 is not passed. A residue is n words below p, constant first.
 *
 * Every call takes any numbers and any lists; a list is a pointer to its words and their number. A call gives 0, or the number of the first
 * refusal that applies in the order listed with it, and then every list holds what it held and every other field of the answer is 0, save
 * that a session call gives back the session it took:
 *    1  p is below 2, above 1,048,575 or not prime
 *    2  n is not 1 to 16
 *    3  a list of coefficients or a matrix, read or written, or the output list of a catalogue, card, sheet or report has the wrong length
 *    4  a coefficient or a word of a matrix is p or more
 *    5  n neither divides p - 1 nor is p^k with k >= 1
 *    6  T1, or T where a call has one modulus, has a monic divisor of degree 1 to n - 1
 *    7  T2 has one
 *    8  one of the congruences T1(S) = 0 mod T2, T2(R) = 0 mod T1, S(R) = X mod T1, R(S) = X mod T2 fails
 *    9  words of a table or part: above 16,384 or not a multiple of n; or a part that would bring its table above 4,294,967,295 residues
 *   10  output length differs from input length
 *   11  card under 3 bytes, or under 6 where it begins with two zero bytes, or not of its exact length
 *   12  kind is neither 1 nor 2
 *   13  a fill bit is 1: after the last coefficient, or in the header of a wide card
 *   21  the session is empty        22  it is loaded without a pair
 *   23  it is not empty             24  it is paired
 *   25  the ledger holds 512 records
 *   26  no table is open            27  a table is open
 *   28  a wide card has a p below 65,536
 *   29  p^n is above 65,536, and a catalogue is asked for
 * Load, propose and find act on the current session; while a table is open they act on the waiting one, and 21, 23 and 24 are about that.
 *
 * Lists: each pointer must point to as many words, or bytes, as its length says (a list of length 0 may have any pointer that is not null and is
 * aligned), and a list that a call writes must not overlap any other list of the same call.
 */
#ifndef YOKEBEAN_H
#define YOKEBEAN_H

#include <stddef.h>
#include <stdint.h>

#ifdef __cplusplus
extern "C" {
#endif

/* Residues: out := u(S) modulo T. 1 to 4. */
uint32_t yokebean_substitute(uint32_t p, uint32_t n, const uint32_t *t, size_t t_len, const uint32_t *s, size_t s_len,
                             const uint32_t *u, size_t u_len, uint32_t *out, size_t out_len);

/* out := u·v modulo T. 1 to 4. */
uint32_t yokebean_product(uint32_t p, uint32_t n, const uint32_t *t, size_t t_len, const uint32_t *u, size_t u_len,
                          const uint32_t *v, size_t v_len, uint32_t *out, size_t out_len);

/* out := u^k modulo T. 1 to 4. */
uint32_t yokebean_power(uint32_t p, uint32_t n, const uint32_t *t, size_t t_len, const uint32_t *u, size_t u_len,
                        uint64_t k, uint32_t *out, size_t out_len);

/* Whether T is irreducible, that is, has no monic divisor of degree 1 to n - 1; then every residue but 0 has an inverse. 1, 2, 3, 4, 6. */
uint32_t yokebean_irreducible(uint32_t p, uint32_t n, const uint32_t *t, size_t t_len);

/* The count's answer. */
typedef struct {
    uint32_t number, count;
} yokebean_count;

/* The catalogue of a size: how many monic polynomials of degree n modulo p are irreducible, that is, have no monic divisor of degree 1 to n - 1.
 * p^n may be up to 65,536. This call and the next take 260 KiB of stack. 1, 2, 29. */
yokebean_count yokebean_catalogue_count(uint32_t p, uint32_t n);

/* Writes all of them into out, each exactly once and as the n words of a modulus, in ascending order, where coefficients are compared from the highest
 * power down. out has n*count words. For n = 1 they are X, X + 1, ..., X + p - 1, so the words 0 to p - 1. For p = 2, n = 4 there are three:
 *    1 1 0 0   X^4 + X + 1
 *    1 0 0 1   X^4 + X^3 + 1
 *    1 1 1 1   X^4 + X^3 + X^2 + X + 1
 * The finder refuses no such modulus with 6 or 7. 1, 2, 29, 3. */
uint32_t yokebean_catalogue_list(uint32_t p, uint32_t n, uint32_t *out, size_t out_len);

/* The checker: whether T1 and T2 are irreducible and the four congruences hold; then both models are fields, in which every residue but 0 has an
 * inverse, and u -> u(S) mod T2 and u -> u(R) mod T1 are inverse isomorphisms. 1, 2, 3, 4, 6, 7, 8. */
uint32_t yokebean_check(uint32_t p, uint32_t n, const uint32_t *t1, size_t t1_len, const uint32_t *t2, size_t t2_len,
                        const uint32_t *s, size_t s_len, const uint32_t *r, size_t r_len);

/* All the maps: from a pair that the checker accepts, writes the n polynomials S' with T1(S') = 0 mod T2 into out, each exactly once and as n
 * words, in ascending order, where coefficients are compared from the highest power down. They give all the isomorphisms of the two fields: every
 * one-to-one and onto map that preserves sums, products and one is u -> u(S') mod T2 for exactly one of them. out has n*n words.
 * 1, 2, 3, 4, 6, 7, 8. */
uint32_t yokebean_maps(uint32_t p, uint32_t n, const uint32_t *t1, size_t t1_len, const uint32_t *t2, size_t t2_len,
                       const uint32_t *s, size_t s_len, const uint32_t *r, size_t r_len, uint32_t *out, size_t out_len);

/* The matrices of the two maps, from a pair that the checker accepts: forward gets that of u -> u(S) mod T2, whose columns are the powers S^0 to
 * S^(n-1) mod T2, and back that of u -> u(R) mod T1, whose columns are the powers R^0 to R^(n-1) mod T1. Each has n*n words, row after row: word
 * i*n + j is coefficient i of S^j, or of R^j. They multiply to the identity modulo p both ways. The matrices of Kern and Mignotte, polynomials in
 * the companion matrix of T, are not these but those of multiplication, u -> u*S mod T, with the columns S, X*S, ..., X^(n-1)*S.
 * In example A, p = 3, T1 = [1, 0], T2 = [2, 1], S = R = [1, 2], written row / row:
 *    forward                            1 1 / 0 2, with the columns 1 and S mod T2
 *    back                               1 1 / 0 2, with the columns 1 and R mod T1
 *    of multiplication by S modulo T2   1 2 / 2 2, with the columns S and X*S mod T2
 * 1, 2, 3, 4, 6, 7, 8. */
uint32_t yokebean_matrices(uint32_t p, uint32_t n, const uint32_t *t1, size_t t1_len, const uint32_t *t2, size_t t2_len,
                           const uint32_t *s, size_t s_len, const uint32_t *r, size_t r_len,
                           uint32_t *forward, size_t forward_len, uint32_t *back, size_t back_len);

/* Converts a table by a matrix, group of n words by group: matrix times group, modulo p. The matrix may be any of n*n words below p, row after row. By
 * the matrices of a pair it writes what yokebean_session_forward and yokebean_session_back write for that pair; it has no ledger. With an empty table
 * too, the matrix's words must be below p. 1, 2, 3, 9, 10, 4. */
uint32_t yokebean_matrix_convert(uint32_t p, uint32_t n, const uint32_t *matrix, size_t matrix_len, const uint32_t *table, size_t table_len,
                                 uint32_t *out, size_t out_len);

/* The differences of a table: the first n words stay, and each later word becomes itself minus the table's word n places before, modulo 2^32. There is
 * no p: the words may have any values. 2, 9, 10. */
uint32_t yokebean_differences(uint32_t n, const uint32_t *table, size_t table_len, uint32_t *out, size_t out_len);

/* The table that has these differences: the first n words stay, and each later word becomes itself plus the restored word n places before, modulo
 * 2^32. Each of the two calls undoes the other. 2, 9, 10. */
uint32_t yokebean_restore(uint32_t n, const uint32_t *differences, size_t differences_len, uint32_t *out, size_t out_len);

/* The printed sheet of a pair that the checker accepts: T1, T2, S and R, each starting a line with its name in 3 columns; coefficients follow,
 * constant first, eight to a line, right-justified in 7 columns; continued lines begin with 3 blanks, and every line is filled with blanks to
 * 59 columns and ends with a newline. A word v prints as v if v is at most p/2 rounded down, else as v - p; a negative number of six digits fills
 * its columns. ASCII, without a zero at the end. out has yokebean_sheet_length(n) bytes: 240 for n from 1 to 8, 480 for n from 9 to 16.
 * 1, 2, 3, 4, 6, 7, 8. */
uint32_t yokebean_sheet(uint32_t p, uint32_t n, const uint32_t *t1, size_t t1_len, const uint32_t *t2, size_t t2_len,
                        const uint32_t *s, size_t s_len, const uint32_t *r, size_t r_len, uint8_t *out, size_t out_len);
size_t yokebean_sheet_length(uint32_t n);

/* The finder, where n divides p - 1 or is p^k with k >= 1: writes the pair of Allombert's Algorithm 2.1 or 4.1 into s and r, two lists of n words.
 * Each model has an alpha; u -> u(S) takes the alpha of T1 to that of T2, and u -> u(R) takes it back.
 * Where n divides p - 1, zeta is the smallest number from 1 to p - 1 of order n modulo p, and a the smallest with a^((p-1)/n) = zeta modulo p; alpha
 * satisfies alpha^p = zeta*alpha and alpha^n = a, and of the n residues that do, it is the one whose first coefficient that is not zero is smallest.
 * Where n = p^k, a and alpha are 1 at first; then k times a becomes a*alpha^(p-1), and alpha the one residue with alpha^p = alpha + a and constant
 * coefficient 0.
 * Found maps compose: for three models A, B, C, the maps found for A and B and then those for B and C are the maps found for A and C, forward and
 * back; with the models exchanged, the found pair is exchanged. Pairs found by earlier versions stay accepted. 1 to 7. */
uint32_t yokebean_find(uint32_t p, uint32_t n, const uint32_t *t1, size_t t1_len, const uint32_t *t2, size_t t2_len,
                       uint32_t *s, size_t s_len, uint32_t *r, size_t r_len);

/* A record of the ledger, one for each single conversion that succeeded and for each table that was ended: direction 0 is forward, 1 back. */
typedef struct {
    uint32_t direction, residues;
} yokebean_record;

/* What a session holds: state 0 is empty, 1 loaded (p, n, t1, t2), 2 paired (also s, r); the first n words of each array count. */
typedef struct {
    uint32_t state, p, n;
    uint32_t t1[16], t2[16], s[16], r[16];
} yokebean_held;

/* A session's value: what the current session holds, field by field as in yokebean_held; the ledger, of which the first `records` records count; and
 * the open table. open is 0 without an open table, 1 with a forward one, 2 with a back one. fed is the number of residues fed to it so far, and
 * waiting what the waiting session holds; neither is looked at without an open table. What a call makes without one has 0 in open, fed and waiting.
 * A value counts as a new one, so without records and without an open table, if its state or open is above 2, if it has more than 512 records or
 * another direction in a record that counts, or if it has a p, n or coefficient, of those that its state has, that 1, 2 or 4 refuses. With a table
 * open it also does if it is not paired, if it has 512 records, or if the state, p, n or a coefficient of the waiting session is of such a sort.
 * Past the records that count the ledger is not looked at and stays as it is. The moduli and the pair of a paired value are not tested again for
 * divisors and congruences: it converts by plain substitution. */
typedef struct {
    uint32_t state, p, n;
    uint32_t t1[16], t2[16], s[16], r[16];
    uint32_t records;
    yokebean_record ledger[512];
    uint32_t open, fed;
    yokebean_held waiting;
} yokebean_session;

/* A session call's answer: the number, and the next session; refused, the session that the call took, byte for byte. */
typedef struct {
    uint32_t number;
    yokebean_session session;
} yokebean_step;

/* A new session is empty and has no records and no open table. */
yokebean_session yokebean_session_new(void);

/* Empty to loaded. 23, 1 to 4. */
yokebean_step yokebean_session_load(yokebean_session session, uint32_t p, uint32_t n, const uint32_t *t1, size_t t1_len,
                                    const uint32_t *t2, size_t t2_len);

/* Loaded to paired, if the checker accepts. 21, 24, 3, 4, 6, 7, 8. */
yokebean_step yokebean_session_propose(yokebean_session session, const uint32_t *s, size_t s_len, const uint32_t *r, size_t r_len);

/* Loaded to paired, with the finder's pair. 21, 24, 5, 6, 7. */
yokebean_step yokebean_session_find(yokebean_session session);

/* Converts a table of residues modulo T1, group of n words by group: u -> u(S) mod T2. The next session has one record more, of table_len / n
 * residues, also for an empty table. 21, 22, 27, 9, 10, 4, 25. */
yokebean_step yokebean_session_forward(yokebean_session session, const uint32_t *table, size_t table_len, uint32_t *out, size_t out_len);

/* Converts a table of residues modulo T2: u -> u(R) mod T1. It adds a record in the same way. 21, 22, 27, 9, 10, 4, 25. */
yokebean_step yokebean_session_back(yokebean_session session, const uint32_t *table, size_t table_len, uint32_t *out, size_t out_len);

/* Opens a table that comes in parts, of residues modulo T1 (forward) or modulo T2 (back). It has no residues yet, and the waiting session is
 * empty. Until end or clear the table keeps the pair that it begins with. 21, 22, 27, 25. */
yokebean_step yokebean_session_begin_forward(yokebean_session session);
yokebean_step yokebean_session_begin_back(yokebean_session session);

/* Converts a part of the open table, as forward or back does; the table has table_len / n residues more. It adds no record. 26, 9, 10, 4. */
yokebean_step yokebean_session_feed(yokebean_session session, const uint32_t *table, size_t table_len, uint32_t *out, size_t out_len);

/* Closes the open table and adds one record with all its residues, also without a feed. A paired waiting session becomes the current one; another
 * is dropped, and the old pair stays. 26. */
yokebean_step yokebean_session_end(yokebean_session session);

/* The report, in every state, also with a table open: the records in order, each as F or B, a blank, the decimal number of residues and a newline;
 * then the forward and the back total, each a decimal number and a newline. ASCII, without a zero at the end. out has
 * yokebean_session_report_length(session) bytes. The session given back is always the one that was taken, byte for byte. 3. */
yokebean_step yokebean_session_report(yokebean_session session, uint8_t *out, size_t out_len);
size_t yokebean_session_report_length(yokebean_session session);

/* Any state to empty; drops the open table, without a record, and the waiting session; keeps the ledger; never refused. */
yokebean_step yokebean_session_clear(yokebean_session session);

/* A card has p in 16 bits, n - 1 in 4, kind in 4, then its coefficients in w bits each, where w is the number of binary digits of p - 1, then the
 * fill: zero bits up to the end of the last byte. Kind 1 is a job (T1, T2), kind 2 a pair card (T1, T2, S, R). A wide card, for p above 65,535,
 * starts with 16 zero bits, then has p in 20, n - 1 in 4, kind in 4 and 4 zero bits, which count as fill; the coefficients follow as in any card.
 * An older reader gives 1 for it. The longest card has 166 bytes, the longest that is not wide 131. */

/* The reader's answer. */
typedef struct {
    uint32_t number, p, n, kind;
} yokebean_card;

/* Reads a card; its coefficients go into the first places of 64 lent words, the rest become 0. 3, 11, 1, 28, 12, 11, 13, 4: first an 11 for under 3
 * bytes, or under 6 where the card begins with two zero bytes, and after 12 for another length than the card's. */
yokebean_card yokebean_card_read(const uint8_t *bytes, size_t bytes_len, uint32_t *words, size_t words_len);

/* Writes a card of 2n (kind 1) or 4n (kind 2) coefficients, a wide one exactly where p is above 65,535, into a list of exactly its length:
 * (24 + 2*kind*n*w + 7) / 8 bytes, rounded down, or for a wide card (48 + 2*kind*n*w + 7) / 8. 1, 2, 12, 3, 4. */
uint32_t yokebean_card_write(uint32_t p, uint32_t n, uint32_t kind, const uint32_t *words, size_t words_len,
                             uint8_t *bytes, size_t bytes_len);

#ifdef __cplusplus
}
#endif

#endif
