/* The rows of the benchmark's tables, and what is done with one: its inputs are chosen, all answers compared, the works timed, the times printed. */
#ifndef ROWS_H
#define ROWS_H

#include "peers.h"

/* A work with its p, 0 where it has none, and n. `single`: one residue is converted, and not a full table; `inside`: our product is timed inside a power. */
typedef struct {
    const char *name;
    int work;
    uint32_t p, n;
    int single, inside;
} row;

/* A name with its median and minimum in microseconds. */
typedef struct {
    const char *name;
    double median, minimum;
} times;

/* Our library comes first. */
enum { PEERS = 11 };
extern const peer *const peers[PEERS];

/* Whether a peer does a work in degree n. */
int does(const peer *, int what, uint32_t n);

void choose(const row *, inputs *);
void choose_reducible(const inputs *, inputs *);
void compare(const inputs *);
size_t time_row(const row *, const inputs *, times *);

/* `label` says what a row begins with. The columns are the names of peers, with a null after the last. */
void print_header(const char *label, const char *const *columns);
void print_row(const char *const *columns, const row *, const times *, size_t);

#endif
