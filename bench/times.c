/* Times a row: all who do its work take turns, round by round, and each time is the mean over the jobs of the row. Who takes long has a turn in few of
 * the rounds. Over the rounds the median and the minimum are taken. Our product is timed inside a power: the difference of two medians, or
 * of two minima, of whole powers. */
#include "rows.h"
#include <stdlib.h>
#include <time.h>

enum { ROUNDS = 301, SPARSE = 30 /* from one to the next: 11 of the rounds */, SHORTEST = 200000, LONGEST = 20000000 /* nanoseconds */ };

typedef struct {
    void (*run)(size_t k);
    unsigned repeats;
    size_t step, rounds;
    double sample[ROUNDS];
} series;

/* Nanoseconds of processor time, which other programs on the machine disturb less than the clock. */
static double now(void) {
    struct timespec t;
    clock_gettime(CLOCK_PROCESS_CPUTIME_ID, &t);
    return (double)t.tv_sec * 1e9 + (double)t.tv_nsec;
}

static int ascending(const void *a, const void *b) {
    double x = *(const double *)a, y = *(const double *)b;
    return (x > y) - (x < y);
}

/* Nanoseconds of one run, as the mean over all jobs. */
static double timed(const series *s, size_t jobs) {
    double began = now();
    for (unsigned i = 0; i < s->repeats; i++)
        for (size_t k = 0; k < jobs; k++)
            s->run(k);
    return (now() - began) / s->repeats / (double)jobs;
}

static void take_turns(series *all, size_t count, size_t jobs) {
    for (series *s = all; s < all + count; s++) {
        s->repeats = 1;
        timed(s, jobs);
        double turn = timed(s, jobs) * (double)jobs;
        s->repeats = (unsigned)(SHORTEST / turn) + 1;
        s->step = turn > LONGEST ? SPARSE : 1, s->rounds = 0;
    }
    for (size_t round = 0; round < ROUNDS; round++)
        for (series *s = all; s < all + count; s++)
            if (round % s->step == 0)
                s->sample[s->rounds++] = timed(s, jobs);
    for (series *s = all; s < all + count; s++)
        qsort(s->sample, s->rounds, sizeof(double), ascending);
}

/* In microseconds. */
static double median(const series *s) { return s->sample[s->rounds / 2] / 1000; }
static double minimum(const series *s) { return s->sample[0] / 1000; }

size_t time_row(const row *which, const inputs *in, times *out) {
    static series all[PEERS + 1];
    size_t count = 0;
    for (size_t i = 0; i < PEERS; i++) {
        int what = peers[i] == &ours && which->inside ? LONG : which->work;
        if (does(peers[i], what, in->n)) {
            peers[i]->prepare(in);
            out[count].name = peers[i]->name;
            all[count++].run = peers[i]->works[what].run;
        }
    }
    all[count].run = ours.works[SHORT].run;
    take_turns(all, count + (which->inside ? 1 : 0), in->jobs);
    for (size_t i = 0; i < count; i++)
        out[i].median = median(&all[i]), out[i].minimum = minimum(&all[i]);
    if (which->inside) {
        out[0].median = (out[0].median - median(&all[count])) / BETWEEN;
        out[0].minimum = (out[0].minimum - minimum(&all[count])) / BETWEEN;
    }
    return count;
}
