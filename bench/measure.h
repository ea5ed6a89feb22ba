/* What the four timed tables share: the clock, contests of many rounds, medians, random numbers. */
#ifndef MEASURE_H
#define MEASURE_H

#include <stdbool.h>
#include <stddef.h>
#include <stdint.h>

#define MOST_CONTESTANTS 5u

/* So many inputs that no predictor of branches learns them, and few enough for the second cache. */
#define POOL 4096u

/* Makes many calls and answers the nanoseconds for each. */
typedef double batch(const void *context);

typedef struct contestant {
    batch *run;
    const void *context;
    double *ns; /* of each round; compete provides it, dismiss takes it back */
} contestant;

/* One row of a table. */
typedef struct contest {
    void (*prepare)(const void *row);
    const void *row;
    size_t count;
    size_t rounds;
    contestant contestants[MOST_CONTESTANTS];
} contest;

/* Nanoseconds of a clock that never goes back. */
uint64_t now(void);

/* What a batch answers. Its results are kept where the compiler cannot see them unused, so that no call is left out. */
double time_per_call(uint64_t spent, size_t calls, uint32_t results);

/*
 * Runs all rows of a table. They take turns of a few rounds, so that no row has a busy spell of the machine to itself;
 * who begins a round changes from round to round. Before each turn a row is prepared, and run once without being timed.
 */
void compete(contest *contests, size_t rows);

/* Takes the last contestant's time off that of the others, round by round: it is what they pay beside their calls. */
void take_off_last(contest *contest);

double median_ns(const contest *contest, size_t of);
double median_ratio(const contest *contest, size_t of, size_t to);
double median_difference(const contest *contest, size_t of, size_t less);

void dismiss(contest *contests, size_t rows);

/* The next of a series of random numbers that is the same in every run. */
uint64_t next_random(void);
uint64_t random_below(uint64_t limit);
bool one_in(uint64_t chances);
void random_octets(uint8_t *octets, size_t count);

/* Ends the program: where two contestants do not do the same work there is nothing to time. */
_Noreturn void stop_because(const char *why);

#endif
