/* The clock, the rounds, the medians and the random numbers of the benchmark. */
#include "measure.h"

#include <stdio.h>
#include <stdlib.h>
#include <time.h>

/* Rounds of a row before the next row's turn. */
#define TURN 10u

uint64_t now(void)
{
    struct timespec time;
    clock_gettime(CLOCK_MONOTONIC, &time);
    return (uint64_t)time.tv_sec * 1000000000u + (uint64_t)time.tv_nsec;
}

double time_per_call(uint64_t spent, size_t calls, uint32_t results)
{
    static volatile uint32_t sink;
    sink ^= results;
    return (double)spent / (double)calls;
}

static double *provide_doubles(size_t count)
{
    double *doubles = calloc(count, sizeof *doubles);
    if (doubles == NULL)
        stop_because("out of memory");
    return doubles;
}

static void run_turn(contest *contest, size_t first, size_t behind)
{
    contest->prepare(contest->row);
    for (size_t i = 0; i < contest->count; i++)
        contest->contestants[i].run(contest->contestants[i].context);
    for (size_t round = first; round < behind; round++)
        for (size_t i = 0; i < contest->count; i++) {
            contestant *next = &contest->contestants[(round + i) % contest->count];
            next->ns[round] = next->run(next->context);
        }
}

void compete(contest *contests, size_t rows)
{
    size_t rounds = contests[0].rounds;
    for (size_t row = 0; row < rows; row++)
        for (size_t i = 0; i < contests[row].count; i++)
            contests[row].contestants[i].ns = provide_doubles(rounds);
    for (size_t first = 0; first < rounds; first += TURN)
        for (size_t row = 0; row < rows; row++)
            run_turn(&contests[row], first, first + TURN < rounds ? first + TURN : rounds);
}

void take_off_last(contest *contest)
{
    const double *last = contest->contestants[contest->count - 1].ns;
    for (size_t i = 0; i + 1 < contest->count; i++)
        for (size_t round = 0; round < contest->rounds; round++)
            contest->contestants[i].ns[round] -= last[round];
}

static int compare_doubles(const void *left, const void *right)
{
    double a = *(const double *)left, b = *(const double *)right;
    return (a > b) - (a < b);
}

typedef double combination(double of, double with);

/* Over the rounds, of what the combination makes of two contestants' times in the same round. */
static double median(const contest *contest, combination *combine, size_t of, size_t with)
{
    double *figures = provide_doubles(contest->rounds);
    size_t middle = contest->rounds / 2;
    for (size_t round = 0; round < contest->rounds; round++)
        figures[round] = combine(contest->contestants[of].ns[round], contest->contestants[with].ns[round]);
    qsort(figures, contest->rounds, sizeof *figures, compare_doubles);
    double found = contest->rounds % 2 == 1 ? figures[middle] : (figures[middle - 1] + figures[middle]) / 2;
    free(figures);
    return found;
}

static double alone(double of, double with)
{
    (void)with;
    return of;
}

static double ratio(double of, double to)
{
    return of / to;
}

static double difference(double of, double less)
{
    return of - less;
}

double median_ns(const contest *contest, size_t of)
{
    return median(contest, alone, of, of);
}

double median_ratio(const contest *contest, size_t of, size_t to)
{
    return median(contest, ratio, of, to);
}

double median_difference(const contest *contest, size_t of, size_t less)
{
    return median(contest, difference, of, less);
}

void dismiss(contest *contests, size_t rows)
{
    for (size_t row = 0; row < rows; row++)
        for (size_t i = 0; i < contests[row].count; i++)
            free(contests[row].contestants[i].ns);
}

/* The splitmix64 generator. */
uint64_t next_random(void)
{
    static uint64_t state = 1;
    state += 0x9e3779b97f4a7c15u;
    uint64_t mixed = state;
    mixed = (mixed ^ mixed >> 30) * 0xbf58476d1ce4e5b9u;
    mixed = (mixed ^ mixed >> 27) * 0x94d049bb133111ebu;
    return mixed ^ mixed >> 31;
}

uint64_t random_below(uint64_t limit)
{
    return next_random() % limit;
}

bool one_in(uint64_t chances)
{
    return random_below(chances) == 0;
}

void random_octets(uint8_t *octets, size_t count)
{
    for (size_t i = 0; i < count; i++)
        octets[i] = (uint8_t)next_random();
}

void stop_because(const char *why)
{
    fprintf(stderr, "bench: %s\n", why);
    exit(1);
}
