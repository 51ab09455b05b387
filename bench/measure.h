/* Times of several makers of the same thing, in one process and in turn; under callgrind instructions instead. The
   first maker is the library that is judged. */
#ifndef MEASURE_H
#define MEASURE_H

#define _POSIX_C_SOURCE 199309L
#include <stdint.h>
#include <stdio.h>
#include <stdlib.h>
#include <string.h>
#include <time.h>

enum { NEW, PLAIN, THIRD, MOST_MAKERS };
enum { ROUNDS = 8, RUNS = 50 }; /* the rounds lie apart in time, as other work does */

static const char *dumps; /* where callgrind writes, or null where time is measured */

static void fail(const char *what)
{
    fprintf(stderr, "compare: %s\n", what);
    exit(1);
}

/* Callgrind writes what it counted since the last time to a new file when this is entered: `dumps` with a number. It
   collects in the calls only. Returns the instructions so far. */
__attribute__((noinline)) static double instructions(void)
{
    static unsigned files;
    static double sum;
    char path[4096], line[4096];
    double count = -1;
    snprintf(path, sizeof path, "%s.%u", dumps, ++files);
    FILE *file = fopen(path, "r");
    if (!file)
        fail("no counts: not under callgrind");
    while (fgets(line, sizeof line, file))
        if (strncmp(line, "totals: ", 8) == 0)
            count = strtod(line + 8, NULL);
    fclose(file);
    remove(path);
    if (count < 0)
        fail("no total in the counts");
    return sum += count;
}

/* The processor time of this process, in nanoseconds: other work on the machine disturbs it less than the clock. Or the
   instructions so far. */
static double now(void)
{
    struct timespec t;
    if (dumps)
        return instructions();
    clock_gettime(CLOCK_PROCESS_CPUTIME_ID, &t);
    return (double)t.tv_sec * 1e9 + (double)t.tv_nsec;
}

static inline uint32_t draw(uint32_t *seed)
{
    *seed = *seed * 1664525 + 1013904223;
    return *seed >> 16;
}

/* The times of one case: the best of each maker, and in each run the new one's over that of each. */
struct times {
    size_t runs;
    double best[MOST_MAKERS], ratios[MOST_MAKERS][ROUNDS * RUNS];
};

static void add_run(struct times *times, const double *run, size_t makers)
{
    for (size_t i = 0; i < makers; i++) {
        if (times->runs == 0 || run[i] < times->best[i])
            times->best[i] = run[i];
        times->ratios[i][times->runs] = run[NEW] / run[i];
    }
    times->runs++;
}

static int order(const void *left, const void *right)
{
    double x = *(const double *)left, y = *(const double *)right;
    return (x > y) - (x < y);
}

static inline double median(struct times *times, size_t maker)
{
    qsort(times->ratios[maker], times->runs, sizeof(double), order);
    return times->ratios[maker][times->runs / 2];
}

/* The head of a table over its times, and the times of a row that made so many. Without LANES and OLD there are two
   makers. */
#if defined LANES
#define COLUMNS "lanes    plain C  16 calls lanes/C  lanes/16 calls"
#elif defined OLD
#define COLUMNS "new      new/C  new/old"
#else
#define COLUMNS "library  plain C  ratio"
#endif

static inline void print_times(struct times *times, double made)
{
    const double *best = times->best;
#if defined LANES
    printf("%-8.2f %-8.2f %-8.2f %-8.2f %.2f\n", best[NEW] / made, best[PLAIN] / made, best[THIRD] / made,
           median(times, PLAIN), median(times, THIRD));
#elif defined OLD
    printf("%-8.2f %-6.2f %.2f\n", best[NEW] / made, median(times, PLAIN), median(times, THIRD));
#else
    printf("%-8.2f %-8.2f %.2f\n", best[NEW] / made, best[PLAIN] / made, best[NEW] / best[PLAIN]);
#endif
}

#endif
