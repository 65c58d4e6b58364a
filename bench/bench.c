/* Compares the library with other implementations of the same, in one run on one machine. Each line
 * begins with a ratio of times and its spread. */
#include "bench.h"

#include <stdio.h>
#include <stdlib.h>
#include <time.h>

enum { MOST_TURNS = 64 };

/* The nanoseconds that this thread had a processor for: other work on the machine isn't counted. */
static double processor_time(void)
{
    struct timespec t;
    clock_gettime(CLOCK_THREAD_CPUTIME_ID, &t);
    return t.tv_sec * 1e9 + t.tv_nsec;
}

/* The nanoseconds of a piece of a task's work. */
static double time_of(struct task task)
{
    double start = processor_time();
    task.run(task.what);
    return (processor_time() - start) / task.units;
}

static int by_size(const void *left, const void *right)
{
    double a = *(const double *)left, b = *(const double *)right;
    return (a > b) - (a < b);
}

void compare(const char *line, struct task own, struct task other, int turns, const char *unit)
{
    double owns[MOST_TURNS], others[MOST_TURNS], ratios[MOST_TURNS];
    for (int turn = 0; turn < turns; turn++) {
        if (turn % 2 == 0) {
            owns[turn] = time_of(own);
            others[turn] = time_of(other);
        } else {
            others[turn] = time_of(other);
            owns[turn] = time_of(own);
        }
        ratios[turn] = owns[turn] / others[turn];
    }
    qsort(owns, (size_t)turns, sizeof owns[0], by_size);
    qsort(others, (size_t)turns, sizeof others[0], by_size);
    qsort(ratios, (size_t)turns, sizeof ratios[0], by_size);
    printf("%8.3f (%.3f to %.3f)  %s: %.4g and %.4g %s\n", ratios[turns / 2], ratios[0],
        ratios[turns - 1], line, owns[turns / 2], others[turns / 2], unit);
    fflush(stdout);
}

int main(int argc, char **argv)
{
    if (argc != 2)
        fail("usage: bench FILE (a file to write batches to)");
    crc_tables();
    bench_crc();
    bench_read(argv[1]);
    bench_build();
    bench_produce();
    bench_growth();
    bench_pages();
    bench_serve();
    bench_served();
    bench_kafka();
    bench_transactions();
    return 0;
}
