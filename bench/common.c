/* What all programs of the benchmark share. */
#include "bench.h"

#include <stdio.h>
#include <stdlib.h>
#include <time.h>

double now(void)
{
    struct timespec t;
    clock_gettime(CLOCK_MONOTONIC, &t);
    return t.tv_sec * 1e9 + t.tv_nsec;
}

void fail(const char *what)
{
    fprintf(stderr, "bench: %s\n", what);
    exit(1);
}

void *get_room(size_t len)
{
    void *bytes = malloc(len);
    if (!bytes)
        fail("out of memory");
    return bytes;
}

static int is_above(const void *left, const void *right)
{
    double a = *(const double *)left, b = *(const double *)right;
    return (a > b) - (a < b);
}

void print_load(const struct load *load, double *times)
{
    qsort(times, load->asked, sizeof *times, is_above);
    double seconds = load->taken / 1e9;
    printf("%9.0f /s %9.0f records/s   median %8.3f ms   99th %8.3f ms", load->asked / seconds,
        load->records / seconds, times[load->asked / 2] / 1e6,
        times[load->asked - 1 - load->asked / 100] / 1e6);
    if (load->again > 0)
        printf("   asked again %zu", load->again);
    printf("\n");
}
