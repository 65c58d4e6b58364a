/* A log that is served: the log, its store in memory and both published copies. */
#include "bench.h"

#include <stdio.h>
#include <stdlib.h>
#include <time.h>

enum { VALUE = 100, LOG = 64 << 20 };

static double processor_time(void)
{
    struct timespec t;
    clock_gettime(CLOCK_THREAD_CPUTIME_ID, &t);
    return t.tv_sec * 1e9 + t.tv_nsec;
}

/* A log of 64 MiB of batches of so many records, with so many pages after each batch: the bytes of
 * memory that are allocated in the end, and the time of a batch. */
static void serve_log(int records, uint64_t pages)
{
    uint8_t *text = get_room(20000);
    size_t len = put_batch(text, records, VALUE, &no_producer);
    uint64_t count = LOG / len;
    heap_count();
    double start = processor_time();
    int64_t end = kx_bench_served(text, len, count, pages);
    double taken = processor_time() - start;
    if (end != (int64_t)(count * (uint64_t)records))
        fail("a log isn't served");
    double log = (double)len * (double)count;
    printf("%8.3f bytes of memory a byte of a served log (most %.3f), batches of %zu bytes, %llu "
           "pages after each: %.4g ns a batch\n",
        (double)heap_at_last() / log, (double)heap_most() / log, len, (unsigned long long)pages,
        taken / (double)count);
    fflush(stdout);
    free(text);
}

void bench_served(void)
{
    serve_log(1, 0);
    serve_log(1, 1);
    serve_log(150, 0);
    serve_log(150, 1);
}
