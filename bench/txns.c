/* Transactions of a coordinator in memory, of few and of many transactional ids. */
#include "bench.h"

/* Each id begins a transaction, and then so many are committed for each id, each with the answer to
 * its marker and the beginning of the next. */
enum { ENDED = 10, TXN_TURNS = 5 };

struct ids {
    uint64_t count;
    uint64_t times;
};

static void run_transactions(void *what)
{
    struct ids *ids = what;
    uint64_t turns = ENDED * ids->count;
    for (uint64_t i = 0; i < ids->times; i++)
        /* Two replies for each id; a reply, a marker and a reply for each turn. */
        if (kx_bench_transactions(ids->count, turns) != (int64_t)(2 * ids->count + 3 * turns))
            fail("a request is refused");
}

void bench_transactions(void)
{
    struct ids few = {1000, 10}, more = {10000, 1}, many = {100000, 1};
    struct task one = {run_transactions, &few, (double)few.count * few.times * ENDED};
    struct task two = {run_transactions, &more, (double)more.count * more.times * ENDED};
    struct task three = {run_transactions, &many, (double)many.count * many.times * ENDED};
    compare("a coordinator's transactions, of 10^4 ids / of 10^3", two, one, TXN_TURNS,
        "ns a transaction");
    compare("a coordinator's transactions, of 10^5 ids / of 10^3", three, one, TXN_TURNS,
        "ns a transaction");
}
