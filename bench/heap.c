/* The memory that the library asks for, over the C library's. A block of no bytes asks for as many
 * as its alignment, so that it has an address of its own. */
#include "bench.h"

#include <malloc.h>
#include <stddef.h>
#include <stdlib.h>

struct tried {
    bool ok;
    uint8_t *p;
};

static uint8_t none;

/* The bytes of all blocks since they are counted: now, after the last that was asked for, and at
 * most. */
static bool counts;
static size_t held, at_last, most;

void heap_count(void)
{
    counts = true;
    held = at_last = most = 0;
}

size_t heap_at_last(void)
{
    counts = false;
    return at_last;
}

size_t heap_most(void)
{
    return most;
}

static struct tried tried(uint8_t *p)
{
    if (!p)
        return (struct tried){false, &none};
    if (counts) {
        held += malloc_usable_size(p);
        at_last = held;
        most = held > most ? held : most;
    }
    return (struct tried){true, p};
}

static void let_go(uint8_t *p)
{
    if (counts)
        held -= malloc_usable_size(p);
}

struct tried rattle_alloc(size_t len, size_t align)
{
    return tried(malloc(len ? len : align));
}

struct tried rattle_realloc(uint8_t *p, size_t kept, size_t len, size_t align)
{
    (void)kept;
    let_go(p);
    return tried(realloc(p, len ? len : align));
}

void rattle_dealloc(uint8_t *p)
{
    let_go(p);
    free(p);
}
