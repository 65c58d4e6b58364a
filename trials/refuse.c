/* Refuses one request for memory of a program that it is loaded into before the C library:
 * LD_PRELOAD=refuse.so REFUSE=N PROGRAM refuses the Nth call of malloc, calloc or realloc, counted
 * from 1, and writes a byte to the file descriptor 3 when it does. */
#include <errno.h>
#include <stdlib.h>
#include <unistd.h>

extern void *__libc_malloc(size_t size);
extern void *__libc_calloc(size_t count, size_t size);
extern void *__libc_realloc(void *old, size_t size);

static unsigned long calls;

static unsigned long wanted(void)
{
    const char *text = getenv("REFUSE");
    return text == NULL ? 0 : strtoul(text, NULL, 10);
}

static int refuses(void)
{
    if (__sync_add_and_fetch(&calls, 1) != wanted())
        return 0;
    if (write(3, "r", 1) != 1)
        abort();
    errno = ENOMEM;
    return 1;
}

void *malloc(size_t size)
{
    return refuses() ? NULL : __libc_malloc(size);
}

void *calloc(size_t count, size_t size)
{
    return refuses() ? NULL : __libc_calloc(count, size);
}

void *realloc(void *old, size_t size)
{
    return refuses() ? NULL : __libc_realloc(old, size);
}
