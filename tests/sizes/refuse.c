/* Stands before the two calls by which a program takes memory of the C library, and refuses the one whose number, from 1 and over all
   threads, REFUSED has. A byte is written then to the open file whose number TOLD has. Made for tests/sizes/run and bench/workers.py,
   which put it there by LD_PRELOAD. */
#include <stdlib.h>
#include <unistd.h>

void *__libc_malloc(size_t size);
void *__libc_realloc(void *at, size_t size);

static unsigned long calls;
static unsigned long refused;
static int is_read;

static int is_refused(void)
{
    /* (the first call comes before any thread) */
    if (!is_read) {
        is_read = 1;
        refused = strtoul(getenv("REFUSED"), 0, 10);
    }
    if (__atomic_add_fetch(&calls, 1, __ATOMIC_RELAXED) != refused)
        return 0;
    if (write(atoi(getenv("TOLD")), "!", 1) != 1)
        abort();
    return 1;
}

void *malloc(size_t size)
{
    return is_refused() ? 0 : __libc_malloc(size);
}

void *realloc(void *at, size_t size)
{
    return is_refused() ? 0 : __libc_realloc(at, size);
}
