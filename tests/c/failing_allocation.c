/* Refuses one allocation of a program, for tools/devices.py: LD_PRELOAD names the built library, and
   FAILING_ALLOCATION which allocation it is, counted from 1. It needs the library of GNU. */
#include <errno.h>
#include <stdlib.h>

extern void *__libc_malloc(size_t size);
extern void *__libc_realloc(void *block, size_t size);

static long left; /* how many allocations there are up to the refused one; 0 is none */

__attribute__((constructor)) static void read_number(void)
{
    const char *number = getenv("FAILING_ALLOCATION");
    left = number ? atol(number) : 0;
}

static int is_refused(void)
{
    if (left == 0 || --left > 0)
        return 0;
    errno = ENOMEM;
    return 1;
}

void *malloc(size_t size)
{
    return is_refused() ? NULL : __libc_malloc(size);
}

void *realloc(void *block, size_t size)
{
    return is_refused() ? NULL : __libc_realloc(block, size);
}
