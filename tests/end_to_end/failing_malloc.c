/* Makes one allocation of a program fail: the one whose number stands in FAIL_ALLOCATION, counted from 1. As the
   program ends, the number of allocations is written to the file that COUNT_ALLOCATIONS names. */
#define _GNU_SOURCE
#include <errno.h>
#include <stdio.h>
#include <stdlib.h>

extern void *__libc_malloc(size_t size);
extern void *__libc_realloc(void *block, size_t size);

static long count = 0;
static long failing = -1;

static int fails(void)
{
    if (failing < 0) {
        const char *number = getenv("FAIL_ALLOCATION");
        failing = number ? atol(number) : 0;
    }
    count++;
    if (count != failing)
        return 0;
    errno = ENOMEM;
    return 1;
}

void *malloc(size_t size)
{
    return fails() ? NULL : __libc_malloc(size);
}

void *realloc(void *block, size_t size)
{
    return fails() ? NULL : __libc_realloc(block, size);
}

__attribute__((destructor)) static void tell(void)
{
    long told = count;
    const char *path = getenv("COUNT_ALLOCATIONS");
    FILE *file = path ? fopen(path, "w") : NULL;
    if (file) {
        fprintf(file, "%ld\n", told);
        fclose(file);
    }
}
