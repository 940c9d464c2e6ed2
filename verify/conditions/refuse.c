/*
 * Stands before the memory calls of the C library, and refuses growths of the program that it is loaded into.
 *
 * REFUSED=N refuses the Nth growth alone, and REFUSED=N+ refuses that one and all after it. They are counted from 1 on.
 */
#include <stddef.h>
#include <stdlib.h>
#include <string.h>

extern void *__libc_malloc(size_t size);
extern void *__libc_realloc(void *block, size_t size);

static long growths;

static int is_refused(void)
{
    const char *word = getenv("REFUSED");
    char *rest;
    long number;

    growths++;
    if (word == NULL)
        return 0;
    number = strtol(word, &rest, 10);
    return growths == number || (*rest == '+' && growths > number);
}

void *malloc(size_t size)
{
    return is_refused() ? NULL : __libc_malloc(size);
}

void *realloc(void *block, size_t size)
{
    return is_refused() ? NULL : __libc_realloc(block, size);
}
