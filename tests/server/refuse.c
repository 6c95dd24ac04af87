/* Preloaded into the program by tests/server/memory: counts its requests for memory, and refuses some of them, as a system may that has none left.
   REFUSE_FROM and REFUSE_TO name the first and the last request that is refused, counted from 1. As the program ends, the number of its
   requests and of those refused are written to the file descriptor REFUSE_TOLD. */
#include <errno.h>
#include <stddef.h>
#include <stdio.h>
#include <stdlib.h>
#include <unistd.h>

/* the C library's own */
extern void *__libc_malloc(size_t size);
extern void *__libc_calloc(size_t count, size_t size);
extern void *__libc_realloc(void *block, size_t size);
extern void *__libc_memalign(size_t align, size_t size);

static unsigned long asked, refused, first, last;
static int told = -1;

static unsigned long number(const char *name)
{
    const char *text = getenv(name);
    return text ? strtoul(text, NULL, 10) : 0;
}

__attribute__((constructor)) static void begin(void)
{
    first = number("REFUSE_FROM");
    last = number("REFUSE_TO");
    told = (int)number("REFUSE_TOLD");
}

__attribute__((destructor)) static void end(void)
{
    char line[64];
    int size = snprintf(line, sizeof line, "%lu %lu\n", asked, refused);
    int counted = told;
    told = -1;
    if (counted >= 0 && write(counted, line, (size_t)size) != size)
        _exit(99);
}

static int refuses(void)
{
    if (told < 0)
        return 0;
    asked++;
    if (asked < first || asked > last)
        return 0;
    refused++;
    errno = ENOMEM;
    return 1;
}

void *malloc(size_t size)
{
    return refuses() ? NULL : __libc_malloc(size);
}

void *calloc(size_t count, size_t size)
{
    return refuses() ? NULL : __libc_calloc(count, size);
}

void *realloc(void *block, size_t size)
{
    return refuses() ? NULL : __libc_realloc(block, size);
}

void *aligned_alloc(size_t align, size_t size)
{
    return refuses() ? NULL : __libc_memalign(align, size);
}

int posix_memalign(void **block, size_t align, size_t size)
{
    void *got = refuses() ? NULL : __libc_memalign(align, size);
    if (!got)
        return ENOMEM;
    *block = got;
    return 0;
}
