/* Refuses one growth of memory of the program that it is loaded into: the one with the number REFUSE_GROWTH, from 1 on. It
   writes a byte to descriptor 3 then. What is asked for before the program itself starts isn't counted. */
#include <errno.h>
#include <malloc.h>
#include <stddef.h>
#include <stdlib.h>
#include <unistd.h>

void *__libc_malloc(size_t size);
void *__libc_calloc(size_t count, size_t size);
void *__libc_realloc(void *block, size_t size);

/* The growths up to the one that is refused, that one too; 0 where none is, or none any more. */
static long left;

__attribute__((constructor)) static void begin(void)
{
    const char *number = getenv("REFUSE_GROWTH");
    left = number ? atol(number) : 0;
}

static int is_refused(void)
{
    if (left == 0 || --left > 0)
        return 0;
    if (write(3, "R", 1) != 1)
        abort();
    errno = ENOMEM;
    return 1;
}

void *malloc(size_t size)
{
    return is_refused() ? NULL : __libc_malloc(size);
}

void *calloc(size_t count, size_t size)
{
    return is_refused() ? NULL : __libc_calloc(count, size);
}

/* A block that gives memory back doesn't grow. It has up to 15 bytes more than it was asked for. */
void *realloc(void *block, size_t size)
{
    int grows = size + 16 > malloc_usable_size(block);
    return grows && is_refused() ? NULL : __libc_realloc(block, size);
}
