/* A library to be loaded before others: it refuses the request for memory of the number that `refuse` names, counted from 1, and counts
 * what is held. */
#include <stddef.h>

void *__libc_malloc(size_t);
void *__libc_calloc(size_t, size_t);
void *__libc_realloc(void *, size_t);
void __libc_free(void *);

static _Thread_local long left, held;

/* Refuses the request of this number from now on. */
void refuse(long number)
{
    left = number;
}

/* Whether none has been refused since; none is from now on. */
int none_refused(void)
{
    int none = left > 0;
    left = 0;
    return none;
}

static int is_refused(void)
{
    return left > 0 && --left == 0;
}

/* Counts what is held from now on. */
void count_from_now(void)
{
    held = 0;
}

/* How many blocks more are held than then. */
long more_held(void)
{
    return held;
}

static void *taken(void *block)
{
    held += block != NULL;
    return block;
}

void *malloc(size_t size)
{
    return is_refused() ? NULL : taken(__libc_malloc(size));
}

void *calloc(size_t count, size_t size)
{
    return is_refused() ? NULL : taken(__libc_calloc(count, size));
}

void *realloc(void *old, size_t size)
{
    if (is_refused())
        return NULL;
    return old ? __libc_realloc(old, size) : taken(__libc_realloc(old, size));
}

void free(void *block)
{
    held -= block != NULL;
    __libc_free(block);
}
