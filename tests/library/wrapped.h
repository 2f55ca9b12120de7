/* The calls of malloc, realloc and free of a program that is linked with --wrap=malloc --wrap=realloc --wrap=free: they count bytes, and
 * refuse one. */
#ifndef WRAPPED_H
#define WRAPPED_H

#include "support.h"

/* What a block takes before its first byte, for its size. */
#define HEAD 16

void *__real_malloc(size_t size);
void __real_free(void *block);
void *__wrap_malloc(size_t size);
void *__wrap_realloc(void *block, size_t size);
void __wrap_free(void *block);

/* The bytes that are held, the most that were held since it was set, and the calls until the refused one, if any. */
static size_t held, most;
static long until = -1;

void *__wrap_malloc(size_t size)
{
    if (until > 0 && --until == 0) {
        until = -1;
        return NULL;
    }
    size_t *block = (size_t *)__real_malloc(size + HEAD);
    if (block == NULL)
        return NULL;
    *block = size;
    held += size;
    most = held > most ? held : most;
    return (char *)block + HEAD;
}

void __wrap_free(void *block)
{
    if (block == NULL)
        return;
    size_t *whole = (size_t *)(void *)((char *)block - HEAD);
    held -= *whole;
    __real_free(whole);
}

/* The bytes of both blocks count while they are copied. */
void *__wrap_realloc(void *block, size_t size)
{
    void *other = __wrap_malloc(size);
    if (other == NULL || block == NULL)
        return other;
    size_t had = *(size_t *)(void *)((char *)block - HEAD);
    memcpy(other, block, had < size ? had : size);
    __wrap_free(block);
    return other;
}

#endif
