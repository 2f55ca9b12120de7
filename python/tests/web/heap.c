/* Random calls of the module's heap, natively: contents and alignment stay, blocks are apart, and all of it comes back. */
#include <stdio.h>
#include <stdlib.h>
#include <string.h>

#include "heap.h"

enum { BLOCKS = 400, PAGE = 65536 };

static unsigned char memory[96 * PAGE] __attribute__((aligned(PAGE)));
static size_t pages = 1;

/* (memory begins with one page) */
size_t heap_start(void) { return (size_t)memory; }
size_t heap_pages(void) { return (size_t)memory / PAGE + pages; }
int heap_grow(size_t more) {
    if (more > sizeof memory / PAGE - 1 - pages) return 0;
    pages += more;
    return 1;
}

static unsigned long long state = 7;
static size_t drawn(size_t below) {
    state = state * 6364136223846793005ull + 1442695040888963407ull;
    return (size_t)(state >> 33) % below;
}

static struct {
    unsigned char *at;
    size_t size;
    unsigned char mark;
} blocks[BLOCKS];

static int is_whole(int number) {
    for (size_t i = 0; i < blocks[number].size; ++i)
        if (blocks[number].at[i] != blocks[number].mark) return 0;
    return (size_t)blocks[number].at % 16 == 0;
}

int main(int count, char **words) {
    long calls = count > 1 ? atol(words[1]) : 100000, refused = 0;
    for (long call = 0; call < calls; ++call) {
        int number = (int)drawn(BLOCKS);
        size_t size = drawn(20) ? drawn(3000) : drawn(300000);
        if (!blocks[number].at) {
            blocks[number].at = heap_take(size);
        } else if (!is_whole(number)) {
            return puts("a block isn't whole"), 1;
        } else if (drawn(2)) {
            size_t kept = size < blocks[number].size ? size : blocks[number].size;
            unsigned char *other = heap_resize(blocks[number].at, kept, size);
            if (!other) {
                ++refused;
                continue;
            }
            blocks[number].at = other, blocks[number].size = kept;
            if (!is_whole(number)) return puts("a block isn't whole once it is resized"), 1;
        } else {
            heap_give(blocks[number].at);
            blocks[number].at = NULL, blocks[number].size = 0;
            continue;
        }
        if (!blocks[number].at) {
            ++refused;
            continue;
        }
        blocks[number].size = size, blocks[number].mark = (unsigned char)drawn(256);
        memset(blocks[number].at, blocks[number].mark, size);
    }
    if (heap_take((size_t)1 << 62) || heap_take((size_t)1 << 40)) return puts("too much isn't refused"), 1;
    for (int number = 0; number < BLOCKS; ++number) {
        if (blocks[number].at && !is_whole(number)) return puts("a block isn't whole at the end"), 1;
        if (blocks[number].at) heap_give(blocks[number].at);
    }
    /* what is free again is one block */
    size_t before = pages;
    void *all = heap_take((pages - 1) * PAGE - 64);
    if (!all || pages != before) return puts("memory doesn't come back as one block"), 1;
    printf("%ld calls, %ld refused\n", calls, refused);
    return 0;
}
