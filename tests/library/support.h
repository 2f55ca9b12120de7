/* What the programs of this folder share. They are C and C++. */
#ifndef SUPPORT_H
#define SUPPORT_H

#include "domethyme.h"

#include <inttypes.h>
#include <stdio.h>
#include <stdlib.h>
#include <string.h>

/* Ends the program where a test fails, and says which. */
#define WANT(holds)                                                                                                            \
    do {                                                                                                                       \
        if (!(holds)) {                                                                                                        \
            fprintf(stderr, "%s:%d: not so: %s\n", __FILE__, __LINE__, #holds);                                                \
            exit(1);                                                                                                           \
        }                                                                                                                      \
    } while (0)

typedef struct file {
    uint8_t *bytes;
    size_t count;
} file;

/* All bytes of a file, in a block of just their size. */
static inline file file_of(const char *path)
{
    file read = {NULL, 0};
    FILE *source = fopen(path, "rb");
    WANT(source != NULL && fseek(source, 0, SEEK_END) == 0);
    read.count = (size_t)ftell(source);
    rewind(source);
    read.bytes = (uint8_t *)malloc(read.count + 1);
    WANT(read.bytes != NULL && fread(read.bytes, 1, read.count, source) == read.count);
    fclose(source);
    return read;
}

/* A handle of a file. */
static inline domethyme opened(const char *path)
{
    domethyme handle = DOMETHYME_CLOSED;
    file hierarchy = file_of(path);
    WANT(domethyme_open(&handle, hierarchy.bytes, hierarchy.count) == DOMETHYME_OK);
    free(hierarchy.bytes);
    return handle;
}

/* Pairs of nodes from 1, two numbers a line. */
static inline domethyme_pair *pairs_of(const char *path, size_t *count)
{
    size_t room = 1024;
    domethyme_pair *pairs = (domethyme_pair *)malloc(room * sizeof *pairs);
    FILE *source = fopen(path, "r");
    WANT(source != NULL && pairs != NULL);
    *count = 0;
    for (uint32_t from, to; fscanf(source, "%" SCNu32 " %" SCNu32, &from, &to) == 2; ++*count) {
        if (*count == room) {
            pairs = (domethyme_pair *)realloc(pairs, (room *= 2) * sizeof *pairs);
            WANT(pairs != NULL);
        }
        pairs[*count].from = from - 1;
        pairs[*count].to = to - 1;
    }
    fclose(source);
    return pairs;
}

#endif
