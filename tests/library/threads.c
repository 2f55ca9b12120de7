/* Threads with handles of one hierarchy, each of whose answers is compared with what one thread found before.
 *
 *     threads HIER PAIRS THREADS ANSWERS      each thread answers so many times */
#include "support.h"

#include <pthread.h>

typedef struct found {
    uint32_t code;
    uint64_t length;
    size_t nodes;
} found;

typedef struct share {
    domethyme handle;
    size_t start;
} share;

static domethyme_pair *pairs;
static found *wanted;
static size_t asked, answers;

static found answer(domethyme *handle, domethyme_pair pair)
{
    static __thread uint32_t nodes[1 << 16];
    domethyme_route_info route = {0, 0};
    uint64_t length = 0;
    found now;
    now.code = domethyme_route(handle, pair.from, pair.to, &route, nodes, sizeof nodes / sizeof *nodes);
    now.length = route.length;
    now.nodes = route.nodes;
    WANT(domethyme_length(handle, pair.from, pair.to, &length) == now.code && length == now.length);
    return now;
}

/* A set of sevens, which all threads read at the same time. */
static uint64_t *set;
static size_t set_count;

static void make_set(domethyme *handle)
{
    size_t links = 0, arcs = 0;
    domethyme_pair none;
    WANT(domethyme_links(handle, &links) == DOMETHYME_OK);
    WANT(domethyme_arcs(handle, &none, 0, &arcs) == DOMETHYME_NO_ROOM);
    uint32_t *sevens = (uint32_t *)malloc(arcs * sizeof *sevens);
    set_count = links + 1;
    set = (uint64_t *)malloc(set_count * sizeof *set);
    WANT(sevens != NULL && set != NULL);
    for (size_t place = 0; place < arcs; ++place)
        sevens[place] = 7;
    WANT(domethyme_numbers(handle, sevens, arcs, set, set_count) == DOMETHYME_OK);
    free(sevens);
}

/* A row to one of two lists of targets, whose selections the handles share, beside lengths one by one, and with sums. */
static void compare(domethyme *handle, size_t place)
{
    uint32_t targets[80] = {0};
    uint64_t row[80];
    size_t first = place % 128 == 0 ? 0 : asked / 2, many = asked / 2 < 80 ? asked / 2 : 80;
    for (size_t column = 0; column < many; ++column)
        targets[column] = pairs[first + column].to;
    WANT(domethyme_table(handle, &pairs[place].from, 1, targets, many, row, many) == DOMETHYME_OK);
    for (size_t column = 0; column < many; ++column) {
        uint64_t length = DOMETHYME_NO_LENGTH;
        uint32_t code = domethyme_length(handle, pairs[place].from, targets[column], &length);
        WANT((code == DOMETHYME_OK || code == DOMETHYME_NO_PATH) && length == row[column]);
    }
#ifndef __SANITIZE_THREAD__
    /* (A selection that one handle has made is dropped by another here, which TSan takes for a race, since it doesn't see the atomics
     * by which the library passes it on.) */
    domethyme_sum_info cells[80];
    WANT(domethyme_table_sums(handle, set, set_count, &pairs[place].from, 1, targets, many, cells, many) == DOMETHYME_OK);
    for (size_t column = 0; column < many; ++column) {
        WANT(cells[column].length == row[column]);
        WANT(row[column] == DOMETHYME_NO_LENGTH ? cells[column].sum == DOMETHYME_NO_LENGTH : cells[column].sum % 7 == 0);
    }
#endif
}

static void *work(void *given)
{
    share *mine = (share *)given;
    for (size_t place = mine->start, answered = 0; answered < answers; place = (place + 1) % asked, ++answered) {
        found now = answer(&mine->handle, pairs[place]);
        WANT(now.code == wanted[place].code && now.length == wanted[place].length && now.nodes == wanted[place].nodes);
        /* Now and then a handle of its own, closed again, so that counts are taken at the same time. */
        if (place % 64 == 0) {
            domethyme other = DOMETHYME_CLOSED;
            WANT(domethyme_beside(&mine->handle, &other) == DOMETHYME_OK);
            compare(place % 256 == 0 ? &other : &mine->handle, place);
            domethyme_close(&other);
        }
    }
    domethyme_close(&mine->handle);
    return NULL;
}

int main(int count, char **words)
{
    WANT(count == 5);
    size_t threads = strtoul(words[3], NULL, 10);
    domethyme first = opened(words[1]);
    pairs = pairs_of(words[2], &asked);
    wanted = (found *)malloc(asked * sizeof *wanted);
    share *shares = (share *)calloc(threads, sizeof *shares);
    pthread_t *started = (pthread_t *)malloc(threads * sizeof *started);
    WANT(threads > 0 && asked > 0 && wanted != NULL && shares != NULL && started != NULL);
    for (size_t place = 0; place < asked; ++place)
        wanted[place] = answer(&first, pairs[place]);
    make_set(&first);
    answers = strtoul(words[4], NULL, 10);
    for (size_t thread = 0; thread < threads; ++thread) {
        shares[thread].start = thread * asked / threads;
        WANT(domethyme_beside(&first, &shares[thread].handle) == DOMETHYME_OK);
        WANT(pthread_create(&started[thread], NULL, work, &shares[thread]) == 0);
    }
    domethyme_close(&first);
    for (size_t thread = 0; thread < threads; ++thread)
        WANT(pthread_join(started[thread], NULL) == 0);
    free(set);
    free(pairs);
    free(wanted);
    free(shares);
    free(started);
    printf("%zu answers\n", threads * answers);
    return 0;
}
