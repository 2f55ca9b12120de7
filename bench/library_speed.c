/* Asks the library from threads, each with a handle of its own, and prints what a call takes.
 *
 *     library_speed HIER PAIRS THREADS
 *
 * PAIRS has two nodes a line, from 1. Each thread asks all pairs, each from another place on. It prints nanoseconds of the wall
 * clock and of the processor for a length and for a route, as `LENGTH LENGTH_CPU ROUTE ROUTE_CPU`, and a sum of what was found. */
#include "support.h"

#include <pthread.h>
#include <time.h>

enum { ROOM = 1 << 20 };

static domethyme_pair *pairs;
static size_t asked, threads;
static int routes;

typedef struct share {
    domethyme handle;
    size_t start;
    uint64_t sum;
    double cpu;
} share;

static double now(clockid_t clock)
{
    struct timespec time;
    WANT(clock_gettime(clock, &time) == 0);
    return (double)time.tv_sec * 1e9 + (double)time.tv_nsec;
}

static void *work(void *given)
{
    share *mine = (share *)given;
    uint32_t *nodes = (uint32_t *)malloc(ROOM * sizeof *nodes);
    WANT(nodes != NULL);
    memset(nodes, 0, ROOM * sizeof *nodes);
    double begun = now(CLOCK_THREAD_CPUTIME_ID);
    for (size_t each = 0; each < asked; ++each) {
        domethyme_pair pair = pairs[(mine->start + each) % asked];
        domethyme_route_info route = {0, 0};
        uint32_t code = routes ? domethyme_route(&mine->handle, pair.from, pair.to, &route, nodes, ROOM)
                               : domethyme_length(&mine->handle, pair.from, pair.to, &route.length);
        WANT(code == DOMETHYME_OK || code == DOMETHYME_NO_PATH);
        mine->sum += route.length;
    }
    mine->cpu = now(CLOCK_THREAD_CPUTIME_ID) - begun;
    free(nodes);
    return NULL;
}

static uint64_t measured(domethyme *first)
{
    share *shares = (share *)calloc(threads, sizeof *shares);
    pthread_t *started = (pthread_t *)malloc(threads * sizeof *started);
    WANT(shares != NULL && started != NULL);
    for (size_t thread = 0; thread < threads; ++thread) {
        shares[thread].start = thread * asked / threads;
        WANT(domethyme_beside(first, &shares[thread].handle) == DOMETHYME_OK);
    }
    double begun = now(CLOCK_MONOTONIC), cpu = 0;
    for (size_t thread = 0; thread < threads; ++thread)
        WANT(pthread_create(&started[thread], NULL, work, &shares[thread]) == 0);
    for (size_t thread = 0; thread < threads; ++thread)
        WANT(pthread_join(started[thread], NULL) == 0);
    double calls = (double)(asked * threads), wall = now(CLOCK_MONOTONIC) - begun;
    for (size_t thread = 0; thread < threads; ++thread) {
        WANT(shares[thread].sum == shares[0].sum);
        cpu += shares[thread].cpu;
        domethyme_close(&shares[thread].handle);
    }
    printf("%.0f %.0f ", wall / calls, cpu / calls);
    uint64_t sum = shares[0].sum;
    free(started);
    free(shares);
    return sum;
}

int main(int count, char **words)
{
    WANT(count == 4);
    file hierarchy = file_of(words[1]);
    domethyme first = DOMETHYME_CLOSED;
    threads = strtoul(words[3], NULL, 10);
    WANT(threads > 0 && domethyme_open(&first, hierarchy.bytes, hierarchy.count) == DOMETHYME_OK);
    free(hierarchy.bytes);
    pairs = pairs_of(words[2], &asked);
    WANT(asked > 0);
    uint64_t lengths = measured(&first);
    routes = 1;
    uint64_t sum = measured(&first);
    WANT(sum == lengths);
    printf("%" PRIu64 "\n", sum);
    free(pairs);
    domethyme_close(&first);
    return 0;
}
