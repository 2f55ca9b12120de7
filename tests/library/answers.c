/* Prints the routes of pairs as `routecli route` does, and sees on the way that all calls agree.
 *
 *     answers HIER PAIRS */
#include "support.h"

/* The length alone, the route by two calls, and the same between one start and one end. */
static void answer(domethyme *handle, domethyme_pair pair)
{
    uint64_t length = 7;
    domethyme_route_info route = {7, 7};
    uint32_t code = domethyme_length(handle, pair.from, pair.to, &length);
    uint32_t spare = 0;
    if (code == DOMETHYME_NO_PATH) {
        WANT(length == 7);
        WANT(domethyme_route(handle, pair.from, pair.to, &route, &spare, 1) == DOMETHYME_NO_PATH);
        WANT(route.length == 7 && route.nodes == 7);
        printf("n %" PRIu32 " %" PRIu32 "\n", pair.from + 1, pair.to + 1);
        return;
    }
    WANT(code == DOMETHYME_OK);
    WANT(domethyme_route(handle, pair.from, pair.to, &route, &spare, 0) == DOMETHYME_NO_ROOM);
    WANT(route.length == length && route.nodes > 0);
    uint32_t *nodes = (uint32_t *)malloc((route.nodes + 1) * sizeof *nodes);
    WANT(nodes != NULL);
    nodes[route.nodes] = 4242;
    domethyme_route_info again = {0, 0};
    WANT(domethyme_route(handle, pair.from, pair.to, &again, nodes, route.nodes + 1) == DOMETHYME_OK);
    WANT(again.length == length && again.nodes == route.nodes && nodes[route.nodes] == 4242);
    WANT(nodes[0] == pair.from && nodes[route.nodes - 1] == pair.to);

    domethyme_seed start = {1000, pair.from, 1}, end = {500, pair.to, 1};
    domethyme_between_info between = {0, 9, 9, 0};
    uint32_t *others = (uint32_t *)malloc(route.nodes * sizeof *others);
    WANT(others != NULL);
    WANT(domethyme_between(handle, &start, 1, &end, 1, &between, others, route.nodes) == DOMETHYME_OK);
    WANT(between.length == length + 1500 && between.start == 0 && between.end == 0 && between.nodes == route.nodes);

    printf("r %" PRIu32 " %" PRIu32 " %" PRIu64 " %zu", pair.from + 1, pair.to + 1, length, route.nodes - 1);
    for (size_t place = 0; place < route.nodes; ++place)
        printf(" %" PRIu32, nodes[place] + 1);
    printf("\n");
    free(nodes);
    free(others);
}

/* Many lengths in one call, and a table of the first pairs' sources and targets, beside lengths one by one. */
static void compare(domethyme *handle, const domethyme_pair *pairs, size_t count)
{
    uint64_t *lengths = (uint64_t *)malloc((count + 1) * sizeof *lengths);
    WANT(lengths != NULL);
    lengths[count] = 4242;
    WANT(domethyme_lengths(handle, pairs, count, lengths, count + 1) == DOMETHYME_OK && lengths[count] == 4242);
    for (size_t place = 0; place < count; ++place) {
        uint64_t length = DOMETHYME_NO_LENGTH;
        uint32_t code = domethyme_length(handle, pairs[place].from, pairs[place].to, &length);
        WANT((code == DOMETHYME_OK || code == DOMETHYME_NO_PATH) && length == lengths[place]);
    }
    free(lengths);

    const size_t side = 20;
    uint32_t sources[20], targets[20];
    uint64_t table[20 * 20];
    size_t rows = count < side ? count : side;
    for (size_t place = 0; place < rows; ++place) {
        sources[place] = pairs[place].from;
        targets[place] = pairs[place].to;
    }
    WANT(domethyme_table(handle, sources, rows, targets, rows, table, rows * rows) == DOMETHYME_OK);
    for (size_t row = 0; row < rows; ++row)
        for (size_t column = 0; column < rows; ++column) {
            uint64_t length = DOMETHYME_NO_LENGTH;
            uint32_t code = domethyme_length(handle, sources[row], targets[column], &length);
            WANT((code == DOMETHYME_OK || code == DOMETHYME_NO_PATH) && length == table[row * rows + column]);
        }
}

int main(int count, char **words)
{
    WANT(count == 3);
    domethyme handle = opened(words[1]);
    size_t asked;
    domethyme_pair *pairs = pairs_of(words[2], &asked);
    for (size_t place = 0; place < asked; ++place)
        answer(&handle, pairs[place]);
    compare(&handle, pairs, asked);
    free(pairs);
    domethyme_close(&handle);
    return 0;
}
