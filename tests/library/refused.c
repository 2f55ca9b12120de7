/* Refuses each allocation of a run in turn: each call says that memory is out, or did what it was asked, and nothing leaks.
 * The latter is where a list asked for room by an estimate, was refused, and then got what it needed.
 *
 *     refused HIER */
#include "wrapped.h"

static size_t refusals;

static int is_out(uint32_t code)
{
    WANT(code == DOMETHYME_OK || code == DOMETHYME_OUT_OF_MEMORY);
    refusals += code == DOMETHYME_OUT_OF_MEMORY;
    return code == DOMETHYME_OUT_OF_MEMORY;
}

/* All calls, in a row. A call that memory was refused to is made again, and then answers. */
static void run(const uint8_t *bytes, size_t count)
{
    domethyme handle = DOMETHYME_CLOSED, other = DOMETHYME_CLOSED;
    uint64_t length = 0, lengths[4];
    uint32_t nodes[3], ends[] = {0, 2};
    domethyme_pair pair = {0, 2};
    domethyme_seed start = {5, 0, 0}, end = {5, 2, 0};
    domethyme_route_info route = {0, 0};
    domethyme_between_info between = {0, 0, 0, 0};
    while (is_out(domethyme_open(&handle, bytes, count)))
        WANT(handle.router == NULL);
    while (is_out(domethyme_beside(&handle, &other)))
        WANT(other.router == NULL);
    while (is_out(domethyme_length(&handle, 0, 2, &length)))
        WANT(length == 0);
    WANT(length == 700);
    while (is_out(domethyme_route(&other, 0, 2, &route, nodes, 3)))
        WANT(route.length == 0);
    WANT(route.length == 700 && route.nodes == 3 && nodes[1] == 1);
    while (is_out(domethyme_between(&other, &start, 1, &end, 1, &between, nodes, 3)))
        WANT(between.length == 0);
    WANT(between.length == 710);
    while (is_out(domethyme_lengths(&handle, &pair, 1, lengths, 4)))
        ;
    WANT(lengths[0] == 700);
    while (is_out(domethyme_table(&handle, ends, 2, ends, 2, lengths, 4)))
        ;
    WANT(lengths[1] == 700 && lengths[2] == DOMETHYME_NO_LENGTH);
    /* by rows, with a selection */
    uint32_t many[40];
    uint64_t rows[80];
    for (int place = 0; place < 40; ++place)
        many[place] = place % 3;
    while (is_out(domethyme_table(&handle, ends, 2, many, 40, rows, 80)))
        ;
    WANT(rows[0] == 0 && rows[38] == 700 && rows[40] == DOMETHYME_NO_LENGTH && rows[79] == DOMETHYME_NO_LENGTH);
    uint64_t reached[3] = {42, 42, 42};
    while (is_out(domethyme_reach(&handle, &start, 1, 704, reached, 3)))
        WANT(reached[0] == 42 && reached[1] == 42 && reached[2] == 42);
    WANT(reached[0] == 5 && reached[1] == 305 && reached[2] == DOMETHYME_NO_LENGTH);
    /* sums of 7 for each arc */
    const uint32_t sevens[] = {7, 7, 7, 7}, added[] = {1};
    domethyme_pair arcs[4];
    size_t arc_count = 0, links = 0;
    uint64_t set[8] = {42};
    domethyme_sum_info cells[4] = {{42, 42}, {42, 42}, {42, 42}, {42, 42}};
    WANT(domethyme_links(&handle, &links) == DOMETHYME_OK && links < 8);
    while (is_out(domethyme_arcs(&handle, arcs, 4, &arc_count)))
        WANT(arc_count == 0);
    while (is_out(domethyme_numbers(&handle, sevens, arc_count, set, 8)))
        WANT(set[0] == 42);
    while (is_out(domethyme_reach_sums(&handle, set, links + 1, &start, 1, added, 1, 704, cells, 4)))
        WANT(cells[0].length == 42 && cells[1].sum == 42 && cells[2].sum == 42);
    WANT(cells[0].length == 5 && cells[0].sum == 1 && cells[1].length == 305 && cells[1].sum == 8);
    WANT(cells[2].length == DOMETHYME_NO_LENGTH && cells[2].sum == DOMETHYME_NO_LENGTH && cells[3].sum == 42);
    while (is_out(domethyme_table_sums(&handle, set, links + 1, ends, 2, ends, 2, cells, 4)))
        ;
    WANT(cells[1].length == 700 && cells[1].sum == 14 && cells[2].sum == DOMETHYME_NO_LENGTH);
    while (is_out(domethyme_open_turned(&other, bytes, count)))
        WANT(other.router == NULL);
    while (is_out(domethyme_length(&other, 2, 0, &length)))
        ;
    WANT(length == 700);
    domethyme_close(&handle);
    domethyme_close(&other);
}

int main(int count, char **words)
{
    WANT(count == 2);
    file hierarchy = file_of(words[1]);
    size_t before = held, tried = 0;
    for (long refuse = 1;; ++refuse, ++tried) {
        until = refuse;
        run(hierarchy.bytes, hierarchy.count);
        WANT(held == before);
        if (until > 0)
            break;
    }
    until = -1;
    WANT(tried > 10 && refusals <= tried && 2 * refusals > tried);
    free(hierarchy.bytes);
    printf("%zu allocations refused, each in its turn, %zu of them to calls that did without\n", tried, tried - refusals);
    return 0;
}
