/* Each code of each call, on the hierarchy of examples/town.gr: nodes 0 to 2, the arcs 0 to 1 (300), 1 to 0 (300), 1 to 2 (400)
 * and 0 to 2 (900). Figures by hand.
 *
 *     codes HIER */
#include "support.h"

/* What a call may write, and whether it is as it was. */
typedef struct results {
    uint64_t length;
    uint32_t number, nodes[3];
    domethyme_route_info route;
    domethyme_between_info between;
    domethyme_sum_info sum;
    domethyme_pair arc;
    size_t count;
} results;

static results before(void)
{
    results untouched;
    memset(&untouched, 42, sizeof untouched);
    return untouched;
}

static int is_untouched(const results *found)
{
    results untouched = before();
    return memcmp(found, &untouched, sizeof untouched) == 0;
}

/* Each call with a closed handle writes nothing. */
static void closed(domethyme *handle)
{
    uint32_t node = 0;
    uint64_t set = 0;
    domethyme_pair pair = {0, 1};
    domethyme_seed seed = {0, 0, 0};
    domethyme other = DOMETHYME_CLOSED;
    results found = before();
    WANT(domethyme_nodes(handle, &found.number) == DOMETHYME_NO_HANDLE && is_untouched(&found));
    WANT(domethyme_version(handle, &found.number) == DOMETHYME_NO_HANDLE && is_untouched(&found));
    WANT(domethyme_length(handle, 0, 1, &found.length) == DOMETHYME_NO_HANDLE && is_untouched(&found));
    WANT(domethyme_route(handle, 0, 1, &found.route, found.nodes, 3) == DOMETHYME_NO_HANDLE && is_untouched(&found));
    WANT(domethyme_between(handle, &seed, 1, &seed, 1, &found.between, found.nodes, 3) == DOMETHYME_NO_HANDLE);
    WANT(is_untouched(&found));
    WANT(domethyme_lengths(handle, &pair, 1, &found.length, 1) == DOMETHYME_NO_HANDLE && is_untouched(&found));
    WANT(domethyme_table(handle, &node, 1, &node, 1, &found.length, 1) == DOMETHYME_NO_HANDLE && is_untouched(&found));
    WANT(domethyme_reach(handle, &seed, 1, UINT64_C(1) << 63, &found.length, 0) == DOMETHYME_NO_HANDLE && is_untouched(&found));
    WANT(domethyme_links(handle, &found.count) == DOMETHYME_NO_HANDLE && is_untouched(&found));
    WANT(domethyme_arcs(handle, &found.arc, 1, &found.count) == DOMETHYME_NO_HANDLE && is_untouched(&found));
    WANT(domethyme_numbers(handle, &node, 1, &found.length, 1) == DOMETHYME_NO_HANDLE && is_untouched(&found));
    WANT(domethyme_table_sums(handle, &set, 1, &node, 1, &node, 1, &found.sum, 1) == DOMETHYME_NO_HANDLE && is_untouched(&found));
    WANT(domethyme_reach_sums(handle, &set, 1, &seed, 1, &node, 1, 0, &found.sum, 1) == DOMETHYME_NO_HANDLE);
    WANT(is_untouched(&found));
    WANT(domethyme_beside(handle, &other) == DOMETHYME_NO_HANDLE && other.router == NULL);
    domethyme_close(handle);
}

static void single(domethyme *handle)
{
    uint32_t number = 0, nodes[3] = {9, 9, 9};
    uint64_t length = 42;
    domethyme_route_info route = {42, 42};
    WANT(domethyme_nodes(handle, &number) == DOMETHYME_OK && number == 3);
    WANT(domethyme_version(handle, &number) == DOMETHYME_OK && number == 2);
    WANT(domethyme_length(handle, 3, 0, &length) == DOMETHYME_NODE_RANGE && length == 42);
    WANT(domethyme_length(handle, 0, UINT32_MAX, &length) == DOMETHYME_NODE_RANGE && length == 42);
    WANT(domethyme_length(handle, 2, 0, &length) == DOMETHYME_NO_PATH && length == 42);
    WANT(domethyme_length(handle, 0, 2, &length) == DOMETHYME_OK && length == 700);
    WANT(domethyme_length(handle, 1, 1, &length) == DOMETHYME_OK && length == 0);
    WANT(domethyme_route(handle, 3, 0, &route, nodes, 3) == DOMETHYME_NODE_RANGE && route.nodes == 42);
    WANT(domethyme_route(handle, 2, 0, &route, nodes, 3) == DOMETHYME_NO_PATH && route.nodes == 42);
    WANT(domethyme_route(handle, 0, 2, &route, nodes, 2) == DOMETHYME_NO_ROOM && route.nodes == 3 && route.length == 700);
    WANT(nodes[0] == 9 && nodes[1] == 9 && nodes[2] == 9);
    WANT(domethyme_route(handle, 0, 2, &route, nodes, 3) == DOMETHYME_OK && route.nodes == 3 && route.length == 700);
    WANT(nodes[0] == 0 && nodes[1] == 1 && nodes[2] == 2);
    WANT(domethyme_route(handle, 1, 1, &route, nodes, 1) == DOMETHYME_OK && route.nodes == 1 && route.length == 0 && nodes[0] == 1);
}

static void several(domethyme *handle)
{
    uint32_t nodes[3] = {9, 9, 9};
    domethyme_between_info found = {42, 42, 42, 42};
    /* From 0 with 500 or from 1 with 250, to 2 with 10 or to 2 with 5: 250 + 400 + 5. */
    domethyme_seed starts[] = {{500, 0, 0}, {250, 1, 0}}, ends[] = {{10, 2, 0}, {5, 2, 0}};
    WANT(domethyme_between(handle, starts, 2, ends, 2, &found, nodes, 3) == DOMETHYME_OK);
    WANT(found.length == 655 && found.start == 1 && found.end == 1 && found.nodes == 2 && nodes[0] == 1 && nodes[1] == 2);
    WANT(domethyme_between(handle, starts, 2, ends, 2, &found, nodes, 1) == DOMETHYME_NO_ROOM && found.nodes == 2);
    domethyme_between_info kept = found;
    WANT(domethyme_between(handle, starts, 0, ends, 2, &found, nodes, 3) == DOMETHYME_NO_PATH);
    WANT(domethyme_between(handle, starts, 2, ends, 0, &found, nodes, 3) == DOMETHYME_NO_PATH);
    WANT(domethyme_between(handle, ends, 2, starts, 2, &found, nodes, 3) == DOMETHYME_NO_PATH);
    domethyme_seed away = {0, 3, 0}, far_off = {(UINT64_C(1) << 57) + 1, 0, 0}, many = {0, 0, (1 << 25) + 1};
    WANT(domethyme_between(handle, &away, 1, ends, 2, &found, nodes, 3) == DOMETHYME_NODE_RANGE);
    WANT(domethyme_between(handle, starts, 2, &away, 1, &found, nodes, 3) == DOMETHYME_NODE_RANGE);
    WANT(domethyme_between(handle, &far_off, 1, ends, 2, &found, nodes, 3) == DOMETHYME_SEED_COST);
    WANT(domethyme_between(handle, starts, 2, &many, 1, &found, nodes, 3) == DOMETHYME_SEED_COST);
    far_off.length -= 1;
    WANT(memcmp(&found, &kept, sizeof found) == 0);
    WANT(domethyme_between(handle, &far_off, 1, ends, 2, &found, nodes, 3) == DOMETHYME_OK);
    WANT(found.length == (UINT64_C(1) << 57) + 705);
}

static void many(domethyme *handle)
{
    domethyme_pair pairs[] = {{0, 2}, {2, 0}, {1, 1}, {3, 0}};
    uint64_t lengths[10] = {42, 42, 42, 42, 42, 42, 42, 42, 42, 42};
    WANT(domethyme_lengths(handle, pairs, 4, lengths, 10) == DOMETHYME_NODE_RANGE && lengths[0] == 42);
    WANT(domethyme_lengths(handle, pairs, 3, lengths, 2) == DOMETHYME_NO_ROOM && lengths[0] == 42);
    WANT(domethyme_lengths(handle, pairs, 0, lengths, 0) == DOMETHYME_OK && lengths[0] == 42);
    WANT(domethyme_lengths(handle, pairs, 3, lengths, 10) == DOMETHYME_OK);
    WANT(lengths[0] == 700 && lengths[1] == DOMETHYME_NO_LENGTH && lengths[2] == 0 && lengths[3] == 42);
    uint32_t sources[] = {0, 1, 2}, targets[] = {2, 0}, away[] = {0, 3};
    WANT(domethyme_table(handle, sources, 3, targets, 2, lengths, 5) == DOMETHYME_NO_ROOM);
    WANT(domethyme_table(handle, sources, 3, away, 2, lengths, 6) == DOMETHYME_NODE_RANGE);
    WANT(domethyme_table(handle, away, 2, targets, 2, lengths, 6) == DOMETHYME_NODE_RANGE && lengths[0] == 700);
    WANT(domethyme_table(handle, sources, 0, targets, 2, lengths, 0) == DOMETHYME_OK);
    WANT(domethyme_table(handle, sources, 3, targets, 0, lengths, 0) == DOMETHYME_OK && lengths[0] == 700);
    WANT(domethyme_table(handle, sources, 3, targets, 2, lengths, 10) == DOMETHYME_OK);
    const uint64_t wanted[] = {700, 0, 400, 300, 0, DOMETHYME_NO_LENGTH, 42};
    WANT(memcmp(lengths, wanted, sizeof wanted) == 0);
}

/* Which refusal of a reach comes first, and that none writes. */
static void reaches(domethyme *handle)
{
    const uint64_t none = DOMETHYME_NO_LENGTH, greatest = UINT64_C(1) << 62;
    domethyme_seed start = {0, 2, 0};
    uint64_t lengths[3] = {42, 42, 42};
    domethyme_seed away = {0, 3, 0}, costly = {(UINT64_C(1) << 57) + 1, 0, 0}, many = {0, 0, (1 << 25) + 1};
    domethyme_seed first[] = {costly, away}, second[] = {start, away, costly};
    WANT(domethyme_reach(handle, &away, 1, greatest + 1, lengths, 2) == DOMETHYME_BAD_LIMIT);
    WANT(domethyme_reach(handle, &start, 1, none - 1, lengths, 3) == DOMETHYME_BAD_LIMIT);
    WANT(domethyme_reach(handle, &away, 1, 10, lengths, 2) == DOMETHYME_NO_ROOM);
    WANT(domethyme_reach(handle, &start, 1, none, lengths, 0) == DOMETHYME_NO_ROOM);
    WANT(domethyme_reach(handle, first, 2, none, lengths, 3) == DOMETHYME_SEED_COST);
    WANT(domethyme_reach(handle, second, 3, 0, lengths, 3) == DOMETHYME_NODE_RANGE);
    WANT(domethyme_reach(handle, &many, 1, 0, lengths, 3) == DOMETHYME_SEED_COST);
    WANT(lengths[0] == 42 && lengths[1] == 42 && lengths[2] == 42);
    WANT(domethyme_reach(handle, &start, 1, 10, lengths, 3) == DOMETHYME_OK && lengths[0] == none && lengths[2] == 0);
}

/* Numbers of the links without a middle, which are the arcs but that from 0 to 2, or with it: 10 times the first node, the second
 * one and 1 together. */
static size_t numbers_of(domethyme *handle, uint32_t *numbers)
{
    domethyme_pair arcs[5];
    size_t count = 42;
    memset(arcs, 42, sizeof arcs);
    WANT(domethyme_arcs(handle, arcs, 2, &count) == DOMETHYME_NO_ROOM && (count == 3 || count == 4));
    WANT(arcs[0].from == 0x2a2a2a2a && arcs[1].to == 0x2a2a2a2a);
    WANT(domethyme_arcs(handle, arcs, 5, &count) == DOMETHYME_OK && arcs[count].from == 0x2a2a2a2a);
    for (size_t place = 0; place < count; ++place) {
        WANT(place == 0 || arcs[place].from > arcs[place - 1].from || arcs[place].to > arcs[place - 1].to);
        numbers[place] = 10 * arcs[place].from + arcs[place].to + 1;
    }
    return count;
}

/* Sets of numbers, tables with sums, and sums from several starts. The second handle has the hierarchy turned: another one. */
static void sums(domethyme *handle, domethyme *turned)
{
    const uint64_t none = DOMETHYME_NO_LENGTH;
    uint32_t numbers[4] = {0};
    uint64_t set[8], kept;
    size_t links = 42, count = numbers_of(handle, numbers);
    WANT(domethyme_links(handle, &links) == DOMETHYME_OK && links >= count && links <= 6);
    memset(set, 42, sizeof set);
    kept = set[7];
    WANT(domethyme_numbers(handle, numbers, count, set, links) == DOMETHYME_NO_ROOM && set[0] == kept);
    WANT(domethyme_numbers(handle, numbers, count - 1, set, 8) == DOMETHYME_NUMBER_COUNT && set[0] == kept);
    WANT(domethyme_numbers(handle, numbers, count, set, 8) == DOMETHYME_OK && set[links + 1] == kept);

    /* 0 to 2 is by 1: 300 and 400, 2 and 13 */
    uint32_t sources[] = {0, 2}, targets[] = {2, 0}, away[] = {0, 3};
    domethyme_sum_info cells[5], before;
    memset(cells, 42, sizeof cells);
    before = cells[4];
    size_t many = links + 1;
    WANT(domethyme_table_sums(handle, set, many - 1, away, 2, targets, 2, cells, 3) == DOMETHYME_NO_ROOM);
    WANT(domethyme_table_sums(handle, set, many - 1, away, 2, targets, 2, cells, 4) == DOMETHYME_NODE_RANGE);
    WANT(domethyme_table_sums(handle, set, many - 1, sources, 2, away, 2, cells, 4) == DOMETHYME_NODE_RANGE);
    WANT(domethyme_table_sums(handle, set, many - 1, sources, 2, targets, 2, cells, 4) == DOMETHYME_BAD_SET);
    WANT(domethyme_table_sums(handle, set, many + 1, sources, 2, targets, 2, cells, 4) == DOMETHYME_BAD_SET);
    WANT(domethyme_table_sums(turned, set, many, sources, 2, targets, 2, cells, 4) == DOMETHYME_BAD_SET);
    set[0] ^= 1;
    WANT(domethyme_table_sums(handle, set, many, sources, 2, targets, 2, cells, 4) == DOMETHYME_BAD_SET);
    set[0] ^= 1;
    kept = set[links];
    set[links] = (UINT64_C(1) << 36) + 1;
    WANT(domethyme_table_sums(handle, set, many, sources, 2, targets, 2, cells, 4) == DOMETHYME_BAD_SET);
    set[links] = kept;
    WANT(memcmp(&cells[0], &before, sizeof before) == 0 && memcmp(&cells[3], &before, sizeof before) == 0);
    WANT(domethyme_table_sums(handle, set, many, sources, 2, targets, 2, cells, 5) == DOMETHYME_OK);
    WANT(cells[0].length == 700 && cells[0].sum == 15 && cells[1].length == 0 && cells[1].sum == 0);
    WANT(cells[2].length == 0 && cells[2].sum == 0 && cells[3].length == none && cells[3].sum == none);
    WANT(memcmp(&cells[4], &before, sizeof before) == 0);
    WANT(domethyme_table_sums(handle, set, many, sources, 0, targets, 0, cells, 0) == DOMETHYME_OK);

    /* from 0 with 100 and 5, and from 1 with 350 and 6 */
    domethyme_seed starts[] = {{100, 0, 0}, {350, 1, 0}}, far_off[] = {{0, 0, 0}, {0, 3, 0}};
    const uint32_t added[] = {5, 6};
    memset(cells, 42, sizeof cells);
    WANT(domethyme_reach_sums(handle, set, 1, far_off, 2, added, 1, none - 1, cells, 2) == DOMETHYME_BAD_LIMIT);
    WANT(domethyme_reach_sums(handle, set, 1, far_off, 2, added, 1, none, cells, 2) == DOMETHYME_NO_ROOM);
    WANT(domethyme_reach_sums(handle, set, 1, far_off, 2, added, 1, none, cells, 3) == DOMETHYME_NUMBER_COUNT);
    WANT(domethyme_reach_sums(turned, set, many, far_off, 2, added, 2, none, cells, 3) == DOMETHYME_BAD_SET);
    WANT(domethyme_reach_sums(handle, set, many, far_off, 2, added, 2, none, cells, 3) == DOMETHYME_NODE_RANGE);
    WANT(memcmp(&cells[0], &before, sizeof before) == 0 && memcmp(&cells[2], &before, sizeof before) == 0);
    WANT(domethyme_reach_sums(handle, set, many, starts, 2, added, 2, none, cells, 5) == DOMETHYME_OK);
    WANT(cells[0].length == 100 && cells[0].sum == 5 && cells[1].length == 350 && cells[1].sum == 6);
    WANT(cells[2].length == 750 && cells[2].sum == 19 && memcmp(&cells[3], &before, sizeof before) == 0);
    WANT(domethyme_reach_sums(handle, set, many, starts, 0, added, 0, none, cells, 3) == DOMETHYME_OK);
    WANT(cells[0].length == none && cells[0].sum == none);
}

/* Turned: the way from 0 to 2 backwards. */
static void turned(const file *hierarchy)
{
    domethyme handle = DOMETHYME_CLOSED;
    WANT(domethyme_open_turned(&handle, hierarchy->bytes, hierarchy->count) == DOMETHYME_OK);
    domethyme_route_info route = {0, 0};
    uint32_t nodes[3];
    WANT(domethyme_route(&handle, 2, 0, &route, nodes, 3) == DOMETHYME_OK && route.length == 700 && route.nodes == 3);
    WANT(nodes[0] == 2 && nodes[1] == 1 && nodes[2] == 0);
    WANT(domethyme_open_turned(&handle, hierarchy->bytes, hierarchy->count - 1) == DOMETHYME_TRUNCATED);
    closed(&handle);
}

int main(int count, char **words)
{
    WANT(count == 2);
    file hierarchy = file_of(words[1]);
    domethyme handle = DOMETHYME_CLOSED, other = DOMETHYME_CLOSED;
    closed(&handle);
    WANT(domethyme_open(&handle, hierarchy.bytes, hierarchy.count) == DOMETHYME_OK);
    single(&handle);
    several(&handle);
    many(&handle);
    reaches(&handle);
    /* A second handle lives on behind the first; a handle that is opened again closes what it had. */
    WANT(domethyme_beside(&handle, &other) == DOMETHYME_OK);
    WANT(domethyme_beside(&handle, &other) == DOMETHYME_OK);
    WANT(domethyme_open(&handle, hierarchy.bytes, hierarchy.count) == DOMETHYME_OK);
    domethyme_close(&handle);
    single(&other);
    WANT(domethyme_open(&other, hierarchy.bytes, hierarchy.count - 1) == DOMETHYME_TRUNCATED);
    closed(&other);
    closed(&handle);
    turned(&hierarchy);
    WANT(domethyme_open(&handle, hierarchy.bytes, hierarchy.count) == DOMETHYME_OK);
    WANT(domethyme_open_turned(&other, hierarchy.bytes, hierarchy.count) == DOMETHYME_OK);
    sums(&handle, &other);
    domethyme_close(&handle);
    domethyme_close(&other);
    free(hierarchy.bytes);
    puts("ok");
    return 0;
}
