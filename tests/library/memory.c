/* Counts the bytes that calls ask for, beside what the header and docs/LIBRARY.md promise of them.
 *
 *     memory HIER
 *
 * The file is of a lane: node v has rank v, and arcs in both directions to the next. So a climb from node 0 comes to all nodes
 * while its queue has one, and one link falls to each node but the last. There are more nodes than a handle keeps room for. */
#include "wrapped.h"

/* Bytes of what doesn't depend on the number of nodes. */
#define SMALL 4096
#define FEW 1000

static uint32_t nodes, *targets;
static uint64_t *lengths;

/* The most bytes that a table takes beyond those that were held: from these sources to the last nodes, as many as are asked for,
 * or to them in turned order. */
static size_t table(domethyme *handle, const uint32_t *sources, size_t count, size_t asked, int turned)
{
    for (size_t place = 0; place < asked; ++place)
        targets[place] = nodes - 1 - (uint32_t)(turned ? asked - 1 - place : place);
    size_t before = most = held;
    WANT(domethyme_table(handle, sources, count, targets, asked, lengths, count * asked) == DOMETHYME_OK);
    for (size_t cell = 0; cell < count * asked; ++cell) {
        uint32_t source = sources[cell / asked], target = targets[cell % asked];
        WANT(lengths[cell] == (source < target ? target - source : source - target));
    }
    return most - before;
}

static void near(const char *what, size_t bytes, size_t least, size_t promised)
{
    if (bytes < least || bytes > promised + SMALL) {
        fprintf(stderr, "%s: %zu bytes, and not from %zu to %zu\n", what, bytes, least, promised + SMALL);
        exit(1);
    }
    printf("%s %zu\n", what, bytes);
}

int main(int count, char **words)
{
    WANT(count == 2);
    domethyme one = opened(words[1]), two = DOMETHYME_CLOSED, three = DOMETHYME_CLOSED;
    WANT(domethyme_nodes(&one, &nodes) == DOMETHYME_OK);
    size_t many = nodes;
    uint32_t far[2] = {0, 1}, top[2] = {nodes - 1, nodes - 2};
    targets = (uint32_t *)malloc(many * sizeof *targets);
    lengths = (uint64_t *)malloc(2 * many * sizeof *lengths);
    WANT(targets != NULL && lengths != NULL);

    size_t before = held;
    WANT(domethyme_length(&one, 0, nodes - 1, lengths) == DOMETHYME_OK && lengths[0] == many - 1);
    near("a far search, afterwards", held - before, 0, 0);

    before = held;
    WANT(domethyme_beside(&one, &two) == DOMETHYME_OK);
    near("a second handle", held - before, 8 * many, 8 * many);
    WANT(domethyme_beside(&one, &three) == DOMETHYME_OK);

    /* The hierarchy's nodes, the targets, the selected nodes, and the links to them. */
    before = held;
    table(&one, far, 1, many, 0);
    size_t selection = held - before;
    near("a selection, behind a far climb", selection, 28 * many - 64, 28 * many);
    near("the second handle's share", table(&two, top, 1, many, 0), 8 * many, 8 * many);
    before = held;
    near("the third handle's share", table(&three, top, 1, many, 0), 8 * many, 8 * many);
    near("what is shared, afterwards", held - before, 0, 0);
    near("a call from two sources", table(&one, top, 2, many, 0), 32 * many, 32 * many);

    /* The second and the third handle keep what they took. Without them and without targets nothing is kept. */
    domethyme_close(&two);
    domethyme_close(&three);
    before = held;
    WANT(domethyme_table(&one, top, 1, targets, 0, lengths, 0) == DOMETHYME_OK);
    near("no targets", before - held, selection - SMALL, selection);

    /* Other targets take the place of the first ones. */
    size_t selecting = table(&one, top, 1, many, 0);
    before = held;
    near("other targets", table(&one, top, 1, many, 1) + selection, 0, selecting);
    near("other targets, afterwards", held, before - SMALL, before);

    /* Four rows together where more than 65,536 nodes are selected, and else eight. */
    table(&one, top, 2, FEW, 0);
    near("a call from two sources to few targets", table(&one, top, 2, FEW, 0), 64 * FEW, 64 * FEW);

    domethyme_seed start = {0, nodes - 1, 0};
    WANT(domethyme_reach(&one, &start, 1, DOMETHYME_NO_LENGTH, lengths, many) == DOMETHYME_OK);
    before = most = held;
    WANT(domethyme_reach(&one, &start, 1, DOMETHYME_NO_LENGTH, lengths, many) == DOMETHYME_OK);
    near("a reach, with its selection", most - before, 8 * many, 8 * many);
    domethyme_close(&one);
    free(targets);
    free(lengths);
    WANT(held == 0);
    return 0;
}
