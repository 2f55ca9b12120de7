/*
 * Domethyme: shortest paths from a hierarchy file, in one's own process.
 *
 * The file is what `routecli prepare` writes (docs/FORMATS.md). docs/LIBRARY.md says what each call promises and what is
 * proved of it. Nodes are numbered from 0. Lengths are sums of the weights of arcs, in the unit of the graph.
 *
 *     domethyme handle = DOMETHYME_CLOSED;
 *     uint64_t length;
 *     if (domethyme_open(&handle, bytes, count) == DOMETHYME_OK
 *         && domethyme_length(&handle, 1, 2, &length) == DOMETHYME_OK)
 *         printf("%" PRIu64 "\n", length);
 *     domethyme_close(&handle);
 *
 * A handle begins as DOMETHYME_CLOSED. It isn't copied: a copy may not be used, nor closed, beside it. It may be moved, and
 * passed to another thread. Each call has the handle alone; calls with different handles may run at the same time, also with
 * handles of one hierarchy (domethyme_beside).
 *
 * No pointer is NULL, also with a count of 0. Each array has at least as many elements as its count. Output arguments must not
 * overlap any other argument. No call is made from a signal handler, nor in the child of a fork by a process that has
 * threads. malloc, realloc and free belong together.
 */
#ifndef DOMETHYME_H
#define DOMETHYME_H

#include <stddef.h>
#include <stdint.h>

#ifdef __cplusplus
extern "C" {
#endif

/* The version of the binary interface (ABI) that this header describes; domethyme_version is that of a hierarchy file. A
 * minor version adds calls or codes: a program that was built with 1.x runs with libdomethyme.so.1 of each later 1.y, where it
 * takes a code that isn't listed here for an error. A major version changes or removes some, in another file,
 * libdomethyme.so.2. */
#define DOMETHYME_VERSION_MAJOR 1
#define DOMETHYME_VERSION_MINOR 1

/* What calls return. A call that returns another code than DOMETHYME_OK has written nothing, except where it says so. */
enum {
    DOMETHYME_OK = 0,            /* ok */
    DOMETHYME_NO_PATH = 1,       /* no path leads from the source to the target */
    DOMETHYME_NO_HANDLE = 2,     /* the handle is closed */
    DOMETHYME_NODE_RANGE = 3,    /* a node isn't below the number of nodes */
    DOMETHYME_NO_ROOM = 4,       /* an array is too short for the answer */
    DOMETHYME_OUT_OF_MEMORY = 5, /* out of memory */
    DOMETHYME_TOO_LONG = 6,      /* the route would repeat a node: the file isn't right for any graph */
    DOMETHYME_SEED_COST = 7,     /* a start or an end has a length above 2^57, or more than 2^25 arcs */
    DOMETHYME_BAD_LIMIT = 8,     /* a limit is above 2^62 and isn't the number that means none; DOMETHYME_NO_LENGTH does; since 1.1 */
    DOMETHYME_NUMBER_COUNT = 9,  /* there isn't one number for each link without a middle; or for each start; since 1.1 */
    DOMETHYME_NUMBER_GREAT = 10, /* the numbers of the arcs of a link sum to more than 2^36; since 1.1 */
    DOMETHYME_BAD_SET = 11,      /* the array is no set of numbers of this hierarchy; since 1.1 */

    /* Faults of a hierarchy file, as docs/FORMATS.md has them. */
    DOMETHYME_READ = 34,          /* the file couldn't be read; bytes in memory can */
    DOMETHYME_BAD_MAGIC = 35,     /* the bytes are no hierarchy file */
    DOMETHYME_TRUNCATED = 36,     /* the bytes end too early */
    DOMETHYME_TOO_BIG = 37,       /* more than 2^25 nodes, or more links than pairs of nodes */
    DOMETHYME_BOUND_TOO_BIG = 38, /* the bound is above what a walk can cost */
    DOMETHYME_RANK_RANGE = 39,    /* a rank isn't below the number of nodes */
    DOMETHYME_RANK_TWICE = 40,    /* two nodes have one rank */
    DOMETHYME_LINK_ENDS = 41,     /* a link's ends aren't two nodes */
    DOMETHYME_LINK_ORDER = 42,    /* a link doesn't come after the one before it */
    DOMETHYME_LINK_WEIGHT = 43,   /* a link's weight or number of arcs can't be */
    DOMETHYME_MIDDLE_RANGE = 44,  /* a middle isn't a node */
    DOMETHYME_MIDDLE_RANK = 45,   /* a middle's rank isn't below those of both ends */
    DOMETHYME_HALF_MISSING = 46,  /* a half of a link with a middle is no link */
    DOMETHYME_HALF_SUM = 47,      /* the halves of a link don't sum to it */
    DOMETHYME_TRAILING = 48       /* bytes follow the last link */
};

/* A router of one hierarchy, or none. Its field is the library's. */
typedef struct domethyme {
    void *router;
} domethyme;

#define DOMETHYME_CLOSED {NULL}

/* Stands for the length of a pair without a path, where many are asked for. No path is as long. */
#define DOMETHYME_NO_LENGTH UINT64_MAX

typedef struct domethyme_pair {
    uint32_t from;
    uint32_t to;
} domethyme_pair;

/* Where a query may begin or end: a node, and what it costs to begin or to end there. A place inside an arc u -> v of weight w, at
 * fraction f: as a start it is node v with length w - round(f w), as an end node u with length round(f w); arcs is 1 in both. */
typedef struct domethyme_seed {
    uint64_t length; /* at most 2^57 */
    uint32_t node;
    uint32_t arcs; /* at most 2^25; they decide between starts and ends of one length */
} domethyme_seed;

/* A route: how long it is, and how many nodes it has, both ends among them. */
typedef struct domethyme_route_info {
    uint64_t length;
    size_t nodes;
} domethyme_route_info;

/* A route from one of several starts to one of several ends: their places in the lists, and the length of all three together. */
typedef struct domethyme_between_info {
    uint64_t length;
    size_t start;
    size_t end;
    size_t nodes;
} domethyme_between_info;

/* The length of a shortest path, and what the numbers of its arcs sum to; DOMETHYME_NO_LENGTH twice where there is no path. */
typedef struct domethyme_sum_info {
    uint64_t length;
    uint64_t sum; /* at most 2^62, and what is added at a start */
} domethyme_sum_info;

/* Reads a hierarchy file that is in memory. The handle is open afterwards if the result is DOMETHYME_OK, and closed otherwise;
 * what it was open for before is closed. The bytes aren't needed any more. Else the result is DOMETHYME_OUT_OF_MEMORY or the
 * first fault of the bytes. */
uint32_t domethyme_open(domethyme *handle, const uint8_t *bytes, size_t count);

/* The same with each link of the hierarchy turned round: all calls then answer as of the graph whose arcs are turned. So
 * domethyme_reach gives the least length from each node to an end in the graph itself, where its starts are the ends.
 * It takes the time of a sort of the links more than domethyme_open, and has both hierarchies in memory until it is done. Since
 * 1.1. */
uint32_t domethyme_open_turned(domethyme *handle, const uint8_t *bytes, size_t count);

/* Closes a handle and frees its memory; that of the hierarchy once no other handle has it. Does nothing to a closed handle. */
void domethyme_close(domethyme *handle);

/* Opens another handle of the same hierarchy, for another thread. `other` is another struct than `handle`; what it was open for
 * before is closed. It takes 8 bytes a node, and later what its own calls need; the two share what either keeps of a table. From
 * then on they are used, passed to threads and closed apart from each other, in any order. DOMETHYME_NO_HANDLE,
 * DOMETHYME_OUT_OF_MEMORY. */
uint32_t domethyme_beside(domethyme *handle, domethyme *other);

/* The number of nodes, and the version of the file, 1 or 2. DOMETHYME_NO_HANDLE. */
uint32_t domethyme_nodes(domethyme *handle, uint32_t *nodes);
uint32_t domethyme_version(domethyme *handle, uint32_t *version);

/* The least length of a path. DOMETHYME_NO_PATH, DOMETHYME_NO_HANDLE, DOMETHYME_NODE_RANGE, DOMETHYME_OUT_OF_MEMORY. */
uint32_t domethyme_length(domethyme *handle, uint32_t from, uint32_t to, uint64_t *length);

/* A shortest path, and of all shortest paths one with the fewest arcs (in version 1 any). `nodes` gets its nodes. If
 * `room` is too small the result is DOMETHYME_NO_ROOM; only `route` is written, and route->nodes is the number needed. Also
 * DOMETHYME_NO_PATH, DOMETHYME_NO_HANDLE, DOMETHYME_NODE_RANGE, DOMETHYME_TOO_LONG, DOMETHYME_OUT_OF_MEMORY. */
uint32_t domethyme_route(domethyme *handle, uint32_t from, uint32_t to, domethyme_route_info *route,
                         uint32_t *nodes, size_t room);

/* A path from one of the starts to one of the ends that costs the least with both, likewise. DOMETHYME_SEED_COST too. */
uint32_t domethyme_between(domethyme *handle, const domethyme_seed *starts, size_t start_count,
                           const domethyme_seed *ends, size_t end_count, domethyme_between_info *route,
                           uint32_t *nodes, size_t room);

/* The least length for each pair, DOMETHYME_NO_LENGTH where there is no path. DOMETHYME_NO_HANDLE, DOMETHYME_NO_ROOM,
 * DOMETHYME_NODE_RANGE write nothing; after DOMETHYME_OUT_OF_MEMORY what was written of the array isn't known. */
uint32_t domethyme_lengths(domethyme *handle, const domethyme_pair *pairs, size_t pair_count,
                           uint64_t *lengths, size_t room);

/* The least length from each source to each target, row by row: that from source i to target j is lengths[i * target_count +
 * j]. Errors are those of domethyme_lengths.
 *
 * Above 64 lengths it first selects what paths to the targets take: 4 bytes for each node of the hierarchy, 8 for each target,
 * and 8 bytes for each selected node and each link into one (12 if there are 2^32 such links, or one has length 2^32 or more);
 * allocations may be twice that. The handle keeps that for the next table to the same targets, in the same order, until one to
 * others comes. All handles of the hierarchy share the last one that any of them made, those opened earlier too, and the last
 * that has it frees it. A call with no targets lets both go. No call waits for another: of selections that are made at the same
 * time one is shared. */
uint32_t domethyme_table(domethyme *handle, const uint32_t *sources, size_t source_count,
                         const uint32_t *targets, size_t target_count, uint64_t *lengths, size_t room);

/* The number of links of the hierarchy. Since 1.1. DOMETHYME_NO_HANDLE. */
uint32_t domethyme_links(domethyme *handle, size_t *links);

/* The ends of each link without a middle, in the order in which domethyme_numbers takes their numbers: by their first nodes,
 * and then by their second ones, which is the order of the file, and for a turned hierarchy that of its turned links. Such a link
 * is the lightest arc from its one node to its other; loops have none. `count` is how many they are, also if `room` is too small
 * for them and the result is DOMETHYME_NO_ROOM. DOMETHYME_NO_HANDLE and DOMETHYME_OUT_OF_MEMORY write nothing. Since 1.1. */
uint32_t domethyme_arcs(domethyme *handle, domethyme_pair *arcs, size_t room, size_t *count);

/* Makes a set of numbers: metres, money, or whatever counts for an arc. There is one number for each link without a middle, in
 * the order of domethyme_arcs. The set is the first 1 + L words of an array of the caller's, where L is the number of links
 * (domethyme_links): 8 bytes for each, with what the numbers of the arcs that it represents sum to. It belongs to the hierarchy
 * and to no handle. The caller keeps it as it is and frees it with its array; until then any calls with handles of the hierarchy
 * may read it, also at the same time, and also those of another process or of the same file opened again. There may be any
 * number of sets.
 *
 * The first of these that holds is the result, and nothing is written: DOMETHYME_NO_HANDLE, DOMETHYME_NO_ROOM,
 * DOMETHYME_NUMBER_COUNT, DOMETHYME_NUMBER_GREAT; or DOMETHYME_OUT_OF_MEMORY. It takes the time of a sort of the links, and up to
 * 64 bytes a link until it is done. Since 1.1. */
uint32_t domethyme_numbers(domethyme *handle, const uint32_t *numbers, size_t count, uint64_t *set, size_t room);

/* The least length from each source to each target, row by row as domethyme_table has them, each with what the numbers of a set
 * sum to along some path of that length. Lengths rest on no number. Of several shortest paths the sum is that of any one, which
 * need not be the one of domethyme_route.
 *
 * The first of these that holds is the result, and nothing is written: DOMETHYME_NO_HANDLE, DOMETHYME_NO_ROOM,
 * DOMETHYME_NODE_RANGE, and DOMETHYME_BAD_SET for an array that isn't a set of numbers of the handle's hierarchy, as is one of
 * another hierarchy. After DOMETHYME_OUT_OF_MEMORY what was written of the array isn't known.
 *
 * It selects nodes and keeps that as domethyme_table does. The first of these calls with a handle takes 32 bytes a node, which the
 * handle keeps, and so it does the last selection with sums, with 8 bytes for each of its links. Since 1.1. */
uint32_t domethyme_table_sums(domethyme *handle, const uint64_t *set, size_t set_count,
                              const uint32_t *sources, size_t source_count, const uint32_t *targets, size_t target_count,
                              domethyme_sum_info *cells, size_t room);

/* The least length from a start to each node, with the start's own length added: that of node v is lengths[v]. Where it is
 * above the limit, or where there is no path, it is DOMETHYME_NO_LENGTH. A limit is at most 2^62, and a length that is the
 * limit is within it; DOMETHYME_NO_LENGTH means no limit. With several starts each node has the least over all of them, and
 * with none all are DOMETHYME_NO_LENGTH. `room` is at least the number of nodes; what is behind that isn't written.
 *
 * The first of these that holds is the result, and nothing is written: DOMETHYME_NO_HANDLE, DOMETHYME_BAD_LIMIT,
 * DOMETHYME_NO_ROOM, then of the first start that has a fault DOMETHYME_NODE_RANGE or DOMETHYME_SEED_COST.
 * DOMETHYME_OUT_OF_MEMORY comes after the first three, and writes nothing either.
 *
 * It selects all nodes, as domethyme_table does for its targets, and the handle keeps that in the place of a table's. Each call
 * goes over all of the selection, whatever the limit. Since 1.1. */
uint32_t domethyme_reach(domethyme *handle, const domethyme_seed *starts, size_t start_count, uint64_t limit,
                         uint64_t *lengths, size_t room);

/* The same lengths, each with what the numbers of a set sum to along some path of that length from a start that leads there in
 * it, and the number of that start, of `added`, which has one for each start: as metres of the part of an arc that is left from
 * where the start is. Of several such paths and starts it is any one. Where the length is DOMETHYME_NO_LENGTH the sum is too.
 *
 * The first of these that holds is the result: DOMETHYME_NO_HANDLE, DOMETHYME_BAD_LIMIT, DOMETHYME_NO_ROOM,
 * DOMETHYME_NUMBER_COUNT unless there is a number for each start, DOMETHYME_BAD_SET, then DOMETHYME_NODE_RANGE or
 * DOMETHYME_SEED_COST. DOMETHYME_OUT_OF_MEMORY comes after the first four. All write nothing.
 *
 * It goes over the selection once, and once more for each start, and keeps it as domethyme_table_sums does. Since 1.1. */
uint32_t domethyme_reach_sums(domethyme *handle, const uint64_t *set, size_t set_count,
                              const domethyme_seed *starts, size_t start_count, const uint32_t *added, size_t added_count,
                              uint64_t limit, domethyme_sum_info *cells, size_t room);

/* What a code means, in English, with a zero at its end. Returns how many bytes that takes, at most DOMETHYME_TEXT; where
 * there is no room for them it writes nothing. */
#define DOMETHYME_TEXT 80
size_t domethyme_text(uint32_t code, char *text, size_t room);

#ifdef __cplusplus
}
#endif

#endif
