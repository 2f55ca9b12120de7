#!/usr/bin/python3
"""The searches of NetworkX and of igraph, to compare times with.

    bench/python_search.py networkx|igraph NETWORK.gr NETWORK.pairs

NetworkX's `bidirectional_dijkstra`, and igraph's `distances` from the source to the target. It takes well-formed texts alone,
and prints a line `r S T LENGTH` or `n S T` for each pair; on standard error the seconds to read and to search. It needs
Debian's python3-networkx and python3-igraph.
"""
import sys
import time

from kit.counted import parser


def arcs_of(text):
    """The number of nodes, and the least arc of each pair of different nodes, from 0."""
    nodes, least = 0, {}
    with open(text) as lines:
        for line in lines:
            if line.startswith("a "):
                u, v, weight = map(int, line.split()[1:])
                if u != v and weight < least.get((u - 1, v - 1), weight + 1):
                    least[u - 1, v - 1] = weight
            elif line.startswith("p "):
                nodes = int(line.split()[2])
    return nodes, least


def by_networkx(nodes, least):
    import networkx

    graph = networkx.DiGraph()
    graph.add_nodes_from(range(nodes))
    graph.add_weighted_edges_from((u, v, weight) for (u, v), weight in least.items())

    def length(source, target):
        try:
            return networkx.bidirectional_dijkstra(graph, source, target)[0]
        except networkx.NetworkXNoPath:
            return None

    return length


def by_igraph(nodes, least):
    import igraph

    graph = igraph.Graph(n=nodes, edges=list(least), directed=True)
    weights = list(least.values())

    def length(source, target):
        found = graph.distances(source=[source], target=[target], weights=weights)[0][0]
        return None if found == float("inf") else int(found)

    return length


def main():
    searches = {"networkx": by_networkx, "igraph": by_igraph}
    words = parser(__doc__)
    words.add_argument("kind", choices=searches)
    words.add_argument("graph", metavar="NETWORK.gr")
    words.add_argument("pairs", metavar="NETWORK.pairs")
    asked = words.parse_args()
    start = time.perf_counter()
    length = searches[asked.kind](*arcs_of(asked.graph))
    with open(asked.pairs) as lines:
        pairs = [tuple(map(int, line.split()[1:])) for line in lines if line.startswith("q ")]
    read = time.perf_counter()
    found = [length(source - 1, target - 1) for source, target in pairs]
    print(f"read {read - start:.3f} search {time.perf_counter() - read:.6f}", file=sys.stderr)
    for (source, target), value in zip(pairs, found):
        print(f"n {source} {target}" if value is None else f"r {source} {target} {value}")


if __name__ == "__main__":
    main()
