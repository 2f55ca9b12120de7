"""Routes and lengths between nodes by number, from 1 in requests and answers, as in files: of one pair, or of a batch of pairs as NDJSON.
A block of valid lines is parsed by one call of `json`, any other line by line."""
import functools
import io
import itertools
import json
from collections.abc import Callable, Iterator, Sequence
from typing import NamedTuple

from domethyme.protocol import NO_PATH, RouterResult

from .costs import Work
from .errors import RequestError, invalid_query, invalid_value, too_big
from .parameters import Parameter, Values, parse_node
from .queries import Pair, Queries

MAX_LINE_BYTES = 256
BLOCK_LINES = 256
# Lines with an error that are reported: the next one ends the answer.
MAX_ERRORS = 1000


def route_answer(queries: Queries, source: int, target: int) -> bytes:
    """The route of a pair of nodes as JSON: `length`, `arcs` and `nodes` are null if there is no path."""
    return queries.keys.add_keys(route_json((source, target), queries.route(source, target)), (source, target))


def length_answer(queries: Queries, source: int, target: int) -> bytes:
    """The length of a pair's shortest path as JSON, null if there is no path."""
    length = queries.length(source, target)
    return queries.keys.add_keys(length_json((source, target), NO_PATH if length is None else length), (source, target))


def find_node(queries: Queries, values: Values, number: Parameter[int], key: Parameter[str]) -> int:
    """The node of one of two parameters, a number or a key. Raises RequestError."""
    node: int | None = values.get(number)
    name: str | None = values.get(key)
    if node is not None and name is not None:
        raise invalid_query(f"{number.name} and {key.name} are both given")
    if name is not None:
        return queries.keys.node(name, key.name)
    if node is None:
        raise invalid_query(f"{number.name} is missing")
    return node


def route_json(pair: Pair, route: RouterResult | None) -> bytes:
    if route is None:
        return length_json(pair, NO_PATH)[:-1] + b',"arcs":null,"nodes":null}'
    nodes = ",".join([str(node + 1) for node in route.nodes]).encode()
    return b'%b,"arcs":%d,"nodes":[%b]}' % (length_json(pair, route.length)[:-1], len(route.nodes) - 1, nodes)


def length_json(pair: Pair, length: int) -> bytes:
    return b'{"from":%d,"to":%d,"length":%b}' % (pair[0] + 1, pair[1] + 1, b"null" if length == NO_PATH else b"%d" % length)


class Block(NamedTuple):
    """The answers to a block of lines, how many of the lines have an error, and whether these are too many."""

    text: bytes
    errors: int
    is_last: bool


def batch_answer(queries: Queries, has_routes: bool, body: bytes, checked: Callable[[Callable[[], Block]], Block]) -> Iterator[bytes]:
    """The answers to lines `{"from": S, "to": T}`, in order, a part for each block, which `checked` computes; too many errors end them."""
    first, errors = 1, 0
    for lines in split_blocks(body):
        if first > 1:
            queries.meter.next_block()
        queries.meter.spend(Work.LINE, len(lines))
        block = checked(functools.partial(block_answer, queries, has_routes, lines, first, MAX_ERRORS - errors))
        yield block.text
        first, errors = first + len(lines), errors + block.errors
        if block.is_last:
            return


def block_answer(queries: Queries, has_routes: bool, lines: list[bytes], first: int, most: int) -> Block:
    """The answers to lines, of which the first has this number, and at most so many may have an error."""
    rows: Sequence[Pair | RequestError] | None = parse_pairs_fast(lines, queries.nodes)
    rows = rows or [parse_pair(line, queries) for line in lines]
    wrong = [row for row, pair in enumerate(rows) if isinstance(pair, RequestError)]
    if is_last := len(wrong) > most:
        error = too_big(f"more than {MAX_ERRORS} lines have an error: this line and all behind it aren't answered")
        rows = [*rows[: wrong[most]], error]
    pairs = [pair for pair in rows if not isinstance(pair, RequestError)]
    if has_routes:
        bodies = [route_json(pair, queries.route(*pair)) for pair in pairs]
    else:
        bodies = list(map(length_json, pairs, queries.lengths(pairs)))
    answers = map(queries.keys.add_keys, bodies, pairs)
    texts = [
        row.json(line=number).encode() if isinstance(row, RequestError) else next(answers) for number, row in enumerate(rows, first)
    ]
    return Block(b"\n".join([*texts, b""]), len(wrong), is_last)


def split_blocks(body: bytes) -> Iterator[list[bytes]]:
    """The lines of a body without their line feeds, up to BLOCK_LINES at once. Blanks after the last line feed are no line."""
    end = body.rfind(b"\n") + 1
    lines = io.BytesIO(body if body[end:].strip() else body[:end])
    while block := list(itertools.islice(lines, BLOCK_LINES)):
        yield [line.removesuffix(b"\n") for line in block]


def parse_pairs_fast(lines: list[bytes], nodes: int) -> list[Pair] | None:
    """The pairs of lines if all are valid and have numbers of nodes; None otherwise. The lines are parsed as one array,
    with a 0 between each two. With a brace and four quotes for each line and no bracket, no line's object, array or
    string continues in the next; so each line is one object if the array has 2 n - 1 items."""
    text, count = b",0,".join(lines), len(lines)
    is_flat = b"[" not in text and text.count(b"{") == count and text.count(b'"') == 4 * count
    if not is_flat or max(map(len, lines)) > MAX_LINE_BYTES:
        return None
    try:
        found = json.loads(f"[{text.decode()}]")
        pairs = [(fields["from"], fields["to"]) for fields in found[::2]]
    except (ValueError, TypeError, KeyError, RecursionError):
        return None
    is_good = len(found) == 2 * count - 1 and all(type(one) is int is type(two) for one, two in pairs)
    is_good = is_good and all(1 <= one <= nodes and 1 <= two <= nodes for one, two in pairs)
    return [(one - 1, two - 1) for one, two in pairs] if is_good else None


def parse_pair(line: bytes, queries: Queries) -> Pair | RequestError:
    """The pair of a line, or its error."""
    keys, nodes = queries.keys, queries.nodes
    try:
        if len(line) > MAX_LINE_BYTES:
            raise invalid_value(f"a line has at most {MAX_LINE_BYTES} bytes")
        fields = json.loads(line, object_pairs_hook=object_without_duplicates)
        if isinstance(fields, dict) and set(fields) == {"from_key", "to_key"}:
            return keys.node(fields["from_key"], "from_key"), keys.node(fields["to_key"], "to_key")
        if not isinstance(fields, dict) or set(fields) != {"from", "to"}:
            no_array = ", and no array" if isinstance(fields, list) else ""
            raise invalid_query(f'a line is {{"from": NODE, "to": NODE}}{no_array}')
        return parse_node(fields["from"], "from", nodes), parse_node(fields["to"], "to", nodes)
    except (ValueError, RecursionError):
        return invalid_query("the line isn't JSON in UTF-8")
    except RequestError as error:
        return error


def object_without_duplicates(members: list[tuple[str, object]]) -> dict[str, object]:
    """A JSON object. Raises RequestError for a repeated name."""
    found = dict(members)
    if len(found) < len(members):
        raise invalid_query("a name is there twice")
    return found
