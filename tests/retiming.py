"""Retiming, done in the plainest way, for the tests to compare the proved program with.

Written from the paper (document 01, "Moving registers") alone and not from the program. It goes
other ways where it can: the least lags are longest paths under difference constraints, one for
each edge and one for each pair of nodes that a chain longer than the period joins; the search
takes all choices at once, as words with one bit per choice; and a value at a clock is asked for
only where a start value hangs on it, so that an input asked for would show as an error.

  working_delay           delay times derate, rounded, a half to even
  critical_chains         the chains that decide: fewest registers, and of these the longest
  constraints, least_lags the legal retimings that meet the period, and the least of them
  moved_counts, rewired   "each edge's new count w + r(v) - r(u)"; the netlist with these
  longest_chain           what a period must be to be met
  chosen_values           the start values with s below 0, in the order of their places
  wanted_values           what a choice must give to carry the start
  Values                  values of nodes at clocks, a bit per choice
  smallest_choice         the smallest choice that carries the start
  moved                   a netlist moved by lags and a choice
  retime, listing         a text retimed; what the program of that name prints

Python 3.9 or later, standard library only. `python3 -m doctest tests/retiming.py` tries the examples.
"""

from __future__ import annotations

from collections import deque
from collections.abc import Callable, Iterator, Sequence
from dataclasses import dataclass, replace
from fractions import Fraction
from heapq import heappop, heappush
from struct import Struct

from reference import (
    AND, EDGE, INPUT, INVERTER, NAND, NOR, OR, OUTPUT, SELECTOR, XNOR, Edge, Netlist, Node, Refusal,
    evaluation_order, frame_line, in_edges, read, text_of,
)

# --- The least lags -----------------------------------------------------------------------------


def working_delay(node: Node, derate: int) -> int:
    """"Delay times derate, divided by 100, rounded to the nearest whole", "a half to the even neighbour".

    >>> [working_delay(Node(2, delay), 50) for delay in (1, 2, 3, 5, 7, 253, 255)]
    [0, 1, 2, 2, 4, 126, 128]
    """
    return round(Fraction(node.delay * derate, 100))


def critical_chains(net: Netlist, limit: float) -> Iterator[dict[int, tuple[int, int]]]:
    """For each node u, of each node v that it leads to: the fewest registers on a chain from u to v, and
    how long the longest of the chains is that have so few.

    A chain is followed up to the first node that makes it longer than the limit. Nodes are taken by
    fewest registers and then in evaluation order: then all that bears on a node's longest chain has
    been taken before it.
    """
    delays = [working_delay(node, net.derate) for node in net.nodes]
    place = {v: i for i, v in enumerate(evaluation_order(net))}
    leaving: list[list[Edge]] = [[] for _ in net.nodes]
    for edge in net.edges:
        leaving[edge.source].append(edge)

    for u in range(len(net.nodes)):
        best = {u: (0, delays[u])}
        waiting = [(0, place[u], u)]
        done = set()
        while waiting:
            registers, _, v = heappop(waiting)
            length = best[v][1]
            if v in done or length > limit:
                continue
            done.add(v)
            for edge in leaving[v]:
                there, count = edge.target, registers + edge.count
                reach = length + delays[there]
                known = best.get(there)
                if known is None or count < known[0] or count == known[0] and reach > known[1]:
                    best[there] = (count, reach)
                    heappush(waiting, (count, place[there], there))
        yield best


def constraints(net: Netlist) -> list[list[tuple[int, int]]]:
    """For each node u the pairs (v, c) that ask for r(u) - r(v) <= c.

    An edge asks for c = w: its new count is 0 or more. A chain from u to v that is longer than the
    period asks for c = its registers - 1: one of them at least stays on it. Of the chains from u
    to v one with the fewest registers asks for most, and among these the longest decides. What the
    nodes ask for that lie beyond the first one too far follows from that and from the edges.
    """
    asked = [[(v, registers - 1) for v, (registers, length) in chains.items() if length > net.period]
             for chains in critical_chains(net, net.period)]
    for edge in net.edges:
        asked[edge.source].append((edge.target, edge.count))
    return asked


def least_lags(net: Netlist) -> list[int] | None:
    """"The legal one meeting the period whose lag is smallest at every node at once", or None.

    r(v) >= r(u) - c along each constraint, and 0 at the pins: the least solution is the longest
    path from the pins (Bellman and Ford). There is none where that raises a pin above 0, or where
    it goes round: a path of more steps than nodes goes through a node twice and gains each time.
    """
    asked = constraints(net)
    pins = [v for v, node in enumerate(net.nodes) if node.kind in (INPUT, OUTPUT)]
    lags: list[int | None] = [None] * len(net.nodes)
    steps = [0] * len(net.nodes)
    for v in pins:
        lags[v] = 0
    fixed, waiting = set(pins), deque(pins)
    queued = set(pins)
    while waiting:
        u = waiting.popleft()
        queued.discard(u)
        for v, c in asked[u]:
            least = lags[u] - c
            if lags[v] is None or least > lags[v]:
                if v in fixed or steps[u] >= len(net.nodes):
                    return None
                lags[v], steps[v] = least, steps[u] + 1
                if v not in queued:
                    queued.add(v)
                    waiting.append(v)
    return lags


def moved_counts(net: Netlist, lags: Sequence[int]) -> list[int]:
    """"Each edge's new count w + r(v) - r(u)." """
    return [edge.count + lags[edge.target] - lags[edge.source] for edge in net.edges]


def rewired(net: Netlist, lags: Sequence[int]) -> Netlist:
    """The same nodes and edges with the new counts, for what does not look at start values."""
    counts = moved_counts(net, lags)
    return replace(net, edges=[replace(edge, count=count) for edge, count in zip(net.edges, counts)])


def longest_chain(net: Netlist) -> int:
    """How long the longest chain is of "nodes joined by edges of new count 0"."""
    into, ends = in_edges(net), [0] * len(net.nodes)
    for v in evaluation_order(net):
        before = max((ends[e.source] for e in into[v] if e.count == 0), default=0)
        ends[v] = before + working_delay(net.nodes[v], net.derate)
    return max(ends)


# --- Values at clocks ---------------------------------------------------------------------------


class Values:
    """The values of a netlist's nodes at clocks where no input bears on them.

    A value is a word with one bit per choice, all choices at once; `ones` is the word of a 1.
    `start(e, t)` gives the start value t of edge e.
    """

    def __init__(self, net: Netlist, start: Callable[[int, int], int], ones: int) -> None:
        self.kinds = [node.kind for node in net.nodes]
        self.into: list[list[tuple[int, int, int]]] = [[] for _ in net.nodes]
        for number, edge in enumerate(net.edges):
            self.into[edge.target].append((number, edge.source, edge.count))
        self.start = start
        self.ones = ones
        self.known: list[dict[int, int]] = [{} for _ in net.nodes]  # by node, then clock

    def at(self, v: int, t: int) -> int:
        """The value of node v at clock t; first those that it hangs on, without recursion."""
        known, asked = self.known, [(v, t)]
        while asked:
            node, clock = asked[-1]
            assert self.kinds[node] != INPUT, f"node {v} at clock {t} hangs on input {node}"
            seen, missing = [], len(asked)
            for number, source, count in self.into[node]:
                if clock < count:
                    seen.append(self.start(number, clock))
                elif clock - count in known[source]:
                    seen.append(known[source][clock - count])
                else:
                    asked.append((source, clock - count))
            if len(asked) == missing:
                known[node][clock] = self.gate(self.kinds[node], seen)
                asked.pop()
        return known[v][t]

    def gate(self, kind: int, seen: Sequence[int]) -> int:
        """What a gate gives that sees these words, in edge order: for all choices at once."""
        if kind == SELECTOR:
            select, first, second = seen
            return first & ~select | second & select
        word = seen[0]
        for other in seen[1:]:
            word = word & other if kind in (AND, NAND) else word | other if kind in (OR, NOR) else word ^ other
        return self.ones ^ word if kind in (INVERTER, NAND, NOR, XNOR) else word


# --- New start values ---------------------------------------------------------------------------


def chosen_values(net: Netlist, lags: Sequence[int]) -> list[tuple[int, int]]:
    """Edge and clock of each start value that is chosen: those with s = t - r(v) below 0."""
    counts = moved_counts(net, lags)
    return [(number, t) for number, edge in enumerate(net.edges)
            for t in range(counts[number]) if t - lags[edge.target] < 0]


def wanted_values(net: Netlist, lags: Sequence[int]) -> list[tuple[int, int, int]]:
    """Node, clock and value: "for each edge leaving a node v with positive lag and each old value s
    of that edge with s at least w - r(v), node v gives that value at clock s - w + r(v)". """
    return [(edge.source, s - edge.count + lags[edge.source], edge.starts >> s & 1)
            for edge in net.edges if lags[edge.source] > 0
            for s in range(max(0, edge.count - lags[edge.source]), edge.count)]


class Starts:
    """The start values of a netlist moved by lags, but for the choice."""

    def __init__(self, net: Netlist, lags: Sequence[int]) -> None:
        self.net, self.lags = net, lags
        self.old = Values(net, lambda e, t: net.edges[e].starts >> t & 1, 1)

    def value(self, e: int, t: int) -> int | None:
        """New start value t of edge e; None where it is chosen."""
        edge = self.net.edges[e]
        s = t - self.lags[edge.target]
        if s < 0:
            return None
        if s < edge.count:  # "old value s"
            return edge.starts >> s & 1
        return self.old.at(edge.source, s - edge.count)  # "u's value in the original"


AT_ONCE = 16  # so many of the last values of a choice are tried at once


def place_word(place: int, places: int) -> int:
    """Bit i is the bit at a place of the number i, for i below 2 ^ places.

    >>> [f'{place_word(place, 3):08b}' for place in (0, 1, 2)]
    ['10101010', '11001100', '11110000']
    """
    half = 1 << place
    block = ((1 << half) - 1) << half
    return ((1 << (1 << places)) - 1) // ((1 << 2 * half) - 1) * block


def smallest_choice(net: Netlist, lags: Sequence[int], starts: Starts) -> int | None:
    """"List the chosen values by edge number, then clock, and read them as one binary number, first
    value highest: the smallest is taken." None where no choice carries the start. """
    chosen = chosen_values(net, lags)
    wanted = wanted_values(net, lags)
    late = min(len(chosen), AT_ONCE)
    early = len(chosen) - late
    ones = (1 << (1 << late)) - 1
    number = {where: x for x, where in enumerate(chosen)}
    words = [place_word(late - 1 - x, late) for x in range(late)]
    new = rewired(net, lags)
    for first in range(1 << early):

        def start(e: int, t: int) -> int:
            x = number.get((e, t))
            if x is None:
                return ones * starts.value(e, t)
            return words[x - early] if x >= early else ones * (first >> (early - 1 - x) & 1)

        values = Values(new, start, ones)
        carry = ones
        for v, t, value in wanted:
            carry &= values.at(v, t) if value else ones ^ values.at(v, t)
            if not carry:
                break
        if carry:
            return first << late | (carry & -carry).bit_length() - 1
    return None


def moved(net: Netlist, lags: Sequence[int], choice: int, starts: Starts | None = None) -> Netlist:
    """"Moved by lags and a choice, a netlist keeps its head, its nodes and the ends of its edges, and
    each edge gets its new count and new start values." """
    chosen = chosen_values(net, lags)
    bits = {where: choice >> (len(chosen) - 1 - x) & 1 for x, where in enumerate(chosen)}
    starts = starts or Starts(net, lags)
    edges = []
    for number, (edge, count) in enumerate(zip(net.edges, moved_counts(net, lags))):
        word = 0
        for t in range(count):
            value = starts.value(number, t)
            word |= (bits[number, t] if value is None else value) << t
        edges.append(replace(edge, count=count, starts=word))
    return replace(net, edges=edges)


# --- Retiming -----------------------------------------------------------------------------------


@dataclass(frozen=True)
class Retimed:
    """The moved netlist, each node's lag, how many values were chosen, and the choice as a number."""

    net: Netlist
    lags: Sequence[int]
    chosen: int
    choice: int


def retime(text: bytes) -> Retimed:
    """"Retiming goes on with 12, 8, 9, 10, 11": a text retimed, into buffers that are long enough."""
    net = read(text)
    lags = least_lags(net)
    if lags is None:
        raise Refusal(8)
    for number, count in enumerate(moved_counts(net, lags)):
        if count > 32:
            raise Refusal(9, EDGE, number)
    chosen = len(chosen_values(net, lags))
    if chosen > 24:
        raise Refusal(10)
    starts = Starts(net, lags)
    choice = smallest_choice(net, lags, starts)
    if choice is None:
        raise Refusal(11)
    return Retimed(moved(net, lags, choice, starts), lags, chosen, choice)


LAG_LINE = Struct(">BHh")  # 04, node, lag


def listed(net: Netlist, lags: Sequence[int]) -> bytes:
    """"The new text, then per node a frame `04`: node (2), lag (2, two's complement)." """
    return text_of(net) + b"".join(frame_line(LAG_LINE.pack(4, v, lag)) for v, lag in enumerate(lags))


def listing(text: bytes) -> bytes:
    """What the program prints of a text.

    >>> from netlists import card_d
    >>> listing(text_of(card_d()))
    b'0F0B000000\\n'
    """
    try:
        done = retime(text)
    except Refusal as refusal:
        return refusal.frame()
    return listed(done.net, done.lags)
