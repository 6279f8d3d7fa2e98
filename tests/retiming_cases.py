#!/usr/bin/env python3
"""Texts for retiming, many with an answer worked out apart from the reference.

    python3 tests/retiming_cases.py --summary     what the cases cover, counted

  Case                 a text and the answer claimed
  retiming_cases       all of them, by class, in a fixed order
  expected             what the program prints of a case, checked

A claim is the moved netlist and its lags, a Refusal, or None where only the reference says. Claims
come from a formula of the one circuit (a row of gates, a fork, a tree), not from any search. What
the reference gives is tried against the paper's sentences one by one (`tried`): lags against all
legal retimings where these are few, the choice against all choices where these are few, and the
outputs of both netlists on random vectors.
"""

from __future__ import annotations

import sys
from collections import Counter
from collections.abc import Iterable, Iterator, Sequence
from dataclasses import dataclass, replace
from itertools import combinations, permutations, product
from math import prod
from random import Random

from netlists import (
    CARDS, MORE_INPUTS, ONE_INPUT, card_a, card_c, card_d, card_f, card_g, card_i, card_k, card_s, drawn,
    kinds_with, largest, line_of, node_of, random_small,
)
from reading_cases import reading_cases
from reference import (
    AND, BUFFER, EDGE, INPUT, INVERTER, LINE, NAND, NODE, NOR, OR, OUTPUT, SELECTOR, XNOR, XOR,
    Edge, Netlist, Node, Refusal, read, text_of, trace,
)
from retiming import (
    Retimed, chosen_values, listed, longest_chain, moved, moved_counts, retime, rewired, wanted_values,
    working_delay,
)

SEED = 20010


@dataclass(frozen=True)
class Case:
    """A text, and the answer claimed: the moved netlist and its lags, a refusal, or nothing."""

    text: bytes
    claim: tuple[Netlist, Sequence[int]] | Refusal | None = None


# --- Trying what the reference gives ------------------------------------------------------------


def expected(case: Case) -> bytes:
    """What the program prints; an error where the reference contradicts the claim or the paper."""
    try:
        done = retime(case.text)
        printed = listed(done.net, done.lags)
    except Refusal as refusal:
        done = refusal
        printed = refusal.frame()
    if case.claim is not None:
        claimed = case.claim.frame() if isinstance(case.claim, Refusal) else listed(*case.claim)
        assert printed == claimed, f"{case}: claimed {claimed!r}, the reference {printed!r}"
    if isinstance(done, Retimed) or done.number >= 8:
        tried(read(case.text), done)
    return printed


FEW = 400  # so many legal retimings, or choices, are all tried


def tried(net: Netlist, done: Retimed | Refusal) -> None:
    """An error where a sentence of the paper does not hold of an answer."""
    rng = Random(len(net.edges))
    everything = legal_lags(net)
    if everything is not None:
        good = [lags for lags in everything if legal(net, lags) and meets(net, lags)]
        assert bool(good) == (not isinstance(done, Refusal) or done.number > 8)
        if good and isinstance(done, Retimed):
            assert [min(column) for column in zip(*good)] == list(done.lags)
        if good and isinstance(done, Refusal):
            least = [min(column) for column in zip(*good)]
            wide = [e for e, count in enumerate(moved_counts(net, least)) if count > 32]
            assert (done.number, done.place) == (9, wide[0]) if wide else done.number > 9
            if not wide:
                many = len(chosen_values(net, least)) > 24
                assert done.number == (10 if many else 11)
                if not many and 1 << len(chosen_values(net, least)) <= FEW:
                    assert first_carried(rng, net, least) is None
    if isinstance(done, Retimed):
        assert read(text_of(done.net)) == done.net
        assert legal(net, done.lags) and meets(net, done.lags)
        assert done.chosen == sum(  # "the smaller of new count and that lag"
            min(edge.count, done.lags[edge.target]) for edge in done.net.edges if done.lags[edge.target] > 0)
        if 1 << done.chosen <= FEW:
            assert first_carried(rng, net, done.lags) == done.choice
        rows = random_rows(rng, net, 40)
        pins = net.numbers_of(OUTPUT)
        assert outputs(net, rows, pins) == outputs(done.net, rows, pins)


def outputs(net: Netlist, rows: Sequence[Sequence[int]], pins: Sequence[int]) -> list[list[int]]:
    return [[values[v] for v in pins] for values in trace(net, rows)]


def random_rows(rng: Random, net: Netlist, clocks: int) -> list[list[int]]:
    return [[rng.getrandbits(1) for _ in net.numbers_of(INPUT)] for _ in range(clocks)]


def legal(net: Netlist, lags: Sequence[int]) -> bool:
    """"Inputs and outputs have 0 and each edge's new count w + r(v) - r(u) is 0 or more." """
    pins = (lag for node, lag in zip(net.nodes, lags) if node.kind in (INPUT, OUTPUT))
    return not any(pins) and min(moved_counts(net, lags)) >= 0


def meets(net: Netlist, lags: Sequence[int]) -> bool:
    """"Every chain of nodes joined by edges of new count 0 has working delays that add up to the period at most." """
    return longest_chain(rewired(net, lags)) <= net.period


def legal_lags(net: Netlist) -> Iterable[Sequence[int]] | None:
    """All rows of lags that may be legal, where they are few: a lag is no less than minus the registers
    on any way from an input, and no more than those on any way to an output."""
    if len(net.nodes) > 12:
        return None
    before = fewest_registers(net, INPUT, [(e.source, e.target, e.count) for e in net.edges])
    after = fewest_registers(net, OUTPUT, [(e.target, e.source, e.count) for e in net.edges])
    ranges = [range(0, 1) if node.kind in (INPUT, OUTPUT) else range(-low, high + 1)
              for node, low, high in zip(net.nodes, before, after)]
    return product(*ranges) if prod(map(len, ranges)) <= FEW else None


def fewest_registers(net: Netlist, pin: int, steps: Sequence[tuple[int, int, int]]) -> list[int]:
    fewest = [0 if node.kind == pin else 10 ** 6 for node in net.nodes]
    for _ in net.nodes:
        for here, there, count in steps:
            fewest[there] = min(fewest[there], fewest[here] + count)
    return fewest


def first_carried(rng: Random, net: Netlist, lags: Sequence[int]) -> int | None:
    """The first choice under which the moved netlist, run on random vectors, gives what is wanted."""
    wanted = wanted_values(net, lags)
    rows = random_rows(rng, net, max((t for _, t, _ in wanted), default=0) + 1)
    for choice in range(1 << len(chosen_values(net, lags))):
        values = trace(moved(net, lags, choice), rows)
        if all(values[t][v] == value for v, t, value in wanted):
            return choice
    return None


# --- Making cases -------------------------------------------------------------------------------


def case(net: Netlist, claim: tuple[Netlist, Sequence[int]] | Refusal | None = None) -> Case:
    return Case(text_of(net), claim)


def unmoved(net: Netlist) -> Case:
    """A netlist whose least lags are all 0."""
    return case(net, (net, [0] * len(net.nodes)))


def numbered(net: Netlist, nodes: Sequence[int], edges: Sequence[int]) -> Netlist:
    """The same netlist with node v numbered nodes[v] and edge e numbered edges[e]."""
    new_nodes, new_edges = list(net.nodes), list(net.edges)
    for v, node in enumerate(net.nodes):
        new_nodes[nodes[v]] = node
    for e, edge in enumerate(net.edges):
        new_edges[edges[e]] = replace(edge, source=nodes[edge.source], target=nodes[edge.target])
    return replace(net, nodes=new_nodes, edges=new_edges)


def mixed(rng: Random, net: Netlist) -> Netlist:
    """The same netlist, its nodes and edges in another order; those that enter one selector stay in theirs."""
    nodes, edges = (rng.sample(range(n), n) for n in (len(net.nodes), len(net.edges)))
    for v in net.numbers_of(SELECTOR):
        entering = [e for e, edge in enumerate(net.edges) if edge.target == v]
        for e, place in zip(entering, sorted(edges[e] for e in entering)):
            edges[e] = place
    return numbered(net, nodes, edges)


def selecting(rng: Random, net: Netlist) -> Netlist:
    """Some gates with two in-edges made selectors: one of the two twice, and the three in any order."""
    nodes, edges = list(net.nodes), list(net.edges)
    for v, node in enumerate(net.nodes):
        entering = [edge for edge in net.edges if edge.target == v]
        if node.kind in MORE_INPUTS and len(entering) == 2 and rng.random() < 0.5 and len(edges) < 1024:
            nodes[v] = replace(node, kind=SELECTOR)
            edges.append(rng.choice(entering))
    order = rng.sample(range(len(edges)), len(edges))
    return replace(net, nodes=nodes, edges=[edges[e] for e in order])


def beside(parts: Sequence[Netlist]) -> Netlist:
    """Netlists next to each other, with the head of the first."""
    nodes: list[Node] = []
    edges: list[Edge] = []
    for part in parts:
        edges += [replace(e, source=e.source + len(nodes), target=e.target + len(nodes)) for e in part.edges]
        nodes += part.nodes
    return replace(parts[0], nodes=nodes, edges=edges)


def with_starts(rng: Random, net: Netlist) -> Netlist:
    """The same netlist with random start values."""
    return replace(net, edges=[replace(e, starts=rng.getrandbits(e.count) if e.count else 0) for e in net.edges])


NO_RETIMING, TOO_MANY, NO_START = Refusal(8), Refusal(10), Refusal(11)


# --- Bench cards --------------------------------------------------------------------------------


def with_edges(net: Netlist, changes: dict[int, tuple[int, int]]) -> Netlist:
    """A netlist with other counts and start values on some edges."""
    edges = [replace(e, count=changes[i][0], starts=changes[i][1]) if i in changes else e
             for i, e in enumerate(net.edges)]
    return replace(net, edges=edges)


def cards(rng: Random) -> Iterator[Case]:
    """The cards with what the paper says of them, and the "Also" cards."""
    a, c, g, i = card_a(), card_c(), card_g(), card_i()
    yield case(a, (with_edges(a, {0: (0, 0), 1: (1, 0)}), [0, -1, 0, 0]))
    b = card_a(2)
    yield case(b, (with_edges(b, {0: (0, 0), 2: (2, 2)}), [0, -1, -1, 0]))
    yield case(c, (with_edges(c, {2: (1, 1), 3: (0, 0)}), [0, 0, 0, 1, 0]))
    yield case(card_d(), NO_START)
    yield unmoved(card_d(2))
    yield case(card_f(), NO_RETIMING)
    yield case(g, (with_edges(g, {2: (1, 0), 3: (1, 1), 4: (0, 0)}), [0, 0, 0, 0, 1, 0]))
    yield unmoved(CARDS["H"])
    yield case(i, (with_edges(i, {0: (0, 0), 1: (32, 0)}), [0, -16, 0]))
    yield case(card_i(20), Refusal(9, EDGE, 1))
    k = card_k()
    yield case(k, (with_edges(k, {**{e: (1, 0) for e in range(1, 25)}, 25: (0, 0)}), [0, *range(25), 0]))
    yield case(card_k(26, 25), TOO_MANY)
    for value in (1, 0):  # "chosen 0, 1, 0" and 0, 0, 0
        s = card_s(value)
        yield case(s, (with_edges(s, {3: (1, 0), 4: (1, value), 5: (1, 0), 6: (0, 0)}), [0, 0, 0, 0, 0, 0, 1, 0]))
    for derate in (49, 251, 0, 255):
        yield case(replace(card_d(2), derate=derate), Refusal(2, LINE, 1))
    yield unmoved(replace(card_d(2), derate=50))
    yield unmoved(replace(card_d(1), derate=50))  # a half goes to even: the working delay is 0
    yield unmoved(replace(card_d(4), derate=250))  # twice 2
    yield unmoved(replace(card_d(6), derate=250))
    yield case(replace(card_d(3), derate=250), NO_START)
    yield case(replace(card_d(2), derate=250), NO_START)
    yield case(replace(card_d(1), derate=250), NO_RETIMING)
    for derate, period, moved, lags in ((50, 1, {0: (0, 0), 2: (2, 2)}, [0, -1, -1, 0]),  # 0.5 is 0: as card B
                                        (250, 2, {0: (0, 0), 1: (1, 0)}, [0, -1, 0, 0]),  # 2.5 is 2: as card A
                                        (250, 4, {0: (0, 0), 2: (2, 2)}, [0, -1, -1, 0])):
        a = replace(card_a(period), derate=derate)
        yield case(a, (with_edges(a, moved), lags))
    yield case(replace(card_a(1), derate=250), NO_RETIMING)
    yield case(line_of(1, [BUFFER], {0: (32, 5)}), (line_of(1, [BUFFER], {1: (32, 5)}), [0, -32, 0]))
    yield unmoved(line_of(1, [], {0: (32, 1 << 31)}))
    yield case(line_of(1, [BUFFER], {0: (33, 0)}), Refusal(4, LINE, 5))
    yield unmoved(line_of(1, [], {}))
    alone = drawn(1, [INPUT, BUFFER, OUTPUT], [Edge(0, 2), Edge(1, 1, 1, 0)])
    yield case(alone, Refusal(7, NODE, 1))
    yield case(replace(alone, edges=[Edge(0, 2), Edge(1, 1)]), Refusal(6))


# --- Working delays and the period --------------------------------------------------------------


def of_delays(net: Netlist, derate: int, delays: Sequence[int]) -> Netlist:
    """The row with gates of these delays."""
    gates = [replace(node, delay=delay) for node, delay in zip(net.nodes[1:-1], delays)]
    return replace(net, derate=derate, nodes=[net.nodes[0], *gates, net.nodes[-1]])


def one_gate(delay: int, derate: int, period: int) -> Netlist:
    net = line_of(period, [INVERTER], {1: (1, 1)})
    return replace(net, derate=derate, nodes=[net.nodes[0], Node(INVERTER, delay), net.nodes[2]])


def delays(rng: Random) -> Iterator[Case]:
    """Rounding to the nearest whole, a half to even; delays of 0; chains whose delays add up to far above 65,535."""
    for delay, derate, worked in ((1, 50, 0), (3, 50, 2), (5, 50, 2), (7, 50, 4), (253, 50, 126), (255, 50, 128), (1, 149, 1), (1, 150, 2),
                                  (3, 150, 4), (5, 150, 8), (1, 151, 2), (1, 250, 2), (3, 250, 8), (253, 250, 632), (255, 250, 638),
                                  (255, 249, 635), (254, 250, 635), (99, 101, 100), (7, 107, 7)):
        yield unmoved(one_gate(delay, derate, max(worked, 1)))
        if worked > 1:
            yield case(one_gate(delay, derate, worked - 1), NO_RETIMING)
    # two gates of 2, and rows of gates of 0: any number of these fits a period of 1
    yield unmoved(of_delays(line_of(4, [BUFFER, BUFFER], {}), 50, [3, 5]))
    yield case(of_delays(line_of(3, [BUFFER, BUFFER], {}), 50, [3, 5]), NO_RETIMING)
    for gates in (2, 300, 510):
        kinds = [INVERTER, BUFFER] * (gates // 2)
        yield unmoved(of_delays(line_of(1, kinds, {gates: (3, 5)}), 50, [1] * gates))
        yield case(of_delays(line_of(1, kinds, {0: (3, 5), gates // 2: (1, 1)}), 50, [1] * gates))
        yield case(of_delays(line_of(2, kinds, {0: (1, 1), gates: (2, 1)}), 50, [1, 3] * (gates // 2)))
    # rows of 102 and 103 gates of 638: 65,076 and 65,714; of 510: 325,380, which 16 bits would take for 63,236
    for gates, registers in ((102, 0), (103, 0), (103, 1), (510, 0), (510, 4), (510, 5)):
        net = line_of(65535, [BUFFER] * gates, {gates: (registers, 0)})
        net = replace(net, derate=250, nodes=[Node(n.kind, 255 if n.kind == BUFFER else 0) for n in net.nodes])
        yield case(net, None if registers else unmoved(net).claim if gates <= 102 else NO_RETIMING)
    # the period one below, at and above what a chain needs, at every length of chain between two registers
    for gates in (1, 2, 3, 7):
        for period in range(1, gates + 2):
            yield case(line_of(period, [BUFFER] * gates, {0: (1, 1), gates: (1, 0)}))


# --- Rows and forks: positive lags --------------------------------------------------------------


def fork(kinds: Sequence[int], branches: Sequence[tuple[int, int]]) -> Netlist:
    """An input, gates in a row, the last one feeding outputs through registers; period 1."""
    last = len(kinds)
    edges = [Edge(v, v + 1) for v in range(last)]
    edges += [Edge(last, last + 1 + i, *branch) for i, branch in enumerate(branches)]
    return drawn(1, [INPUT, *kinds, *[OUTPUT] * len(branches)], edges)


def forked(kinds: Sequence[int], branches: Sequence[tuple[int, int]]) -> Case:
    """A fork with its claim.

    Each gate but the first takes one register over from every branch, so the lags are 0, 0, 1, 2, ...,
    m. The last m values of a branch, clock by clock, are what the last gate must give, so all
    branches must agree on them; each then stands, turned over by the inverters behind it, on one edge.
    """
    net, m = fork(kinds, branches), len(kinds) - 1
    if min(count for count, _ in branches) < m:
        return case(net, NO_RETIMING)
    if m > 24:
        return case(net, TOO_MANY)
    given = {starts >> (count - m) for count, starts in branches}
    if len(given) > 1:
        return case(net, NO_START)
    changes = {m + 1 + i: (count - m, starts & ((1 << (count - m)) - 1)) for i, (count, starts) in enumerate(branches)}
    word, turned = given.pop(), 0
    for clock in range(m):
        edge = m - clock  # into gate number m + 1 - clock
        turned ^= kinds[edge] == INVERTER
        changes[edge] = (1, (word >> clock & 1) ^ turned)
    return case(net, (with_edges(net, changes), [0, *range(m + 1), *[0] * len(branches)]))


def rows(rng: Random) -> Iterator[Case]:
    """Every number of chosen values from 0 to 26, in rows of buffers and inverters."""
    for m in range(27):
        for kinds in ([BUFFER] * (m + 1), rng.choices(ONE_INPUT, k=m + 1)):
            count = min(32, m + rng.choice([0, 0, 1, 3]))
            yield forked(kinds, [(count, rng.getrandbits(count) if count else 0)])
    for m in (1, 2, 5, 24):
        yield forked([BUFFER] * (m + 1), [(m - 1, 0)])
        for starts in (0, (1 << m) - 1, 1, 1 << m - 1):
            yield forked([INVERTER] * (m + 1), [(m, starts)])


def forks(rng: Random) -> Iterator[Case]:
    """Two or three branches that agree, that disagree at one clock only, that differ where it does not matter."""
    for one, other in product(range(4), repeat=2):  # two registers each: differing at clock 0, at clock 1 only, at both
        yield forked([BUFFER] * 3, [(2, one), (2, other)])
    for m in (1, 2, 3, 8, 23, 24):
        for clock in sorted({0, 1, m // 2, m - 1}):
            if clock < m:
                word = rng.getrandbits(m)
                kinds = rng.choices(ONE_INPUT, k=m + 1)
                yield forked(kinds, [(m, word), (m, word ^ 1 << clock)])
                yield forked(kinds, [(m, word), (m, word), (m, word ^ 1 << clock)])
        for extra in ((0, 1), (2, 5), (8, 8)):  # registers that stay: their values are free
            word = rng.getrandbits(m)
            branches = [(m + n, word << n | (rng.getrandbits(n) if n else 0)) for n in extra]
            yield forked(rng.choices(ONE_INPUT, k=m + 1), branches)
            count, starts = branches[1]  # and now they differ at clock 0
            yield forked(rng.choices(ONE_INPUT, k=m + 1), [branches[0], (count, starts ^ 1 << extra[1])])
    # each branch alone could start, and so could any two that agree
    for bits in product((0, 1), repeat=3):
        yield forked([BUFFER, INVERTER], [(1, bit) for bit in bits])
    for bit in (0, 1):
        yield forked([BUFFER, INVERTER], [(1, bit)])
    # a node seen through a buffer by one output and through an inverter by the other: they must differ
    for one, other in product((0, 1), repeat=2):
        edges = [Edge(0, 1), Edge(1, 2), Edge(2, 3), Edge(2, 4), Edge(3, 5, 2, one), Edge(4, 6, 2, other)]
        net = drawn(1, [INPUT, BUFFER, BUFFER, BUFFER, INVERTER, OUTPUT, OUTPUT], edges)
        yield case(net)
        yield case(mixed(rng, net))


# --- Gates with many inputs: the smallest choice ------------------------------------------------

# For each kind the smallest choices of its inputs that give 0 and 1: none, only the last, all; of a selector the first.
SMALLEST = {AND: ("none", "all"), OR: ("none", "last"), XOR: ("none", "last"),
            NAND: ("all", "none"), NOR: ("last", "none"), XNOR: ("last", "none"), SELECTOR: ("none", "first")}


def gathered(kind: int, inputs: int, value: int) -> Case:
    """So many inputs, each with a buffer, into one gate, a register, an output (as card G)."""
    edges = [Edge(v, inputs + v) for v in range(inputs)]
    edges += [Edge(inputs + v, 2 * inputs) for v in range(inputs)] + [Edge(2 * inputs, 2 * inputs + 1, 1, value)]
    net = drawn(1, [*[INPUT] * inputs, *[BUFFER] * inputs, kind, OUTPUT], edges)
    choice = {"none": 0, "last": 1, "first": 2, "all": (1 << inputs) - 1}[SMALLEST[kind][value]]
    changes = {inputs + v: (1, choice >> (inputs - 1 - v) & 1) for v in range(inputs)}
    return case(net, (with_edges(net, {**changes, 2 * inputs: (0, 0)}), [*[0] * 2 * inputs, 1, 0]))


def gates(rng: Random) -> Iterator[Case]:
    """Every kind of gate with 2 to 8 inputs, for both values."""
    for kind, inputs, value in product(MORE_INPUTS, range(2, 9), (0, 1)):
        yield gathered(kind, inputs, value)


def selectors(rng: Random) -> Iterator[Case]:
    """Selectors that registers go over, either way; the edges turned and between others; registers on some of the three."""
    for value in (0, 1):
        net = card_s(value)
        for order in permutations((3, 4, 5)):  # whichever buffer is select: the lowest edge is
            edges = [*net.edges[:3], *(Edge(v, 6) for v in order), net.edges[6]]
            turned = replace(net, edges=edges)
            claim = with_edges(turned, {3: (1, 0), 4: (1, value), 5: (1, 0), 6: (0, 0)})
            yield case(turned, (claim, [0, 0, 0, 0, 0, 0, 1, 0]))
            other = (7, 6, 5, 4, 3, 2, 1, 0), (3, 5, 1, 0, 2, 4, 6)  # its edges between others, its node the second
            yield case(numbered(turned, *other), (numbered(claim, *other), [0, 1, 0, 0, 0, 0, 0, 0]))
        for sources in ((1, 1, 1), (1, 2, 1), (2, 1, 1), (1, 1, 2)):
            edges = [Edge(0, 1), Edge(0, 2), *(Edge(v, 3) for v in sources), Edge(3, 4, 1, value), Edge(2, 5), Edge(1, 6)]
            net = drawn(1, [INPUT, BUFFER, BUFFER, SELECTOR, *[OUTPUT] * 3], edges)
            changes = {2: (1, 0), 3: (1, value), 4: (1, 0), 5: (0, 0)}
            yield case(net, (with_edges(net, changes), [0, 0, 0, 1, 0, 0, 0]))
    for words in product((0, 1), repeat=3):
        for order in permutations(range(3)):
            yield gone_over([1, 1, 1], words, order)
    for counts in ((1, 2, 3), (3, 1, 2), (2, 3, 1), (0, 1, 1), (1, 0, 32), (5, 5, 7), (32, 32, 32), (9, 31, 30)):
        for _ in range(2):
            words = [rng.getrandbits(count) if count else 0 for count in counts]
            yield gone_over(counts, words, rng.sample(range(3), 3))
    for order in permutations(range(3)):
        for values in product((0, 1), repeat=2):
            one = shared(order, values)
            yield one
            yield case(mixed(rng, read(one.text)))


def gone_over(counts: Sequence[int], words: Sequence[int], order: Sequence[int]) -> Case:
    """A selector whose three edges, from inputs in this order, hold registers; as many as all three hold go over it."""
    net = drawn(1, [*[INPUT] * 3, SELECTOR, OUTPUT], [
        *(Edge(v, 3, count, word) for v, count, word in zip(order, counts, words)), Edge(3, 4)])
    gone = min(counts)
    word = sum((words[1 + (words[0] >> t & 1)] >> t & 1) << t for t in range(gone))
    changes = {e: (counts[e] - gone, words[e] >> gone) for e in range(3)}
    return case(net, (with_edges(net, {**changes, 3: (gone, word)}), [0, 0, 0, -gone, 0]))


def shared(order: Sequence[int], values: tuple[int, int]) -> Case:
    """Three values that are chosen behind slow buffers, and two selectors that see them, one as they stand, one in
    this order: each has a register."""
    slow, quick = (1, 2, 3), (4, 5, 6)
    edges = [*(Edge(0, v) for v in slow), *(Edge(u, v) for u, v in zip(slow, quick)), *(Edge(v, 7) for v in quick),
             *(Edge(quick[i], 8) for i in order), Edge(7, 9, 1, values[0]), Edge(8, 10, 1, values[1])]
    net = drawn(200, [INPUT, *[BUFFER] * 6, SELECTOR, SELECTOR, OUTPUT, OUTPUT], edges)
    net = replace(net, nodes=[Node(BUFFER, 200) if v in slow else node for v, node in enumerate(net.nodes)])
    for bits in product((0, 1), repeat=3):
        turned = [bits[i] for i in order]
        if values == (bits[1 + bits[0]], turned[1 + turned[0]]):
            changes = {**{3 + i: (1, bit) for i, bit in enumerate(bits)}, 12: (0, 0), 13: (0, 0)}
            return case(net, (with_edges(net, changes), [*[0] * 4, *[1] * 5, 0, 0]))
    return case(net, NO_START)


def cone(rng: Random, chosen: int, levels: Sequence[int]) -> Netlist:
    """So many buffers that are slow, then layers of quick gates, then a register before each output.

    The period leaves no room for a gate after a buffer, so each edge from a buffer to a gate takes a
    register, and its value is chosen. Every buffer feeds one gate; every gate sees two to eight
    nodes, each of the layer before it at least once, and further ones from any earlier layer of gates.
    """
    kinds: list[int] = [INPUT, *[BUFFER] * chosen]
    edges = [Edge(0, 1 + v) for v in range(chosen)]
    before, earlier = list(range(1, 1 + chosen)), []
    for width in levels:
        layer = list(range(len(kinds), len(kinds) + width))
        sees: list[list[int]] = [[] for _ in layer]
        for i, v in enumerate(rng.sample(before, len(before))):
            sees[i % width].append(v)
        for seen in sees:
            if earlier:
                while len(seen) < 2 or rng.random() < 0.4 and len(seen) < 8:
                    seen.append(rng.choice(earlier))
        kinds += [rng.choice(kinds_with(len(seen))) for seen in sees]
        edges += [Edge(u, v) for v, seen in zip(layer, sees) for u in seen]
        before, earlier = layer, earlier + layer
    for v in before:
        edges.append(Edge(v, len(kinds), 1, 0))
        kinds.append(OUTPUT)
    nodes = [Node(kind, 200) if 1 <= v <= chosen else node_of(kind) for v, kind in enumerate(kinds)]
    return Netlist(200, 100, nodes, edges)


def shown_at_start(rng: Random, net: Netlist) -> list[int]:
    """What each node of a cone gives where random values stand behind the slow buffers."""
    slow = [net.nodes[e.source].delay == 200 for e in net.edges]
    behind = [replace(e, count=1, starts=rng.getrandbits(1)) if after else replace(e, count=0)
              for e, after in zip(net.edges, slow)]
    return trace(replace(net, edges=behind), [[0]])[0]


def cones(rng: Random) -> Iterator[Case]:
    """Gates over 2 to 24 chosen values: choices that are neither none nor all; up to 14 also starts that none carries."""
    for chosen in range(2, 25):
        for levels in ([max(1, chosen // 3)], [max(1, chosen // 2), 3], [max(1, chosen // 3), chosen, 5]):
            net = cone(rng, chosen, levels)
            shown = shown_at_start(rng, net)
            carried = replace(net, edges=[replace(e, starts=shown[e.source] if e.count else 0) for e in net.edges])
            yield case(carried)
            yield case(mixed(rng, with_starts(rng, net) if chosen <= 14 else carried))


def parities(chosen: int, values: tuple[int, int], last: int = 0) -> Netlist:
    """Two trees of XOR over the same chosen values, in two orders, each with a register.

    The values: a buffer at each of them, slow; a quick buffer behind it, which both trees see. Each
    tree is a row of gates: the first from the first value on, the second from the last. With `last`
    only so many of the last values are seen by the trees, the others by an output each.
    """
    kinds: list[int] = [INPUT, *[BUFFER] * 2 * chosen]
    edges = [Edge(0, 1 + v) for v in range(chosen)] + [Edge(1 + v, 1 + chosen + v) for v in range(chosen)]
    taken = list(range(1 + chosen, 1 + 2 * chosen))
    free = taken[:chosen - last] if last else []
    for order, value in zip((taken[len(free):], taken[len(free):][::-1]), values):
        row = order[0]
        for v in order[1:]:
            edges += [Edge(row, len(kinds)), Edge(v, len(kinds))]
            row = len(kinds)
            kinds.append(XOR)
        edges.append(Edge(row, len(kinds), 1, value))
        kinds.append(OUTPUT)
    for v in free:
        edges.append(Edge(v, len(kinds), 1, 0))
        kinds.append(OUTPUT)
    nodes = [Node(kind, 200) if 1 <= v <= chosen else node_of(kind) for v, kind in enumerate(kinds)]
    return Netlist(200, 100, nodes, edges)


def searches(rng: Random) -> Iterator[Case]:
    """Starts that no choice carries, where that hangs on all values, on the last, on the first."""
    for chosen in (2, 3, 8, 14, 17):
        yield case(parities(chosen, (0, 0)))
        yield case(parities(chosen, (1, 1)))
        yield case(parities(chosen, (0, 1)), NO_START)
    for chosen, last in ((24, 2), (24, 12), (20, 16)):
        yield case(parities(chosen, (1, 1), last))
        yield case(parities(chosen, (1, 0), last), NO_START)
    for chosen in (6, 24):  # the conflict hangs on the first value, or on the last
        for at in (0, chosen - 1):
            kinds = [INPUT, *[BUFFER] * 2 * chosen, *[OUTPUT] * (chosen + 1)]
            edges = [Edge(0, 1 + v) for v in range(chosen)] + [Edge(1 + v, 1 + chosen + v) for v in range(chosen)]
            edges += [Edge(1 + chosen + v, 1 + 2 * chosen + v, 1, v % 2) for v in range(chosen)]
            edges.append(Edge(1 + chosen + at, 1 + 3 * chosen, 1, 1 - at % 2))
            nodes = [Node(kind, 200) if 1 <= v <= chosen else node_of(kind) for v, kind in enumerate(kinds)]
            yield case(Netlist(200, 100, nodes, edges), NO_START)


def several_clocks(rng: Random, kind: int, inputs: int, depth: int, count: int) -> Netlist:
    """Rows of gates, each as deep, into one gate with so many registers behind it; period 1."""
    gate = 1 + inputs * depth
    edges = []
    for i in range(inputs):
        row = range(1 + i * depth, 1 + (i + 1) * depth)
        edges += [Edge(u, v) for u, v in zip([0, *row], [*row, gate])]
    edges.append(Edge(gate, gate + 1, count, rng.getrandbits(count)))
    return drawn(1, [INPUT, *rng.choices(ONE_INPUT, k=inputs * depth), kind, OUTPUT], edges)


def deep(rng: Random) -> Iterator[Case]:
    """Several clocks of chosen values."""
    for inputs, depth in ((2, 1), (2, 2), (2, 5), (2, 12), (3, 3), (3, 8), (4, 6), (5, 4), (8, 3), (2, 13), (5, 5)):
        for kind in [*rng.sample(MORE_INPUTS, 4), *[SELECTOR] * (inputs == 3)]:
            net = several_clocks(rng, kind, inputs, depth, depth + rng.choice([0, 1, 2]))
            claim = TOO_MANY if inputs * depth > 24 else None
            yield case(net, claim)
            yield case(mixed(rng, net), claim)


# --- 9: counts above 32 -------------------------------------------------------------------------


def wides(rng: Random) -> Iterator[Case]:
    """Registers gathered on one edge: 32 and 33; the lowest edge where several are wide."""
    for before, after in ((0, 32), (1, 31), (16, 16), (31, 1), (32, 0), (1, 32), (32, 1), (17, 16), (32, 32)):
        net = with_starts(rng, line_of(3, [BUFFER], {0: (before, 0), 1: (after, 0)}))
        if before + after > 32:
            yield case(net, Refusal(9, EDGE, 1))
        else:
            starts = net.edges[1].starts | net.edges[0].starts << after
            yield case(net, (with_edges(net, {0: (0, 0), 1: (before + after, starts)}), [0, -before, 0]))
    for _ in range(12):
        parts = [card_i(rng.choice([15, 16, 16, 17, 20])) for _ in range(rng.randint(2, 5))]
        net = mixed(rng, with_starts(rng, beside(parts)))
        wide = [e for e, edge in enumerate(net.edges) if edge.count > 16 and net.nodes[edge.target].kind == OUTPUT]
        yield case(net, Refusal(9, EDGE, wide[0]) if wide else None)
    # rows of edges with registers: all go to the last one
    for gates in (2, 5, 30, 64):
        for total in (32, 33):
            spread = {e: (total // (gates + 1) + (e < total % (gates + 1)), 0) for e in range(gates + 1)}
            yield case(with_starts(rng, line_of(gates, [INVERTER] * gates, spread)),
                       Refusal(9, EDGE, gates) if total > 32 else None)


# --- Order of the refusals ----------------------------------------------------------------------


def orders(rng: Random) -> Iterator[Case]:
    """"Retiming goes on with 12, 8, 9, 10, 11": netlists next to each other that alone give one each."""
    alone = {8: card_f(), 9: replace(card_i(20), period=1), 10: card_k(26, 25), 11: card_d()}
    for some in range(1, 5):
        for numbers in combinations(alone, some):
            for _ in range(2):
                net = mixed(rng, beside([alone[number] for number in numbers]))
                wide = [e for e, edge in enumerate(net.edges)
                        if edge.count == 20 and net.nodes[edge.target].kind == OUTPUT]
                first = numbers[0]
                yield case(net, Refusal(9, EDGE, wide[0]) if first == 9 else Refusal(first))
    # more than 24 only together; 24 and no start
    yield case(beside([card_k(), card_c()]), TOO_MANY)
    yield case(beside([card_k(), card_d()]), TOO_MANY)
    yield case(beside([card_k(24, 23), card_d()]), NO_START)
    yield case(beside([card_k(13, 12), card_k(13, 12)]))
    yield case(beside([card_k(13, 12), card_k(14, 13)]), TOO_MANY)
    # what breaks a rule of reading is refused first, whatever the period
    worst = text_of(beside([alone[number] for number in (9, 10, 11)]))
    infeasible = text_of(beside([alone[number] for number in (8, 9, 10, 11)]))
    for text in (worst, infeasible):
        lines = text.count(b"\n")
        yield Case(text[:-1], Refusal(1, LINE, lines))
        yield Case(text + b"\n", Refusal(1, LINE, lines + 1))
        yield Case(text.replace(b"010001", b"010000", 1), Refusal(2, LINE, 1))
        yield Case(text.replace(b"020201", b"020200", 1), None)
        yield Case(text.replace(b"020201", b"020401", 1), None)
    loop = drawn(1, [INPUT, XOR, OUTPUT], [Edge(0, 1), Edge(1, 1), Edge(1, 2)])
    yield case(beside([card_f(), loop]), Refusal(6))
    idle = drawn(1, [INPUT, OUTPUT, INPUT], [Edge(0, 1)])
    yield case(beside([card_f(), idle]), Refusal(7, NODE, 6))
    yield Case(b"", Refusal(1, LINE, 1))


def misread(seed: int) -> Iterator[Case]:
    """Some of the texts of the tests of reading, sound ones and refused ones."""
    for cases in reading_cases(seed).values():
        for one in [c for c in cases if len(c.text) < 3000][:6]:
            yield Case(one.text)


# --- Loops, self-edges, parallel edges ----------------------------------------------------------


def ring(rng: Random, gates: int, registers: dict[int, int], period: int) -> Netlist:
    """A loop of gates with registers on some of its edges; an XOR lets the input in, a further edge leads out."""
    edges = [Edge(0, 1)] + [Edge(1 + i, 1 + (i + 1) % gates, registers.get(i, 0)) for i in range(gates)]
    edges.append(Edge(1 + rng.randrange(gates), gates + 1, rng.choice([0, 0, 1, 2])))
    net = drawn(period, [INPUT, XOR, *rng.choices(ONE_INPUT, k=gates - 1), OUTPUT], edges)
    return mixed(rng, with_starts(rng, net))


def loops(rng: Random) -> Iterator[Case]:
    """Loops whose registers must be spread; self-edges; edges that join the same two nodes."""
    for gates in (1, 2, 3, 5, 8):
        for _ in range(6):
            count = rng.randint(1, gates)
            registers = {e: 1 for e in rng.sample(range(gates), count)} if rng.random() < 0.5 else {0: count}
            net = ring(rng, gates, registers, rng.randint(1, -(-gates // count) + 1))
            yield case(net)
            yield case(selecting(rng, net))
    for count in (1, 2, 31, 32):
        edges = [Edge(0, 1), Edge(1, 2), Edge(2, 2, count), Edge(2, 3, 1)]
        net = drawn(1, [INPUT, BUFFER, XOR, OUTPUT], edges)
        yield case(with_starts(rng, net))
        yield case(with_starts(rng, replace(net, period=2)))
    for kind in MORE_INPUTS:
        counts = [rng.choice([0, 1, 1, 2]) for _ in range(rng.randint(2, 8))]
        edges = [Edge(0, 1, 1), *(Edge(1, 2, count) for count in counts), Edge(2, 3, 1), Edge(2, 3 + 1, 2)]
        net = with_starts(rng, drawn(1, [INPUT, BUFFER, kind, OUTPUT, OUTPUT], edges))
        yield case(net)
        yield case(replace(net, period=2))
        yield case(mixed(rng, with_edges(net, {0: (0, 0)})))
    for counts in ((0, 1, 2), (1, 1, 0), (2, 0, 1), (1, 1, 1), (0, 0, 0)):
        edges = [Edge(0, 1, 1), *(Edge(1, 2, count) for count in counts), Edge(2, 3, 1), Edge(2, 3 + 1, 2)]
        net = with_starts(rng, drawn(1, [INPUT, BUFFER, SELECTOR, OUTPUT, OUTPUT], edges))
        yield case(net)
        yield case(mixed(rng, with_edges(net, {0: (0, 0)})))
    # what a selector holds, its loop with gates and more registers than one
    for gates, count in ((1, 1), (2, 1), (2, 2), (3, 2), (5, 3)):
        for at in range(3):
            loop = [Edge(2 + i, 3 + i if i + 1 < gates else 2, count * (i + 1 == gates)) for i in range(gates)]
            into = [Edge(0, 2), Edge(1, 2)]
            edges = [*loop[:-1], *into[:at], loop[-1], *into[at:], Edge(1 + gates, 2 + gates, 1)]
            kinds = [INPUT, INPUT, SELECTOR, *rng.choices(ONE_INPUT, k=gates - 1), OUTPUT]
            for period in (1, 2, gates):
                yield case(with_starts(rng, drawn(period, kinds, edges)))


# --- Random netlists ----------------------------------------------------------------------------


def thinned(rng: Random, net: Netlist, counts: Sequence[int]) -> Netlist:
    """The same wiring with fewer registers, small delays, and a period between a gate and the longest chain."""
    edges = [replace(e, count=rng.choice(counts) if e.count else 0) for e in net.edges]
    nodes = [replace(n, delay=rng.choice([1, 1, 2, 3]) if n.delay else 0) for n in net.nodes]
    net = replace(net, nodes=nodes, edges=edges, derate=rng.choice([50, 100, 100, 149, 150, 250]))
    slowest = max(working_delay(node, net.derate) for node in net.nodes)
    return with_starts(rng, replace(net, period=max(1, rng.randint(slowest, longest_chain(net) + 1))))


def random_nets(rng: Random, how_many: int) -> Iterator[Case]:
    """Random sound netlists as they come."""
    for turn in range(how_many):
        counts = rng.choice([(1,), (1, 1, 1, 2, 3), (1, 2, 8, 30)])
        yield case(thinned(rng, random_small(rng, 10 if turn % 3 else 30), counts))


def picked(rng: Random, quota: dict[str, int]) -> Iterator[Case]:
    """Random netlists, so many of each kind of answer."""
    quota = dict(quota)
    while any(quota.values()):
        net = thinned(rng, random_small(rng, 30), rng.choice([(1,), (1, 1, 1, 2, 3), (1, 8, 30)]))
        if rng.random() < 0.5:
            net = replace(net, period=max(working_delay(node, net.derate) for node in net.nodes) or 1)
        kind = sort_of(text_of(net))
        if quota.get(kind, 0):
            quota[kind] -= 1
            yield case(net)


def sort_of(text: bytes) -> str:
    """The kind of answer that a text gets: a number, or what is notable of its lags and choice."""
    try:
        done = retime(text)
    except Refusal as refusal:
        return str(refusal.number)
    if 0 < done.choice < (1 << done.chosen) - 1:
        return "a choice with both values"
    up, down = max(done.lags) > 0, min(done.lags) < 0
    return "lags of both signs" if up and down else "positive lags" if up else "negative lags" if down else "unmoved"


# --- Large netlists -----------------------------------------------------------------------------


def trunk(rng: Random, length: int, spacing: int, period: int) -> Netlist:
    """A trunk of buffers with so many registers before each, and a row of gates that it feeds backward.

    Gate m sees the gate before it and buffer `length - m`, both without a register. So a buffer's lag
    falls by about the spacing from one to the next, the gates come up again by as much, and every
    edge between two gates holds about as many registers as one of the trunk held.
    """
    kinds = [INPUT, *[BUFFER] * length, *rng.choices(MORE_INPUTS, k=length - 1), OUTPUT]
    edges = [Edge(v, v + 1, spacing) for v in range(length)]
    before = length
    for m in range(1, length):
        edges += [Edge(before, length + m), Edge(length - m, length + m)]
        before = length + m
    edges.append(Edge(before, len(kinds) - 1))
    return with_starts(rng, drawn(period, kinds, edges))


def correlator(rng: Random, taps: int, period: int) -> Netlist:
    """The correlator of the retiming literature: a row of delays, comparers (XNOR), a row of adders back (XOR)."""
    host, row, adders = 0, 1, 1 + taps
    kinds = [INPUT, *[XNOR] * taps, *[XOR] * (taps - 1), OUTPUT]
    edges = []
    for i in range(taps):
        edges += [Edge(host if i == 0 else row + i - 1, row + i, 1), Edge(host, row + i, min(32, i + 1))]
    before = row + taps - 1
    for i in range(taps - 1):
        edges += [Edge(before, adders + i), Edge(row + taps - 2 - i, adders + i)]
        before = adders + i
    edges.append(Edge(before, len(kinds) - 1))
    nodes = [Node(kind, {XNOR: 3, XOR: 7}.get(kind, 0)) for kind in kinds]
    return with_starts(rng, Netlist(period, 100, nodes, edges))


def large(rng: Random) -> Iterator[Case]:
    """Netlists of up to 512 nodes and 1,024 edges; lags near -8,000; a loop through all of them."""
    yield case(trunk(rng, 255, 32, 256))
    yield case(mixed(rng, trunk(rng, 160, 32, 2)))
    yield case(mixed(rng, trunk(rng, 120, 31, 7)))
    yield case(mixed(rng, trunk(rng, 120, 32, 120)))
    yield case(trunk(rng, 60, 32, 1))
    yield case(selecting(rng, trunk(rng, 255, 32, 256)))
    yield case(mixed(rng, selecting(rng, trunk(rng, 120, 31, 7))))
    for period in (24, 40, 60):
        yield case(mixed(rng, correlator(rng, 16, period)))
    for period in (1, 511, 509):
        yield case(line_of(period, [INVERTER] * 510, {510: (32, 0x55555555)}))
    for counts in ((1,), (1, 1, 1, 2, 3)):
        net = thinned(rng, largest(rng), counts)
        for part in (0.98, 0.8, 0.7, 0.5):
            yield case(replace(net, period=int(part * longest_chain(net))))
    yield case(ring(rng, 500, {e: 1 for e in range(0, 500, 10)}, 11))
    yield case(ring(rng, 500, {e: 10 for e in range(0, 500, 100)}, 10))


def long_texts(rng: Random) -> Iterator[Case]:
    """The longest text that reads, and longer ones up to what a frame `00` can announce: only the first 32,768 bytes are looked at.

    Surplus bytes after the last line are line 1,538; a fault before them comes first."""
    net = thinned(rng, largest(rng), (1,))
    whole = text_of(replace(net, period=longest_chain(net)))
    assert len(whole) == 25105
    lines = whole.split(b"\n")
    faults = [
        (whole, Refusal(1, LINE, 1538)),
        (whole[:-9] + b"F" * 8 + b"\n", Refusal(4, LINE, 1537)),
        (b"\n".join(lines[:599] + [lines[599].replace(b"0", b"O")] + lines[600:]), Refusal(1, LINE, 600)),
    ]
    yield Case(whole)
    for size in (25106, 32767, 32768, 32769, 40000, 65535):
        for text, refusal in faults[: 1 if size in (32767, 32768) else None]:
            surplus = text + b"03000000010000000000\n" * 2000
            yield Case(surplus[:size], refusal)


def retiming_cases(seed: int) -> dict[str, list[Case]]:
    """All cases by class; the same for the same seed, whatever the machine."""
    quota = {"8": 12, "9": 4, "10": 4, "11": 30, "a choice with both values": 30, "lags of both signs": 20,
             "positive lags": 12, "negative lags": 10, "unmoved": 6}
    return {
        "bench cards": list(cards(Random(seed))),
        "delays and the period": list(delays(Random(seed + 1))),
        "rows": list(rows(Random(seed + 2))),
        "forks": list(forks(Random(seed + 3))),
        "gates": list(gates(Random(seed + 4))),
        "selectors": list(selectors(Random(seed + 15))),
        "cones": list(cones(Random(seed + 5))),
        "searches": list(searches(Random(seed + 6))),
        "several clocks": list(deep(Random(seed + 7))),
        "9: wide edges": list(wides(Random(seed + 8))),
        "order of 8 to 11": list(orders(Random(seed + 9))),
        "1 to 7": list(misread(seed)),
        "loops": list(loops(Random(seed + 10))),
        "random": list(random_nets(Random(seed + 11), 200)),
        "random, picked": list(picked(Random(seed + 12), quota)),
        "large netlists": list(large(Random(seed + 13))),
        "long texts": list(long_texts(Random(seed + 14))),
    }


# --- What is covered ----------------------------------------------------------------------------


def summary() -> None:
    """How many cases of each class get which answer, and how often each thing of note occurs."""
    notes: Counter[str] = Counter()
    counts: Counter[int] = Counter()
    for name, cases in retiming_cases(SEED).items():
        answers: Counter[str] = Counter()
        for one in cases:
            expected(one)
            notes["texts"] += 1
            notes["texts with a claim"] += one.claim is not None
            try:
                net = read(one.text)
            except Refusal as refusal:
                answers[str(refusal.number)] += 1
                continue
            ends = [(e.source, e.target) for e in net.edges]
            notes["512 nodes or 1,024 edges"] += len(net.nodes) == 512 or len(net.edges) == 1024
            notes["self-edges"] += any(u == v for u, v in ends)
            notes["parallel edges"] += len(set(ends)) < len(ends)
            notes["selectors"] += SELECTOR in {node.kind for node in net.nodes}
            try:
                done = retime(one.text)
            except Refusal as refusal:
                answers[str(refusal.number)] += 1
                continue
            answers["retimed"] += 1
            counts[done.chosen] += 1
            notes["selectors that registers went over"] += any(
                lag and node.kind == SELECTOR for node, lag in zip(net.nodes, done.lags))
            notes["lags of both signs"] += max(done.lags) > 0 > min(done.lags)
            notes["lags below -1,000"] += min(done.lags) < -1000
            notes["choices neither none nor all"] += 0 < done.choice < (1 << done.chosen) - 1
            notes["new counts of 32"] += max(e.count for e in done.net.edges) == 32
            notes["values taken from the original's clocks"] += any(
                t - done.lags[e.target] >= old.count
                for e, old in zip(done.net.edges, net.edges) for t in range(e.count))
        print(f"{name}: {len(cases)} texts; " + ", ".join(f"{k}: {n}" for k, n in sorted(answers.items())))
    print("values chosen: " + ", ".join(f"{k}: {n}" for k, n in sorted(counts.items())))
    print("\n".join(f"{name}: {n}" for name, n in notes.items()))


if __name__ == "__main__":
    if sys.argv[1:] != ["--summary"]:
        print(__doc__)
        sys.exit(2)
    summary()
