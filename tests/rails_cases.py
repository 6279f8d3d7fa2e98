#!/usr/bin/env python3
"""Texts and tables for rails, many with counts worked out apart from the reference.

    python3 tests/rails_cases.py --summary     what the cases cover, counted

  Case                 a text, what the lent table holds, and the counts claimed
  rails_cases          all of them, by class, in a fixed order
  expected             what the program prints of a case, checked

A claim is each node's count, a Refusal, or None where only the reference says. Claims come from the start
values written as digits and sorted (`paid`), not from any set. What the reference gives is tried against
the request's sentences one by one (`tried`): register against register where they are few.
"""

from __future__ import annotations

import sys
from collections import Counter
from collections.abc import Iterator, Sequence
from dataclasses import dataclass, replace
from itertools import product
from random import Random

from netlists import CARDS, card_a, card_d, card_h, drawn, largest, line_of, random_small
from rails import counted, rail_lines, rails
from reading_cases import reading_cases
from reference import (
    AND, BUFFER, INPUT, LINE, NODE, OUTPUT, SELECTOR, XOR, Edge, Netlist, Refusal, read, text_of,
)
from retiming import Retimed, retime
from retiming_cases import (
    SMALLEST, beside, fork, gathered, loops, random_nets, trunk, with_edges, with_starts,
)

SEED = 20010


@dataclass(frozen=True)
class Case:
    """A text, the words of the lent table, and the answer claimed: each node's count, a refusal, or nothing."""

    text: bytes
    table: Sequence[int]
    claim: Sequence[int] | Refusal | None = None


# --- Trying what the reference gives ------------------------------------------------------------


def expected(case: Case) -> bytes:
    """What the program prints; an error where the reference contradicts the claim or the request."""
    try:
        total, table = rails(case.text, case.table)
    except Refusal as refusal:
        printed = refusal.frame()
        assert refusal.number in (*range(1, 8), 12)
    else:
        net = read(case.text)
        nodes = len(net.nodes)
        printed = rail_lines(total, table[:nodes])
        assert len(table) == len(case.table) and table[nodes:] == [*case.table[nodes:]]
        assert total == sum(table[:nodes])
        tried(net, table)
    if case.claim is not None:
        claimed = case.claim.frame() if isinstance(case.claim, Refusal) else rail_lines(sum(case.claim), case.claim)
        assert printed == claimed, f"{case}: claimed {claimed!r}, the reference {printed!r}"
    assert printed == counted(case.text, len(case.table))
    return printed


FEW = 300  # so many registers of a node are all compared with each other


def tried(net: Netlist, counts: Sequence[int]) -> None:
    """An error where a sentence of the request does not hold of the counts."""
    plain = sum(edge.count for edge in net.edges)
    total = sum(counts[:len(net.nodes)])
    assert total <= plain  # "The total is at most the plain register total,
    if len({edge.source for edge in net.edges}) == len(net.edges):
        assert total == plain  # and equals it when each node has at most one out-edge. "
    for v in range(len(net.nodes)):
        branches = [edge for edge in net.edges if edge.source == v]
        registers = [(edge, distance) for edge in branches for distance in range(edge.count)]
        assert max((edge.count for edge in branches), default=0) <= counts[v] <= len(registers)
        if len(registers) <= FEW:
            paid_for: list[tuple[Edge, int]] = []
            for register in registers:
                if not any(share(register, other) for other in paid_for):
                    paid_for.append(register)
            assert counts[v] == len(paid_for)


def share(one: tuple[Edge, int], other: tuple[Edge, int]) -> bool:
    """"Registers at the same distance share if they and all nearer ones agree": a register is an edge that
    leaves the node and its distance from there, the nearest at 0."""
    (edge, distance), (edge_too, distance_too) = one, other
    return distance == distance_too and all(
        (edge.starts >> edge.count - 1 - d ^ edge_too.starts >> edge_too.count - 1 - d) & 1 == 0
        for d in range(distance + 1))


# --- Making cases -------------------------------------------------------------------------------

OLD = 0xFFFFFFFF  # what a table holds before


def case(net: Netlist, claim: Sequence[int] | Refusal | None = None, more: int = 0) -> Case:
    """A netlist with a table of just as many words as it has nodes, or of some more."""
    return Case(text_of(net), [OLD - v for v in range(len(net.nodes) + more)], claim)


def digits(edge: Edge) -> str:
    """The start values of an edge as binary digits: the highest, the first one, is next to the node that it leaves.

    >>> digits(Edge(0, 1, 4, 0b11)), digits(Edge(0, 1))
    ('0011', '')
    """
    return f"{edge.starts:0{edge.count}b}" if edge.count else ""


def alike(one: str, other: str) -> int:
    """How many digits two rows begin with alike.

    >>> alike("0110", "010"), alike("", "1")
    (2, 0)
    """
    return next((i for i, (a, b) in enumerate(zip(one, other)) if a != b), min(len(one), len(other)))


def paid(net: Netlist) -> list[int]:
    """Each node's count: its branches sorted by their digits, each is paid for from where it parts from the one
    before it.

    >>> paid(card_d()), paid(fork([], [(2, 0b10), (3, 0b100), (1, 1)]))
    ([0, 0, 2, 0, 0], [3, 0, 0, 0])
    """
    counts = [0] * len(net.nodes)
    before = [""] * len(net.nodes)
    for edge in sorted(net.edges, key=digits):
        row = digits(edge)
        counts[edge.source] += len(row) - alike(before[edge.source], row)
        before[edge.source] = row
    return counts


def turned(rng: Random, net: Netlist) -> Netlist:
    """The same netlist with its edges in another order."""
    return replace(net, edges=rng.sample(net.edges, len(net.edges)))


def alike_starts(rng: Random, net: Netlist, apart: float = 0.5) -> Netlist:
    """The same netlist, the branches of a node with start values that begin alike: each as the node's own row, or from
    some place on not."""
    rows = [rng.getrandbits(32) for _ in net.nodes]

    def starts(edge: Edge) -> int:
        row = rows[edge.source]
        if rng.random() < apart:
            row ^= rng.getrandbits(32) >> rng.randrange(32)
        return row >> 32 - edge.count

    return replace(net, edges=[replace(edge, starts=starts(edge)) for edge in net.edges])


# --- Bench cards --------------------------------------------------------------------------------

CARD_RAILS: dict[str, Sequence[int]] = {
    "A": (1, 0, 1, 0),
    "B": (1, 0, 1, 0),
    "C": (0, 0, 0, 1, 0),
    "D": (0, 0, 2, 0, 0),
    "E": (0, 0, 2, 0, 0),
    "F": (0, 0, 0, 0),
    "G": (0, 0, 0, 0, 1, 0),
    "H": (0, 1, 0),
    "I": (16, 16, 0),
    "J": (20, 20, 0),
    "K": (*[0] * 25, 24, 0),
    "L": (*[0] * 26, 25, 0),
    "S": (0, 0, 0, 0, 0, 0, 1, 0),
    "wire": (0, 0),
}


def cards(rng: Random) -> Iterator[Case]:
    """The cards, with their edges in another order too; side by side; with the two branches of card D alike."""
    for name, net in CARDS.items():
        yield case(net, CARD_RAILS[name])
        yield case(turned(rng, net), CARD_RAILS[name], more=rng.randrange(5))
    for names in ("AD", "DDD", "HIS", "ACDGHJKL"):
        yield case(beside([CARDS[name] for name in names]), [n for name in names for n in CARD_RAILS[name]])
    for values, count in (((0, 0), 1), ((1, 1), 1), ((0, 1), 2), ((1, 0), 2)):
        yield case(with_edges(card_d(), {2: (1, values[0]), 3: (1, values[1])}), (0, 0, count, 0, 0))


# --- Forks --------------------------------------------------------------------------------------


def forked(branches: Sequence[tuple[int, int]]) -> Case:
    """An input that feeds outputs through registers, with its claim."""
    net = fork([], branches)
    return case(net, paid(net))


def forks(rng: Random) -> Iterator[Case]:
    """Two branches of up to three registers, with all start values: some agree near and differ far, some differ near
    and agree far, some are one shorter than the other. Then three to six branches."""
    rows = [(count, starts) for count in range(4) for starts in range(1 << count)]
    for one, other in product(rows, repeat=2):
        net = fork([], [one, other])
        shared = alike(*(digits(edge) for edge in net.edges))
        yield case(net, (one[0] + other[0] - shared, 0, 0))
    yield forked([(1, 0), (1, 0)])
    yield case(fork([], [(2, 2), (3, 5)]), (3, 0, 0))  # 10 and 101
    yield case(fork([], [(2, 1), (2, 3)]), (4, 0, 0))  # 01 and 11: equal farther out, not nearer
    yield case(fork([], [(2, 2), (2, 3)]), (3, 0, 0))  # 10 and 11: equal nearer
    for branches in (3, 3, 3, 4, 5, 6):
        for most in (1, 2, 3, 5):
            yield forked([(count, rng.getrandbits(count)) for count in (rng.randint(1, most) for _ in range(branches))])
    for starts in product(range(4), repeat=3):
        yield forked([(2, word) for word in starts])


def of_32(rng: Random) -> Iterator[Case]:
    """32 registers: branches that differ first at each place; shorter ones beside; ones and zeros all over."""
    word = rng.getrandbits(32)
    for bit in range(32):
        yield case(fork([], [(32, word), (32, word ^ 1 << bit)]), (33 + bit, 0, 0))
        farther = rng.getrandbits(bit) if bit else 0
        yield case(fork([], [(32, word), (32, word ^ 1 << bit ^ farther)]), (33 + bit, 0, 0))
        yield case(fork([], [(32, word), (bit, word >> 32 - bit)]), (32, 0, 0))
        yield case(fork([], [(bit, word & (1 << bit) - 1), (32, word)]))
    for one, other in product((0, 1, 1 << 31, 0xFFFFFFFF, 0x55555555, 0xAAAAAAAA, 0x7FFFFFFF, 0xFFFFFFFE), repeat=2):
        yield forked([(32, one), (32, other)])
        yield forked([(31, one >> 1), (32, other), (32, one)])
    yield forked([(32, word)] * 7)
    yield forked([(32, word ^ 1 << bit) for bit in range(32)])


# --- Wiring -------------------------------------------------------------------------------------


def wirings(rng: Random) -> Iterator[Case]:
    """Edges from a node to itself are branches of it too; two edges may join the same nodes; other nodes' registers are
    not shared, whatever they hold or enter."""
    for own, out in product(((1, 0), (2, 2), (3, 5), (32, 1)), ((0, 0), (1, 0), (1, 1), (2, 2), (3, 4))):
        net = drawn(1, [INPUT, XOR, OUTPUT], [Edge(0, 1), Edge(1, 1, *own), Edge(1, 2, *out)])
        yield case(net, paid(net))
    for one, other in product(((0, 0), (1, 0), (1, 1), (2, 1), (2, 3)), repeat=2):
        net = drawn(1, [INPUT, AND, OUTPUT], [Edge(0, 1, *one), Edge(0, 1, *other), Edge(1, 2)])
        yield case(net, paid(net))
        edges = [Edge(0, 2, *one), Edge(1, 2, *other), Edge(2, 3)]  # from two inputs into one gate
        yield case(drawn(1, [INPUT, INPUT, AND, OUTPUT], edges), (one[0], other[0], 0, 0))
        edges = [Edge(0, 1, *one), Edge(1, 2, *other), Edge(2, 3, *one)]
        yield case(drawn(1, [INPUT, BUFFER, BUFFER, OUTPUT], edges), (one[0], other[0], one[0], 0))
    for kinds in ([BUFFER] * 3, [], [BUFFER] * 20):  # at most one out-edge each: the plain total
        net = with_starts(rng, line_of(1, kinds, {e: (rng.randint(0, 32), 0) for e in range(len(kinds) + 1)}))
        yield case(net, [*(edge.count for edge in net.edges), 0])
    for inputs in (2, 5, 8):
        for kind in (AND, XOR):
            net = read(gathered(kind, inputs, 1).text)
            yield case(net, [*[0] * 2 * inputs, 1, 0])
    for order in ((0, 1, 2), (2, 1, 0), (1, 1, 1)):
        edges = [Edge(v, 3, 3, 6) for v in order] + [Edge(3, 4, 2, 2), Edge(3, 5, 3, 5)]
        edges += [Edge(v, 6 + v, 3, 4) for v in range(3)]
        net = drawn(1, [*[INPUT] * 3, SELECTOR, *[OUTPUT] * 5], edges)
        yield case(turned(rng, net), paid(net))
    for word in (0, 1, 6, 255):  # one row of values on every edge out of one node
        net = drawn(1, [INPUT, *[AND] * 2, OUTPUT, OUTPUT],
                    [*[Edge(0, 1 + e % 2, 8, word) for e in range(16)], Edge(1, 3, 8, word), Edge(2, 4, 8, word)])
        yield case(net, (8, 8, 8, 0, 0))


# --- Tables -------------------------------------------------------------------------------------


def tables(rng: Random) -> Iterator[Case]:
    """Each length from none to some words more than the nodes; whatever a table held; the longest."""
    for net in (card_d(), card_h(), CARDS["K"], CARDS["wire"]):
        nodes = len(net.nodes)
        for length in range(nodes + 4):
            claim = paid(net) if length >= nodes else Refusal(12)
            yield Case(text_of(net), [rng.getrandbits(32) for _ in range(length)], claim)
        for length in (512, 1023, 1024):
            yield Case(text_of(net), [rng.getrandbits(32) for _ in range(length)], paid(net))
    text = text_of(alike_starts(rng, largest(rng)))
    for length in (0, 1, 511, 512, 513, 1024):
        yield Case(text, [OLD] * length, Refusal(12) if length < 512 else None)
    for old in (0, 1, OLD, 1 << 31):
        yield Case(text_of(card_d()), [old] * 7, (0, 0, 2, 0, 0))


# --- 1 to 7 -------------------------------------------------------------------------------------


def misread(seed: int) -> Iterator[Case]:
    """Texts that do not read, with tables that are long enough and too short: 12 comes after 1 to 7."""
    text = text_of(card_d())
    period, bits = replace(card_a(), period=0), with_edges(card_a(), {1: (1, 2)})
    unfit = drawn(1, [INPUT, XOR, OUTPUT], [Edge(0, 1), Edge(1, 2)])
    loop = drawn(1, [INPUT, XOR, OUTPUT], [Edge(0, 1), Edge(1, 1), Edge(1, 2)])
    alone = drawn(1, [INPUT, BUFFER, OUTPUT], [Edge(0, 2), Edge(1, 1, 1, 0)])
    by_hand = [
        (b"", Refusal(1, LINE, 1)),
        (text[:-1], Refusal(1, LINE, 10)),
        (text + b"\n", Refusal(1, LINE, 11)),
        (text_of(period), Refusal(2, LINE, 1)),
        (text.replace(b"020201", b"020B01", 1), Refusal(3, LINE, 3)),
        (text_of(with_edges(card_a(), {1: (33, 0)})), Refusal(4, LINE, 7)),
        (text_of(bits), Refusal(4, LINE, 7)),
        (text_of(unfit), Refusal(5, NODE, 1)),
        (text_of(loop), Refusal(6)),
        (text_of(alone), Refusal(7, NODE, 1)),
    ]
    for faulty, refusal in by_hand:
        for length in (0, 1, 512):
            yield Case(faulty, [OLD] * length, refusal)
    refused = [one for cases in reading_cases(seed).values() for one in cases
               if isinstance(one.claim, Refusal) and len(one.text) < 600]
    for number in range(1, 8):
        for one in Random(seed + number).sample([one for one in refused if one.claim.number == number], 4):
            yield Case(one.text, [OLD] * Random(number).choice([0, 512]), one.claim)


# --- Retimed texts, random netlists, large ones -------------------------------------------------


def retimed(rng: Random) -> Iterator[Case]:
    """"A retimed text can be counted like any other": cards as they come back; forks, loops and trunks before and
    after."""
    after = {"A": (0, 1, 1, 0), "B": (0, 0, 2, 0), "C": (0, 0, 1, 0, 0), "G": (0, 0, 1, 1, 0, 0), "I": (0, 32, 0),
             "K": (0, *[1] * 24, 0, 0), "S": (0, 0, 0, 1, 1, 1, 0, 0)}
    for name, counts in after.items():
        yield case(retime(text_of(CARDS[name])).net, counts)
    for kind in SMALLEST:
        done = retime(gathered(kind, 3, 1).text)
        yield case(done.net, (0, 0, 0, 1, 1, 1, 0, 0))
    word = rng.getrandbits(4)
    branches = [(4, word), (6, word << 2 | 1), (6, word << 2 | 2)]
    # four registers go back over the last gate and the three before it; what stays on the branches is 01 and 10
    yield case(retime(text_of(fork([BUFFER] * 5, branches))).net, (0, 1, 1, 1, 1, 4, *[0] * 3))
    nets = [read(one.text) for one in loops(rng)] + [read(one.text) for one in random_nets(rng, 150)]
    nets += [trunk(rng, 12, 32, 1), trunk(rng, 5, 7, 2)]
    for net in nets:
        try:
            done = retime(text_of(net))
        except Refusal:
            continue
        if done.net != net and rng.random() < 0.5:
            yield case(net, paid(net))
            yield case(done.net, paid(done.net))


def random_alike(rng: Random, how_many: int) -> Iterator[Case]:
    """Random sound netlists whose branches begin alike, in any table."""
    for turn in range(how_many):
        net = alike_starts(rng, random_small(rng, 12 if turn % 3 else 60), rng.choice([0.1, 0.5, 0.9]))
        more = rng.choice([0, 0, 1, 400])
        yield case(net, paid(net), more=more)


def broad(branches: Sequence[tuple[int, int]]) -> Netlist:
    """An input with all these branches: outputs, then gates in a row, of which each sees the one before it.

    950 are the most that a node can have: a gate takes eight at most, and one more edge must leave it.
    """
    gates = max(0, -(-(len(branches) - 437) // 7))  # the first takes eight
    outputs = min(len(branches), 436) if gates else len(branches)
    kinds = [INPUT, *[OUTPUT] * outputs]
    edges = [Edge(0, 1 + i, *branch) for i, branch in enumerate(branches[:outputs])]
    left = list(branches[outputs:])
    for gate in range(gates):
        kinds.append(AND)
        seen, left = left[:7 + (gate == 0)], left[7 + (gate == 0):]
        edges += [Edge(0, len(kinds) - 1, *branch) for branch in seen]
        edges.append(Edge(len(kinds) - 1, len(kinds)))
    return drawn(1, [*kinds, *[OUTPUT] * (gates > 0)], edges)


def large(rng: Random) -> Iterator[Case]:
    """One node with 511, 600 or 950 branches of 32 registers; 512 nodes and 1,024 edges."""
    for how_many in (511, 600, 950):
        for word in (None, 0, rng.getrandbits(32)):
            words = [rng.getrandbits(32) for _ in range(how_many)]
            if word is not None:
                words = [word ^ starts >> rng.choice([20, 27, 31]) for starts in words]
            net = broad([(32, starts) for starts in words])
            yield case(turned(rng, net), paid(net), more=1024 - len(net.nodes))
    same = broad([(32, 0x12345678)] * 950)
    yield case(same, [32, *[0] * 511])
    counts = [rng.randint(0, 32) for _ in range(950)]
    mixed_counts = broad([(count, rng.getrandbits(count) if count else 0) for count in counts])
    yield case(turned(rng, mixed_counts), paid(mixed_counts))
    for apart in (0.0, 0.3, 1.0):
        net = alike_starts(rng, largest(rng), apart)
        yield case(net, paid(net))
    yield case(with_starts(rng, trunk(rng, 60, 32, 1)))


def long_texts(rng: Random) -> Iterator[Case]:
    """The longest text that reads with more behind it, up to what a job's frame can announce: line 1,538."""
    whole = text_of(largest(rng))
    assert len(whole) == 25105
    for size in (25106, 65535):
        yield Case((whole + b"03000000010000000000\n" * 2000)[:size], [OLD] * 512, Refusal(1, LINE, 1538))


def rails_cases(seed: int) -> dict[str, list[Case]]:
    """All cases by class; the same for the same seed, whatever the machine."""
    return {
        "bench cards": list(cards(Random(seed))),
        "forks": list(forks(Random(seed + 1))),
        "32 registers": list(of_32(Random(seed + 2))),
        "wirings": list(wirings(Random(seed + 3))),
        "tables": list(tables(Random(seed + 4))),
        "1 to 7": list(misread(seed)),
        "retimed texts": list(retimed(Random(seed + 5))),
        "random, alike": list(random_alike(Random(seed + 6), 120)),
        "large netlists": list(large(Random(seed + 7))),
        "long texts": list(long_texts(Random(seed + 8))),
    }


# --- What is covered ----------------------------------------------------------------------------


def summary() -> None:
    """How many cases of each class get which answer, and how often each thing of note occurs."""
    notes: Counter[str] = Counter()
    for name, cases in rails_cases(SEED).items():
        answers: Counter[str] = Counter()
        for one in cases:
            expected(one)
            notes["texts"] += 1
            notes["texts with a claim"] += one.claim is not None
            try:
                total, table = rails(one.text, one.table)
            except Refusal as refusal:
                answers[str(refusal.number)] += 1
                continue
            answers["counted"] += 1
            net = read(one.text)
            ends = [(e.source, e.target) for e in net.edges]
            notes["registers shared"] += total < sum(e.count for e in net.edges)
            notes["longer tables"] += len(table) > len(net.nodes)
            notes["self-edges"] += any(u == v for u, v in ends)
            notes["parallel edges"] += len(set(ends)) < len(ends)
            notes["totals above 1,000"] += total > 1000
            notes["nodes with over 500 branches"] += max(Counter(e.source for e in net.edges).values()) > 500
        print(f"{name}: {len(cases)} texts; " + ", ".join(f"{k}: {n}" for k, n in sorted(answers.items())))
    print("\n".join(f"{name}: {n}" for name, n in notes.items()))


if __name__ == "__main__":
    if sys.argv[1:] != ["--summary"]:
        print(__doc__)
        sys.exit(2)
    summary()
