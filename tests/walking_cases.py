#!/usr/bin/env python3
"""Texts for the walk from the inputs, many with the marks worked out by hand.

    python3 tests/walking_cases.py --summary     what the cases cover, counted

  Case                 a text and what is claimed of it
  walking_cases        all of them, by class, in a fixed order
  expected             what the program prints of a case, checked

A claim is a row of sets of nodes (what is marked before the first pass, and after each), a Refusal, or
None where only the reference says. What the reference gives is tried against the request's sentences one
by one (`tried`), and against number 7 of reading.
"""

from __future__ import annotations

import sys
from collections import Counter
from collections.abc import Iterator, Sequence
from dataclasses import dataclass, replace
from random import Random

from netlists import CARDS, MORE_INPUTS, card_a, drawn, largest, line_of, random_small
from reading_cases import reading_cases
from reference import BUFFER, INPUT, LINE, NODE, OR, OUTPUT, XOR, Edge, Netlist, Refusal, reached, read, read_lines, text_of
from walking import layers, walked

SEED = 50010

Claim = Sequence[set[int]]


@dataclass(frozen=True)
class Case:
    """A text, and what is claimed: the marked nodes before the first pass and after each, a refusal, or nothing."""

    text: bytes
    claim: Claim | Refusal | None = None


# --- Trying what the reference gives ------------------------------------------------------------


def expected(case: Case) -> bytes:
    """What the program prints; an error where the reference contradicts the claim or the request."""
    printed = walked(case.text)
    if isinstance(case.claim, Refusal):
        assert printed == case.claim.frame(), f"{case}: the reference {printed!r}"
        return printed
    if printed.startswith(b"0F"):
        assert case.claim is None
        return printed
    net = read_lines(case.text)
    rows = [{v for v, digit in enumerate(row) if digit == ord("1")} for row in printed.split(b"\n")[:-1]]
    if case.claim is not None:
        assert rows == list(case.claim), f"{case}: the reference {rows!r}"
    tried(net, rows)
    tried_against_reading(case.text, net, rows[-1])
    return printed


def tried(net: Netlist, rows: Sequence[set[int]]) -> None:
    """An error where a sentence of the request does not hold: each pass marks the ends of the edges that leave a
    marked node, from the nodes that were marked before it; only the last marks nothing."""
    assert rows[0] == set(net.numbers_of(INPUT))
    for before, after in zip(rows, rows[1:]):
        assert after == before | {e.target for e in net.edges if e.source in before}
    assert all(before != after for before, after in zip(rows, rows[1:-1]))
    assert not rows[0] if len(rows) == 1 else rows[-1] == rows[-2]


def tried_against_reading(text: bytes, net: Netlist, last: set[int]) -> None:
    """"Number 7 and its node as before": in the end those are marked that an input reaches."""
    assert last == reached(net.numbers_of(INPUT), ((e.source, e.target) for e in net.edges))
    used = reached(net.numbers_of(OUTPUT), ((e.target, e.source) for e in net.edges))
    broken = [v for v in range(len(net.nodes)) if v not in last or v not in used]
    try:
        read(text)
    except Refusal as refusal:
        assert refusal.number in (5, 6) or (refusal.number == 7 and refusal.place == broken[0])
    else:
        assert not broken


# --- Making cases -------------------------------------------------------------------------------


def case(net: Netlist, claim: Claim | Refusal | None = None) -> Case:
    return Case(text_of(net), claim)


def growing(row: Sequence[int]) -> list[set[int]]:
    """Nodes that are marked one by one, the first before the first pass; the last pass marks nothing."""
    return [set(row[: k + 1]) for k in range(len(row))] + [set(row)]


def numbered(net: Netlist, number: Sequence[int]) -> Netlist:
    """The same netlist, node v with another number."""
    nodes = list(net.nodes)
    for v, node in enumerate(net.nodes):
        nodes[number[v]] = node
    return replace(net, nodes=nodes, edges=[replace(e, source=number[e.source], target=number[e.target]) for e in net.edges])


# --- Bench cards --------------------------------------------------------------------------------


def cards() -> Iterator[Case]:
    """Card A; an input, an output, an OR and a buffer on itself, which is 7 at node 3; the other cards."""
    yield case(card_a(), [{0}, {0, 1}, {0, 1, 2}, {0, 1, 2, 3}, {0, 1, 2, 3}])
    edges = [Edge(0, 2), Edge(3, 2), Edge(2, 1), Edge(3, 3, 1, 0)]
    alone = case(drawn(1, [INPUT, OUTPUT, OR, BUFFER], edges), [{0}, {0, 2}, {0, 1, 2}, {0, 1, 2}])
    try:
        read(alone.text)
    except Refusal as refusal:
        assert refusal.frame() == Refusal(7, NODE, 3).frame()
    yield alone
    for net in CARDS.values():
        yield case(net)


# --- Chains -------------------------------------------------------------------------------------


def chains(rng: Random) -> Iterator[Case]:
    """Gates in a row: nodes and edges in order, in reverse order, the edges alone reversed, both shuffled."""
    for gates in (0, 1, 2, 3, 9, 40):
        yield from chain(rng, gates)
    yield from list(chain(rng, 510))[1:2]


def chain(rng: Random, gates: int) -> Iterator[Case]:
    net = line_of(1, [BUFFER] * gates, {v: (1, 0) for v in range(0, gates + 1, 3)})
    nodes = range(gates + 2)
    yield case(net, growing(nodes))
    back = nodes[::-1]
    turned = numbered(net, back)
    yield case(replace(turned, edges=turned.edges[::-1]), growing(back))
    yield case(replace(net, edges=net.edges[::-1]), growing(nodes))
    number = rng.sample(nodes, len(nodes))
    mixed = numbered(net, number)
    yield case(replace(mixed, edges=rng.sample(mixed.edges, len(mixed.edges))), growing(number))


# --- Loops, several inputs, numbers 5 to 7 ------------------------------------------------------


def loops() -> Iterator[Case]:
    """Loops with a register and without (6), entered at one node: both ways round, one way; a self-edge."""
    for count in (0, 1):
        for length in (1, 2, 3, 8):
            kinds = [INPUT, XOR, *[BUFFER] * (length - 1), OUTPUT]
            around = [Edge(v, v % length + 1, count if v == length else 0) for v in range(1, length + 1)]
            yield case(drawn(1, kinds, [Edge(0, 1), *around, Edge(length, length + 1)]), growing(range(length + 2)))
            yield case(drawn(1, kinds, [Edge(length, length + 1), *around[::-1], Edge(0, 1)]), growing(range(length + 2)))
    both = [Edge(0, 1), Edge(1, 2), Edge(2, 1), Edge(2, 3), Edge(3, 2), Edge(1, 3), Edge(3, 4)]
    yield case(drawn(1, [INPUT, XOR, XOR, XOR, OUTPUT], both), [{0}, {0, 1}, {0, 1, 2, 3}, {0, 1, 2, 3, 4}, {0, 1, 2, 3, 4}])


def inputs() -> Iterator[Case]:
    """Several inputs at different distances; edges that join the same two nodes; no input; inputs alone."""
    # a node takes the nearer of two inputs: 0 over three edges, 1 over one
    edges = [Edge(0, 2), Edge(2, 3), Edge(3, 4), Edge(1, 4), Edge(4, 5)]
    yield case(drawn(1, [INPUT, INPUT, BUFFER, BUFFER, OR, OUTPUT], edges), [{0, 1}, {0, 1, 2, 4}, {0, 1, 2, 3, 4, 5}, {0, 1, 2, 3, 4, 5}])
    edges = [Edge(3, 0), Edge(2, 1), Edge(0, 1), Edge(2, 1, 1, 1)]
    yield case(drawn(1, [BUFFER, OR, INPUT, INPUT], edges), [{2, 3}, {0, 1, 2, 3}, {0, 1, 2, 3}])
    yield case(drawn(1, [BUFFER, OUTPUT], [Edge(0, 0, 1, 0), Edge(0, 1)]), [set()])
    yield case(drawn(1, [OUTPUT, BUFFER, BUFFER], [Edge(1, 2), Edge(2, 1), Edge(2, 0)]), [set()])
    wide = [Edge(v, 300 + v % 200) for v in range(300)]
    yield case(drawn(1, [*[INPUT] * 300, *[OUTPUT] * 200], wide), [set(range(300)), set(range(500)), set(range(500))])


def wrong() -> Iterator[Case]:
    """Nodes that no input reaches, as the lowest, a middle and the last (7), that reach no output (7), a wrong number
    of in-edges (5), a loop without a register that no input reaches (6): the walk goes on all the same."""
    for alone in range(3):
        pins = [v for v in range(3) if v != alone]
        kinds = [BUFFER] * 3
        kinds[pins[0]], kinds[pins[1]] = INPUT, OUTPUT
        for edges in ([], [Edge(alone, alone, 1, 1)], [Edge(alone, alone)], [Edge(alone, pins[1])]):
            yield case(drawn(1, kinds, [Edge(pins[0], pins[1]), *edges]), growing(pins))
    ends = [Edge(0, 1), Edge(0, 2), Edge(2, 3)]
    yield case(drawn(1, [INPUT, OUTPUT, BUFFER, BUFFER], ends), [{0}, {0, 1, 2}, {0, 1, 2, 3}, {0, 1, 2, 3}])
    for kind in MORE_INPUTS:
        yield case(drawn(1, [INPUT, kind, OUTPUT], [Edge(0, 1), Edge(1, 2)]), growing(range(3)))
        yield case(drawn(1, [OUTPUT, kind, INPUT], [*[Edge(2, 1)] * 9, Edge(1, 0)]), growing([2, 1, 0]))
    yield case(drawn(1, [INPUT, OUTPUT, BUFFER, BUFFER], [Edge(2, 3), Edge(3, 2), Edge(0, 1)]), growing([0, 1]))
    # from the outputs nothing is marked, and no edge is gone over backward
    yield case(drawn(1, [OUTPUT, BUFFER, INPUT], [Edge(1, 0), Edge(1, 1, 1, 0)]), [{2}, {2}])
    yield case(drawn(1, [BUFFER, INPUT, OUTPUT], [Edge(0, 2), Edge(1, 2)]), [{1}, {1, 2}, {1, 2}])


# --- 1 to 4 -------------------------------------------------------------------------------------


def misread(seed: int) -> Iterator[Case]:
    """Texts whose lines have a fault: some of each number by hand, and some of the tests of reading."""
    text = text_of(card_a())
    yield Case(b"", Refusal(1, LINE, 1))
    yield Case(text[:-1], Refusal(1, LINE, 8))
    yield Case(text + b"\n", Refusal(1, LINE, 9))
    yield Case(text.replace(b"010001", b"010000", 1), Refusal(2, LINE, 1))
    yield Case(text.replace(b"020301", b"020B01", 1), Refusal(3, LINE, 3))
    yield Case(text.replace(b"03000000010100000001", b"03000000010100000002"), Refusal(4, LINE, 6))
    cases = [one for row in reading_cases(seed).values() for one in row if isinstance(one.claim, Refusal) and len(one.text) < 600]
    for number in range(1, 8):
        for one in Random(seed + number).sample([one for one in cases if one.claim.number == number], 6):
            yield Case(one.text, one.claim if number < 5 else None)
    longest = text_of(largest(Random(seed)))
    yield Case(longest + b"03000000010000000000\n", Refusal(1, LINE, 1538))


# --- Random netlists ----------------------------------------------------------------------------


def wired(rng: Random, nodes: int, edges: int) -> Netlist:
    """Nodes of any kind and edges between any two that an edge may join: hardly ever sound."""
    kinds = [rng.choice([INPUT, OUTPUT, BUFFER, BUFFER, OR, XOR]) for _ in range(nodes)]
    kinds[rng.randrange(nodes)] = BUFFER
    sources = [v for v, kind in enumerate(kinds) if kind != OUTPUT]
    targets = [v for v, kind in enumerate(kinds) if kind != INPUT]
    return drawn(1, kinds, [Edge(rng.choice(sources), rng.choice(targets), rng.randint(0, 2)) for _ in range(edges)])


def random_nets(rng: Random) -> Iterator[Case]:
    for _ in range(40):
        yield case(random_small(rng, 30))
    for _ in range(120):
        nodes = rng.randint(2, 30)
        yield case(wired(rng, nodes, rng.randint(1, 2 * nodes)))
    yield case(largest(rng))
    yield case(wired(rng, 512, 1024))
    yield case(wired(rng, 512, 400))


def walking_cases(seed: int) -> dict[str, list[Case]]:
    """All cases by class; the same for the same seed, whatever the machine."""
    return {
        "bench cards": list(cards()),
        "chains": list(chains(Random(seed + 1))),
        "loops": list(loops()),
        "inputs": list(inputs()),
        "5, 6 and 7": list(wrong()),
        "1 to 4": list(misread(seed)),
        "random": list(random_nets(Random(seed + 2))),
    }


# --- What is covered ----------------------------------------------------------------------------


def summary() -> None:
    """How many cases of each class get which answer, and how often each thing of note occurs."""
    notes: Counter[str] = Counter()
    for name, cases in walking_cases(SEED).items():
        answers: Counter[str] = Counter()
        for one in cases:
            notes["texts"] += 1
            notes["texts with a claim"] += one.claim is not None
            notes["bytes printed"] += len(expected(one))
            try:
                rows = layers(read_lines(one.text))
            except Refusal as refusal:
                answers[f"refused {refusal.number}"] += 1
                continue
            answers["walked"] += 1
            notes["a node that no input reaches"] += not all(rows[-1])
            notes["more than ten passes"] += len(rows) > 11
            try:
                read(one.text)
            except Refusal as refusal:
                answers[f"reads {refusal.number}"] += 1
        print(f"{name}: {len(cases)} texts; " + ", ".join(f"{k}: {n}" for k, n in sorted(answers.items())))
    print("\n".join(f"{name}: {n}" for name, n in notes.items()))


if __name__ == "__main__":
    if sys.argv[1:] != ["--summary"]:
        print(__doc__)
        sys.exit(2)
    summary()
