#!/usr/bin/env python3
"""Texts for quotes, many with a quote worked out apart from the reference.

    python3 tests/quoting_cases.py --summary     what the cases cover, counted

  Case                 a text and the quote claimed
  quoting_cases        all of them, by class, in a fixed order
  expected             what the program prints of a case, checked

A claim is a Quote, a Refusal, or None where only the reference says. Claims come from a formula of the
one circuit (a row of equal gates, a fork, a cone), not from any search. What the reference gives is
tried against the request's sentences one by one (`tried`): all periods from 1 up where they are few,
all legal retimings where these are few, and the numbers against a retiming at the period quoted.
"""

from __future__ import annotations

import sys
from collections import Counter
from collections.abc import Iterator, Sequence
from dataclasses import dataclass, replace
from random import Random

from netlists import CARDS, MORE_INPUTS, ONE_INPUT, card_a, card_f, drawn, kinds_with, largest, line_of, random_small
from quoting import LONGEST_PERIOD, Quote, figures, quote
from reading_cases import reading_cases
from reference import BUFFER, INPUT, LINE, NODE, OUTPUT, SELECTOR, XOR, Edge, Netlist, Node, Refusal, read, text_of
from retiming import AT_ONCE, least_lags, longest_chain, retime, rewired, working_delay
from retiming_cases import (
    NO_RETIMING, beside, cone, correlator, fork, gathered, gone_over, legal, legal_lags, mixed, parities, ring, selecting,
    several_clocks, shared, thinned, trunk, with_edges, with_starts,
)

SEED = 20010


@dataclass(frozen=True)
class Case:
    """A text, and the answer claimed: a quote, a refusal, or nothing."""

    text: bytes
    claim: Quote | Refusal | None = None


# --- Trying what the reference gives ------------------------------------------------------------


def expected(case: Case) -> bytes:
    """What the program prints; an error where the reference contradicts the claim or the request."""
    try:
        given = quote(case.text)
    except Refusal as refusal:
        given = refusal
    printed = given.frame()
    if case.claim is not None:
        assert printed == case.claim.frame(), f"{case}: the reference {given!r}"
    if isinstance(given, Quote):
        tried(read(case.text), given)
    elif given.number >= 8:
        assert printed == NO_RETIMING.frame() and not met(read(case.text), LONGEST_PERIOD)
    return printed


FEW = 2000  # all smaller periods are tried where the period times the number of nodes is at most this


def met(net: Netlist, period: int) -> bool:
    """Whether a period is not refused 8."""
    return least_lags(replace(net, period=period)) is not None


def tried(net: Netlist, given: Quote) -> None:
    """An error where a sentence of the request does not hold of a quote."""
    period = given.period
    assert 1 <= period <= LONGEST_PERIOD
    few = period * len(net.nodes) <= FEW
    for smaller in range(1, period) if few else {1, period // 2, period - 1}:
        assert not met(net, smaller)  # "Every smaller period is refused 8"
    for longer in {period + 1, LONGEST_PERIOD} if period < LONGEST_PERIOD else ():
        assert met(net, longer)
    assert figures(net, period, least_lags(replace(net, period=period))) == given
    tried_against_all(net, given)
    if not AT_ONCE < given.number <= 24:  # searches in between take long here
        tried_against_retiming(net, given)


def tried_against_all(net: Netlist, given: Quote) -> None:
    """Where the legal retimings are few: the shortest that their longest chain can be, and the least lags of
    those under which it is so short."""
    every = [(longest_chain(rewired(net, lags)), lags) for lags in legal_lags(net) or () if legal(net, lags)]
    if every:
        assert given.period == max(1, min(length for length, _ in every))
        good = [lags for length, lags in every if length <= given.period]
        assert given == figures(net, given.period, [min(column) for column in zip(*good)])


def tried_against_retiming(net: Netlist, given: Quote) -> None:
    """"The numbers equal what a retiming at that period has or would have had." """
    try:
        done = retime(text_of(replace(net, period=given.period)))
    except Refusal as refusal:
        assert refusal.number == (9 if given.largest > 32 else 10 if given.number > 24 else 11)
        return
    counts = [edge.count for edge in done.net.edges]
    assert (given.registers, given.largest, given.number) == (sum(counts), max(counts), done.chosen)


# --- Making cases -------------------------------------------------------------------------------


def case(net: Netlist, claim: Quote | Refusal | None = None) -> Case:
    return Case(text_of(net), claim)


def row_of(delays: Sequence[int], registers: dict[int, int], derate: int = 100) -> Netlist:
    """An input, buffers of these delays in a row, an output; registers: edge number to count."""
    net = line_of(1, [BUFFER] * len(delays), {e: (count, 0) for e, count in registers.items()})
    gates = [Node(BUFFER, delay) for delay in delays]
    return replace(net, derate=derate, nodes=[net.nodes[0], *gates, net.nodes[-1]])


# --- Bench cards --------------------------------------------------------------------------------

# What the least retiming of each card comes to: period, register total, largest count, number of values to choose.
CARD_QUOTES: dict[str, tuple[int, int, int, int]] = {
    "A": (1, 2, 1, 0),
    "B": (1, 2, 1, 0),
    "C": (1, 1, 1, 1),
    "D": (1, 1, 1, 1),
    "E": (1, 1, 1, 1),
    "F": (2, 0, 0, 0),
    "G": (1, 2, 1, 2),
    "H": (1, 1, 1, 0),
    "I": (1, 32, 32, 0),
    "J": (1, 40, 40, 0),
    "K": (1, 24, 1, 24),
    "L": (1, 25, 1, 25),
    "S": (1, 3, 1, 3),
    "wire": (1, 0, 0, 0),
}


def cards(rng: Random) -> Iterator[Case]:
    """The cards with their quotes, in another order of lines too; wires, which have no gate."""
    for name, net in CARDS.items():
        yield case(net, Quote(*CARD_QUOTES[name]))
        yield case(mixed(rng, net), Quote(*CARD_QUOTES[name]))
    for count in (1, 31, 32):
        yield case(with_starts(rng, line_of(1, [], {0: (count, 0)})), Quote(1, count, count, 0))
    wires = beside([line_of(1, [], {0: (count, 0)}) for count in (0, 3, 32, 5)])
    yield case(with_starts(rng, wires), Quote(1, 40, 32, 0))


# --- The head -----------------------------------------------------------------------------------


def heads(rng: Random) -> Iterator[Case]:
    """"The text must read; beyond that, the period in its own head plays no part": 2 outside its range; else texts
    that differ in it alone have one quote."""
    for name in "AFL":
        for period in (1, 2, 24, 65534, 65535):
            yield case(replace(CARDS[name], period=period), Quote(*CARD_QUOTES[name]))
        yield case(replace(CARDS[name], period=0), Refusal(2, LINE, 1))
    for derate in (0, 49, 251, 255):
        yield case(replace(card_a(), derate=derate), Refusal(2, LINE, 1))
    yield case(replace(card_a(), derate=50), Quote(1, 2, 2, 0))  # a half goes to even: the working delay is 0
    yield case(replace(card_a(), derate=250), Quote(2, 2, 1, 0))
    yield case(replace(card_f(), derate=50), Quote(1, 0, 0, 0))
    yield case(replace(card_f(), derate=250), Quote(4, 0, 0, 0))
    for _ in range(8):
        net = thinned(rng, random_small(rng, 12), (1, 1, 1, 2, 3))
        yield case(net)
        yield case(replace(net, period=rng.choice([1, 2, 300, 65535])), quote(text_of(net)))


# --- Rows and forks -----------------------------------------------------------------------------


def in_a_row(gates: int, registers: dict[int, int], delay: int = 1, derate: int = 100) -> Case:
    """Equal gates in a row with its claim; registers: edge number to count.

    So many registers in all cut the row into one chain more at most: the smallest period is the length of
    m gates. The least lags leave as few registers before a gate as there can be, one for each m gates
    that stand before it; the others stand before the output. A value is chosen where more registers
    stand before a gate than stood there.
    """
    net = row_of([delay] * gates, registers, derate)
    total = sum(registers.values())
    worked = working_delay(net.nodes[1], derate)
    m = -(-gates // (total + 1)) if worked else gates
    period = max(1, m * worked)
    if period > LONGEST_PERIOD:
        return case(net, NO_RETIMING)
    cuts = range(m, gates, m)  # the edges between two gates that hold a register
    stood = [sum(count for e, count in registers.items() if e <= cut) for cut in cuts]
    chosen = sum(stand > before for stand, before in enumerate(stood, start=1))
    return case(net, Quote(period, total, max(total - len(cuts), int(bool(cuts))), chosen))


def ends(rng: Random) -> Iterator[Case]:
    """The ends of the range: 65,535 just met and just missed; chains far longer; rounding."""
    yield in_a_row(257, {}, 255)  # 65,535
    yield case(row_of([*[255] * 257, 1], {}), NO_RETIMING)  # 65,536
    yield case(row_of([*[255] * 257, 1], {258: 1}), Quote(129 * 255, 1, 1, 1))
    yield in_a_row(258, {}, 255)
    yield in_a_row(102, {}, 255, 250)  # 65,076
    yield in_a_row(103, {}, 255, 250)  # 65,714
    yield in_a_row(103, {103: 1}, 255, 250)
    for registers in (0, 1, 4, 5, 32):  # 510 gates of 638: 325,380, which 16 bits would take for 63,236
        yield in_a_row(510, {510: registers}, 255, 250)
    for delay, derate in ((1, 50), (1, 149), (1, 150), (1, 151), (1, 250), (3, 50), (3, 150), (3, 250), (5, 50), (5, 150), (7, 50),
                          (253, 50), (255, 50), (253, 250), (255, 249), (99, 101)):
        yield in_a_row(1, {}, delay, derate)
        yield in_a_row(5, {0: 1, 5: 1}, delay, derate)
    yield case(beside([row_of([255] * 103, {}, 250), card_a()]), NO_RETIMING)


def rows(rng: Random) -> Iterator[Case]:
    """Rows with registers before, behind and between; more than 32 on an edge, more than 24 chosen."""
    for gates in (1, 2, 7, 25, 60):
        for count in (0, 1, 2, 25, 32):
            yield in_a_row(gates, {0: count})
            yield in_a_row(gates, {gates: count})
        spread = {e: rng.choice([0, 0, 0, 1, 2]) for e in range(gates + 1)}
        yield in_a_row(gates, spread, rng.choice([1, 7, 255]), rng.choice([50, 100, 150, 250]))
    for total in (32, 33, 64, 200):
        yield in_a_row(9, {e: total // 10 + (e < total % 10) for e in range(10)})


def forked(gates: int, counts: Sequence[int], rng: Random) -> Case:
    """Gates in a row that feed outputs through registers, with its claim: the branch with fewest registers decides
    how many go back."""
    branches = [(count, rng.getrandbits(count) if count else 0) for count in counts]
    net = fork(rng.choices(ONE_INPUT, k=gates), branches)
    m = -(-gates // (min(counts) + 1))
    back = -(-gates // m) - 1
    left = [count - back for count in counts]
    return case(net, Quote(m, back + sum(left), max([int(back > 0), *left]), back))


def forks(rng: Random) -> Iterator[Case]:
    """Two to four branches, whose values mostly disagree: retiming would say 11."""
    for gates in (1, 2, 3, 8, 25, 30):
        for _ in range(4):
            fewest = rng.randint(0, gates)
            yield forked(gates, [fewest + rng.choice([0, 0, 1, 2]) for _ in range(rng.randint(2, 4))], rng)


# --- What retiming at that period would refuse --------------------------------------------------


def gates(rng: Random) -> Iterator[Case]:
    """Gates of many inputs with the register behind them; several clocks; cones and rows of XOR behind slow buffers."""
    for kind in MORE_INPUTS:
        inputs = rng.randint(2, 8)
        yield Case(gathered(kind, inputs, rng.getrandbits(1)).text, Quote(1, inputs, 1, inputs))
    yield Case(gathered(SELECTOR, 3, 0).text, Quote(1, 3, 1, 3))
    for counts in ((1, 2, 3), (32, 9, 20), (0, 1, 1)):  # registers that go forward over a selector
        gone = min(counts)
        claim = Quote(1, sum(counts) - 2 * gone, max(gone, max(counts) - gone), 0)
        yield Case(gone_over(counts, (0, 0, 0), (2, 0, 1)).text, claim)
    for values in ((0, 0), (0, 1)):  # the second could not start
        yield Case(shared((0, 1, 2), values).text, Quote(200, 3, 1, 3))
    for inputs, depth, more in ((2, 1, 0), (2, 5, 2), (3, 8, 0), (5, 5, 1), (8, 4, 7), (2, 13, 0)):
        net = several_clocks(rng, rng.choice(kinds_with(inputs)), inputs, depth, depth + more)
        yield case(net, Quote(1, inputs * depth + more, max(1, more), inputs * depth))
        yield case(mixed(rng, net), Quote(1, inputs * depth + more, max(1, more), inputs * depth))
    for chosen in (2, 9, 24, 25, 60):
        net = with_starts(rng, cone(rng, chosen, [-(-chosen // 3), -(-chosen // 4), 2]))
        yield case(mixed(rng, net), Quote(200, chosen, 1, chosen))
        yield case(parities(chosen, (0, 1)), Quote(200, chosen, 1, chosen))  # no choice carries the start


def added_up(quotes: Sequence[tuple[int, int, int, int]]) -> Quote:
    """The quote of netlists next to each other that all have one period."""
    periods, registers, largest_counts, numbers = zip(*quotes)
    return Quote(max(periods), sum(registers), max(largest_counts), sum(numbers))


def refused_alone(rng: Random) -> Iterator[Case]:
    """Netlists next to each other that retiming would refuse 9, 10, 11 at the period quoted: their numbers add up."""
    for names in ("D", "J", "L", "DJ", "DL", "JL", "DJL", "KC", "KD", "KK", "JJ", "AAAA", "ACDGHJKL"):
        claim = added_up([CARD_QUOTES[name] for name in names])
        net = beside([CARDS[name] for name in names])
        yield case(net, claim)
        yield case(mixed(rng, replace(net, period=rng.randint(1, 65535))), claim)
    # beside card F, which needs period 2: half of card L's registers stay before the output
    at_two = {"F": (2, 0, 0, 0), "J": (2, 40, 40, 0), "L": (2, 25, 13, 12)}
    for names in ("FJ", "FL", "FJL"):
        net = beside([CARDS[name] for name in names])
        yield case(mixed(rng, net), added_up([at_two[name] for name in names]))


# --- 1 to 7 -------------------------------------------------------------------------------------


def misread(seed: int) -> Iterator[Case]:
    """Texts that do not read: some of each number by hand, a fault of a text that would be refused 8 too, and some
    of the tests of reading."""
    text = text_of(card_a())
    yield Case(b"", Refusal(1, LINE, 1))
    yield Case(text[:-1], Refusal(1, LINE, 8))
    yield Case(text + b"\n", Refusal(1, LINE, 9))
    yield Case(text.replace(b"020301", b"0203O1", 1), Refusal(1, LINE, 3))
    yield Case(text.replace(b"020301", b"020B01", 1), Refusal(3, LINE, 3))
    yield Case(text.replace(b"020301", b"020A01", 1), Refusal(5, NODE, 1))
    yield case(with_edges(card_a(), {1: (33, 0)}), Refusal(4, LINE, 7))
    yield case(with_edges(card_a(), {1: (1, 2)}), Refusal(4, LINE, 7))
    yield case(drawn(1, [INPUT, XOR, OUTPUT], [Edge(0, 1), Edge(1, 2)]), Refusal(5, NODE, 1))
    yield case(drawn(1, [INPUT, XOR, OUTPUT], [Edge(0, 1), Edge(1, 1), Edge(1, 2)]), Refusal(6))
    yield case(drawn(1, [INPUT, BUFFER, OUTPUT], [Edge(0, 2), Edge(1, 1, 1, 0)]), Refusal(7, NODE, 1))
    missed = row_of([255] * 103, {}, 250)
    yield Case(text_of(missed)[:-1], Refusal(1, LINE, 1 + 105 + 104))
    yield case(beside([missed, drawn(1, [INPUT], [])]), Refusal(7, NODE, 105))
    refused = [one for cases in reading_cases(seed).values() for one in cases
               if isinstance(one.claim, Refusal) and len(one.text) < 600]
    for number in range(1, 8):
        for one in Random(seed + number).sample([one for one in refused if one.claim.number == number], 4):
            yield Case(one.text, one.claim)


# --- Loops, random netlists, large ones ---------------------------------------------------------


def loops(rng: Random) -> Iterator[Case]:
    """Loops whose registers must be spread; self-edges; edges that join the same two nodes."""
    for gates in (1, 2, 3, 5, 8, 17):
        for _ in range(4):
            count = rng.randint(1, gates)
            registers = {e: 1 for e in rng.sample(range(gates), count)} if rng.random() < 0.5 else {0: count}
            net = ring(rng, gates, registers, 1)
            yield case(net)
            yield case(selecting(rng, net))
    for count in (1, 2, 32):
        edges = [Edge(0, 1), Edge(1, 2), Edge(2, 2, count), Edge(2, 3, 1)]
        yield case(with_starts(rng, drawn(9, [INPUT, BUFFER, XOR, OUTPUT], edges)), Quote(1, count + 1, count, 2))
    for kind in MORE_INPUTS:
        counts = [rng.choice([0, 1, 1, 2]) for _ in range(rng.randint(2, 8))]
        edges = [Edge(0, 1, 1), *(Edge(1, 2, count) for count in counts), Edge(2, 3, 1), Edge(2, 4, 2)]
        yield case(mixed(rng, with_starts(rng, drawn(1, [INPUT, BUFFER, kind, OUTPUT, OUTPUT], edges))))


def random_nets(rng: Random, how_many: int) -> Iterator[Case]:
    """Random sound netlists: small delays, where all periods are tried; delays up to 255 and any derate."""
    for turn in range(how_many):
        net = random_small(rng, 10 if turn % 3 else 30)
        yield case(thinned(rng, net, rng.choice([(1,), (1, 1, 1, 2, 3), (1, 2, 8, 30)])) if turn % 4 else net)


def large(rng: Random) -> Iterator[Case]:
    """Netlists of up to 512 nodes and 1,024 edges; loops whose periods are slow to refuse."""
    net = thinned(rng, largest(rng), (1, 1, 1, 2, 3))
    yield case(net)
    yield case(replace(net, period=65535), quote(text_of(net)))
    yield case(thinned(rng, largest(rng), (1,)))
    yield case(largest(rng))
    yield case(mixed(rng, trunk(rng, 60, 32, 1)))
    yield case(mixed(rng, selecting(rng, trunk(rng, 60, 32, 1))))
    yield case(mixed(rng, correlator(rng, 16, 40)))
    yield in_a_row(510, {e: 32 for e in range(511)})
    yield case(ring(rng, 500, {e: 1 for e in range(0, 500, 10)}, 11))
    yield case(ring(rng, 500, {0: 1}, 499))
    yield case(ring(rng, 120, {0: 7}, 17))


def long_texts(rng: Random) -> Iterator[Case]:
    """The longest text that reads with more behind it, up to what a job's frame can announce: line 1,538."""
    whole = text_of(thinned(rng, largest(rng), (1,)))
    assert len(whole) == 25105
    for size in (25106, 65535):
        yield Case((whole + b"03000000010000000000\n" * 2000)[:size], Refusal(1, LINE, 1538))


def quoting_cases(seed: int) -> dict[str, list[Case]]:
    """All cases by class; the same for the same seed, whatever the machine."""
    return {
        "bench cards": list(cards(Random(seed))),
        "heads": list(heads(Random(seed + 1))),
        "ends of the range": list(ends(Random(seed + 2))),
        "rows": list(rows(Random(seed + 3))),
        "forks": list(forks(Random(seed + 4))),
        "gates": list(gates(Random(seed + 5))),
        "9, 10, 11 of retiming": list(refused_alone(Random(seed + 6))),
        "1 to 7": list(misread(seed)),
        "loops": list(loops(Random(seed + 7))),
        "random": list(random_nets(Random(seed + 8), 70)),
        "large netlists": list(large(Random(seed + 9))),
        "long texts": list(long_texts(Random(seed + 10))),
    }


# --- What is covered ----------------------------------------------------------------------------


def summary() -> None:
    """How many cases of each class get which answer, and how often each thing of note occurs."""
    notes: Counter[str] = Counter()
    for name, cases in quoting_cases(SEED).items():
        answers: Counter[str] = Counter()
        for one in cases:
            expected(one)
            notes["texts"] += 1
            notes["texts with a claim"] += one.claim is not None
            try:
                given = quote(one.text)
            except Refusal as refusal:
                answers[str(refusal.number)] += 1
                continue
            answers["quoted"] += 1
            net = read(one.text)
            notes["period 1"] += given.period == 1
            notes["periods above 1,000"] += given.period > 1000
            notes["the head's period"] += given.period == net.period
            notes["all smaller periods tried"] += given.period * len(net.nodes) <= FEW
            notes["largest above 32"] += given.largest > 32
            notes["number above 24"] += given.number > 24
            notes["another register total than before"] += given.registers != sum(e.count for e in net.edges)
        print(f"{name}: {len(cases)} texts; " + ", ".join(f"{k}: {n}" for k, n in sorted(answers.items())))
    print("\n".join(f"{name}: {n}" for name, n in notes.items()))


if __name__ == "__main__":
    if sys.argv[1:] != ["--summary"]:
        print(__doc__)
        sys.exit(2)
    summary()
