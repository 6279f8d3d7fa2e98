"""Texts, vectors and buffers for running, most with outputs worked out apart from the reference.

  Case                 a text, vector bytes, the room to run into, and the answer claimed
  running_cases        all of them, by class, in a fixed order

A claim is the outputs, a Refusal, or None where only the reference says (random netlists). The
outputs claimed come from a formula of the one circuit (a delay line, a counter, a gate's table),
not from any evaluation of netlists. `expected` runs the reference by its trace and by repeated
steps, and refuses to go on where these or a claim differ.
"""

from __future__ import annotations

from collections.abc import Iterable, Iterator, Sequence
from dataclasses import dataclass, replace
from itertools import permutations, product
from random import Random

from netlists import (
    CARDS, card_a, card_c, card_h, drawn, largest, line_of, random_small,
)
from reference import (
    AND, BUFFER, INPUT, INVERTER, LINE, NAND, NODE, NOR, OR, OUTPUT, SELECTOR, XNOR, XOR,
    Edge, Netlist, Refusal, check_room, check_vectors, read, run, step, text_of,
)


@dataclass(frozen=True)
class Case:
    """A text, vector bytes, the length of the buffer to run into, and the answer claimed."""

    text: bytes
    vectors: bytes
    room: int
    claim: bytes | Refusal | None


def run_by_steps(text: bytes, vectors: bytes, room: int) -> bytes:
    """"Running is stepping from the start values, one clock per vector." """
    net = read(text)
    inputs, outputs = (len(net.numbers_of(kind)) for kind in (INPUT, OUTPUT))
    check_vectors(vectors, inputs)
    check_room(len(vectors) // inputs * outputs, room)
    words, written = [edge.starts for edge in net.edges], b""
    for at in range(0, len(vectors), inputs):
        words, row = step(net, words, vectors[at:at + inputs], outputs)
        written += row
    return written


def expected(case: Case) -> bytes:
    """What the program prints by the reference; an error where its two ways or the claim differ."""
    answers = []
    for way in (run, run_by_steps):
        try:
            answers.append(shown(way(case.text, case.vectors, case.room)))
        except Refusal as refusal:
            answers.append(refusal.frame())
    assert answers[0] == answers[1], f"{case}: trace {answers[0]!r}, steps {answers[1]!r}"
    if case.claim is not None:
        claimed = case.claim.frame() if isinstance(case.claim, Refusal) else shown(case.claim)
        assert answers[0] == claimed, f"{case}: claimed {claimed!r}, the reference {answers[0]!r}"
    return answers[0]


def shown(outputs: bytes) -> bytes:
    """Outputs as the program prints them: a digit each, then a line feed."""
    return bytes(48 + bit for bit in outputs) + b"\n"


VECTORS, ROOM = Refusal(13), Refusal(12)


# --- Making cases -------------------------------------------------------------------------------


def ran(net: Netlist, vectors: Iterable[int], outputs: Iterable[int]) -> Case:
    """A run into a buffer that just holds what is claimed for it."""
    claim = bytes(outputs)
    return Case(text_of(net), bytes(vectors), len(claim), claim)


def random_bits(rng: Random, how_many: int) -> list[int]:
    return [rng.getrandbits(1) for _ in range(how_many)]


def bits_of(word: int, count: int) -> list[int]:
    """Start values in the order of clocks: "Bit k is the value that the entered node sees at clock k." """
    return [word >> k & 1 for k in range(count)]


def delayed(starts: Sequence[int], values: Sequence[int]) -> list[int]:
    """What the end of a delay line sees: its start values, then what went in, as many clocks as went in."""
    return [*starts, *values][: len(values)]


def start_patterns(rng: Random, count: int) -> list[int]:
    """Start values of interest for a register count: none, all, the ends, alternating, random."""
    full = (1 << count) - 1
    patterns = [0, full, 1 & full, full ^ full >> 1, 0x55555555 & full, 0xAAAAAAAA & full]
    return sorted({*patterns, rng.getrandbits(32) & full})


# --- Gates --------------------------------------------------------------------------------------

GATES = {
    AND: lambda ones, n: ones == n,
    OR: lambda ones, n: ones >= 1,
    XOR: lambda ones, n: ones in (1, 3, 5, 7),
    NAND: lambda ones, n: ones != n,
    NOR: lambda ones, n: ones == 0,
    XNOR: lambda ones, n: ones in (0, 2, 4, 6, 8),
}


def gates(rng: Random) -> Iterator[Case]:
    """Every kind with 2 to 8 inputs on every vector, one clock each; and with 1 for the two of one."""
    for kind, rule in GATES.items():
        for n in range(2, 9):
            edges = [*(Edge(v, n) for v in range(n)), Edge(n, n + 1)]
            rng.shuffle(edges)  # the order of edges bears on nothing here
            net = drawn(1, [*[INPUT] * n, kind, OUTPUT], edges)
            vectors = list(product((0, 1), repeat=n))
            yield ran(net, sum(vectors, ()), (rule(sum(vector), n) for vector in vectors))
    for kind, table in ((BUFFER, [0, 1]), (INVERTER, [1, 0])):
        yield ran(line_of(1, [kind], {}), [0, 1], table)
    # n edges from one node into one gate: all inputs are equal
    for kind, rule in GATES.items():
        for n in (2, 3, 7, 8):
            net = drawn(1, [INPUT, kind, OUTPUT], [*[Edge(0, 1)] * n, Edge(1, 2)])
            yield ran(net, [0, 1], [rule(0, n), rule(n, n)])
    # one input of each kind, each through one register: all kinds and both start values in one netlist
    for starts in (0, 1):
        kinds = [INPUT, INPUT, *GATES, *[OUTPUT] * 6]
        edges = [Edge(v, gate, 1, starts) for gate in range(2, 8) for v in (0, 1)]
        edges += [Edge(gate, gate + 6) for gate in range(2, 8)]
        given = [(0, 0), (0, 1), (1, 0), (1, 1), (0, 0)]
        seen = [(starts, starts), *given[:-1]]
        yield ran(drawn(1, kinds, edges), sum(given, ()),
                  (rule(sum(pair), 2) for pair in seen for rule in GATES.values()))


# --- Selectors ----------------------------------------------------------------------------------


def selected(select: Iterable[int], first: Iterable[int], second: Iterable[int]) -> Iterator[int]:
    """"It gives the first when select is 0, the second when it is 1", clock by clock."""
    return (b if s else a for s, a, b in zip(select, first, second))


ROWS = sum(product((0, 1), repeat=3), ())  # 000 to 111


def chooser(levels: int) -> Netlist:
    """So many select inputs, then 2 ^ levels data inputs, of which they name one, the first highest: a tree of selectors."""
    kinds = [INPUT] * (levels + (1 << levels))
    edges, left = [], list(range(levels, len(kinds)))
    for select in reversed(range(levels)):
        pairs, left = zip(left[::2], left[1::2]), []
        for first, second in pairs:
            edges += [Edge(select, len(kinds)), Edge(first, len(kinds)), Edge(second, len(kinds))]
            left.append(len(kinds))
            kinds.append(SELECTOR)
    return drawn(1, [*kinds, OUTPUT], [*edges, Edge(left[0], len(kinds))])


def selectors(rng: Random) -> Iterator[Case]:
    """Edge order against node order, edges from one node, registers on some of the three, trees."""
    plain = drawn(1, [*[INPUT] * 3, SELECTOR, OUTPUT], [Edge(0, 3), Edge(1, 3), Edge(2, 3), Edge(3, 4)])
    yield ran(plain, ROWS, [0, 0, 1, 1, 0, 1, 0, 1])
    turned = replace(plain, edges=[Edge(2, 3), Edge(0, 3), Edge(1, 3), Edge(3, 4)])
    yield ran(turned, ROWS, [0, 0, 0, 1, 1, 0, 1, 1])
    for order in permutations(range(3)):  # whichever input is select, and wherever the other edge and the nodes stand
        edges = [Edge(v, 3) for v in order]
        seen = [ROWS[v::3] for v in order]
        for at in range(4):
            yield ran(replace(plain, edges=[*edges[:at], Edge(3, 4), *edges[at:]]), ROWS, selected(*seen))
        yield ran(renumbered(replace(plain, edges=[*edges, Edge(3, 4)]), (2, 3, 4, 0, 1)), ROWS, selected(*seen))
    # two or three of the edges from one node
    for sources in product((0, 1), repeat=3):
        edges = [*(Edge(v, 2) for v in sources), Edge(2, 3), Edge(0, 4), Edge(1, 5)]
        net = drawn(1, [INPUT, INPUT, SELECTOR, OUTPUT, OUTPUT, OUTPUT], edges)
        given = list(product((0, 1), repeat=2))
        shown = selected(*([pair[v] for pair in given] for v in sources))
        yield ran(net, sum(given, ()), (bit for pair, value in zip(given, shown) for bit in (value, *pair)))
    for counts in product((0, 1, 2), repeat=3):
        yield delayed_selector(rng, counts, [0, 0, 0])
        yield delayed_selector(rng, counts, rng.sample(range(3), 3))
    yield delayed_selector(rng, (32, 31, 0), [1, 0, 2])
    yield delayed_selector(rng, (0, 32, 32), [0, 0, 0])
    for levels in (1, 2, 3, 4):
        net, inputs = chooser(levels), levels + (1 << levels)
        vectors = [random_bits(rng, inputs) for _ in range(40)]
        names = [int("".join(map(str, vector[:levels])), 2) for vector in vectors]
        claim = [vector[levels + name] for vector, name in zip(vectors, names)]
        yield ran(net, sum(vectors, []), claim)
        backward = [*range(inputs), *reversed(range(inputs, len(net.nodes)))]
        yield ran(renumbered(net, backward), sum(vectors, []), claim)


def delayed_selector(rng: Random, counts: Sequence[int], sources: Sequence[int]) -> Case:
    """A selector whose three edges come from these inputs through so many registers each."""
    words = [rng.getrandbits(count) if count else 0 for count in counts]
    inputs = max(sources) + 1
    edges = [Edge(v, inputs, count, word) for v, count, word in zip(sources, counts, words)]
    net = drawn(1, [*[INPUT] * inputs, SELECTOR, OUTPUT], [Edge(inputs, inputs + 1), *edges])
    given = random_bits(rng, 40 * inputs)
    seen = [delayed(bits_of(word, count), given[v::inputs]) for v, count, word in zip(sources, counts, words)]
    return ran(net, given, selected(*seen))


def held(rng: Random, count: int, starts: int, keep_first: bool) -> Case:
    """A loop that a selector holds: the input select lets the input data in, else what went round comes again."""
    loop, data = Edge(2, 2, count, starts), Edge(1, 2)
    either = [loop, data] if keep_first else [data, loop]
    net = drawn(1, [INPUT, INPUT, SELECTOR, OUTPUT], [Edge(0, 2), *either, Edge(2, 3)])
    given = random_bits(rng, 2 * (2 * count + 9))
    out: list[int] = []
    for t, (select, bit) in enumerate(zip(given[::2], given[1::2])):
        old = starts >> t & 1 if t < count else out[t - count]
        out.append(bit if select == keep_first else old)
    return ran(net, given, out)


def selector_loops(rng: Random) -> Iterator[Case]:
    """Selectors in loops: what is kept, what selects itself."""
    for count in (1, 2, 5, 31, 32):
        for starts in start_patterns(rng, count):
            yield held(rng, count, starts, True)
            yield held(rng, count, starts, False)
    # it selects by what it gave before: the first input after a 0, the second after a 1
    for count, starts in ((1, 0), (1, 1), (2, 1), (2, 2), (32, 0x0F0F3355)):
        edges = [Edge(2, 2, count, starts), Edge(0, 2), Edge(1, 2), Edge(2, 3)]
        net = drawn(1, [INPUT, INPUT, SELECTOR, OUTPUT], edges)
        given = random_bits(rng, 2 * 70)
        out: list[int] = []
        for t, pair in enumerate(zip(given[::2], given[1::2])):
            out.append(pair[starts >> t & 1 if t < count else out[t - count]])
        yield ran(net, given, out)


# --- Registers ----------------------------------------------------------------------------------

COUNTS = (0, 1, 2, 3, 16, 31, 32)


def delay_lines(rng: Random) -> Iterator[Case]:
    """One edge with 0 to 32 registers and all start values of interest, run well past its start."""
    for count in COUNTS:
        for starts in start_patterns(rng, count):
            given = random_bits(rng, count + 9)
            net = line_of(1, [], {0: (count, starts)})
            yield ran(net, given, delayed(bits_of(starts, count), given))
    # just as many clocks as registers, one fewer, one more
    for count in (1, 2, 31, 32):
        starts = rng.getrandbits(count)
        for clocks in (count - 1, count, count + 1):
            given = [1] * clocks
            net = line_of(1, [], {0: (count, starts)})
            yield ran(net, given, delayed(bits_of(starts, count), given))
    # registers on both sides of an inverter
    for before, after in ((0, 1), (1, 0), (1, 1), (2, 3), (31, 32), (32, 31), (32, 32), (0, 32), (32, 0)):
        first, second = rng.getrandbits(before or 1), rng.getrandbits(after or 1)
        first, second = first * (before > 0), second * (after > 0)
        given = random_bits(rng, before + after + 7)
        net = line_of(1, [INVERTER], {0: (before, first), 1: (after, second)})
        between = [1 - bit for bit in delayed(bits_of(first, before), given)]
        yield ran(net, given, delayed(bits_of(second, after), between))
    # three lines in a row, 96 registers
    words = [rng.getrandbits(32) for _ in range(3)]
    net = line_of(1, [BUFFER, BUFFER], {k: (32, word) for k, word in enumerate(words)})
    given = random_bits(rng, 130)
    yield ran(net, given, delayed([bit for word in words[::-1] for bit in bits_of(word, 32)], given))


# --- Loops --------------------------------------------------------------------------------------


def xor_loop(count: int, starts: int) -> Netlist:
    """Card H with so many registers in the loop."""
    return drawn(1, [INPUT, XOR, OUTPUT], [Edge(0, 1), Edge(1, 1, count, starts), Edge(1, 2)])


def fed_back(taps: Sequence[tuple[int, int]], given: Sequence[int]) -> list[int]:
    """y(t) = x(t) xor the y of each tap's registers ago, its start values before that."""
    out: list[int] = []
    for t, bit in enumerate(given):
        for count, starts in taps:
            bit ^= starts >> t & 1 if t < count else out[t - count]
        out.append(bit)
    return out


def tapped(taps: Sequence[tuple[int, int]]) -> Netlist:
    """An XOR of the input and of itself through so many registers, once for each tap."""
    edges = [Edge(0, 1), *(Edge(1, 1, *tap) for tap in taps), Edge(1, 2)]
    return drawn(1, [INPUT, XOR, OUTPUT], edges)


def counter(width: int, value: int) -> Netlist:
    """A counter of enabled clocks from a value on: bit i is node 1 + i, an XOR with itself and the carry.

    The outputs show the bits before the clock, lowest first.
    """
    bits, carries, outputs = 1, 1 + width, 2 * width  # node numbers; the carry into bit 0 is the input
    kinds = [INPUT, *[XOR] * width, *[AND] * (width - 1), *[OUTPUT] * width]
    edges = []
    for i in range(width):
        start, carry = value >> i & 1, 0 if i == 0 else carries + i - 1
        edges += [Edge(bits + i, bits + i, 1, start), Edge(carry, bits + i)]
        if i < width - 1:
            edges += [Edge(bits + i, carries + i, 1, start), Edge(carry, carries + i)]
        edges.append(Edge(bits + i, outputs + i, 1, start))
    return drawn(1, kinds, edges)


def counted(width: int, value: int, given: Sequence[int]) -> Iterator[int]:
    for enabled in given:
        yield from bits_of(value, width)
        value = (value + enabled) % (1 << width)


def feedback(rng: Random) -> Iterator[Case]:
    """Loops through registers: parity, latches, shift registers with taps, counters."""
    for count in (1, 2, 5, 31, 32):
        for starts in start_patterns(rng, count):
            given = random_bits(rng, 2 * count + 5)
            yield ran(xor_loop(count, starts), given, fed_back([(count, starts)], given))
    for counts in ((1, 1), (1, 2), (2, 2, 5), (32, 22, 2, 1), (16, 14, 13, 11), (7, 6, 5, 4, 3, 2, 1)):
        for _ in range(3):
            taps = [(count, rng.getrandbits(count)) for count in counts]
            given = random_bits(rng, 70)
            yield ran(tapped(taps), given, fed_back(taps, given))
    # a latch: OR holds a 1 for ever, AND a 0
    for kind, stuck in ((OR, 1), (AND, 0)):
        for start in (0, 1):
            given = [1 - stuck] * 4 + [stuck] + [1 - stuck] * 6
            net = drawn(1, [INPUT, kind, OUTPUT], [Edge(0, 1), Edge(1, 1, 1, start), Edge(1, 2)])
            first = stuck if start == stuck else 1 - stuck
            yield ran(net, given, [first] * 4 + [stuck] * 7)
    # an oscillator: NAND with itself gives 1, 0, 1, 0 while the input is 1, and 1 while it is 0
    for start in (0, 1):
        given = [1, 1, 1, 1, 0, 0, 1, 1, 1]
        net = drawn(1, [INPUT, NAND, OUTPUT], [Edge(0, 1), Edge(1, 1, 1, start), Edge(1, 2)])
        tail = [1, 1, 0, 1, 0]
        yield ran(net, given, ([1, 0, 1, 0] if start == 0 else [0, 1, 0, 1]) + tail)
    # the loop's register on each of its edges in turn
    for at in range(4):
        for start in (0, 1):
            edges = [Edge(k + 1, k % 4 + 2 if k < 3 else 1, int(k == at), start * (k == at)) for k in range(4)]
            net = drawn(1, [INPUT, XOR, INVERTER, BUFFER, INVERTER, OUTPUT], [*edges, Edge(0, 1), Edge(4, 5)])
            yield Case(text_of(net), bytes(random_bits(rng, 12)), 12, None)
    # counters of enabled clocks
    for width, value in ((1, 0), (2, 3), (4, 0), (4, 13), (8, 250)):
        given = random_bits(rng, 40)
        yield ran(counter(width, value), given, counted(width, value, given))


# --- Reconvergence and evaluation order ---------------------------------------------------------


def reconvergence(rng: Random) -> Iterator[Case]:
    """Ways that part and meet again, with different registers; long ways in any node order."""
    for first, second in product((0, 1, 2, 32), repeat=2):
        words = [rng.getrandbits(count) if count else 0 for count in (first, second)]
        net = drawn(1, [INPUT, BUFFER, INVERTER, XOR, OUTPUT], [
            Edge(0, 1), Edge(0, 2), Edge(1, 3, first, words[0]), Edge(2, 3, second, words[1]), Edge(3, 4)])
        given = random_bits(rng, 40)
        one = delayed(bits_of(words[0], first), given)
        other = delayed(bits_of(words[1], second), [1 - bit for bit in given])
        yield ran(net, given, (a ^ b for a, b in zip(one, other)))
    # the same wire twice, once through a register: an edge detector
    for kind, rule in GATES.items():
        for start in (0, 1):
            net = drawn(1, [INPUT, kind, OUTPUT], [Edge(0, 1), Edge(0, 1, 1, start), Edge(1, 2)])
            given = random_bits(rng, 12)
            yield ran(net, given, (rule(a + b, 2) for a, b in zip(given, [start, *given])))
    # so many inverters in a row without a register, along the node order, against it and shuffled
    for inverters in (1, 2, 15, 36, 37):
        plain = line_of(1, [INVERTER] * inverters, {})
        size = inverters + 2
        for order in (range(size), range(size - 1, -1, -1), rng.sample(range(size), size)):
            net = renumbered(plain, order)
            for edges in (net.edges, net.edges[::-1]):
                given = random_bits(rng, 6)
                yield ran(replace(net, edges=edges), given, (bit ^ inverters % 2 for bit in given))
    # a ladder: each rung an XOR of the two nodes before it; the last sees the input so many times
    for rungs in (2, 3, 10, 30):
        ways = [1, 1]
        for _ in range(rungs):
            ways.append(ways[-1] + ways[-2])
        edges = [Edge(0, 1), *(Edge(u, v) for v in range(2, rungs + 2) for u in (v - 1, v - 2))]
        net = drawn(1, [INPUT, BUFFER, *[XOR] * rungs, OUTPUT], [*edges, Edge(rungs + 1, rungs + 2)])
        for order in (range(rungs + 3), range(rungs + 2, -1, -1)):
            yield ran(renumbered(net, order), [1, 0, 1], [ways[-1] % 2, 0, ways[-1] % 2])


def renumbered(net: Netlist, order: Sequence[int]) -> Netlist:
    """The same netlist with node v numbered order[v]."""
    nodes = list(net.nodes)
    for v, node in enumerate(net.nodes):
        nodes[order[v]] = node
    edges = [replace(e, source=order[e.source], target=order[e.target]) for e in net.edges]
    return replace(net, nodes=nodes, edges=edges)


# --- Pins ---------------------------------------------------------------------------------------


def pins(rng: Random) -> Iterator[Case]:
    """"One byte, 0 or 1, per input in node order; outputs come the same way." """
    # inputs and outputs in any node order, joined crosswise
    for _ in range(12):
        n = rng.randint(2, 9)
        numbers = rng.sample(range(2 * n), 2 * n)
        inputs, outputs = sorted(numbers[:n]), sorted(numbers[n:])
        to = rng.sample(range(n), n)  # output k sees input to[k]
        kinds = [INPUT if v in inputs else OUTPUT for v in range(2 * n)]
        edges = [Edge(inputs[to[k]], outputs[k]) for k in range(n)]
        rng.shuffle(edges)
        rows = [random_bits(rng, n) for _ in range(4)]
        yield ran(drawn(1, kinds, edges), sum(rows, []), (row[k] for row in rows for k in to))
    # one input, many outputs, each a clock later than the one before
    for n in (2, 7, 33):
        edges = [Edge(0, k + 1, k, 0) for k in range(n)]
        given = [1, 0, 0, 1]
        yield ran(drawn(1, [INPUT, *[OUTPUT] * n], edges), given,
                  (t >= k and given[t - k] for t in range(4) for k in range(n)))
    # as much output as the program takes: 100 outputs, 655 clocks
    net = drawn(1, [INPUT, *[OUTPUT] * 100], [Edge(0, 1 + k) for k in range(100)])
    given = random_bits(rng, 655)
    wide = ran(net, given, (bit for bit in given for _ in range(100)))
    yield wide
    yield replace(wide, room=65535)
    yield replace(wide, room=65499, claim=ROOM)


# --- Long runs ----------------------------------------------------------------------------------


def long_runs(rng: Random) -> Iterator[Case]:
    """Thousands of clocks on small netlists."""
    taps = [(32, 1), (22, 0), (2, 0), (1, 0)]
    given = [0] * 5000
    yield ran(tapped(taps), given, fed_back(taps, given))
    taps = [(16, 0xACE1), (14, 0), (13, 5), (11, 7)]
    given = random_bits(rng, 4000)
    yield ran(tapped(taps), given, fed_back(taps, given))
    given = [1] * 3000
    yield ran(xor_loop(1, 0), given, fed_back([(1, 0)], given))
    given = [1] * 1100
    yield ran(counter(10, 0), given, counted(10, 0, given))
    given = random_bits(rng, 6000)
    yield ran(line_of(1, [], {0: (31, 0x2AAAAAAA)}), given, delayed(bits_of(0x2AAAAAAA, 31), given))
    yield Case(text_of(card_c()), bytes(random_bits(rng, 4000)), 2000, None)


# --- Cards, random netlists ---------------------------------------------------------------------


def gates_of_no_time(rng: Random) -> Iterator[Case]:
    """Rows of gates whose working delay is 0, and their retimed forms: all their registers before the output."""
    for gates in (2, 300, 510):
        kinds, given = [INVERTER, BUFFER] * (gates // 2), random_bits(rng, 20)
        turned = gates // 2 % 2  # inverters in the row, odd or even
        for registers, last in (({0: (3, 5)}, (3, 5 ^ 7 * turned)), ({gates: (3, 5)}, (3, 5))):
            for net in (line_of(1, kinds, registers), line_of(1, kinds, {gates: last})):
                nodes = [replace(node, delay=1 if node.delay else 0) for node in net.nodes]
                starts = bits_of(last[1], 3)
                yield ran(replace(net, derate=50, nodes=nodes), given, delayed(starts, [bit ^ turned for bit in given]))


def cards(rng: Random) -> Iterator[Case]:
    """"H*: vectors 1, 0, 1, 1 run to 1, 1, 0, 1", and every card's netlist on some clocks."""
    yield ran(card_h(), [1, 0, 1, 1], [1, 1, 0, 1])
    yield ran(card_a(), [1, 1, 0, 1], [0, 1, 1, 1])  # a 0 from the last register, then 1 from the first
    for net in CARDS.values():
        inputs, outputs = (len(net.numbers_of(kind)) for kind in (INPUT, OUTPUT))
        yield Case(text_of(net), bytes(random_bits(rng, 50 * inputs)), 50 * outputs, None)


def random_runs(rng: Random, how_many: int) -> Iterator[Case]:
    """Random sound netlists of 2 to about 40 nodes, random vectors, 0 to 60 clocks, any room that does."""
    for _ in range(how_many):
        net = random_small(rng, 36)
        inputs, outputs = (len(net.numbers_of(kind)) for kind in (INPUT, OUTPUT))
        clocks = rng.choice([1, 2, 3, 10, 40, rng.randint(0, 60)])
        room = clocks * outputs + rng.choice([0, 0, 1, 100])
        yield Case(text_of(net), bytes(random_bits(rng, clocks * inputs)), room, None)


def large(rng: Random) -> Iterator[Case]:
    """The largest netlist on 40 clocks, more than any edge has registers."""
    yield Case(text_of(largest(rng)), bytes(random_bits(rng, 20 * 40)), 20 * 40, None)


# --- Refusals -----------------------------------------------------------------------------------


def passing(inputs: int, outputs: int) -> tuple[Netlist, list[int]]:
    """So many inputs, some outputs each: an input's number for each output, in order."""
    kinds = [INPUT] * inputs + [OUTPUT] * max(inputs, outputs)
    to = [k % inputs for k in range(len(kinds) - inputs)]
    return drawn(1, kinds, [Edge(u, inputs + k) for k, u in enumerate(to)]), to


def refused_vectors() -> Iterator[Case]:
    """"13: vector bytes not a multiple of the inputs, a byte above 1." """
    for inputs in (2, 3, 5):
        net, to = passing(inputs, inputs)
        text = text_of(net)
        for length in range(0, 3 * inputs + 2):
            vectors = bytes(k % 2 for k in range(length))
            rows = [vectors[at:at + inputs] for at in range(0, length, inputs)]
            good = length % inputs == 0
            yield Case(text, vectors, 64, bytes(row[k] for row in rows for k in to) if good else VECTORS)
    for inputs, clocks in ((1, 1), (1, 7), (3, 1), (3, 4)):
        net, _ = passing(inputs, inputs)
        for byte in (2, 3, 48, 49, 127, 128, 254, 255):
            for at in sorted({0, 1, inputs * clocks // 2, inputs * clocks - 1}):
                if at < inputs * clocks:
                    vectors = bytearray([1, 0, 1] * 8)[: inputs * clocks]
                    vectors[at] = byte
                    yield Case(text_of(net), bytes(vectors), inputs * clocks, VECTORS)


def rooms() -> Iterator[Case]:
    """"12: a lent buffer shorter than what is to be written": one short, exact, longer, none at all."""
    for inputs, outputs, clocks in ((1, 1, 1), (1, 1, 9), (1, 4, 3), (3, 3, 5), (2, 7, 2), (2, 5, 40)):
        net, to = passing(inputs, outputs)
        vectors = bytes(k % 3 % 2 for k in range(inputs * clocks))
        rows = [vectors[at:at + inputs] for at in range(0, len(vectors), inputs)]
        claim = bytes(row[k] for row in rows for k in to)
        needed = len(claim)
        for room in sorted({0, 1, needed - len(to), needed - 1}):
            if room < needed:
                yield Case(text_of(net), vectors, room, ROOM)
        for room in (needed, needed + 1, needed + 1000):
            yield Case(text_of(net), vectors, room, claim)


def zero_clocks() -> Iterator[Case]:
    """"Zero vectors are a run of zero clocks.": no output, in any room."""
    for net in (*CARDS.values(), passing(3, 5)[0], xor_loop(32, 1), counter(4, 9)):
        for room in (0, 5):
            yield Case(text_of(net), b"", room, b"")


def broken_texts() -> Iterator[tuple[bytes, Refusal]]:
    """A text for each of 1 to 7, with its refusal."""
    good = text_of(card_a())
    yield b"", Refusal(1, LINE, 1)
    yield good[:-1], Refusal(1, LINE, 8)
    yield good + b"\n", Refusal(1, LINE, 9)
    yield good.replace(b"010001", b"010000", 1), Refusal(2, LINE, 1)
    yield good.replace(b"020301", b"020300", 1), Refusal(3, LINE, 3)
    yield good.replace(b"03000000010100000001", b"03000000010100000002"), Refusal(4, LINE, 6)
    yield good.replace(b"020301", b"020401", 1), Refusal(5, NODE, 1)
    yield text_of(xor_loop(0, 0)), Refusal(6)
    idle = drawn(1, [INPUT, OUTPUT, INPUT], [Edge(0, 1)])
    yield text_of(idle), Refusal(7, NODE, 2)
    yield text_of(drawn(1, [BUFFER, OUTPUT], [Edge(0, 0, 1, 0), Edge(0, 1)])), Refusal(7, NODE, 0)
    yield text_of(drawn(1, [INPUT, BUFFER], [Edge(0, 1)])), Refusal(7, NODE, 0)


def refused_texts() -> Iterator[Case]:
    """A refused text is refused whatever the vectors and the room: 1 to 7 come before 13 and 12."""
    for text, refusal in broken_texts():
        for vectors, room in ((b"", 0), (b"", 8), (b"\1\0", 2), (b"\2", 8), (b"\1\0\1", 0), (b"\xff\2", 1)):
            yield Case(text, vectors, room, refusal)


def orders() -> Iterator[Case]:
    """"Running and stepping with 13, 12": where both facts hold it is 13."""
    net, _ = passing(2, 3)
    text = text_of(net)
    for vectors in (b"\1", b"\0\1\1", b"\0\2", b"\2\0", b"\1\1\1\xff", b"\2", b"\0\0\0\2\2"):
        for room in (0, 1, 2, 5, 64):
            yield Case(text, vectors, room, VECTORS)
    for vectors in (b"\0\1", b"\1\1\0\1"):
        for room in (0, 2, len(vectors) // 2 * 3 - 1):
            yield Case(text, vectors, room, ROOM)


def running_cases(seed: int) -> dict[str, list[Case]]:
    """All cases by class; the same for the same seed, whatever the machine."""
    return {
        "bench cards": list(cards(Random(seed))),
        "gates": list(gates(Random(seed + 1))),
        "selectors": list(selectors(Random(seed + 9))),
        "selectors in loops": list(selector_loops(Random(seed + 10))),
        "delay lines": list(delay_lines(Random(seed + 2))),
        "feedback": list(feedback(Random(seed + 3))),
        "reconvergence and order": list(reconvergence(Random(seed + 4))),
        "pins": list(pins(Random(seed + 5))),
        "long runs": list(long_runs(Random(seed + 6))),
        "gates of no time": list(gates_of_no_time(Random(seed + 11))),
        "random": list(random_runs(Random(seed + 7), 160)),
        "largest netlist": list(large(Random(seed + 8))),
        "13: vectors": list(refused_vectors()),
        "12: rooms": list(rooms()),
        "zero clocks": list(zero_clocks()),
        "1 to 7: texts": list(refused_texts()),
        "order of 13 and 12": list(orders()),
    }
