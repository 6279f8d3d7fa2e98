"""Texts for reading and writing, most with the answer that the paper gives them, worked out by hand.

  Case                 a text and the answer claimed for it
  reading_cases        all of them, by class, in a fixed order

A claim is SAME (the text comes back), a Refusal, or None where only the reference says (random
damage). `expected` looks up the reference and refuses to go on where it contradicts a claim.
"""

from __future__ import annotations

from collections.abc import Iterator, Sequence
from dataclasses import dataclass, replace
from random import Random

from netlists import CARDS, card_a, drawn, largest, line_of, random_small
from reference import (
    AND, BUFFER, GATE_RULES, INPUT, INVERTER, LINE, NODE, OR, OUTPUT, SELECTOR, XOR,
    Edge, Netlist, Node, Refusal, reread, text_of,
)

SAME = "same"


@dataclass(frozen=True)
class Case:
    """A text and the answer claimed for it."""

    text: bytes
    claim: str | Refusal | None


def expected(case: Case) -> bytes:
    """What reread prints by the reference; an error if the claim says otherwise."""
    printed = reread(case.text)
    if case.claim is not None:
        claimed = case.text if case.claim == SAME else case.claim.frame()
        assert printed == claimed, f"{case.text!r}: claimed {claimed!r}, the reference {printed!r}"
    return printed


def at_line(number: int, line: int) -> Refusal:
    return Refusal(number, LINE, line)


def at_node(number: int, node: int) -> Refusal:
    return Refusal(number, NODE, node)


LOOP = Refusal(6)


# --- Rule 1 -------------------------------------------------------------------------------------

BASE = text_of(card_a())  # line 1 the head, 2 to 5 the nodes, 6 to 8 the edges
BASE_LINES = BASE.splitlines()


def joined(lines: Sequence[bytes]) -> bytes:
    """Lines, each with its line feed."""
    return b"".join(line + b"\n" for line in lines)


def with_line(line: int, new: bytes) -> bytes:
    """The base text with another line in the place of one (from 1)."""
    return joined([*BASE_LINES[: line - 1], new, *BASE_LINES[line:]])


def one_byte_changes() -> Iterator[Case]:
    """At every byte of the base text: cut off there, a bad digit, a byte left out, a digit put in."""
    for at in range(len(BASE)):
        here = at_line(1, 1 + BASE[:at].count(b"\n"))
        yield Case(BASE[:at], here)
        yield Case(BASE[:at] + b"/" + BASE[at + 1:], here)
        yield Case(BASE[:at] + BASE[at + 1:], here)
        yield Case(BASE[:at] + b"0" + BASE[at:], here)


def bad_lines() -> Iterator[Case]:
    """First, middle and last lines that are no frame of the kind that stands there."""
    for line in (1, 2, 3, 5, 6, 7, 8):
        good = BASE_LINES[line - 1]
        kind, rest = good[:2], good[2:]
        bad = [rest[:-1] + other for other in (b":", b"@", b"G", b"a", b"f", b" ", b"\t", b"\r")]
        bad += [rest[:-1] + other for other in (b"\0", b"\x7f", b"\x80", b"\xff")]
        bad += [rest + b"\r", rest + b" ", rest + b"00", rest[:-2], b" " + rest, b""]
        bad += [rest[:2] + b" " + rest[2:], b"x" + rest[1:], b"+" + rest[1:]]
        for new in bad:
            yield Case(with_line(line, kind + new), at_line(1, line))
        for other in (b"00", b"01", b"02", b"03", b"04", b"05", b"06", b"0F", b"13", b"FF"):
            if other != kind:
                yield Case(with_line(line, other + rest), at_line(1, line))
        for new in (b"", b"\r", b" " + good, good[1:], good + good, b"0x" + good):
            yield Case(with_line(line, new), at_line(1, line))


def missing_and_surplus() -> Iterator[Case]:
    """A line too few or too many: the first line that is not what stands there by the head."""
    yield Case(b"", at_line(1, 1))
    for text in (b"\n", b"\n\n", b"0", b"\0", b"\r\n", b"01\n", b"\n" + BASE, b" " + BASE):
        yield Case(text, at_line(1, 1))
    yield Case(BASE.replace(b"\n", b"\r\n"), at_line(1, 1))
    yield Case(BASE.replace(b"\n", b""), at_line(1, 1))
    yield Case(BASE.lower(), SAME)  # card A has no letter among its digits
    yield Case(text_of(replace(card_a(), period=10)).lower(), at_line(1, 1))
    for line, first_wrong in ((1, 1), (2, 5), (3, 5), (5, 5), (6, 8), (7, 8), (8, 8)):
        left = [*BASE_LINES[: line - 1], *BASE_LINES[line:]]
        yield Case(joined(left), at_line(1, first_wrong))
    for line, first_wrong in ((1, 2), (2, 6), (4, 6), (5, 6), (6, 9), (7, 9), (8, 9)):
        more = [*BASE_LINES[:line], *BASE_LINES[line - 1:]]
        yield Case(joined(more), at_line(1, first_wrong))
    for surplus in (b"\n", b"0", b" ", b"\0", b"\r", b"\n\n", BASE_LINES[7] + b"\n", BASE):
        yield Case(BASE + surplus, at_line(1, 9))
    for upper, lower in ((1, 2), (2, 6), (4, 8), (5, 6)):
        lines = list(BASE_LINES)
        lines[upper - 1], lines[lower - 1] = lines[lower - 1], lines[upper - 1]
        yield Case(joined(lines), at_line(1, upper))
    nodes, edges = BASE_LINES[1:5], BASE_LINES[5:]
    for n, e, line in ((3, 3, 5), (5, 3, 6), (4, 2, 8), (4, 4, 9), (2, 1, 4), (512, 1024, 6)):
        yield Case(joined([head_line(1, 100, n, e), *nodes, *edges]), at_line(1, line))


# --- Rule 2 -------------------------------------------------------------------------------------


def head_line(period: int, derate: int, nodes: int, edges: int) -> bytes:
    return b"01%04X%02X%04X%04X" % (period, derate, nodes, edges)


def heads() -> Iterator[Case]:
    """Each head number at and beyond both ends of its range, with a body and without."""
    for period, derate in ((1, 50), (1, 250), (65535, 100), (2, 51), (32768, 249)):
        yield Case(text_of(replace(card_a(), period=period, derate=derate)), SAME)
    fine = {"period": 1, "derate": 100, "nodes": 4, "edges": 3}
    outside = {
        "period": (0,),
        "derate": (0, 49, 251, 255),
        "nodes": (0, 1, 513, 1024, 65535),
        "edges": (0, 1025, 4096, 65535),
    }
    for name, numbers in outside.items():
        for number in numbers:
            head = head_line(**{**fine, name: number})
            yield Case(with_line(1, head), at_line(2, 1))
            yield Case(head + b"\n", at_line(2, 1))
            yield Case(head, at_line(1, 1))  # 1 before 2 on a line
    yield Case(joined([head_line(0, 0, 0, 0)]), at_line(2, 1))
    yield Case(joined([head_line(1, 100, 1, 1), b"020000", b"03000000000000000000"]), at_line(2, 1))
    yield Case(joined([head_line(1, 100, 2, 0), b"020000", b"020100"]), at_line(2, 1))
    yield Case(joined([head_line(1, 100, 512, 1024)]), at_line(1, 2))
    yield Case(joined([head_line(1, 100, 2, 1)]), at_line(1, 2))
    yield Case(text_of(line_of(1, [], {})), SAME)  # N 2, E 1


# --- Rule 3 -------------------------------------------------------------------------------------


def node_lines() -> Iterator[Case]:
    """Gate kinds above 0A and wrong delays at the first, a middle and the last node line."""
    for line in (2, 3, 5):
        for kind in (0x0B, 0x0C, 0x10, 0x80, 0xFF):
            for delay in (0, 1, 255):
                yield Case(with_line(line, b"02%02X%02X" % (kind, delay)), at_line(3, line))
        for kind in GATE_RULES:
            for delay in (1, 255) if kind in (INPUT, OUTPUT) else (0,):
                yield Case(with_line(line, b"02%02X%02X" % (kind, delay)), at_line(3, line))
    for delay in (1, 2, 128, 254, 255):
        for line in (3, 4):
            yield Case(with_line(line, b"0203%02X" % delay), SAME)
        yield Case(fan_in_text(SELECTOR, 1, 3).replace(b"020A01", b"020A%02X" % delay), SAME)
    for line in (b"020A00", b"020B01"):
        yield Case(fan_in_text(SELECTOR, 1, 3).replace(b"020A01", line), at_line(3, 3))


# --- Rule 4 -------------------------------------------------------------------------------------


def edge_lines() -> Iterator[Case]:
    """A broken edge rule at the first, a middle and the last edge line, and what is just allowed."""
    # an input 0, an AND 1 to 3, outputs 4 and 5; every node sees the one before it
    edges = [Edge(0, 1), Edge(0, 1), Edge(1, 2), Edge(1, 2), Edge(2, 3), Edge(2, 3), Edge(3, 4),
             Edge(3, 5)]
    net = drawn(1, [INPUT, AND, AND, AND, OUTPUT, OUTPUT], edges)
    yield Case(text_of(net), SAME)
    for number in (0, 3, 7):
        def changed(**fields: int) -> bytes:
            new = [*edges[:number], replace(edges[number], **fields), *edges[number + 1:]]
            return text_of(replace(net, edges=new))

        for count, starts in ((1, 0), (1, 1), (2, 2), (31, 2**31 - 1), (32, 2**32 - 1), (32, 2**31)):
            yield Case(changed(count=count, starts=starts), SAME)
        broken: list[dict[str, int]] = [{"count": 33}, {"count": 64}, {"count": 255}]
        broken += [{"count": 33, "starts": 2**32 - 1}]
        for count in (0, 1, 2, 7, 8, 16, 24, 31):
            broken.append({"count": count, "starts": 2**count})  # a bit at the count
            broken.append({"count": count, "starts": 2**31})  # a bit above it
        broken += [{end: node} for end in ("source", "target") for node in (6, 7, 512, 65535)]
        broken += [{"target": 0}, {"source": 4}, {"source": 5}]  # into an input, out of an output
        broken += [{"source": 4, "target": 0}, {"source": 0, "target": 0, "count": 1}]
        broken += [{"source": 5, "target": 5, "count": 1}, {"source": 65535, "count": 33}]
        for fields in broken:
            yield Case(changed(**fields), at_line(4, 2 + 6 + number))


# --- Rule 5 -------------------------------------------------------------------------------------


def fan_ins() -> Iterator[Case]:
    """Every kind with 0 to 4, 8 and 9 in-edges as the lowest, a middle and the last node."""
    for kind, (fewest, most, _, _) in GATE_RULES.items():
        if kind == INPUT:
            continue  # an edge into an input is 4
        for tried in range(3):
            for fan_in in (0, 1, 2, 3, 4, 8, 9):
                claim = SAME if fewest <= fan_in <= most else at_node(5, tried)
                yield Case(fan_in_text(kind, tried, fan_in), claim)
    # two nodes are wrong: the lowest is named, whichever way it is wrong and whatever the edge order
    for kinds, lowest in (([INPUT, AND, BUFFER, OUTPUT], 1), ([INPUT, BUFFER, AND, OUTPUT], 2)):
        edges = [Edge(0, 1), Edge(1, 2), Edge(2, 3), Edge(2, 3)]
        for order in (edges, edges[::-1]):
            yield Case(text_of(drawn(1, kinds, order)), at_node(5, lowest))
    yield Case(text_of(drawn(1, [OUTPUT, INPUT], [Edge(1, 0), Edge(1, 0)])), at_node(5, 0))
    yield Case(text_of(drawn(1, [INPUT, OUTPUT, OUTPUT], [Edge(0, 1)])), at_node(5, 2))
    # a selector has exactly three, from whatever nodes and with whatever registers
    for fan_in, claim in ((2, at_node(5, 1)), (3, SAME), (4, at_node(5, 1))):
        edges = [Edge(0, 1), Edge(1, 1, 1, 1), Edge(0, 1, 32, 7), Edge(1, 1, 2, 2)]
        for order in (edges[:fan_in], edges[:fan_in][::-1]):
            yield Case(text_of(drawn(1, [INPUT, SELECTOR, OUTPUT], [*order, Edge(1, 2)])), claim)


def fan_in_text(kind: int, tried: int, fan_in: int) -> bytes:
    """Node `tried` (0 to 2) has this kind and fan-in; one other node is an input, one an output."""
    source, sink = [v for v in range(3) if v != tried]
    kinds = [kind] * 3
    kinds[source], kinds[sink] = INPUT, OUTPUT
    feeder = source if kind == OUTPUT else tried
    edges = [Edge(source, tried)] * fan_in + [Edge(feeder, sink)]
    return text_of(drawn(1, kinds, edges))


# --- Rule 6 -------------------------------------------------------------------------------------


def ring(length: int, registers: dict[int, tuple[int, int]]) -> Netlist:
    """Input 0 into XOR 1, buffers in a row back into it, the last also to the output.

    Edge k of the first `length` leaves node k + 1 of the loop; registers as in `line_of`.
    """
    kinds = [INPUT, XOR, *[BUFFER] * (length - 1), OUTPUT]
    edges = [Edge(k + 1, k + 2 if k + 1 < length else 1, *registers.get(k, (0, 0)))
             for k in range(length)]
    return drawn(1, kinds, [*edges, Edge(0, 1), Edge(length, length + 1)])


def loops() -> Iterator[Case]:
    """Loops of 1, 2 and many nodes, without a register and with one somewhere."""
    for length in (1, 2, 3, 10, 40):
        yield Case(text_of(ring(length, {})), LOOP)
        for k in sorted({0, length // 2, length - 1}):
            yield Case(text_of(ring(length, {k: (1, 1)})), SAME)
            yield Case(text_of(ring(length, {k: (32, 0)})), SAME)
    # two edges join the same two nodes, one of them without a register
    twice = [Edge(0, 1), Edge(1, 2), Edge(2, 1, 1, 0), Edge(2, 1), Edge(2, 3)]
    yield Case(text_of(drawn(1, [INPUT, AND, BUFFER, OUTPUT], twice)), LOOP)
    twice[3] = Edge(2, 1, 2, 3)
    yield Case(text_of(drawn(1, [INPUT, AND, BUFFER, OUTPUT], twice)), SAME)
    # a loop of its own, that no input reaches and that reaches no output: 6 before 7
    apart = [Edge(0, 1), Edge(2, 3), Edge(3, 2)]
    yield Case(text_of(drawn(1, [INPUT, OUTPUT, BUFFER, BUFFER], apart)), LOOP)
    # a diamond and a chain against the node order are no loops
    diamond = [Edge(0, 1), Edge(0, 2), Edge(1, 3), Edge(2, 3), Edge(3, 4)]
    yield Case(text_of(drawn(1, [INPUT, BUFFER, BUFFER, AND, OUTPUT], diamond)), SAME)
    backward = [Edge(v, v - 1) for v in range(1, 40)]
    yield Case(text_of(drawn(1, [OUTPUT, *[INVERTER] * 38, INPUT], backward)), SAME)


# --- Rule 7 -------------------------------------------------------------------------------------


def reaches() -> Iterator[Case]:
    """Nodes that no input reaches or that reach no output, as the lowest and the last node."""
    def case(kinds: Sequence[int], edges: Sequence[Edge], claim: str | Refusal) -> Case:
        return Case(text_of(drawn(1, kinds, edges)), claim)

    io = [INPUT, OUTPUT]
    through = Edge(0, 1)
    yield case(io, [through], SAME)  # "input wired to output"
    yield case(io, [Edge(0, 1, 32, 5)], SAME)
    yield case([OUTPUT, INPUT], [Edge(1, 0)], SAME)
    # a buffer feeding only itself, last and lowest
    yield case([*io, BUFFER], [through, Edge(2, 2)], LOOP)
    yield case([*io, BUFFER], [through, Edge(2, 2, 1, 0)], at_node(7, 2))
    yield case([BUFFER, *io], [Edge(1, 2), Edge(0, 0, 1, 1)], at_node(7, 0))
    # no input reaches it, though it reaches an output
    yield case([*io, BUFFER, OUTPUT], [through, Edge(2, 2, 1, 0), Edge(2, 3)], at_node(7, 2))
    yield case([OUTPUT, BUFFER, *io], [Edge(2, 3), Edge(1, 1, 1, 0), Edge(1, 0)], at_node(7, 0))
    # an input reaches it, but it reaches no output
    yield case([*io, BUFFER], [through, Edge(0, 2)], at_node(7, 2))
    yield case([*io, BUFFER, BUFFER], [through, Edge(0, 3), Edge(3, 2)], at_node(7, 2))
    yield case([*io, OR], [through, Edge(0, 2), Edge(2, 2, 1, 0)], at_node(7, 2))
    # an input with no out-edge, first, middle and last
    yield case([INPUT, *io], [Edge(1, 2)], at_node(7, 0))
    yield case([INPUT, INPUT, OUTPUT], [Edge(0, 2)], at_node(7, 1))
    yield case([*io, INPUT], [through], at_node(7, 2))
    # no input at all, no output at all: node 0
    yield case([BUFFER, OUTPUT], [Edge(0, 0, 1, 0), Edge(0, 1)], at_node(7, 0))
    yield case([INPUT, BUFFER], [Edge(0, 1)], at_node(7, 0))
    yield case([BUFFER, BUFFER], [Edge(0, 1, 1, 0), Edge(1, 0)], at_node(7, 0))
    # two nodes are wrong in different ways: the lowest is named
    yield case([*io, BUFFER, INPUT], [through, Edge(2, 2, 1, 0)], at_node(7, 2))
    yield case([*io, INPUT, BUFFER], [through, Edge(3, 3, 1, 0)], at_node(7, 2))
    # reached only against the node order, and only through registers
    chain = [Edge(v, v - 1, v % 3, 0) for v in range(1, 30)]
    yield case([OUTPUT, *[BUFFER] * 28, INPUT], chain, SAME)
    for cut in (1, 15, 28):  # node `cut` sees itself and not the one before it
        broken = [*chain[: cut], Edge(cut, cut, 1, 0), *chain[cut + 1:]]
        yield case([OUTPUT, *[BUFFER] * 28, INPUT], broken, at_node(7, 0))


# --- The order of refusals ----------------------------------------------------------------------


def orders() -> Iterator[Case]:
    """"Lines in turn, 1 before 2 to 4 on a line; then 5, 6, 7." """
    def text(*changes: tuple[int, bytes]) -> bytes:
        lines = list(BASE_LINES)
        for line, new in changes:
            lines[line - 1] = new
        return joined(lines)

    kind, delay, count = b"020B01", b"020300", b"03000100022100000000"
    yield Case(text((2, kind), (5, b"0201")), at_line(3, 2))  # a 3 on line 2 before a 1 on line 5
    yield Case(text((2, b"020")), at_line(1, 2))
    yield Case(text((2, kind), (3, b"")), at_line(3, 2))
    yield Case(text((3, delay), (4, kind)), at_line(3, 3))
    yield Case(text((5, kind), (6, count)), at_line(3, 5))
    yield Case(text((6, count), (7, b"")), at_line(4, 6))
    yield Case(text((6, b""), (7, count)), at_line(1, 6))
    yield Case(text((7, count), (8, b"03")), at_line(4, 7))
    yield Case(text((1, head_line(0, 100, 4, 3)), (2, b"")), at_line(2, 1))
    yield Case(text((1, head_line(0, 100, 4, 3)[:-1])), at_line(1, 1))  # 1 before 2 on a line
    yield Case(text((1, b"0100006400040003 ")), at_line(1, 1))
    yield Case(text((3, b"020BFG")), at_line(1, 3))  # 1 before 3 on a line
    yield Case(text((3, b"030B01")), at_line(1, 3))
    yield Case(text((8, b"03FFFFFFFFFFFFFFFFFf")), at_line(1, 8))  # 1 before 4 on a line
    yield Case(text((8, b"02FFFFFFFFFFFFFFFFFF")), at_line(1, 8))
    yield Case(text((8, count)) + b"\n", at_line(4, 8))  # 4 on the last line before a surplus line
    yield Case(text((8, count))[:-1], at_line(1, 8))
    yield Case(text((3, b"020401")) + b"0", at_line(1, 9))  # a surplus byte before 5
    yield Case(text((3, b"020401")), at_node(5, 1))
    yield Case(text((3, b"020A01")), at_node(5, 1))
    # 5 before 6 before 7: node 2 a buffer on itself, node 3 with a wrong fan-in, input 4 idle
    kinds = [INPUT, OUTPUT, BUFFER, AND, INPUT]
    io, idle, looped, single = Edge(0, 1), Edge(4, 3), Edge(2, 2), Edge(2, 3)
    yield Case(text_of(drawn(1, kinds, [io, looped, single])), at_node(5, 3))
    yield Case(text_of(drawn(1, kinds, [io, looped, single, idle])), LOOP)
    yield Case(text_of(drawn(1, kinds, [io, Edge(2, 2, 1, 0), single, idle])), at_node(7, 2))
    yield Case(text_of(drawn(1, kinds, [io, Edge(0, 2), single, idle])), at_node(7, 2))


# --- Cards, the largest text, random texts ------------------------------------------------------


def cards() -> Iterator[Case]:
    """The netlists of the paper's "Bench cards": each reads."""
    for net in CARDS.values():
        yield Case(text_of(net), SAME)
    yield Case(text_of(card_a(1)).replace(b"010001", b"010000", 1), at_line(2, 1))


def large(rng: Random) -> Iterator[Case]:
    """The largest text, and the same with a fault on its last line."""
    net = largest(rng)
    text = text_of(net)
    assert len(text) == 25105
    yield Case(text, SAME)
    worse = [*net.edges[:-1], replace(net.edges[-1], count=33)]
    yield Case(text_of(replace(net, edges=worse)), at_line(4, 1537))


def random_sound(rng: Random, how_many: int) -> Iterator[Case]:
    """Random sound netlists of 2 to about 40 nodes."""
    for _ in range(how_many):
        yield Case(text_of(random_small(rng, 36)), SAME)


def random_bytes_damage(rng: Random, how_many: int) -> Iterator[Case]:
    """One to three bytes of a sound text changed, left out or put in; or two lines swapped."""
    usual = b"0123456789ABCDEF" * 3 + b"\n\r aG/:@\xff\0"
    for _ in range(how_many):
        text = bytearray(text_of(random_small(rng, 12)))
        for _ in range(rng.choice([1, 1, 2, 3])):
            at = rng.randrange(len(text))
            way = rng.randrange(6)
            if way < 3:
                text[at] = rng.choice(usual)
            elif way == 3:
                del text[at]
            elif way == 4:
                text.insert(at, rng.choice(usual))
            else:
                text = bytearray(lines_swapped(rng, bytes(text)))
        yield Case(bytes(text), None)


def lines_swapped(rng: Random, text: bytes) -> bytes:
    """Two lines exchanged."""
    lines = text.splitlines(keepends=True)
    i, j = rng.randrange(len(lines)), rng.randrange(len(lines))
    lines[i], lines[j] = lines[j], lines[i]
    return b"".join(lines)


def random_rewiring(rng: Random, how_many: int) -> Iterator[Case]:
    """One to three numbers of a sound netlist changed: the lines stay frames, the rules break."""
    for _ in range(how_many):
        net = random_small(rng, 12)
        nodes, edges = list(net.nodes), list(net.edges)
        for _ in range(rng.choice([1, 1, 2, 3])):
            v, e = rng.randrange(len(nodes)), rng.randrange(len(edges))
            some_node = rng.randrange(len(nodes))
            way = rng.randrange(10)
            if way == 0:
                nodes[v] = Node(rng.randint(0, 11), nodes[v].delay)
            elif way == 1:
                nodes[v] = Node(nodes[v].kind, rng.choice([0, 1]))
            elif way < 6:
                edges[e] = replace(edges[e], source=some_node)
            elif way == 6:
                edges[e] = replace(edges[e], target=some_node)
            elif way == 7:
                edges[e] = replace(edges[e], count=rng.choice([0, 1, 32, 33]))
            else:
                edges = [replace(edge, count=0, starts=0) for edge in edges]
        yield Case(text_of(replace(net, nodes=nodes, edges=edges)), None)


def reading_cases(seed: int) -> dict[str, list[Case]]:
    """All cases by class; the same for the same seed, whatever the machine."""
    return {
        "rule 1: one byte changed": list(one_byte_changes()),
        "rule 1: bad lines": list(bad_lines()),
        "rule 1: missing and surplus lines": list(missing_and_surplus()),
        "rule 2: heads": list(heads()),
        "rule 3: node lines": list(node_lines()),
        "rule 4: edge lines": list(edge_lines()),
        "rule 5: fan-in": list(fan_ins()),
        "rule 6: loops": list(loops()),
        "rule 7: reach": list(reaches()),
        "order of refusals": list(orders()),
        "bench cards": list(cards()),
        "largest text": list(large(Random(seed))),
        "random, sound": list(random_sound(Random(seed + 1), 120)),
        "random, bytes damaged": list(random_bytes_damage(Random(seed + 2), 180)),
        "random, rewired": list(random_rewiring(Random(seed + 3), 300)),
    }
