"""Netlists that the tests share: the paper's bench cards, simple shapes, and random sound ones.

  card_a .. card_l        the netlists of "Bench cards"; card_s has a selector (request F-2)
  line_of                 input, nodes in a row, output
  kinds_with              the gate kinds to draw from for so many in-edges
  random_netlist          a sound netlist of given sizes: refused by none of 1 to 7
  largest                 512 nodes, 1,024 edges
"""

from __future__ import annotations

from collections.abc import Sequence
from random import Random

from reference import (
    AND, BUFFER, INPUT, INVERTER, NAND, NOR, OR, OUTPUT, SELECTOR, XNOR, XOR, Edge, Netlist, Node,
)

ONE_INPUT = (BUFFER, INVERTER)
MORE_INPUTS = (AND, OR, XOR, NAND, NOR, XNOR)
PINS = (INPUT, OUTPUT)


def kinds_with(inputs: int) -> Sequence[int]:
    """The gate kinds to draw from for so many in-edges: half of the gates with three are selectors."""
    if inputs == 1:
        return ONE_INPUT
    return (*MORE_INPUTS, *[SELECTOR] * len(MORE_INPUTS)) if inputs == 3 else MORE_INPUTS


def node_of(kind: int) -> Node:
    """A node of a kind: pins have delay 0, "each gate has delay 1"."""
    return Node(kind, 0 if kind in PINS else 1)


def drawn(period: int, kinds: Sequence[int], edges: Sequence[Edge]) -> Netlist:
    """A netlist as the bench cards draw them: "the derate is 100, each gate has delay 1"."""
    return Netlist(period, 100, [node_of(kind) for kind in kinds], list(edges))


def line_of(period: int, kinds: Sequence[int], registers: dict[int, tuple[int, int]]) -> Netlist:
    """An input, nodes of these kinds in a row, an output; registers: edge number to count, values."""
    edges = [Edge(v, v + 1, *registers.get(v, (0, 0))) for v in range(len(kinds) + 1)]
    return drawn(period, [INPUT, *kinds, OUTPUT], edges)


# --- Bench cards --------------------------------------------------------------------------------


def card_a(period: int = 1) -> Netlist:
    """Card A; with period 2 card B."""
    return line_of(period, [INVERTER, INVERTER], {0: (1, 1), 2: (1, 0)})


def card_c() -> Netlist:
    """Two inputs into an AND, an inverter, one register with value 0 before the output."""
    edges = [Edge(0, 2), Edge(1, 2), Edge(2, 3), Edge(3, 4, 1, 0)]
    return drawn(1, [INPUT, INPUT, AND, INVERTER, OUTPUT], edges)


def card_d(period: int = 1) -> Netlist:
    """Two buffers; the second feeds two outputs through registers of 0 and 1. Period 2: card E."""
    edges = [Edge(0, 1), Edge(1, 2), Edge(2, 3, 1, 0), Edge(2, 4, 1, 1)]
    return drawn(period, [INPUT, BUFFER, BUFFER, OUTPUT, OUTPUT], edges)


def card_f() -> Netlist:
    """Input, two buffers, output, no registers."""
    return line_of(1, [BUFFER, BUFFER], {})


def card_g() -> Netlist:
    """Two inputs, each with a buffer, into an OR, register 1, output."""
    edges = [Edge(0, 2), Edge(1, 3), Edge(2, 4), Edge(3, 4), Edge(4, 5, 1, 1)]
    return drawn(1, [INPUT, INPUT, BUFFER, BUFFER, OR, OUTPUT], edges)


def card_h() -> Netlist:
    """Input and a one-register loop (value 0) into an XOR."""
    return drawn(1, [INPUT, XOR, OUTPUT], [Edge(0, 1), Edge(1, 1, 1, 0), Edge(1, 2)])


def card_i(registers: int = 16) -> Netlist:
    """So many registers, a buffer, as many again, period 5; with 20 card J."""
    return line_of(5, [BUFFER], {0: (registers, 0), 1: (registers, 0)})


def card_k(buffers: int = 25, registers: int = 24) -> Netlist:
    """Buffers in a row, then registers, period 1; with 26 and 25 card L."""
    return line_of(1, [BUFFER] * buffers, {buffers: (registers, 0)})


def card_s(value: int = 1) -> Netlist:
    """Three inputs, each with a buffer, into a selector, a register, output."""
    edges = [Edge(0, 3), Edge(1, 4), Edge(2, 5), Edge(3, 6), Edge(4, 6), Edge(5, 6), Edge(6, 7, 1, value)]
    return drawn(1, [*[INPUT] * 3, *[BUFFER] * 3, SELECTOR, OUTPUT], edges)


CARDS: dict[str, Netlist] = {
    "A": card_a(),
    "B": card_a(2),
    "C": card_c(),
    "D": card_d(),
    "E": card_d(2),
    "F": card_f(),
    "G": card_g(),
    "H": card_h(),
    "I": card_i(),
    "J": card_i(20),
    "K": card_k(),
    "L": card_k(26, 25),
    "S": card_s(),
    "wire": line_of(1, [], {}),  # "input wired to output"
}


# --- Random sound netlists ----------------------------------------------------------------------


def random_registers(rng: Random, least: int) -> tuple[int, int]:
    """A register count of at least `least`, mostly small, and start values below it."""
    count = rng.choice([0, 0, 0, 0, 1, 1, 2, 3, rng.randint(4, 32)])
    count = max(count, least)
    return count, rng.getrandbits(count) if count else 0


def random_fan_ins(rng: Random, gates: int, total: int) -> list[int]:
    """1 to 8 for each gate, adding up to `total`; often 3, so that there are selectors."""
    fan_ins = [1] * gates
    while sum(fan_ins) < total:
        i = rng.randrange(gates)
        if fan_ins[i] == 1 and sum(fan_ins) + 2 <= total and rng.random() < 0.5:
            fan_ins[i] = 3
        else:
            fan_ins[i] += fan_ins[i] < 8
    return fan_ins


def random_netlist(rng: Random, inputs: int, gates: int, outputs: int, edges: int) -> Netlist:
    """A sound netlist with so many inputs and gates, at least so many outputs and about so many edges.

    With outputs >= inputs and edges from gates + outputs to 8 * gates + outputs the numbers are
    exact. How it is made sound: the nodes stand in a row, and each gate and each output first
    takes the oldest node that feeds nothing yet. So every gate has an in-edge from an earlier
    node (an input reaches it) and every node but an output feeds a later one (it reaches an
    output). Any other in-edge may come from anywhere, but from the gate itself or a later one
    only through a register, so that every loop has one. In the end the numbers are shuffled.
    """
    fan_ins = random_fan_ins(rng, gates, edges - outputs)
    open_ends = list(range(inputs))
    kinds = [INPUT] * inputs
    wires: list[Edge] = []
    for gate, fan_in in enumerate(fan_ins, start=inputs):
        kinds.append(rng.choice(kinds_with(fan_in)))
        wires.append(Edge(open_ends.pop(0), gate, *random_registers(rng, 0)))
        for _ in range(fan_in - 1):
            source = rng.randrange(inputs + gates) if rng.random() < 0.3 else rng.randrange(gate)
            wires.append(Edge(source, gate, *random_registers(rng, int(source >= gate))))
            if source in open_ends:
                open_ends.remove(source)
        open_ends.append(gate)
    while open_ends or kinds.count(OUTPUT) < outputs:
        source = open_ends.pop(0) if open_ends else rng.randrange(inputs + gates)
        wires.append(Edge(source, len(kinds), *random_registers(rng, 0)))
        kinds.append(OUTPUT)
    return shuffled(rng, kinds, wires)


def shuffled(rng: Random, kinds: Sequence[int], wires: Sequence[Edge]) -> Netlist:
    """The same netlist with its nodes and edges in another order, and random head and delays."""
    number = list(range(len(kinds)))
    rng.shuffle(number)
    nodes = [Node(INPUT, 0)] * len(kinds)
    for v, kind in enumerate(kinds):
        nodes[number[v]] = Node(kind, 0 if kind in PINS else rng.choice([1, 2, 9, 255]))
    edges = [Edge(number[e.source], number[e.target], e.count, e.starts) for e in wires]
    rng.shuffle(edges)
    return Netlist(rng.randint(1, 65535), rng.randint(50, 250), nodes, edges)


def random_small(rng: Random, most_nodes: int) -> Netlist:
    """A sound netlist of 2 to about `most_nodes` nodes, small ones more often."""
    inputs = rng.choice([1, 1, 1, 2, 3])
    outputs = inputs + rng.choice([0, 0, 0, 1, 2])
    gates = min(rng.randint(0, most_nodes), rng.randint(0, most_nodes))
    extra = rng.randint(0, rng.choice([1, 2]) * gates)
    return random_netlist(rng, inputs, gates, outputs, gates + outputs + extra)


def largest(rng: Random) -> Netlist:
    """512 nodes and 1,024 edges, so a text of 25,105 bytes."""
    return random_netlist(rng, inputs=20, gates=472, outputs=20, edges=1024)
