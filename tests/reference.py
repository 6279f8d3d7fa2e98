"""The paper's jobs, done in the plainest way, for the tests to compare the proved program with.

Written from the paper (document 01) alone and not from the program: where it can, it goes another
way (a regular expression for a line, a topological sort for rule 6, breadth-first search for
rule 7, and for running the definition by clocks instead of the machine's words).
A refusal is raised; whatever is returned was not refused.

  Netlist, Node, Edge     the record: its head, its nodes, its edges
  Refusal                 a number and a place of "Noes, by their cause"
  read, write             text to record and back
  read_lines              the same by the rules 1 to 4 alone
  gate_value, trace       what each node gives at each clock
  run, step               a list of vectors from the start values; one clock on machine words
  reread                  what the program of that name prints

Python 3.9 or later, standard library only. `python3 -m doctest tests/reference.py` tries the examples.
"""

from __future__ import annotations

import re
from collections import deque
from collections.abc import Iterable, Sequence
from dataclasses import dataclass
from graphlib import CycleError, TopologicalSorter
from struct import Struct

# --- The record ---------------------------------------------------------------------------------

INPUT, OUTPUT, BUFFER, INVERTER, AND, OR, XOR, NAND, NOR, XNOR, SELECTOR = range(11)

# "Gate kinds, with in-edges": fewest and most in-edges, smallest and largest delay.
GATE_RULES: dict[int, tuple[int, int, int, int]] = {
    INPUT: (0, 0, 0, 0),
    OUTPUT: (1, 1, 0, 0),
    BUFFER: (1, 1, 1, 255),
    INVERTER: (1, 1, 1, 255),
    **{kind: (2, 8, 1, 255) for kind in (AND, OR, XOR, NAND, NOR, XNOR)},
    SELECTOR: (3, 3, 1, 255),  # request F-2: "a three-input selector, kind 0A"
}


@dataclass(frozen=True)
class Node:
    """A node line: gate kind and delay."""

    kind: int
    delay: int


@dataclass(frozen=True)
class Edge:
    """An edge line: the node it leaves, the node it enters, register count, start values."""

    source: int
    target: int
    count: int = 0
    starts: int = 0


@dataclass(frozen=True)
class Netlist:
    """"A netlist is its head, its N nodes and its E edges." N and E are the lengths of the lists.

    "Record rows past them are read by nothing", so they have no place here.
    """

    period: int
    derate: int
    nodes: Sequence[Node]
    edges: Sequence[Edge]

    def numbers_of(self, kind: int) -> list[int]:
        """The numbers of the nodes of a gate kind, in node order."""
        return [v for v, node in enumerate(self.nodes) if node.kind == kind]


# --- Refusals -----------------------------------------------------------------------------------

# "place kind (1: 00 whole, 01 line, 02 node, 03 edge)"
WHOLE, LINE, NODE, EDGE = range(4)


class Refusal(Exception):
    """"A refusal names its place ... It is only that number and place." The whole is place 0."""

    def __init__(self, number: int, place_kind: int = WHOLE, place: int = 0) -> None:
        super().__init__(number, place_kind, place)
        self.number = number
        self.place_kind = place_kind
        self.place = place

    def frame(self) -> bytes:
        """"`0F`, number (1), place kind (1), place (2, 0 for whole)", as a line."""
        return frame_line(REFUSAL_LINE.pack(0x0F, self.number, self.place_kind, self.place))


# --- Frames -------------------------------------------------------------------------------------

# "Numbers of several bytes have the high byte first."
HEAD_LINE = Struct(">BHBHH")  # 01, period, derate, N, E
NODE_LINE = Struct(">BBB")  # 02, gate kind, delay
EDGE_LINE = Struct(">BHHBI")  # 03, node it leaves, node it enters, register count, start values
REFUSAL_LINE = Struct(">BBBH")  # 0F, number, place kind, place


def frame_line(frame: bytes) -> bytes:
    """"Hexadecimal digits 0-9 A-F, two a byte, no blanks, ended by one line feed."

    >>> frame_line(bytes([2, 0, 255]))
    b'0200FF\\n'
    """
    return frame.hex().upper().encode() + b"\n"


def line_numbers(line: bytes, layout: Struct, kind: int) -> tuple[int, ...] | None:
    """The numbers after the kind in a line (its line feed taken off), or None if it is no frame.

    >>> line_numbers(b'020301', NODE_LINE, 2)
    (3, 1)
    >>> line_numbers(b'02030a', NODE_LINE, 2) is None
    True
    """
    if not re.fullmatch(rb"[0-9A-F]{%d}" % (2 * layout.size), line):
        return None
    found, *numbers = layout.unpack(bytes.fromhex(line.decode()))
    return tuple(numbers) if found == kind else None


# --- Rules 2 to 4: one line ---------------------------------------------------------------------


def check_head(period: int, derate: int, node_count: int, edge_count: int) -> None:
    """"2 (line 1): a head number outside its range." """
    if not (
        1 <= period <= 65535
        and 50 <= derate <= 250
        and 2 <= node_count <= 512
        and 1 <= edge_count <= 1024
    ):
        raise Refusal(2, LINE, 1)


def check_node(node: Node, line: int) -> None:
    """"3 (line): gate kind above 09, or a wrong delay"; since request F-2 "3 now begins above kind 0A". """
    if node.kind not in GATE_RULES:
        raise Refusal(3, LINE, line)
    _, _, least, greatest = GATE_RULES[node.kind]
    if not least <= node.delay <= greatest:
        raise Refusal(3, LINE, line)


def check_edge(edge: Edge, nodes: Sequence[Node], line: int) -> None:
    """"4 (line): an edge rule broken (node number, count, bits, pin)." """
    broken = (
        edge.source >= len(nodes)
        or edge.target >= len(nodes)
        or edge.count > 32
        or edge.starts >> edge.count != 0  # "Bits at or above the count are 0."
        or nodes[edge.source].kind == OUTPUT  # "No edge enters an input or leaves an output."
        or nodes[edge.target].kind == INPUT
    )
    if broken:
        raise Refusal(4, LINE, line)


# --- Rules 5 to 7: the netlist as a whole -------------------------------------------------------


def check_fan_in(net: Netlist) -> None:
    """"5 (lowest node): wrong number of in-edges." """
    entered = [edge.target for edge in net.edges]
    for v, node in enumerate(net.nodes):
        fewest, most, _, _ = GATE_RULES[node.kind]
        if not fewest <= entered.count(v) <= most:
            raise Refusal(5, NODE, v)


def evaluation_order(net: Netlist) -> list[int]:
    """All nodes, each after those that it sees without a register; 6 if there is no such order.

    "6 (whole): a loop without a register."
    """
    sees: dict[int, list[int]] = {v: [] for v in range(len(net.nodes))}
    for edge in net.edges:
        if edge.count == 0:
            sees[edge.target].append(edge.source)
    try:
        return list(TopologicalSorter(sees).static_order())
    except CycleError:
        raise Refusal(6) from None


def reached(pins: Iterable[int], steps: Iterable[tuple[int, int]]) -> set[int]:
    """The pins and all that they reach along the steps, breadth first. "A pin reaches itself." """
    ways: dict[int, list[int]] = {}
    for here, there in steps:
        ways.setdefault(here, []).append(there)
    marked = set(pins)
    waiting = deque(marked)
    while waiting:
        for there in ways.get(waiting.popleft(), []):
            if there not in marked:
                marked.add(there)
                waiting.append(there)
    return marked


def check_reach(net: Netlist) -> None:
    """"7 (lowest node): a node that no input reaches, or that reaches no output." """
    edges = net.edges
    from_input = reached(net.numbers_of(INPUT), ((e.source, e.target) for e in edges))
    to_output = reached(net.numbers_of(OUTPUT), ((e.target, e.source) for e in edges))
    for v in range(len(net.nodes)):
        if v not in from_input or v not in to_output:
            raise Refusal(7, NODE, v)


def check_wiring(net: Netlist) -> None:
    """"Then 5, 6, 7." """
    check_fan_in(net)
    evaluation_order(net)
    check_reach(net)


# --- Reading and writing ------------------------------------------------------------------------


def read(text: bytes) -> Netlist:
    """The netlist of a text. "Lines in turn, 1 before 2 to 4 on a line; then 5, 6, 7." """
    net = read_lines(text)
    check_wiring(net)
    return net


def read_lines(text: bytes) -> Netlist:
    """The netlist of a text whose lines keep the rules 1 to 4.

    What stands after the last line feed is no line: a line that is wanted there is missing, and
    where none is wanted it is surplus. Either way it is rule 1 at that line.
    """
    *lines, unended = text.split(b"\n")

    def numbers_at(line: int, layout: Struct, kind: int) -> tuple[int, ...]:
        numbers = line_numbers(lines[line - 1], layout, kind) if line <= len(lines) else None
        if numbers is None:
            raise Refusal(1, LINE, line)
        return numbers

    period, derate, node_count, edge_count = numbers_at(1, HEAD_LINE, 1)
    check_head(period, derate, node_count, edge_count)

    first_edge, surplus = 2 + node_count, 2 + node_count + edge_count
    nodes: list[Node] = []
    for line in range(2, first_edge):
        node = Node(*numbers_at(line, NODE_LINE, 2))
        check_node(node, line)
        nodes.append(node)

    edges: list[Edge] = []
    for line in range(first_edge, surplus):
        edge = Edge(*numbers_at(line, EDGE_LINE, 3))
        check_edge(edge, nodes, line)
        edges.append(edge)

    if len(lines) >= surplus or unended:
        raise Refusal(1, LINE, surplus)
    return Netlist(period, derate, nodes, edges)


def check_record(net: Netlist) -> None:
    """"Writing and stepping take a netlist record and check 2 to 7 as if its lines were read." """
    check_head(net.period, net.derate, len(net.nodes), len(net.edges))
    for i, node in enumerate(net.nodes):
        check_node(node, 2 + i)
    for i, edge in enumerate(net.edges):
        check_edge(edge, net.nodes, 2 + len(net.nodes) + i)
    check_wiring(net)


def text_of(net: Netlist) -> bytes:
    """The lines of a record, in their order, whether or not it is sound."""
    head = HEAD_LINE.pack(1, net.period, net.derate, len(net.nodes), len(net.edges))
    nodes = [NODE_LINE.pack(2, n.kind, n.delay) for n in net.nodes]
    edges = [EDGE_LINE.pack(3, e.source, e.target, e.count, e.starts) for e in net.edges]
    return b"".join(frame_line(frame) for frame in [head, *nodes, *edges])


def check_room(wanted: int, room: int) -> None:
    """"12 (whole): a lent buffer shorter than what is to be written." """
    if room < wanted:
        raise Refusal(12)


def write(net: Netlist, room: int) -> bytes:
    """The text of a record, into a buffer of `room` bytes. "Writing ends with 12." """
    check_record(net)
    text = text_of(net)
    check_room(len(text), room)
    return text


# --- Clocks -------------------------------------------------------------------------------------


def gate_value(kind: int, seen: Sequence[int]) -> int:
    """What a node other than an input gives for the values seen on its in-edges, in edge order.

    "XOR is 1 when an odd number of its inputs are 1, XNOR when an even number are." A selector's "in-edges,
    in edge-number order, are select, first, second; it gives the first when select is 0, the second when it is 1".

    >>> [gate_value(kind, [1, 0, 1]) for kind in (AND, OR, XOR, NAND, NOR, XNOR, SELECTOR)]
    [0, 1, 0, 1, 0, 1, 1]
    """
    if kind in (OUTPUT, BUFFER):  # "an output's is what it sees"
        return seen[0]
    if kind == SELECTOR:
        select, *either = seen
        return either[select]
    if kind == INVERTER:
        return 1 - seen[0]
    if kind in (AND, NAND):
        value = all(seen)
    elif kind in (OR, NOR):
        value = any(seen)
    else:
        value = sum(seen) % 2 == 1
    inverse = kind in (NAND, NOR, XNOR)
    return int(value != inverse)


def in_edges(net: Netlist) -> list[list[Edge]]:
    """The in-edges of each node, in edge order."""
    into: list[list[Edge]] = [[] for _ in range(len(net.nodes))]
    for edge in net.edges:
        into[edge.target].append(edge)
    return into


def trace(net: Netlist, vectors: Sequence[Sequence[int]]) -> list[list[int]]:
    """The value of each node (inner list) at each clock (outer list), one clock per vector.

    "On an edge with w registers from u to v, v sees start value t while t is below w, and u's
    value at clock t - w after that. An input's value is its vector byte."
    """
    order, into, inputs = evaluation_order(net), in_edges(net), net.numbers_of(INPUT)
    values: list[list[int]] = []

    def seen(edge: Edge, t: int) -> int:
        if t < edge.count:
            return edge.starts >> t & 1
        return values[t - edge.count][edge.source]

    for t, vector in enumerate(vectors):
        values.append([0] * len(net.nodes))
        for v in order:
            if net.nodes[v].kind == INPUT:
                values[t][v] = vector[inputs.index(v)]
            else:
                values[t][v] = gate_value(net.nodes[v].kind, [seen(e, t) for e in into[v]])
    return values


def check_vectors(vectors: bytes, inputs: int) -> None:
    """"13 (whole): vector bytes not a multiple of the inputs, ... a byte above 1." """
    if len(vectors) % inputs != 0 or any(byte > 1 for byte in vectors):
        raise Refusal(13)


def run(text: bytes, vectors: bytes, room: int) -> bytes:
    """The outputs of all clocks, into a buffer of `room` bytes.

    "Running is stepping from the start values, one clock per vector." Here by the definition of
    values at clocks. Card H: an input and a one-register loop into an XOR.

    >>> card_h = Netlist(1, 100, [Node(INPUT, 0), Node(XOR, 1), Node(OUTPUT, 0)],
    ...                  [Edge(0, 1), Edge(1, 1, 1, 0), Edge(1, 2)])
    >>> list(run(text_of(card_h), bytes([1, 0, 1, 1]), 4))
    [1, 1, 0, 1]
    """
    net = read(text)
    inputs, outputs = net.numbers_of(INPUT), net.numbers_of(OUTPUT)
    check_vectors(vectors, len(inputs))
    clocks = len(vectors) // len(inputs)
    check_room(clocks * len(outputs), room)
    rows = [vectors[t * len(inputs):(t + 1) * len(inputs)] for t in range(clocks)]
    return bytes(values[v] for values in trace(net, rows) for v in outputs)


def step(
    net: Netlist, words: Sequence[int], vector: bytes, room: int
) -> tuple[list[int], bytes]:
    """One clock on a machine record: the words after it, and one vector of outputs.

    "13 (stepping: not one vector) ... or a machine word with a bit at or above its edge's count";
    "words past the E-th are neither read nor changed".
    """
    check_record(net)
    inputs, outputs, edges = net.numbers_of(INPUT), net.numbers_of(OUTPUT), net.edges
    if len(vector) != len(inputs):
        raise Refusal(13)
    check_vectors(vector, len(inputs))
    if any(word >> edge.count != 0 for edge, word in zip(edges, words)):
        raise Refusal(13)
    check_room(len(outputs), room)

    into: list[list[int]] = [[] for _ in range(len(net.nodes))]
    for number, edge in enumerate(edges):
        into[edge.target].append(number)
    value = [0] * len(net.nodes)

    def seen(number: int) -> int:
        """"The entered node sees bit 0, or the value of u in this same clock when w is 0." """
        return words[number] & 1 if edges[number].count else value[edges[number].source]

    for v in evaluation_order(net):
        if net.nodes[v].kind == INPUT:
            value[v] = vector[inputs.index(v)]
        else:
            value[v] = gate_value(net.nodes[v].kind, [seen(number) for number in into[v]])

    after = list(words)
    for number, edge in enumerate(edges):
        if edge.count:  # "the word moves down a bit and u's value becomes bit w - 1"
            after[number] = words[number] >> 1 | value[edge.source] << edge.count - 1
    return after, bytes(value[v] for v in outputs)


# --- What programs print ------------------------------------------------------------------------


def reread(text: bytes) -> bytes:
    """The text read and written again, or the refusal's frame."""
    try:
        return write(read(text), len(text))
    except Refusal as refusal:
        return refusal.frame()
