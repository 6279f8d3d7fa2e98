"""Rails, counted in the plainest way, for the tests to compare the proved program with.

Written from the request ("The chip with shared rails") and from the paper alone, and not from the
program, which compares each branch with those before it. Here the different runs of a node are a set.

  outward             the start values of an edge, read from the node that it leaves
  runs                the different runs of start values that a node's branches begin with
  rails               a text's rails, counted into a table
  counted             what the program prints of that

A node's rails are the registers that are paid for where its branches (its out-edges) share them.

Python 3.9 or later, standard library only. `python3 -m doctest tests/rails.py` tries the examples.
"""

from __future__ import annotations

from collections.abc import Sequence
from struct import Struct

from reference import Edge, Netlist, Refusal, check_room, frame_line, read

TOTAL_LINE = Struct(">BI")  # 0A, total
RAIL_LINE = Struct(">BHI")  # 0B, node, its rails


def outward(edge: Edge) -> tuple[int, ...]:
    """The start values of an edge, "read from the feeding node outward".

    "Bit k is the value that the entered node sees at clock k", so the register next to the node that the
    edge leaves holds the last bit.

    >>> outward(Edge(0, 1, 3, 0b100)), outward(Edge(0, 1))
    ((1, 0, 0), ())
    """
    return tuple(edge.starts >> k & 1 for k in reversed(range(edge.count)))


def runs(net: Netlist, node: int) -> set[tuple[int, tuple[int, ...]]]:
    """"It pays once for each different run of start values read from the feeding node outward": the distance
    of a register, the nearest at 1, and its value behind those of all nearer ones.

    >>> from retiming_cases import fork
    >>> sorted(runs(fork([], [(2, 0b01), (1, 0)]), 0))
    [(1, (0,)), (2, (0, 1))]
    """
    rows = [outward(edge) for edge in net.edges if edge.source == node]
    return {(distance, row[:distance]) for row in rows for distance in range(1, len(row) + 1)}


def rails(text: bytes, table: Sequence[int]) -> tuple[int, list[int]]:
    """"For a text writes each node's count, in node order, into a lent table of 32-bit words and gives the total
    ... A table shorter than the nodes is 12." The total, and what the table holds then; words past the
    nodes stay.

    Card D, whose second buffer feeds two registers with different values; two branches whose first values
    differ, and two whose second values do:

    >>> from netlists import CARDS
    >>> from reference import text_of
    >>> from retiming_cases import fork
    >>> rails(text_of(CARDS["D"]), [7] * 6)
    (2, [0, 0, 2, 0, 0, 7])
    >>> [rails(text_of(fork([], [(2, 0b10), (2, starts)])), [0] * 3)[0] for starts in (0b00, 0b11, 0b10)]
    [4, 3, 2]
    """
    net = read(text)
    check_room(len(net.nodes), len(table))
    counts = [len(runs(net, v)) for v in range(len(net.nodes))]
    return sum(counts), [*counts, *table[len(counts):]]


def rail_lines(total: int, counts: Sequence[int]) -> bytes:
    """The frame `0A` of the total, then the frame `0B` of each node, as lines.

    >>> rail_lines(2, [0, 2])
    b'0A00000002\\n0B000000000000\\n0B000100000002\\n'
    """
    lines = [TOTAL_LINE.pack(0x0A, total), *(RAIL_LINE.pack(0x0B, v, count) for v, count in enumerate(counts))]
    return b"".join(frame_line(line) for line in lines)


def counted(text: bytes, room: int) -> bytes:
    """What the program prints of a text, counted into a table of `room` words: the lines, or the refusal's frame.

    >>> counted(b"", 0)
    b'0F01010001\\n'
    """
    try:
        total, table = rails(text, [0] * room)
    except Refusal as refusal:
        return refusal.frame()
    return rail_lines(total, table[:len(read(text).nodes)])
