"""The walk from the inputs, done in the plainest way, for the tests to compare the proved program with.

Written from the request ("A reach walk in layers") and not from the program, which makes passes over a
queue of marked nodes: here each node has the fewest edges over which an input reaches it, found by
lowering distances along the edges until none can be lowered, and a pass is only a bound on them.

  distances           how many edges lie between each node and the nearest input
  layers              the marked nodes before the first pass, and after each up to one that marks nothing
  walked              what the program prints of a text

Python 3.9 or later, standard library only. `python3 -m doctest tests/walking.py` tries the examples.
"""

from __future__ import annotations

from math import inf

from reference import INPUT, Netlist, Refusal, read_lines


def distances(net: Netlist) -> list[float]:
    """For each node the fewest edges on a walk from an input to it; infinite where there is none.

    >>> from netlists import card_g
    >>> distances(card_g())
    [0, 0, 1, 1, 2, 3]
    """
    found = [0 if node.kind == INPUT else inf for node in net.nodes]
    lowered = True
    while lowered:
        lowered = False
        for edge in net.edges:
            if found[edge.source] + 1 < found[edge.target]:
                found[edge.target] = found[edge.source] + 1
                lowered = True
    return found


def layers(net: Netlist) -> list[list[int]]:
    """"Before the first just the inputs are marked, after pass k exactly the nodes that some input reaches over
    at most k edges": for k from 0 to the first pass that marks nothing. Where there is no input, none is made.

    >>> from netlists import card_a
    >>> layers(card_a())
    [[1, 0, 0, 0], [1, 1, 0, 0], [1, 1, 1, 0], [1, 1, 1, 1], [1, 1, 1, 1]]
    """
    far = distances(net)
    reached = [d for d in far if d < inf]
    passes = int(max(reached)) + 1 if reached else 0
    return [[int(d <= k) for d in far] for k in range(passes + 1)]


def walked(text: bytes) -> bytes:
    """What the program prints of a text: a line for each layer, a digit for each node; or the refusal's frame.

    >>> walked(b"")
    b'0F01010001\\n'
    """
    try:
        net = read_lines(text)
    except Refusal as refusal:
        return refusal.frame()
    return b"".join(bytes(b"01"[mark] for mark in marks) + b"\n" for marks in layers(net))
