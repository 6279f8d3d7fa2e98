"""Netlist texts, as the scripts of this folder look at them.

  netlist_of(text)        the netlist of a text (tests/reference.py reads it)
  printed_by(text)        what the proved program `listing` prints for a text
  Printed                 that output taken apart: the new text and the lags, or the refusal
  node_name, edge_name    a node by kind and number, an edge by its ends
  working_delay           "delay times derate, divided by 100, rounded to the nearest whole, a half to the even neighbour"
  longest_chain           the nodes of a longest chain, and the sum of their working delays

Python 3.9 or later, standard library only.
"""

from __future__ import annotations

import subprocess
import sys
from collections.abc import Sequence
from dataclasses import dataclass
from graphlib import TopologicalSorter
from pathlib import Path

ROOT = Path(__file__).resolve().parent.parent
sys.path.insert(0, str(ROOT / "tests"))

from reference import INPUT, OUTPUT, Netlist, Refusal, read  # noqa: E402  (the path comes first)

KIND_NAMES = ("input", "output", "buffer", "inverter", "AND", "OR", "XOR", "NAND", "NOR", "XNOR", "selector")
LONGEST_INPUT = 32768  # "a text of up to 32,768 bytes (more decides nothing)"
PROGRAM = ROOT / "crates" / "listing" / "out" / "listing"


def netlist_of(text: bytes) -> Netlist:
    """The netlist of a text; raises Refusal where it does not read."""
    return read(text[:LONGEST_INPUT])


# --- The proved program -------------------------------------------------------------------------


@dataclass(frozen=True)
class Printed:
    """What `listing` printed: `text` and `lags`, or the refusal's number, place kind and place."""

    raw: bytes
    text: bytes = b""
    lags: Sequence[int] = ()
    refusal: Refusal | None = None

    @property
    def status(self) -> int:
        """0 retimed, 1 refused, 2 nothing was printed."""
        return 2 if not self.raw else 1 if self.refusal else 0


def built_program() -> Path:
    """The program `listing`; proved and built on first use, which takes some minutes."""
    if not PROGRAM.is_file():
        print("listing: proving and building the program first; this takes some minutes", file=sys.stderr)
        done = subprocess.run(["rt", "run"], cwd=ROOT / "crates" / "listing", stdin=subprocess.DEVNULL, capture_output=True, check=False)
        sys.stderr.write(done.stderr.decode("utf-8", "replace"))
        if done.returncode != 0 or not PROGRAM.is_file():
            sys.stderr.write(done.stdout.decode("utf-8", "replace"))
            raise SystemExit("listing: the program could not be built")
    return PROGRAM


def printed_by(text: bytes) -> Printed:
    """What the program prints for a text."""
    return taken_apart(subprocess.run([built_program()], input=text, capture_output=True, check=False).stdout)


def taken_apart(raw: bytes) -> Printed:
    """The program's output: `0F` is a refusal; else the lines of kind 04 are lags, the others the text.

    >>> taken_apart(b'0F0B000000\\n').refusal.number
    11
    >>> taken_apart(b'0100016400020001\\n0400000000\\n040001FFFE\\n').lags
    [0, -2]
    """
    if raw.startswith(b"0F"):
        frame = bytes.fromhex(raw.strip().decode())
        return Printed(raw, refusal=Refusal(frame[1], frame[2], int.from_bytes(frame[3:5], "big")))
    lines = raw.splitlines(keepends=True)
    text = b"".join(line for line in lines if not line.startswith(b"04"))
    lags = [int.from_bytes(bytes.fromhex(line[6:10].decode()), "big", signed=True) for line in lines if line.startswith(b"04")]
    return Printed(raw, text, lags)


# --- Names --------------------------------------------------------------------------------------


def kind_name(kind: int) -> str:
    """A gate kind in a word."""
    return KIND_NAMES[kind] if kind < len(KIND_NAMES) else f"kind {kind:02X}"


def node_name(net: Netlist, v: int) -> str:
    """A node by kind and number: 'AND 5'."""
    return f"{kind_name(net.nodes[v].kind)} {v}"


def edge_name(net: Netlist, e: int) -> str:
    """An edge by its ends: 'edge 7 (AND 5 to output 6)'."""
    edge = net.edges[e]
    return f"edge {e} ({node_name(net, edge.source)} to {node_name(net, edge.target)})"


def values_of(count: int, starts: int) -> str:
    """Start values in the order in which the entered node sees them.

    >>> values_of(4, 0b0010)
    '0100'
    """
    return "".join(str(starts >> t & 1) for t in range(count))


# --- Chains -------------------------------------------------------------------------------------


def working_delay(delay: int, derate: int) -> int:
    """
    >>> working_delay(1, 50), working_delay(1, 149), working_delay(3, 50), working_delay(5, 50)
    (0, 1, 2, 2)
    """
    whole, rest = divmod(delay * derate, 100)
    return whole + (2 * rest + whole % 2 > 100)


def longest_chain(net: Netlist) -> tuple[list[int], int]:
    """The nodes of a longest chain without a register, from its first to its last, and its working delay."""
    delays = [working_delay(node.delay, net.derate) for node in net.nodes]
    before: list[set[int]] = [set() for _ in net.nodes]
    for edge in net.edges:
        if edge.count == 0:
            before[edge.target].add(edge.source)
    total: dict[int, int] = {}
    source: dict[int, int | None] = {}
    for v in TopologicalSorter(dict(enumerate(before))).static_order():
        source[v] = max(sorted(before[v]), key=lambda u: total[u], default=None)
        total[v] = delays[v] + (total[source[v]] if source[v] is not None else 0)
    end = max(range(len(net.nodes)), key=lambda v: total[v])
    chain, v = [], end
    while v is not None:
        chain.append(v)
        v = source[v]
    # Pins have no delay: a chain is shown from its first gate to its last.
    gates = [u for u in reversed(chain) if net.nodes[u].kind not in (INPUT, OUTPUT)]
    return gates or chain[::-1], total[end]
