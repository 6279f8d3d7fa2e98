"""usage: blif < TEXT > NETLIST.blif
       blif --read [--period P] [--derate D] [--delay KIND=DELAY]... < NETLIST.blif > TEXT

Writes a netlist text as BLIF, which ABC and Yosys read: node v is the signal n<v>, registers are latches with their start values.
Two in-edges of a gate from one signal are told apart by a wire of their own, w<edge>.

  --read               the other way: a text from BLIF with one model whose gates are those of the text format. Every latch needs the start value 0 or 1
  --period P           the head's period (default 65535)
  --derate D           the head's derate in percent (default 100)
  --delay KIND=DELAY   the delay of a gate kind (buffer, inverter, and, or, xor, nand, nor, xnor, selector; default 1)

Exit status: 0 written, 1 the text or the BLIF cannot be taken (said on standard error), 2 wrong usage.
"""

from __future__ import annotations

import re
import sys
from collections.abc import Iterator, Sequence
from dataclasses import dataclass, field
from itertools import permutations, product

from explain import sentence
from texts import KIND_NAMES, LONGEST_INPUT, netlist_of
from reference import (
    AND, BUFFER, INPUT, INVERTER, NAND, NOR, OR, OUTPUT, SELECTOR, XNOR, XOR, Edge, Netlist, Node, Refusal, check_record, text_of,
)


# --- Writing ------------------------------------------------------------------------------------


def cover_of(kind: int, inputs: int) -> Iterator[str]:
    """The rows of `.names` for a gate: each row of inputs that gives 1; for AND, OR, their inverses and selectors the short form.

    >>> list(cover_of(AND, 3)), list(cover_of(NOR, 2)), list(cover_of(XOR, 2)), list(cover_of(SELECTOR, 3))
    (['111 1'], ['00 1'], ['01 1', '10 1'], ['01- 1', '1-1 1'])
    """
    if kind in (OUTPUT, BUFFER, INVERTER):
        yield "0 1" if kind == INVERTER else "1 1"
    elif kind in (AND, NOR):
        yield ("1" if kind == AND else "0") * inputs + " 1"
    elif kind in (OR, NAND):
        for i in range(inputs):
            yield "-" * i + ("1" if kind == OR else "0") + "-" * (inputs - 1 - i) + " 1"
    elif kind == SELECTOR:
        yield from ("01- 1", "1-1 1")
    else:
        for row in product("01", repeat=inputs):
            if row.count("1") % 2 == (kind == XOR):
                yield "".join(row) + " 1"


def latch_lines(net: Netlist, e: int) -> list[str]:
    """The registers of an edge: r<e>_0 is the one that the entered node sees, so start value k is that of r<e>_k."""
    edge = net.edges[e]
    chain = [f"r{e}_{k}" for k in range(edge.count)] + [f"n{edge.source}"]
    return [f".latch {chain[k + 1]} {chain[k]} {edge.starts >> k & 1}" for k in range(edge.count)]


def gate_lines(net: Netlist, v: int, entering: Sequence[int]) -> list[str]:
    """The `.names` of a node that is no input, with wires for signals that it sees twice."""
    lines: list[str] = []
    seen: list[str] = []
    for e in entering:
        signal = f"r{e}_0" if net.edges[e].count else f"n{net.edges[e].source}"
        if signal in seen:
            lines += [f".names {signal} w{e}", "1 1"]
            signal = f"w{e}"
        seen.append(signal)
    return [*lines, f".names {' '.join(seen)} n{v}", *cover_of(net.nodes[v].kind, len(entering))]


def written(net: Netlist, name: str = "netlist") -> str:
    """A netlist as BLIF."""
    entering: list[list[int]] = [[] for _ in net.nodes]
    for e, edge in enumerate(net.edges):
        entering[edge.target].append(e)
    lines = [f"# period {net.period}, derate {net.derate}", f".model {name}"]
    lines += [".inputs " + " ".join(f"n{v}" for v in net.numbers_of(INPUT))]
    lines += [".outputs " + " ".join(f"n{v}" for v in net.numbers_of(OUTPUT))]
    for e in range(len(net.edges)):
        lines += latch_lines(net, e)
    for v, node in enumerate(net.nodes):
        if node.kind != INPUT:
            lines += gate_lines(net, v, entering[v])
    return "\n".join([*lines, ".end", ""])


# --- Reading ------------------------------------------------------------------------------------


class CannotTake(Exception):
    """What the BLIF has that a text cannot have."""


@dataclass
class Model:
    """One model: its pins, each gate's inputs and cover by its output, each latch's input and start value by its output."""

    inputs: list[str] = field(default_factory=list)
    outputs: list[str] = field(default_factory=list)
    gates: dict[str, tuple[list[str], list[str]]] = field(default_factory=dict)
    latches: dict[str, tuple[str, int]] = field(default_factory=dict)


def logical_lines(blif: str) -> Iterator[list[str]]:
    """The words of each line: comments taken off, lines that end with a backslash joined to the next."""
    joined = re.sub(r"\\\r?\n", " ", re.sub(r"#[^\n]*", "", blif))
    for line in joined.splitlines():
        if line.split():
            yield line.split()


def parsed(blif: str) -> Model:
    """The model of a BLIF file."""
    model, cover, models = Model(), None, 0
    for words in logical_lines(blif):
        key = words[0]
        if not key.startswith("."):
            if cover is None:
                raise CannotTake(f"'{' '.join(words)}' stands in no .names")
            cover.append(" ".join(words))
            continue
        cover = None
        if key == ".model":
            models += 1
            if models > 1:
                raise CannotTake("there is more than one model; flatten the design first")
        elif key == ".inputs":
            model.inputs += words[1:]
        elif key == ".outputs":
            model.outputs += words[1:]
        elif key == ".names":
            cover = []
            driven_once(model, words[-1])
            model.gates[words[-1]] = (words[1:-1], cover)
        elif key == ".latch":
            driven_once(model, words[2])
            model.latches[words[2]] = (words[1], start_value(words))
        elif key == ".end":
            break
        else:
            raise CannotTake(f"{key} is not known here; only .model, .inputs, .outputs, .names, .latch and .end are")
    return model


def driven_once(model: Model, signal: str) -> None:
    """A signal has one source."""
    if signal in model.gates or signal in model.latches or signal in model.inputs:
        raise CannotTake(f"the signal {signal} is driven twice")


def start_value(words: Sequence[str]) -> int:
    """The start value of a latch line: its last word."""
    value = words[-1] if len(words) in (4, 6) else "3"
    if value not in ("0", "1"):
        raise CannotTake(f"the latch {words[2]} has no start value 0 or 1 (its line: {' '.join(words)})")
    return int(value)


def table_of(inputs: int, cover: Sequence[str]) -> list[int]:
    """A cover's values for all rows of inputs, the first input highest."""
    ons, value = [], "1"
    for row in cover:
        *pattern, value = row.split()
        ons.append(re.compile((pattern[0] if pattern else "").replace("-", ".") + "$"))
    listed = int(value)
    rows = ("".join(row) for row in product("01", repeat=inputs))
    return [listed if any(on.match(row) for on in ons) else 1 - listed for row in rows]


def gate_of(signal: str, ins: Sequence[str], cover: Sequence[str]) -> tuple[int, Sequence[str]]:
    """The gate kind of a cover, and its inputs in the order that its edges have: of a selector select, first, second, in
    whichever order the cover has them.
    """
    inputs = len(ins)
    if not 1 <= inputs <= 8:
        raise CannotTake(f"the gate {signal} has {inputs} inputs; a gate has 1 to 8" + (" (there are no constants)" if inputs == 0 else ""))
    kinds = (BUFFER, INVERTER) if inputs == 1 else (AND, OR, XOR, NAND, NOR, XNOR, *[SELECTOR] * (inputs == 3))
    table, rows = table_of(inputs, cover), list(product((0, 1), repeat=inputs))
    for kind in kinds:
        value = dict(zip(rows, table_of(inputs, list(cover_of(kind, inputs)))))
        for order in permutations(range(inputs)) if kind == SELECTOR else [range(inputs)]:
            if table == [value[tuple(row[i] for i in order)] for row in rows]:
                return kind, [ins[i] for i in order]
    raise CannotTake(f"the gate {signal} is none of {', '.join(KIND_NAMES[kind] for kind in kinds)}; its cover: {'; '.join(cover)}")


def source_of(model: Model, signal: str) -> tuple[str, int, int]:
    """The gate or input behind a signal, how many latches stand between, and their start values."""
    count = starts = 0
    while signal in model.latches:
        signal, value = model.latches[signal]
        starts |= value << count
        count += 1
        if count > 32:
            raise CannotTake(f"more than 32 latches in a row end at {signal}; put a buffer between them")
    if signal not in model.gates and signal not in model.inputs:
        raise CannotTake(f"nothing drives the signal {signal}")
    return signal, count, starts


def netlist_from(model: Model, period: int, derate: int, delays: dict[int, int]) -> Netlist:
    """The netlist: inputs, gates in the order of the file, outputs; wires that `blif` itself wrote are no gates."""
    wires = {s for s, (ins, cover) in model.gates.items() if re.fullmatch(r"w\d+", s) and len(ins) == 1 and cover == ["1 1"]}
    gates = [s for s in model.gates if s not in wires]
    pins = {s for s in model.outputs if s in gates and len(model.gates[s][0]) == 1 and model.gates[s][1] == ["1 1"]
            and not any(s in ins for ins, _ in model.gates.values()) and not any(s == i for i, _ in model.latches.values())}
    inner = [s for s in gates if s not in pins]
    number = {s: v for v, s in enumerate([*model.inputs, *inner])}
    nodes = [Node(INPUT, 0) for _ in model.inputs]
    edges: list[Edge] = []

    def enter(signal: str, target: int) -> None:
        while signal in wires:
            signal = model.gates[signal][0][0]
        source, count, starts = source_of(model, signal)
        edges.append(Edge(number[source], target, count, starts))

    for signal in inner:
        ins, cover = model.gates[signal]
        kind, entering = gate_of(signal, ins, cover)
        nodes.append(Node(kind, delays.get(kind, 1)))
        for one in entering:
            enter(one, number[signal])
    for signal in model.outputs:
        enter(model.gates[signal][0][0] if signal in pins else signal, len(nodes))
        nodes.append(Node(OUTPUT, 0))
    return Netlist(period, derate, nodes, edges)


def taken(blif: str, period: int, derate: int, delays: dict[int, int]) -> bytes:
    """The text of a BLIF file."""
    net = netlist_from(parsed(blif), period, derate, delays)
    if not 2 <= len(net.nodes) <= 512 or not 1 <= len(net.edges) <= 1024:
        raise CannotTake(f"{len(net.nodes)} nodes and {len(net.edges)} edges; a text has 2 to 512 and 1 to 1,024")
    text = text_of(net)
    try:
        check_record(net)
    except Refusal as found:
        raise CannotTake(sentence(found, text)) from None
    return text


# --- The command line ---------------------------------------------------------------------------


class Usage(Exception):
    """A command line that is not understood."""


def options(words: Sequence[str]) -> tuple[bool, int, int, dict[int, int]]:
    """--read, --period, --derate and the delays."""
    read, numbers, delays = False, {"--period": 65535, "--derate": 100}, {}
    kinds = {name.lower(): kind for kind, name in enumerate(KIND_NAMES)}
    rest = iter(words)
    for word in rest:
        if word == "--read":
            read = True
        elif word in numbers:
            number = next(rest, "")
            if not number.isdigit():
                raise Usage(f"{word} asks for a number")
            numbers[word] = int(number)
        elif word == "--delay":
            name, _, delay = next(rest, "").partition("=")
            if kinds.get(name.lower(), 0) < BUFFER or not delay.isdigit():
                raise Usage("--delay asks for KIND=DELAY, as and=3")
            delays[kinds[name.lower()]] = int(delay)
        else:
            raise Usage(f"unknown option {word}")
    return read, numbers["--period"], numbers["--derate"], delays


def main() -> int:
    try:
        read, period, derate, delays = options(sys.argv[1:])
    except Usage as error:
        print(f"blif: {error}\n\n{__doc__}", file=sys.stderr)
        return 2
    given = sys.stdin.buffer.read()
    try:
        if read:
            sys.stdout.write(taken(given.decode("utf-8", "replace"), period, derate, delays).decode())
        else:
            sys.stdout.write(written(netlist_of(given)))
    except Refusal as found:
        print(f"blif: {sentence(found, given[:LONGEST_INPUT])}", file=sys.stderr)
        return 1
    except CannotTake as error:
        print(f"blif: {error}", file=sys.stderr)
        return 1
    return 0


if __name__ == "__main__":
    sys.exit(main())
