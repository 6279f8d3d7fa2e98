"""A refusal in a sentence, and what to do about it; or what a retiming did.

  explained(text, printed)    the lines that `listing --explain` adds on standard error
  sentence(refusal, text)     the sentence of one refusal
"""

from __future__ import annotations

import re
from collections.abc import Callable, Iterator, Sequence

from texts import (
    LONGEST_INPUT, Printed, edge_name, kind_name, longest_chain, netlist_of, node_name, printed_by, working_delay,
)
from reference import (
    EDGE_LINE, GATE_RULES, HEAD_LINE, INPUT, NODE_LINE, OUTPUT, Edge, Netlist, Node, Refusal, line_numbers, reached,
)
from retiming import chosen_values, least_lags, wanted_values

# Of each frame kind: what the line is called, its length in digits, its layout.
FRAMES = {1: ("head", 16, HEAD_LINE), 2: ("node", 6, NODE_LINE), 3: ("edge", 20, EDGE_LINE)}


# --- Reading a faulty text as far as it goes ----------------------------------------------------


def lines_of(text: bytes) -> tuple[list[bytes], bytes]:
    """The lines that a line feed ends, and what stands after the last one."""
    *lines, rest = text.split(b"\n")
    return lines, rest


def head_of(text: bytes) -> tuple[int, ...] | None:
    """Period, derate, N and E, if the first line is a head."""
    lines, _ = lines_of(text)
    return line_numbers(lines[0], HEAD_LINE, 1) if lines else None


def kind_at(text: bytes, line: int) -> int:
    """The frame kind that a line should have; 0 after the last one."""
    head = head_of(text)
    if line == 1 or head is None:
        return 1
    return 2 if line < 2 + head[2] else 3 if line < 2 + head[2] + head[3] else 0


def unchecked(text: bytes) -> Netlist:
    """The netlist of a text whose lines are right, whatever its wiring."""
    lines, _ = lines_of(text)
    period, derate, nodes, edges = head_of(text)
    return Netlist(
        period, derate,
        [Node(*line_numbers(line, NODE_LINE, 2)) for line in lines[1:1 + nodes]],
        [Edge(*line_numbers(line, EDGE_LINE, 3)) for line in lines[1 + nodes:1 + nodes + edges]],
    )


def shown(line: bytes) -> str:
    """A line as it is quoted: at most 40 characters, those that do not print as escapes.

    >>> shown(b'0203o1')
    "'0203o1'"
    """
    return repr(line[:40].decode("latin-1")) + (" …" if len(line) > 40 else "")


# --- One sentence for each number ---------------------------------------------------------------


def line_fault(text: bytes, line: int) -> str:
    """1: which of digit, length, end, kind, missing, surplus it is."""
    lines, rest = lines_of(text)
    kind = kind_at(text, line)
    if kind == 0:
        extra = lines[line - 1] if line <= len(lines) else rest
        return f"Line {line}, {shown(extra)}, is one too many: the head names {line - 2} nodes and edges. Take it out, or correct the head's numbers."
    name, digits, _ = FRAMES[kind]
    wanted = f"Line {line} should be the {name} line" if kind == 1 else f"Line {line} should be {'a' if kind == 2 else 'an'} {name} line"
    wanted += f": {digits} hexadecimal digits, beginning with {kind:02X}"
    if line > len(lines):
        if line == len(lines) + 1 and rest:
            return f"{wanted}. It is {shown(rest)}, and no line feed ends it. End the line with one line feed."
        return f"{wanted}; the text ends before it. Add the missing lines, or correct the head's numbers."
    found = lines[line - 1]
    bad = re.search(rb"[^0-9A-F]", found)
    if found.endswith(b"\r"):
        return f"{wanted}. It ends with a carriage return. Save the text with line feeds alone."
    if bad:
        digit = found[bad.start():bad.start() + 1]
        hint = "write it in upper case" if digit in b"abcdef" else "only 0-9 and A-F are digits"
        return f"{wanted}. It is {shown(found)}, with {shown(digit)} at place {bad.start() + 1}: {hint}."
    if len(found) != digits:
        return f"{wanted}. It is {shown(found)}, {len(found)} digits. Complete it, or take out what is too much."
    return f"{wanted}. It is {shown(found)}, which begins with {found[:2].decode()}. Check the order of the lines: head, nodes, edges."


def head_fault(text: bytes, _line: int) -> str:
    """2: which number of the head is out of its range."""
    names = ("period", "derate", "number of nodes", "number of edges")
    ranges = ((1, 65535), (50, 250), (2, 512), (1, 1024))
    faults = [f"the {name} is {value}, and may be {low:,} to {high:,}"
              for name, value, (low, high) in zip(names, head_of(text), ranges) if not low <= value <= high]
    return f"Line 1, {shown(lines_of(text)[0][0])}: {'; '.join(faults)}. Correct the head."


def node_fault(text: bytes, line: int) -> str:
    """3: gate kind or delay."""
    found = lines_of(text)[0][line - 1]
    kind, delay = line_numbers(found, NODE_LINE, 2)
    where = f"Line {line}, {shown(found)} (node {line - 2})"
    if kind not in GATE_RULES:
        return f"{where}: there is no gate kind {kind:02X}; the last one is {max(GATE_RULES):02X}. Correct the kind."
    low, high = GATE_RULES[kind][2:]
    allowed = f"exactly {low}" if low == high else f"{low} to {high}"
    return f"{where}: the delay of gate kind {kind:02X}, {kind_name(kind)}, is {allowed}, and here it is {delay}. Correct the delay."


def edge_fault(text: bytes, line: int) -> str:
    """4: node number, count, bits or pin."""
    lines, _ = lines_of(text)
    nodes = head_of(text)[2]
    edge = Edge(*line_numbers(lines[line - 1], EDGE_LINE, 3))
    kinds = [line_numbers(lines[1 + v], NODE_LINE, 2)[0] for v in range(nodes)]
    faults = []
    for verb, v in (("leaves", edge.source), ("enters", edge.target)):
        if v >= nodes:
            faults.append(f"it {verb} node {v}, and the last node is {nodes - 1}")
    if edge.source < nodes and kinds[edge.source] == OUTPUT:
        faults.append(f"it leaves node {edge.source}, which is an output")
    if edge.target < nodes and kinds[edge.target] == INPUT:
        faults.append(f"it enters node {edge.target}, which is an input")
    if edge.count > 32:
        faults.append(f"it has {edge.count} registers, and at most 32 fit")
    elif edge.starts >> edge.count:
        faults.append(f"its start values {edge.starts:08X} have a bit at or above the register count {edge.count}")
    return f"Line {line}, {shown(lines[line - 1])} (edge {line - 2 - nodes}): {'; '.join(faults)}. Correct the edge."


def fan_in_fault(text: bytes, v: int) -> str:
    """5: how many in-edges there are, and which."""
    net = unchecked(text)
    entering = [e for e, edge in enumerate(net.edges) if edge.target == v]
    fewest, most = GATE_RULES[net.nodes[v].kind][:2]
    wanted = str(fewest) if fewest == most else f"{fewest} to {most}"
    which = f": {', '.join(map(str, entering))}" if entering else ""
    return (f"{node_name(net, v)} (line {v + 2}) has {len(entering)} in-edges{which}; it must have {wanted}. "
            "Add or take out edges, or choose another gate kind.")


def loop_of(net: Netlist) -> list[int]:
    """The nodes of a loop without a register, the first one again at the end."""
    after: dict[int, list[int]] = {v: [] for v in range(len(net.nodes))}
    for edge in net.edges:
        if edge.count == 0:
            after[edge.source].append(edge.target)
    done: set[int] = set()
    for first in after:
        way, rest = [first], [iter(after[first])]
        while way and first not in done:
            there = next(rest[-1], None)
            if there is None:
                done.add(way.pop())
                rest.pop()
            elif there in way:
                return [*way[way.index(there):], there]
            elif there not in done:
                way.append(there)
                rest.append(iter(after[there]))
    return []


def loop_fault(text: bytes, _place: int) -> str:
    """6: one such loop."""
    net = unchecked(text)
    nodes = " to ".join(node_name(net, v) for v in loop_of(net))
    return f"There is a loop without a register: {nodes}. Put a register on one of its edges."


def reach_fault(text: bytes, v: int) -> str:
    """7: which of the two it is."""
    net = unchecked(text)
    fed = v in reached(net.numbers_of(INPUT), ((e.source, e.target) for e in net.edges))
    what = "reaches no output" if fed else "is reached from no input"
    return f"{node_name(net, v)} (line {v + 2}) {what}. Connect it, or take it out."


def smallest_period(text: bytes) -> int | None:
    """The smallest period that the program does not refuse with 8, found by halving; None where there is none."""
    def met(period: int) -> bool:
        refusal = printed_by(b"01%04X" % period + text[6:]).refusal
        return refusal is None or refusal.number != 8

    low, high = 1, 65535
    if not met(high):
        return None
    while low < high:
        middle = (low + high) // 2
        low, high = (low, middle) if met(middle) else (middle + 1, high)
    return low


def period_fault(text: bytes, _place: int) -> str:
    """8: what the period would have to be."""
    net = netlist_of(text)
    delays = [working_delay(node.delay, net.derate) for node in net.nodes]
    slowest = max(range(len(net.nodes)), key=lambda v: delays[v])
    why = f"No legal retiming meets the period {net.period}. "
    if delays[slowest] > net.period:
        why += f"{node_name(net, slowest)} alone has a working delay of {delays[slowest]}. "
    least = smallest_period(text)
    if least is None:
        return why + "No period is long enough. Put registers on the chains from inputs to outputs, or take faster gates."
    return why + f"The smallest period that can be met is {least}. Set that one, add registers, or take faster gates."


def count_fault(text: bytes, e: int) -> str:
    """9: the edge and its new count."""
    net = netlist_of(text)
    lags = least_lags(net)
    edge = net.edges[e]
    count = edge.count + lags[edge.target] - lags[edge.source]
    return (f"The least retiming puts {count} registers on {edge_name(net, e)}, and at most 32 fit. "
            "Split the edge by a buffer, or set a longer period.")


def many_fault(text: bytes, _place: int) -> str:
    """10: how many values would be chosen."""
    net = netlist_of(text)
    chosen = len(chosen_values(net, least_lags(net)))
    return f"The least retiming needs {chosen} start values chosen, and at most 24 are searched. Set a longer period, or retime the parts by themselves."


def start_fault(text: bytes, _place: int) -> str:
    """11: two branches that ask one value to be 0 and 1, where there are such."""
    net = netlist_of(text)
    asked: dict[tuple[int, int], int] = {}
    why = "No choice of start values carries the start: whatever they are, some register would start with another value than the original's. "
    for v, t, value in wanted_values(net, least_lags(net)):
        if asked.setdefault((v, t), value) != value:
            why += f"The edges that leave {node_name(net, v)} ask it for 0 and for 1 at clock {t}. "
            break
    return why + "Change those start values, or set a longer period, so that fewer registers move."


def room_fault(_text: bytes, _place: int) -> str:
    """12, of the calls that lend buffers."""
    return "A lent buffer or table is shorter than what is to be written. Lend a longer one: a text needs as many bytes as the one retimed, a lag table one number for each node, outputs one byte for each output and clock."


def vector_fault(_text: bytes, _place: int) -> str:
    """13, of running and stepping."""
    return "The vectors do not fit: their number of bytes is no multiple of the inputs (or, stepping, not one vector), a byte is above 1, or a machine word has a bit at or above its edge's register count. Correct the vectors or the machine's words."


SENTENCES: dict[int, Callable[[bytes, int], str]] = {
    1: line_fault, 2: head_fault, 3: node_fault, 4: edge_fault, 5: fan_in_fault, 6: loop_fault, 7: reach_fault,
    8: period_fault, 9: count_fault, 10: many_fault, 11: start_fault, 12: room_fault, 13: vector_fault,
}


def sentence(refusal: Refusal, text: bytes) -> str:
    """The refusal in a sentence, and what to do about it."""
    return f"Refused, number {refusal.number}. {SENTENCES[refusal.number](text, refusal.place)}"


# --- What a retiming did ------------------------------------------------------------------------


def chain_line(when: str, net: Netlist) -> str:
    """The longest chain of a netlist."""
    chain, delay = longest_chain(net)
    names = [node_name(net, v) for v in chain]
    if len(names) > 6:
        names = [*names[:3], f"… {len(names) - 5} more …", *names[-2:]]
    return f"Longest chain {when}: {delay} ({', '.join(names)})"


def chosen_lines(old: Netlist, new: Netlist, lags: Sequence[int]) -> Iterator[str]:
    """The start values that were chosen, edge by edge."""
    chosen: dict[int, list[int]] = {}
    for e, t in chosen_values(old, lags):
        chosen.setdefault(e, []).append(new.edges[e].starts >> t & 1)
    if not chosen:
        yield "Start values chosen: none"
    for e, values in chosen.items():
        yield f"Start values chosen on {edge_name(new, e)}: {''.join(map(str, values))}"


def summary(text: bytes, printed: Printed) -> Iterator[str]:
    """The longest chain and the registers before and after, the nodes that moved, the values chosen."""
    old, new = netlist_of(text), netlist_of(printed.text)
    yield chain_line("before", old)
    yield chain_line("after", new) + f"; the period is {new.period}"
    yield f"Registers before: {sum(e.count for e in old.edges)}, after: {sum(e.count for e in new.edges)}"
    moved = [f"{node_name(old, v)} by {lag:+d}" for v, lag in enumerate(printed.lags) if lag]
    yield f"Nodes moved: {len(moved)} of {len(old.nodes)}" + (f": {', '.join(moved[:12])}" if moved else "") + (" …" if len(moved) > 12 else "")
    yield from chosen_lines(old, new, printed.lags)


def explained(text: bytes, printed: Printed) -> list[str]:
    """The lines that are added to the program's output."""
    text = text[:LONGEST_INPUT]
    if printed.refusal:
        return [sentence(printed.refusal, text)]
    return list(summary(text, printed)) if printed.raw else ["Nothing was printed."]
