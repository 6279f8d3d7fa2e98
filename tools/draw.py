"""usage: draw [--before-after] [--dot] < TEXT > PICTURE.svg

Draws a netlist text (Graphviz): nodes by kind and number with their working delay, the registers of each edge with their start values
in the order in which the entered node sees them, a selector's in-edges by their parts, the longest chain in red.

  --before-after    the original and the retimed netlist side by side, with each node's lag
  --dot             writes Graphviz's own language instead of a picture

Exit status: 0 drawn, 1 the text is refused (said on standard error; with --before-after the original is still drawn), 2 wrong usage or no Graphviz.
"""

from __future__ import annotations

import subprocess
import sys
from collections.abc import Sequence

from explain import sentence
from texts import LONGEST_INPUT, kind_name, longest_chain, netlist_of, printed_by, values_of, working_delay
from reference import INPUT, OUTPUT, SELECTOR, Netlist, Refusal

SHAPES = {INPUT: "ellipse", OUTPUT: "ellipse"}
PARTS = ("select", "0", "1")  # of a selector's in-edges, by edge number: which value of select asks for it
HOT = "#c0392b"


def quoted(words: str) -> str:
    """A string of Graphviz's language."""
    return '"' + words.replace("\\", "\\\\").replace('"', '\\"').replace("\n", "\\n") + '"'


def node_label(net: Netlist, v: int, lags: Sequence[int]) -> str:
    """Kind and number; working delay of a gate; lag, where lags are shown."""
    lines = [f"{kind_name(net.nodes[v].kind)} {v}"]
    if net.nodes[v].kind not in (INPUT, OUTPUT):
        lines.append(f"delay {working_delay(net.nodes[v].delay, net.derate)}")
    if lags and lags[v]:
        lines.append(f"lag {lags[v]:+d}")
    return "\n".join(lines)


def register_label(count: int, starts: int) -> str:
    """How many registers, and their start values, eight to a line."""
    values = values_of(count, starts)
    return "\n".join([f"{count} reg", *(values[i:i + 8] for i in range(0, count, 8))])


def node_lines(net: Netlist, prefix: str, lags: Sequence[int], chain: Sequence[int]) -> list[str]:
    """The nodes; those that moved are filled, those of the longest chain red."""
    lines = []
    for v, node in enumerate(net.nodes):
        marks = [f"label={quoted(node_label(net, v, lags))}"]
        marks += [f"shape={SHAPES[node.kind]}"] if node.kind in SHAPES else []
        marks += [f"color={quoted(HOT)}", "penwidth=2.2"] if v in chain else []
        marks += ['style="filled,rounded"', 'fillcolor="#fdebd0"'] if lags and lags[v] else []
        lines.append(f"  {prefix}{v} [{', '.join(marks)}];")
    return lines


def bracketed(marks: Sequence[str]) -> str:
    """The marks of an edge, where it has some."""
    return f" [{', '.join(marks)}]" if marks else ""


def part_marks(net: Netlist, e: int) -> list[str]:
    """At the head of an edge into a selector: which part of it the edge is."""
    target = net.edges[e].target
    if net.nodes[target].kind != SELECTOR:
        return []
    earlier = sum(edge.target == target for edge in net.edges[:e])
    return [f"headlabel={quoted(PARTS[earlier])}", "labeldistance=1.6"]


def edge_lines(net: Netlist, prefix: str, chain: Sequence[int]) -> list[str]:
    """The edges; the registers of one are a box on its way, so that no label lies on a line."""
    hot = set(zip(chain, chain[1:]))
    lines = []
    for e, edge in enumerate(net.edges):
        here, there = f"{prefix}{edge.source}", f"{prefix}{edge.target}"
        marks = part_marks(net, e)
        if edge.count:
            box = f"{prefix}r{e}"
            label = quoted(register_label(edge.count, edge.starts))
            lines.append(f'  {box} [shape=box, style=filled, fillcolor="#d6eaf8", fontname=Courier, fontsize=10, margin="0.06,0.03", label={label}];')
            lines.append(f"  {here} -> {box} [arrowhead=none]; {box} -> {there}{bracketed(marks)};")
        else:
            marks += [f"color={quoted(HOT)}", "penwidth=2.2"] if (edge.source, edge.target) in hot else []
            lines.append(f"  {here} -> {there}{bracketed(marks)};")
    return lines


def body(net: Netlist, prefix: str, lags: Sequence[int]) -> list[str]:
    """One netlist; the names of its nodes begin with a prefix."""
    chain, _ = longest_chain(net)
    return node_lines(net, prefix, lags, chain) + edge_lines(net, prefix, chain)


def title(what: str, net: Netlist) -> str:
    """What is drawn, its longest chain and its registers."""
    return f"{what}: period {net.period}, longest chain {longest_chain(net)[1]}, registers {sum(e.count for e in net.edges)}"


def cluster(name: str, label: str, lines: Sequence[str]) -> list[str]:
    """A frame round one netlist."""
    return [f" subgraph cluster_{name} {{", f"  label={quoted(label)}; labelloc=t; fontsize=16; color=\"#bbbbbb\"; margin=16;", *lines, " }"]


def graph_of(parts: Sequence[str], direction: str) -> str:
    """A whole picture; signals run from left to right (LR) or downward (TB)."""
    return "\n".join([
        "digraph netlist {",
        f" rankdir={direction}; nodesep=0.3; ranksep=0.35; fontname=Helvetica;",
        " node [shape=box, style=rounded, fontname=Helvetica, fontsize=12, margin=\"0.12,0.06\"];",
        " edge [fontname=Courier, fontsize=11, arrowsize=0.7];",
        *parts, "}", ""])


def drawn(text: bytes, both: bool) -> tuple[str, Refusal | None]:
    """The picture in Graphviz's language, and the refusal, if retiming was asked for and refused."""
    net = netlist_of(text)
    if not both:
        return graph_of(cluster("one", title("Netlist", net), body(net, "n", ())), "LR"), None
    printed = printed_by(text)
    parts = cluster("before", title("Original", net), body(net, "a", printed.lags))
    if printed.refusal:
        return graph_of(parts, "TB"), printed.refusal
    new = netlist_of(printed.text)
    return graph_of([*parts, *cluster("after", title("Retimed", new), body(new, "b", printed.lags))], "TB"), None


def main() -> int:
    words = sys.argv[1:]
    if any(word not in ("--before-after", "--dot") for word in words):
        print(__doc__, file=sys.stderr)
        return 2
    text = sys.stdin.buffer.read()[:LONGEST_INPUT]
    try:
        dot, refusal = drawn(text, "--before-after" in words)
    except Refusal as found:
        print(f"draw: {sentence(found, text)}", file=sys.stderr)
        return 1
    if "--dot" in words:
        sys.stdout.write(dot)
    else:
        try:
            done = subprocess.run(["dot", "-Tsvg"], input=dot.encode(), stdout=sys.stdout.buffer, check=False)
        except FileNotFoundError:
            print("draw: Graphviz is not installed (Debian: apt-get install graphviz)", file=sys.stderr)
            return 2
        if done.returncode:
            return 2
    if refusal:
        print(f"draw: {sentence(refusal, text)}", file=sys.stderr)
    return 1 if refusal else 0


if __name__ == "__main__":
    sys.exit(main())
