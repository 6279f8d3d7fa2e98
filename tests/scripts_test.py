"""The scripts for the bench: ./listing, ./draw, ./blif (python3 tests/scripts_test.py).

  explained_all     every number has its sentence, which names the line's content, the node or the edge
  listing_*         exit status, many files, output unchanged
  reread_cut_off    a read or a write that fails, and a text in one message: no status and no answer of its own
  drawn             pictures of the cards and of a netlist with 60 nodes
  blif_*            BLIF read back runs alike; what cannot be taken is said; ABC judges 200 retimings equivalent
"""

from __future__ import annotations

import os
import shutil
import socket
import subprocess
import sys
import tempfile
from pathlib import Path
from random import Random

ROOT = Path(__file__).resolve().parent.parent
sys.path[:0] = [str(ROOT / "tests"), str(ROOT / "tools")]

import blif
import explain
import texts
from netlists import CARDS, largest, random_netlist
from reference import Edge, Netlist, Node, Refusal, read, run, text_of
from retiming import listing
from retiming_cases import random_nets

SEED = 20026


def command(name: str, *words: str, given: bytes = b"") -> subprocess.CompletedProcess[bytes]:
    """One of the scripts, run on standard input."""
    return subprocess.run([ROOT / name, *words], input=given, capture_output=True, check=False)


def changed(text: bytes, line: int, new: bytes) -> bytes:
    """A text with another line."""
    lines = text.split(b"\n")
    return b"\n".join([*lines[:line - 1], new, *lines[line:]])


def wired(kinds: list[int], edges: list[Edge]) -> bytes:
    """A text with these nodes and edges, each gate of delay 1."""
    return text_of(Netlist(1, 100, [Node(k, 0 if k < 2 else 1) for k in kinds], edges))


A = text_of(CARDS["A"])

# For each number: a text that is refused with it, and words that its sentence must have.
REFUSED: list[tuple[int, bytes, list[str]]] = [
    (1, b"", ["Line 1", "head line", "ends before it"]),
    (1, changed(A, 3, b"0203o1"), ["Line 3", "'0203o1'", "'o' at place 5"]),
    (1, changed(A, 3, b"02030a"), ["upper case"]),
    (1, changed(A, 3, b"0203"), ["4 digits"]),
    (1, changed(A, 3, b"030301"), ["begins with 03"]),
    (1, A[:-1], ["no line feed"]),
    (1, A.replace(b"\n", b"\r\n"), ["carriage return"]),
    (1, A + b"020000\n", ["Line 9", "one too many"]),
    (2, changed(A, 1, b"0100013100040003"), ["derate is 49", "50 to 250"]),
    (3, changed(A, 3, b"020B01"), ["Line 3", "no gate kind 0B", "last one is 0A"]),
    (3, changed(A, 3, b"020A00"), ["selector", "1 to 255", "here it is 0"]),
    (3, changed(A, 3, b"020300"), ["inverter", "1 to 255", "here it is 0"]),
    (4, changed(A, 6, b"03000000090100000001"), ["Line 6", "edge 0", "enters node 9"]),
    (4, changed(A, 6, b"03000000012100000001"), ["33 registers"]),
    (4, changed(A, 6, b"03000000010100000003"), ["00000003", "register count 1"]),
    (4, changed(A, 6, b"03000300010100000001"), ["leaves node 3", "output"]),
    (4, changed(A, 6, b"03000100000100000001"), ["enters node 0", "input"]),
    (5, wired([0, 4, 1], [Edge(0, 1), Edge(1, 2)]), ["AND 1 (line 3)", "1 in-edges", "2 to 8"]),
    (5, wired([0, 10, 1], [Edge(0, 1), Edge(0, 1), Edge(1, 2)]), ["selector 1 (line 3)", "2 in-edges", "it must have 3"]),
    (6, wired([0, 4, 2, 1], [Edge(0, 1), Edge(1, 2), Edge(2, 1), Edge(2, 3)]), ["AND 1 to buffer 2 to AND 1"]),
    (7, wired([0, 2, 2, 1], [Edge(0, 1), Edge(2, 2, 1), Edge(1, 3)]), ["buffer 2 (line 4)", "from no input"]),
    (7, wired([0, 2, 2, 1], [Edge(0, 1), Edge(1, 2), Edge(1, 3)]), ["buffer 2", "reaches no output"]),
    (8, text_of(CARDS["F"]), ["period 1", "smallest period that can be met is 2"]),
    (9, text_of(CARDS["J"]), ["40 registers", "edge 1 (buffer 1 to output 2)"]),
    (10, text_of(CARDS["L"]), ["25 start values"]),
    (11, text_of(CARDS["D"]), ["buffer 2", "0 and for 1 at clock 0"]),
]
CALLS = [(12, ["buffer", "shorter"]), (13, ["vectors", "above 1"])]  # given to programs that lend buffers, not by `listing`


def explained_all() -> None:
    for number, text, words in REFUSED:
        done = command("listing", "--explain", given=text)
        said = done.stderr.decode()
        assert done.returncode == 1 and done.stdout.startswith(b"0F%02X" % number), (number, done)
        assert f"number {number}." in said and all(word in said for word in words), (number, words, said)
    for number, words in CALLS:
        said = explain.sentence(Refusal(number), A)
        assert all(word in said for word in words), said
    assert {number for number, *_ in REFUSED} | {number for number, _ in CALLS} == set(explain.SENTENCES), "a number has no test"


def listing_status() -> None:
    assert command("listing", given=A).returncode == 0
    assert command("listing", given=A).stdout == listing(A)
    assert command("listing", "--fast", given=A).returncode == 2
    said = command("listing", "--explain", given=text_of(CARDS["G"])).stderr.decode()
    for words in ("Longest chain before: 2", "after: 1", "Registers before: 1, after: 2", "OR 4 by +1", "edge 3 (buffer 3 to OR 4): 1"):
        assert words in said, (words, said)
    said = command("listing", "--explain", given=text_of(CARDS["S"])).stderr.decode()
    for words in ("selector 6 by +1", "edge 3 (buffer 3 to selector 6): 0", "edge 4 (buffer 4 to selector 6): 1", "edge 5 (buffer 5 to selector 6): 0"):
        assert words in said, (words, said)


def listing_files() -> None:
    with tempfile.TemporaryDirectory() as folder:
        names = []
        for card, net in CARDS.items():
            names.append(str(Path(folder, f"{card}.txt")))
            Path(names[-1]).write_bytes(text_of(net))
        done = command("listing", *names)
        answers = [listing(text_of(net)) for net in CARDS.values()]
        assert done.returncode == 1, done
        for name, answer in zip(names, answers):
            assert Path(name + ".retimed").read_bytes() == answer, name
        retimed = sum(not answer.startswith(b"0F") for answer in answers)
        assert f"{retimed}      retimed".encode() in done.stdout, done.stdout
        missing = command("listing", names[0], str(Path(folder, "missing")))
        assert missing.returncode == 2 and b"No such file" in missing.stderr, missing


def reread_cut_off() -> None:
    """A read that fails is the end of the input, one that fails to write ends nothing, and a text may come as one message."""
    with tempfile.TemporaryDirectory() as folder, open("/dev/full", "wb") as full:
        unreadable = os.open(folder, os.O_RDONLY)
        folder_read = subprocess.run([ROOT / "reread"], stdin=unreadable, capture_output=True, check=False)
        os.close(unreadable)
        assert (folder_read.returncode, folder_read.stdout, folder_read.stderr) == (0, b"0F01010001\n", b""), folder_read
        unwritten = subprocess.run([ROOT / "reread"], input=A, stdout=full, stderr=subprocess.PIPE, check=False)
        assert (unwritten.returncode, unwritten.stderr) == (0, b""), unwritten
    long = text_of(largest(Random(SEED)))
    given, taken = socket.socketpair(socket.AF_UNIX, socket.SOCK_SEQPACKET)
    with given, taken:
        given.sendall(long)
        given.shutdown(socket.SHUT_WR)
        assert subprocess.run([ROOT / "reread"], stdin=taken, capture_output=True, check=False).stdout == long


def drawn() -> str:
    dot = command("draw", "--dot", given=wired([0, 0, 0, 10, 1], [Edge(2, 3), Edge(3, 4), Edge(0, 3, 1), Edge(1, 3)])).stdout.decode()
    for words in ('n2 -> n3 [headlabel="select"', 'nr2 -> n3 [headlabel="0"', 'n1 -> n3 [headlabel="1"', "selector 3"):
        assert words in dot, (words, dot)
    if not shutil.which("dot"):
        return "left out: Graphviz is not installed"
    for card in "ADGS":
        done = command("draw", "--before-after", given=text_of(CARDS[card]))
        assert done.returncode == (1 if card == "D" else 0) and b"</svg>" in done.stdout, (card, done.stderr)
        assert (b"Retimed" in done.stdout) == (card != "D")
    done = command("draw", given=text_of(random_netlist(Random(SEED), 4, 50, 6, 90)))
    assert done.returncode == 0 and done.stdout.count(b'class="node"') > 60
    refused = command("draw", given=A[:-1])
    assert refused.returncode == 1 and not refused.stdout and b"number 1." in refused.stderr
    return ""


def blif_back() -> None:
    """BLIF read back has the same pins in the same order, and runs alike."""
    rng = Random(SEED)
    for case in [text_of(net) for net in CARDS.values()] + [case.text for case in random_nets(rng, 60)]:
        try:
            net = read(case)
        except Refusal:
            continue
        back = blif.taken(blif.written(net), net.period, net.derate, {})
        inputs, outputs = len(net.numbers_of(0)), len(net.numbers_of(1))
        vectors = bytes(rng.randrange(2) for _ in range(40 * inputs))
        assert run(case, vectors, 40 * outputs) == run(back, vectors, 40 * outputs)
    assert blif.taken(blif.written(read(A)), 1, 100, {}) == A
    # a selector in whichever order the cover has select, first and second
    text = wired([0, 0, 0, 10, 1], [Edge(2, 3), Edge(0, 3), Edge(1, 3), Edge(3, 4)])
    assert ".names n2 n0 n1 n3\n01- 1\n1-1 1\n" in blif.written(read(text))
    for given in (".names s a b z\n01- 1\n1-1 1\n", ".names a s b z\n10- 1\n-11 1\n", ".names b a s z\n0-1 0\n-00 0\n"):
        taken = blif.taken(f".model m\n.inputs a b s\n.outputs z\n{given}.end\n", 1, 100, {})
        assert taken == text, (given, taken)


UNTAKEN = [
    (".model m\n.inputs a\n.outputs z\n.names a b z\n1- 1\n01 1\n.end\n", "nothing drives"),
    (".model m\n.inputs a b c\n.outputs z\n.names a b c z\n11- 1\n1-1 1\n.end\n", "is none of"),
    (".model m\n.inputs a\n.outputs z\n.latch a z\n.end\n", "start value"),
    (".model m\n.inputs a\n.outputs z\n.names z\n1\n.end\n", "no constants"),
    (".model m\n.inputs a\n.outputs z\n.gate nand2 A=a Y=z\n.end\n", ".gate"),
    (".model m\n.inputs a\n.outputs z\n.names a z\n1 1\n.names a z\n0 1\n.end\n", "driven twice"),
    (".model m\n.inputs a\n.outputs z\n.names a y z\n11 1\n.names z y\n1 1\n.end\n", "loop without a register"),
    (".model m\n.end\n.model n\n.end\n", "0 nodes"),
]


def blif_refused() -> None:
    for given, words in UNTAKEN:
        done = command("blif", "--read", given=given.encode())
        assert done.returncode == 1 and words in done.stderr.decode(), (given, done)
    assert command("blif", given=A[:-1]).returncode == 1
    assert command("blif", "--delay", "pump=3", given=A).returncode == 2


def judged_equal() -> str:
    """200 netlists and their retimed forms, judged by ABC."""
    abc = shutil.which("berkeley-abc") or shutil.which("abc")
    if not abc:
        return "left out: ABC is not installed (Debian: berkeley-abc)"
    rng, judged = Random(SEED), 0
    with tempfile.TemporaryDirectory() as folder:
        old, new = Path(folder, "old.blif"), Path(folder, "new.blif")
        while judged < 200:
            for case in random_nets(rng, 20):
                printed = texts.printed_by(case.text)
                if printed.refusal or judged == 200:
                    continue
                old.write_text(blif.written(read(case.text)))
                new.write_text(blif.written(read(printed.text)))
                clocked = ".latch" in old.read_text()
                said = subprocess.run([abc, "-c", f"{'dsec' if clocked else 'cec'} {old} {new}"], capture_output=True, text=True, check=False).stdout
                assert "Networks are equivalent" in said, (case.text, said)
                judged += 1
    return f"{judged} retimed netlists judged equivalent"


def main() -> None:
    for test in (explained_all, listing_status, listing_files, reread_cut_off, drawn, blif_back, blif_refused, judged_equal):
        print(f"{test.__name__}: {test() or 'ok'}", flush=True)


if __name__ == "__main__":
    main()
