#!/usr/bin/env python3
"""Writes what the gate runs the programs on, and what they must print, from the reference.

    python3 tests/make_vectors.py            writes crates/NAME/stdin and crates/NAME/stdout
    python3 tests/make_vectors.py --check    compares with the files there; exit 1 if they differ

Run from the repository root. The same files come out on every machine: the seed is fixed, and
nothing hangs on the time or the environment.
"""

from __future__ import annotations

import sys
from collections import Counter
from collections.abc import Callable
from pathlib import Path
from typing import Any

import quoting_cases as quoting
import rails_cases as rails
import reading_cases as reading
import retiming_cases as retiming
import running_cases as running
import walking_cases as walking
from netlists import CARDS
from reference import frame_line, reread, text_of
from retiming import listing
from upward import drawn_upward

SEED = 20010


def reread_run() -> tuple[bytes, bytes]:
    """The program reread on card A."""
    text = text_of(CARDS["A"])
    return text, reread(text)


def listing_run() -> tuple[bytes, bytes]:
    """The program listing on card A."""
    text = text_of(CARDS["A"])
    return text, listing(text)


def batch_run() -> tuple[bytes, bytes]:
    """The program batch: texts to read and write again, then texts to list, then runs, quotes, rails and walks."""
    given, printed = [], []
    for name, cases in reading.reading_cases(SEED).items():
        given += [job(0, case.text) for case in cases]
        printed += told("reread", name, [reading.expected(case) for case in cases])
    for name, cases in with_earlier(retiming.retiming_cases, retiming.expected).items():
        given += [job(7, case.text) for case in cases]
        printed += told("list", name, [retiming.expected(case) for case in cases])
    for name, cases in running.running_cases(SEED).items():
        given += [job(8, case.text, case.vectors, case.room) for case in cases]
        printed += told("run", name, [running.expected(case) for case in cases])
    for name, cases in with_earlier(quoting.quoting_cases, quoting.expected).items():
        given += [job(9, case.text) for case in cases]
        printed += told("quote", name, [quoting.expected(case) for case in cases])
    for name, cases in rails.rails_cases(SEED).items():
        given += [job(10, case.text, room=len(case.table)) for case in cases]
        printed += told("rails", name, [rails.expected(case) for case in cases])
    for name, cases in walking.walking_cases(SEED).items():
        given += [job(12, case.text) for case in cases]
        printed += told("walk", name, [walking.expected(case) for case in cases])
    return b"".join(given), b"".join(printed)


def with_earlier(draw: Callable[[int], dict[str, list[Any]]], expected: Callable[[Any], bytes]) -> dict[str, list[Any]]:
    """What is drawn, and what was drawn when a half of a delay went upward."""
    return {**draw(SEED), "drawn with halves upward": drawn_upward(draw, expected, SEED)}


def job(kind: int, text: bytes, vectors: bytes = b"", room: int = 0) -> bytes:
    """A job: kind (1), text length (2), number of vector bytes (2), length of the buffer to run into or of the table to count
    into (2); the text; the vectors."""
    numbers = (len(text), len(vectors), room)
    return frame_line(bytes([kind]) + b"".join(n.to_bytes(2, "big") for n in numbers)) + text + vectors


def told(kind: str, name: str, answers: list[bytes]) -> list[bytes]:
    """The answers, after a line for the reader of the run: how often each number was given, 0 where nothing is refused."""
    seen = Counter(int(a[2:4], 16) if a.startswith(b"0F") else 0 for a in answers)
    print(f"batch: {kind}: {name}: {len(answers)}; " + ", ".join(f"{number}: {times}" for number, times in sorted(seen.items())))
    return answers


RUNS: dict[str, Callable[[], tuple[bytes, bytes]]] = {
    "reread": reread_run,
    "listing": listing_run,
    "batch": batch_run,
}


def main() -> int:
    check = sys.argv[1:] == ["--check"]
    if sys.argv[1:] and not check:
        print(__doc__)
        return 2
    differ = 0
    for name, make in RUNS.items():
        for file, content in zip(("stdin", "stdout"), make()):
            path = Path("crates", name, file)
            if not check:
                path.write_bytes(content)
            elif not path.is_file() or path.read_bytes() != content:
                print(f"{path} differs: run python3 tests/make_vectors.py")
                differ = 1
    return differ


if __name__ == "__main__":
    sys.exit(main())
