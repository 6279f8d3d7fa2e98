"""usage: listing [--explain] < TEXT
       listing [--explain] [--jobs N] FILE...

Retimes a netlist text: prints the new text and each node's lag, or the refusal, as the proved program does.

  FILE...      retimes each file, writes what the program prints to FILE.retimed, and ends with a table of answers
  --explain    says on standard error, in words, why a text was refused and what to do about it, or what was moved
  --jobs N     so many files at once (default: one for each processor)

Exit status: 0 retimed (every file), 1 refused (at least one file), 2 nothing could be printed, or wrong usage.
"""

from __future__ import annotations

import os
import sys
from collections import Counter
from concurrent.futures import ThreadPoolExecutor, as_completed
from pathlib import Path

from explain import explained
from texts import Printed, built_program, printed_by

# What the table of answers calls each number.
ANSWERS = {
    0: "retimed", 1: "bad line", 2: "head out of range", 3: "gate kind or delay", 4: "edge rule", 5: "number of in-edges",
    6: "loop without a register", 7: "unconnected node", 8: "no retiming meets the period", 9: "more than 32 registers on an edge",
    10: "more than 24 values to choose", 11: "no start carries",
}


class Usage(Exception):
    """A command line that is not understood."""


def arguments(words: list[str]) -> tuple[bool, int, list[str]]:
    """--explain, --jobs and the files."""
    explain, jobs, files = False, os.cpu_count() or 1, []
    rest = iter(words)
    for word in rest:
        if word in ("-h", "--help"):
            raise Usage("how it is used")
        if word == "--explain":
            explain = True
        elif word == "--jobs":
            number = next(rest, "")
            if not number.isdigit() or int(number) == 0:
                raise Usage("--jobs asks for a number of 1 or more")
            jobs = int(number)
        elif word.startswith("--"):
            raise Usage(f"unknown option {word}")
        else:
            files.append(word)
    return explain, jobs, files


def one_text(explain: bool) -> int:
    """Standard input to standard output."""
    text = sys.stdin.buffer.read()
    printed = printed_by(text)
    sys.stdout.buffer.write(printed.raw)
    sys.stdout.buffer.flush()
    if explain:
        print("\n".join(explained(text, printed)), file=sys.stderr)
    return printed.status


def one_file(name: str) -> tuple[bytes, Printed]:
    """A file's text, and what the program prints for it, written beside it."""
    text = Path(name).read_bytes()
    printed = printed_by(text)
    if printed.raw:
        Path(name + ".retimed").write_bytes(printed.raw)
    return text, printed


def progress(done: int, files: list[str]) -> None:
    """How far it is: one line that is written over on a terminal."""
    if sys.stderr.isatty():
        print(f"\r{done} of {len(files)}", end="\n" if done == len(files) else "", file=sys.stderr, flush=True)


def table(answers: Counter[int], unreadable: int) -> str:
    """How often each answer was given."""
    rows = [f"{times:6}  {number or '':>2}  {ANSWERS.get(number, 'refused')}" for number, times in sorted(answers.items())]
    rows += [f"{unreadable:6}      not read or not written"] if unreadable else []
    return "\n".join(rows)


def many_files(files: list[str], explain: bool, jobs: int) -> int:
    """Each file to FILE.retimed, some at once."""
    built_program()
    answers: Counter[int] = Counter()
    unreadable = 0
    with ThreadPoolExecutor(jobs) as pool:
        waiting = {pool.submit(one_file, name): name for name in files}
        for done, future in enumerate(as_completed(waiting), 1):
            name = waiting[future]
            try:
                text, printed = future.result()
            except OSError as error:
                unreadable += 1
                print(f"{name}: {error.strerror}", file=sys.stderr)
                continue
            answers[printed.refusal.number if printed.refusal else 0] += 1
            if explain:
                print("\n".join(f"{name}: {line}" for line in explained(text, printed)), file=sys.stderr)
            progress(done, files)
    print(table(answers, unreadable))
    return 2 if unreadable else 0 if set(answers) == {0} else 1


def main() -> int:
    try:
        explain, jobs, files = arguments(sys.argv[1:])
    except Usage as error:
        print(f"listing: {error}\n\n{__doc__}", file=sys.stderr)
        return 2
    return many_files(files, explain, jobs) if files else one_text(explain)


if __name__ == "__main__":
    sys.exit(main())
