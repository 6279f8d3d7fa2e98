#!/usr/bin/env python3
"""Counts, in the sources of a checkout, the places that docs/DESIGN-PASS.md speaks of.

    python3 tools/places.py [FOLDER] [--list]

FOLDER is a checkout (this one, if none is named); with --list each place is named.
"""
import glob
import os
import re
import sys


def sources(root):
    for path in sorted(glob.glob(os.path.join(root, "crates/*/src/*.rt"))):
        with open(path, encoding="utf-8") as text:
            lines = [re.sub(r"\s*//.*", "", line.rstrip("\n")) for line in text]
        yield os.path.relpath(path, os.path.join(root, "crates")), lines


def matching(root, pattern):
    """Each line that has the pattern."""
    for name, lines in sources(root):
        for number, line in enumerate(lines, 1):
            if re.search(pattern, line):
                yield f"{name}:{number}: {line.strip()}"


def loops(root, counting):
    """Each `while` loop: those that count a variable of their test by one, or the others."""
    for name, lines in sources(root):
        for at, line in enumerate(lines):
            head = re.match(r"(\s*)(?:'\w+: )?while (.*) \{$", line)
            if not head:
                continue
            end = next(j for j in range(at + 1, len(lines)) if lines[j].startswith(head[1] + "}"))
            body = "\n".join(lines[at + 1:end])
            tested = set(re.findall(r"\b[a-z_]+\b", head[2]))
            counts = any(re.search(rf"^\s*{v} [+-]= 1;", body, re.M) for v in tested)
            if counts == counting:
                yield f"{name}:{at + 1}: {line.strip()}"


FUNCTION = re.compile(
    r"\bfn (\w+)(?:<[^>]*>)?\(([^{]*?)\)(?: -> [^{\n]*)?\n?((?:\s*(?:requires|ensures)[^\n]*\{.*?\}\n)*)\s*\{", re.S)


def functions(root):
    """Crate, name, parameters and what is required, of each function."""
    for name, lines in sources(root):
        for found in FUNCTION.finditer("\n".join(lines)):
            parameters = re.findall(r"(\w+)\s*:\s*(?!:)([^,]*)", found[2])
            required = " ".join(re.findall(r"requires[^{]*\{(.*?)\}\n", found[3], re.S))
            yield name.split("/")[0], found[1], parameters, required


def facts(root):
    """Each fact that three functions or more require, and how many do."""
    users = {}
    for crate, name, _, required in functions(root):
        for fact in set(re.findall(r"(?<![\w.])([A-Z]\w+)\b", required)):
            users.setdefault(fact, []).append(f"{crate}::{name}")
    for fact, names in sorted(users.items(), key=lambda item: -len(item[1])):
        if len(names) >= 3:
            yield f"{fact}: {len(names)} functions ({', '.join(names)})"


def long_lists(root):
    """Each function of six parameters or more."""
    for crate, name, parameters, _ in functions(root):
        if len(parameters) >= 6:
            yield f"{crate}::{name}: {len(parameters)}"


def ranges(root):
    """Each function that is handed a list and places in it."""
    for crate, name, parameters, _ in functions(root):
        places = [p for p, kind in parameters if p in ("lo", "hi", "start", "end", "low", "high") and kind.startswith("usize")]
        if places and any("[" in kind for _, kind in parameters):
            yield f"{crate}::{name}: {', '.join(places)}"


KIND = r"\bkinds?(\[[^\]]*\])?"

COUNTS = [
    ("1 a flag or an answer's code beside a value", lambda r: matching(r, r"^\s+(pub )?((ok|found|settled|met): bool|answer: Answer|code: u64),")),
    ("1 an enum of the shape of Result, where it is made or taken apart", lambda r: matching(r, r"\bAnswer::(Done|Refused)\b")),
    ("1 a refusal by its number", lambda r: matching(r, r"Refused\([0-9]+|\bq: u8|\bfault\([0-9]+")),
    ("1 a gate kind by its number", lambda r: matching(r, KIND + r" *(==|!=|<=|<|>) *[0-9]+|[0-9]+ *(==|<=|<|>) *" + KIND + r"|\b(count_kind|list_kind|reached)\(.*\b[0-9]\b|^\s+[0-9]+ => (any|all|1 - |k %)")),
    ("1 a kind of job or of line by its number", lambda r: matching(r, r"frame_(at|by)\(.*, [0-9]+, [0-9]+\)|^\s+[0-9]+ => print")),
    ("2 twins by size", lambda r: matching(r, r"\bfn \w+_(few|many)\b")),
    ("3 loops that count by one", lambda r: loops(r, True)),
    ("3 other while loops", lambda r: loops(r, False)),
    ("4 bytes of numbers by hand", lambda r: matching(r, r"/ 256|% 256|\* 256|\* 65536")),
    ("5 facts that three functions or more require", facts),
    ("5 functions of six parameters or more", long_lists),
    ("6 a list with places in it", ranges),
]


def main():
    named = [a for a in sys.argv[1:] if not a.startswith("--")]
    root = named[0] if named else os.path.join(os.path.dirname(os.path.abspath(__file__)), "..")
    for title, places in COUNTS:
        found = list(places(root))
        print(f"{len(found):4d}  {title}")
        if "--list" in sys.argv:
            for place in found:
                print(f"        {place}")


if __name__ == "__main__":
    main()
