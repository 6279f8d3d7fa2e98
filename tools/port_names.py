#!/usr/bin/env python3
"""Brings the repository's own definitions, fields, constructors and lemmas to the kit's spelling, words in snake case: python3 tools/port_names.py [--list] [FOLDER]

atLine is at_line, few-cells is few_cells; ten lemmas that would get the name of the definition that they speak of get another word (OTHERS). Types, modules,
functions of src/, strings, names of the kit and the names that a check gives its goals keep their spelling; in the comments of src/ and in pages only what
stands between backquotes is a name. --list prints what would be turned. Files in which two words become one are said, to be looked at: a definition may have
the name of a function, a lemma may not have a definition's. A second run turns nothing.
"""

from __future__ import annotations

import re
import sys
from pathlib import Path

TOKEN = re.compile(r"[^\s(){}\[\];,.:\"λ|`@¬]+")
DECLARED = re.compile(r"^(?:\s*)((?:[^\s(){},;:.\"]+ )+)(?:[({].*)?: ", re.M)
KIT = re.compile(r"^use (?:lib|mathlib|native|Prim|Rattle\.std|Rattle\.io)[^\s{]*\{([^}]*)\}", re.M)
GOAL = re.compile(r"\b(?:goal|Goals|Given)\.(?:\{([^}]*)\}|([^\s(){};,]+))")
WORDS = {"pub", "abbrev", "unfoldable", "record", "data", "opaque"}

# Lemmas whose names would fall together with the definition that they speak of.
OTHERS = {
    "words-fit": "all_words_fit",
    "with-regs": "with_regs_same",
    "node-if": "node_if_same",
    "refusal-line": "refusal_line_is",
    "node-bytes": "node_bytes_read",
    "head-fits": "head_fits_means",
    "node-fits": "node_fits_means",
    "edge-fits": "edge_fits_means",
    "text_in": "text_in_room",
    "byte-at": "byte_at_clock",
}


def snake(name: str) -> str:
    """The spelling of a word: snake case. What begins with a capital is a type or a module."""
    if name in OTHERS:
        return OTHERS[name]
    if name[0].isupper():
        return name
    return re.sub(r"(?<=[a-z0-9'])([A-Z])", lambda m: "_" + m[1].lower(), name).replace("-", "_")


def proofs(root: Path) -> list[Path]:
    return sorted(f for part in ("specs", "proofs") for f in root.glob(f"crates/*/{part}/**/*.antt"))


def bare(text: str) -> str:
    """The text without its comments."""
    return re.sub(r"(?m)(^|\s)--(\s.*)?$", "", text)


def own_names(root: Path) -> dict[str, str]:
    """What is turned, and into what; of an operator's name its words."""
    own: set[str] = set()
    kept: set[str] = set()
    for file in proofs(root):
        text = bare(file.read_text())
        for names in KIT.findall(text):
            kept.update(word for name in names.split(",") for word in name.split())
        for many, one in GOAL.findall(text):
            kept.update(name.strip() for name in (many or one).split(","))
        for names in DECLARED.findall(text):
            own.update(word for name in set(names.split()) - WORDS for word in (name, *re.findall("◌(.+)◌", name)))
    if "textIn" not in own:
        kept.add("text_in")  # it is the definition now, and no lemma
    return {name: snake(name) for name in sorted(own - kept) if snake(name) != name}


def turned(text: str, names: dict[str, str]) -> str:
    """Every word of the text that is a name, but in strings. `w.queue-is` is a check's name for what a record holds."""
    def word(m: re.Match[str]) -> str:
        return m[0] if m[0].endswith("-is") and m.string[: m.start()].endswith(".") else names.get(m[0], m[0])
    parts = re.split(r'("(?:\\.|[^"\\\n])*")', text)
    return "".join(part if i % 2 else TOKEN.sub(word, part) for i, part in enumerate(parts))


def turned_proof(text: str, names: dict[str, str]) -> str:
    """A file of definitions or proofs; a glossary's second column stays where it is."""
    lines = []
    for line in text.split("\n"):
        entry = re.match(r"(\s*--\s{2,}\S.*?)(\s{2,})(\S.*)", line)
        if entry:
            head = turned(entry[1], names)
            line = head + " " * max(2, len(entry[1] + entry[2]) - len(head)) + turned(entry[3], names)
        else:
            line = turned(line, names)
        lines.append(line)
    return "\n".join(lines)


def turned_quotes(text: str, names: dict[str, str]) -> str:
    """The words between backquotes alone."""
    return re.sub(r"`[^`\n]*`", lambda m: TOKEN.sub(lambda n: names.get(n[0], n[0]), m[0]), text)


def turned_source(text: str, names: dict[str, str]) -> str:
    """A line of src/: its comment is prose, in which only what stands between backquotes is a name."""
    lines = []
    for line in text.split("\n"):
        code, slashes, comment = line.partition("//")
        lines.append(turned(code, names) + slashes + turned_quotes(comment, names))
    return "\n".join(lines)


def clashes(root: Path, names: dict[str, str]) -> list[str]:
    """Files of definitions and proofs in which two names would become one."""
    said = []
    for file in proofs(root):
        words = set(TOKEN.findall(bare(file.read_text())))
        for word in sorted(words & set(names)):
            if [w for w in words if w != word and names.get(w, w) == names[word]]:
                said.append(f"{file.relative_to(root)}: {word}, {names[word]}")
    return said


def main() -> int:
    words = sys.argv[1:]
    root = Path(next((word for word in words if word != "--list"), "."))
    names = own_names(root)
    if "--list" in words:
        print("\n".join(f"{old} {new}" for old, new in names.items()))
        return 0
    for said in clashes(root, names):
        print(f"look: {said}")
    how = [(proofs(root), turned_proof), (root.glob("crates/*/must-fail/*.edit"), turned), (root.glob("crates/*/src/**/*.rt"), turned_source),
           ([*root.glob("docs/*.md"), root / "README.md"], turned_quotes)]
    for files, turn in how:
        for file in files:
            before = file.read_text()
            after = turn(before, names)
            if after != before:
                file.write_text(after)
    return 0


if __name__ == "__main__":
    sys.exit(main())
