"""Texts as they were drawn when a half of a working delay went upward.

  drawn_upward            the cases that a draw gave then and gives no more

The draws ask the reference for working delays, so another rounding draws other texts. These stay in the gate, with today's answers.
"""

from __future__ import annotations

from collections import Counter
from collections.abc import Callable, Iterator
from contextlib import contextmanager
from dataclasses import replace
from typing import Any

import quoting_cases
import retiming
import retiming_cases
from reference import Node


def upward(node: Node, derate: int) -> int:
    """Delay times derate in hundredths, rounded, a half upward.

    >>> [upward(Node(2, delay), 50) for delay in (1, 2, 3, 5)]
    [1, 1, 2, 3]
    """
    return (node.delay * derate + 50) // 100


@contextmanager
def halves_upward() -> Iterator[None]:
    """The draws and the reference that they ask round upward within."""
    modules = (retiming, retiming_cases, quoting_cases)
    today = [module.working_delay for module in modules]
    for module in modules:
        setattr(module, "working_delay", upward)
    try:
        yield
    finally:
        for module, one in zip(modules, today):
            setattr(module, "working_delay", one)


def drawn_upward(draw: Callable[[int], dict[str, list[Any]]], expected: Callable[[Any], bytes], seed: int) -> list[Any]:
    """The cases that this draw gave and gives no more, in their order. A claim stays where the answer did."""
    today = Counter(case.text for cases in draw(seed).values() for case in cases)
    with halves_upward():
        then = [case for cases in draw(seed).values() for case in cases]
    left = []
    for case in then:
        if today[case.text]:
            today[case.text] -= 1
        else:
            left.append(case if case.claim is None or stands(case, expected) else replace(case, claim=None))
    return left


def stands(case: Any, expected: Callable[[Any], bytes]) -> bool:
    """Whether the answer is what it was, when the claim was tried."""
    with halves_upward():
        then = expected(case)
    return expected(replace(case, claim=None)) == then
