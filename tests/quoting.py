"""Quotes, done in the plainest way, for the tests to compare the proved program with.

Written from the request ("A quote before the order") and from the paper alone, and not from the
program, which halves between all periods. Here only lengths that a chain can have are tried (Leiserson
and Saxe); the least lags at one of them come from the constraints of retiming.py.

  Quote               a period, and what the least retiming at that period comes to
  chain_lengths       the periods that can be the smallest
  smallest_period     the smallest period that is not refused 8, and the least lags at that period
  figures             the quote that a period and its least lags make
  quote, quoted       a text's quote; what the program prints of it

Python 3.9 or later, standard library only. `python3 -m doctest tests/quoting.py` tries the examples.
"""

from __future__ import annotations

from collections.abc import Sequence
from dataclasses import dataclass, replace
from math import inf
from struct import Struct

from reference import Netlist, Refusal, frame_line, read
from retiming import chosen_values, critical_chains, least_lags, moved_counts

LONGEST_PERIOD = 65535

QUOTE_LINE = Struct(">BHIII")  # 09, period, register total, largest count, number of values to choose


@dataclass(frozen=True)
class Quote:
    """"The smallest period that isn't refused 8, and for the least retiming at that period the register
    total, the largest count on an edge and the number of values to choose." """

    period: int
    registers: int
    largest: int
    number: int

    def frame(self) -> bytes:
        """The frame `09`, as a line.

        >>> Quote(65535, 40, 32, 0).frame()
        b'09FFFF000000280000002000000000\\n'
        """
        return frame_line(QUOTE_LINE.pack(9, self.period, self.registers, self.largest, self.number))


def chain_lengths(net: Netlist) -> list[int]:
    """The periods that can be the smallest, in order: 1, and for each two nodes u and v the length of
    the longest of the chains from u to v that have the fewest registers.

    For let p be the smallest, above 1, and r the least lags at p. They do not meet p - 1, so some
    chain from u to v holds no register under r and has length p. It had r(u) - r(v) registers, and
    every chain from u to v had as many at least, since its new counts are 0 or more. Those that had
    just as many hold none under r either: so none of them is longer than p.

    >>> from netlists import card_a, card_k
    >>> chain_lengths(card_a()), chain_lengths(card_k(4, 9))
    ([1, 2], [1, 2, 3, 4])
    """
    lengths = {length for chains in critical_chains(net, inf) for _, length in chains.values()}
    return sorted(p for p in lengths | {1} if 1 <= p <= LONGEST_PERIOD)


def smallest_period(net: Netlist) -> tuple[int, Sequence[int]] | None:
    """The smallest period that is not refused 8, and the least lags at that period; None where 65,535 is
    refused 8.

    What meets a period meets every longer one, so in the row of lengths those that are refused 8 come
    first, and the first of the others is found by halving the row.
    """
    periods = chain_lengths(net)
    found = None
    first, end = 0, len(periods)
    while first < end:
        middle = (first + end) // 2
        lags = least_lags(replace(net, period=periods[middle]))
        if lags is None:
            first = middle + 1
        else:
            found, end = (periods[middle], lags), middle
    return found


def figures(net: Netlist, period: int, lags: Sequence[int]) -> Quote:
    """The quote that a period and its least lags make."""
    counts = moved_counts(net, lags)
    return Quote(period, sum(counts), max(counts), len(chosen_values(net, lags)))


def quote(text: bytes) -> Quote:
    """"The text must read; beyond that, the period in its own head plays no part ... where 65,535 would be
    refused 8 so is the quote." 9, 10, 11 and 12 are never given.

    >>> from netlists import CARDS
    >>> from reference import text_of
    >>> quote(text_of(CARDS["J"]))
    Quote(period=1, registers=40, largest=40, number=0)
    """
    net = read(text)
    found = smallest_period(net)
    if found is None:
        raise Refusal(8)
    return figures(net, *found)


def quoted(text: bytes) -> bytes:
    """What the program prints of a text: the frame `09` of its quote, or the refusal's frame.

    >>> quoted(b"")
    b'0F01010001\\n'
    """
    try:
        return quote(text).frame()
    except Refusal as refusal:
        return refusal.frame()
