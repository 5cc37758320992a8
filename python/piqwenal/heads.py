"""Reads the numbers with which frame lines begin, for many lines at once."""

from __future__ import annotations

from typing import NamedTuple, Tuple

import numpy as np

from .numbers import LONE, whole

START_REACH = 1 << 44
SPACE, TAB = 32, 9
MINUS, ZERO = 45, 48

_IN_NUMBER = np.zeros(256, dtype=bool)
_IN_NUMBER[[MINUS, *range(ZERO, ZERO + 10)]] = True


class Heads(NamedTuple):
    """The starts of frame lines: the place, where its last number ends, and which are bad or too far out."""

    places: np.ndarray
    behind: np.ndarray
    bad: np.ndarray
    far: np.ndarray


def heads_of(data: np.ndarray, starts: np.ndarray, ends: np.ndarray) -> Heads:
    """The three numbers with which each line begins. The data end with a newline."""
    inside = np.take(_IN_NUMBER, data)
    edges = np.flatnonzero(inside[1:] != inside[:-1]) + 1
    if inside[0]:
        edges = np.insert(edges, 0, 0)
    firsts, lasts = edges[0::2], edges[1::2]
    index = np.searchsorted(firsts, starts)
    bad = index + 2 >= len(firsts)
    if bad.any():
        if len(firsts) < 3:
            every = np.ones(len(starts), dtype=bool)
            return Heads(np.zeros((len(starts), 3), dtype=np.int64), ends, every, ~every)
        index = np.minimum(index, len(firsts) - 3)
    index = index[:, None] + np.arange(3)
    first, last = firsts[index], lasts[index]
    bad |= (first[:, 2] >= ends) | _gaps(data, starts, first, last)
    values, numbers = _values(data, first, last)
    behind = np.where(bad, ends, last[:, 2])
    bad |= ~numbers.all(axis=1) | ((behind < ends) & (data[behind] != SPACE))
    return Heads(values, behind, bad, (np.abs(values) > START_REACH).any(axis=1))


def _gaps(data: np.ndarray, starts: np.ndarray, first: np.ndarray, last: np.ndarray) -> np.ndarray:
    """Before which places something else than blanks stands."""
    before = np.concatenate((starts[:, None], last[:, :2]), axis=1)
    plain = (first[:, 0] == starts).all() and (first[:, 1:] - last[:, :2] == 1).all()
    if plain and (data[last[:, :2]] == SPACE).all():
        return np.zeros(len(starts), dtype=bool)
    blanks = np.zeros(len(data) + 1, dtype=np.int64)
    np.cumsum((data == SPACE) | (data == TAB), out=blanks[1:])
    gap = blanks[first] - blanks[before] != first - before
    return gap.any(axis=1) | (first < before).any(axis=1)


def _values(data: np.ndarray, first: np.ndarray, last: np.ndarray) -> Tuple[np.ndarray, np.ndarray]:
    """The numbers that stand from first to last, and which of them are numbers."""
    negative = data[first] == MINUS
    lengths = last - first - negative
    good = lengths > 0
    values = np.zeros(first.shape, dtype=np.int64)
    longest = int(lengths.max())
    for place in range(min(longest, 18)):
        inside = lengths > place
        digits = data[np.maximum(last - 1 - place, 0)].astype(np.int64) - ZERO
        digits[~inside] = 0
        good &= digits >= 0
        values += digits * 10**place
    np.negative(values, out=values, where=negative)
    if longest > 18:
        for at in zip(*np.nonzero(lengths > 18)):
            text = data[first[at] : last[at]].tobytes()
            good[at] = LONE.fullmatch(text) is not None
            values[at] = whole(text) if good[at] else 0
    return values, good
