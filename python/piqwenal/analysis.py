"""Figures of frames: sizes of molecules, displacements, correlations in space, and means with errors.

Positions are absolute, as files have them. Where bonds run through a periodic boundary, `made_whole` lays the
molecules out before their sizes are measured.
"""

from __future__ import annotations

from dataclasses import dataclass
from typing import Iterable, List, Optional, Sequence, Tuple

import numpy as np

from .header import MOST_SITES
from .molecules import Molecules, whole_sides, made_whole, molecules_of
from .reader import Frame

__all__ = [
    "Displacements",
    "Mean",
    "block_average",
    "bond_distribution",
    "centres_of_mass",
    "displacements",
    "displacements_over_origins",
    "end_to_end_squared",
    "made_whole",
    "molecules_of",
    "radial_distribution",
    "radius_of_gyration_squared",
    "structure_factor",
    "wrapped",
]


def centres_of_mass(positions: np.ndarray, molecules: Molecules) -> np.ndarray:
    """The mean place of each molecule."""
    origin = positions[0]
    return molecules.sums(positions - origin) / molecules.sizes[:, None] + origin


def end_to_end_squared(positions: np.ndarray, molecules: Molecules) -> np.ndarray:
    """For each molecule the squared distance of its two ends; not a number where it is no linear chain."""
    difference = positions[molecules.ends[:, 0]] - positions[molecules.ends[:, 1]]
    squared = (difference**2).sum(axis=1).astype(float)
    squared[molecules.ends[:, 0] < 0] = np.nan
    return squared


def radius_of_gyration_squared(positions: np.ndarray, molecules: Molecules) -> np.ndarray:
    """For each molecule the mean squared distance of its monomers from its centre of mass."""
    from_centre = positions - centres_of_mass(positions, molecules)[molecules.of]
    return molecules.sums(from_centre**2).sum(axis=1) / molecules.sizes


@dataclass(frozen=True, eq=False)
class Displacements:
    """Mean-square displacements of monomers (g1) and of centres of mass of molecules (g3) at some times."""

    times: np.ndarray
    g1: np.ndarray
    g3: np.ndarray


def displacements(frames: Iterable[Frame], molecules: Optional[Molecules] = None) -> Displacements:
    """The displacements of each frame against the first one, which is among them. Two frames are kept.

    The molecules are those of the first frame where none are given.
    """
    rows: List[Tuple[float, float, float]] = []
    start: Optional[Frame] = None
    centres = np.empty((0, 3))
    for frame in frames:
        if molecules is None:
            molecules = molecules_of(frame.bonds, len(frame.positions))
        if start is None:
            start, centres = frame, centres_of_mass(frame.positions, molecules)
        g1 = _mean_square(frame.positions - start.positions)
        g3 = _mean_square(centres_of_mass(frame.positions, molecules) - centres)
        rows.append((frame.mcs - start.mcs, g1, g3))
    times, monomers, centre = np.array(rows, dtype=float).reshape(-1, 3).T
    return Displacements(times, monomers, centre)


def displacements_over_origins(
    frames: Sequence[Frame], molecules: Optional[Molecules] = None, lags: Optional[Sequence[int]] = None
) -> Displacements:
    """The displacements for each distance in time, averaged over all first frames; all frames are kept.

    The frames are to be equally far apart in time. The lags are distances in frames, and all where none are given.
    """
    times = np.array([frame.mcs for frame in frames], dtype=float)
    if len(frames) == 0 or (np.diff(times, n=2) != 0).any():
        raise ValueError("the frames are none, or not equally far apart in time")
    chosen = np.arange(len(frames)) if lags is None else np.asarray(lags, dtype=np.int64)
    if ((chosen < 0) | (chosen >= len(frames))).any():
        raise ValueError(f"{len(frames)} frames have lags of 0 to {len(frames) - 1}")
    if molecules is None:
        molecules = molecules_of(frames[0].bonds, len(frames[0].positions))
    places = [frame.positions for frame in frames]
    centres = [centres_of_mass(each, molecules) for each in places]
    g1 = [_over_origins(places, lag) for lag in chosen.tolist()]
    g3 = [_over_origins(centres, lag) for lag in chosen.tolist()]
    return Displacements((times - times[0])[chosen], np.array(g1), np.array(g3))


def _over_origins(places: Sequence[np.ndarray], lag: int) -> float:
    pairs = zip(places[lag:], places)
    return float(np.mean([_mean_square(late - early) for late, early in pairs]))


def _mean_square(difference: np.ndarray) -> float:
    return float((difference.astype(float) ** 2).sum(axis=1).mean())


@dataclass(frozen=True)
class Mean:
    """A mean, its standard error from the scatter of blocks, and how many blocks there were."""

    mean: float
    error: float
    blocks: int


def block_average(values: Sequence[float], blocks: int = 10) -> Mean:
    """The mean of a series and its standard error: that of the means of blocks of the same length.

    Values at the beginning that fill no block are left out of both. The error is right only where blocks are
    longer than the values stay correlated, which is not judged here.
    """
    series = np.asarray(values, dtype=float)
    length = len(series) // blocks if blocks > 0 else 0
    if blocks < 2 or length == 0:
        raise ValueError(f"{len(series)} values do not make {blocks} blocks; two blocks are the least")
    means = series[len(series) - blocks * length :].reshape(blocks, length).mean(axis=1)
    return Mean(float(means.mean()), float(means.std(ddof=1) / np.sqrt(blocks)), blocks)


def wrapped(positions: np.ndarray, box: np.ndarray, periodic: np.ndarray) -> np.ndarray:
    """The places folded into the box along periodic axes: from 0 to the side, exclusive."""
    return np.where(periodic, positions % box, positions)


def bond_distribution(
    positions: np.ndarray, bonds: np.ndarray, box: np.ndarray, periodic: np.ndarray
) -> Tuple[np.ndarray, np.ndarray]:
    """The squared lengths that bonds have, ascending, and how many bonds have each.

    A bond through a periodic boundary has the length of its wrapped difference.
    """
    first, second = np.asarray(bonds, dtype=np.int64).reshape(-1, 2).T
    difference = positions[second] - positions[first]
    difference = difference - whole_sides(difference, np.where(periodic, box, 0))
    lengths, counts = np.unique((difference**2).sum(axis=1), return_counts=True)
    return lengths, counts


def radial_distribution(
    positions: np.ndarray, box: np.ndarray, width: float, reach: Optional[float] = None
) -> Tuple[np.ndarray, np.ndarray]:
    """The middles of shells of this width, and how dense pairs are there; 1 is that of places without order.

    The box is periodic along all axes, with at most 2^24 sites. The reach is at most half of the least side, which
    it is where it is left out. The time grows with the number of sites. On a lattice few distances occur, and
    narrow shells show them one by one.
    """
    half = box.min() / 2
    reach = half if reach is None else reach
    if not 0 < width <= reach <= half or len(positions) < 2 or np.prod(box) > MOST_SITES:
        raise ValueError(
            "the width is above 0, the reach from there to half of the least side, monomers are two or more, "
            f"and the box has at most {MOST_SITES} sites"
        )
    shells = int(reach / width + 1e-9)
    x, y, z = (np.minimum(np.arange(side), side - np.arange(side)) ** 2 for side in box.tolist())
    squared = x[:, None, None] + y[:, None] + z
    # the least bit more, so that a distance on an edge counts to the shell above it
    shell = (np.sqrt(squared) / width + 1e-9).astype(np.int64)
    inside = shell < shells
    ordered = _ordered_pairs(positions, box)[inside]
    counts = np.bincount(shell[inside], weights=ordered, minlength=shells) / 2
    edges = width * np.arange(shells + 1)
    volumes = 4 / 3 * np.pi * np.diff(edges**3)
    pairs = len(positions) * (len(positions) - 1) / 2
    return (edges[1:] + edges[:-1]) / 2, counts / volumes * (float(np.prod(box)) / pairs)


def _ordered_pairs(positions: np.ndarray, box: np.ndarray) -> np.ndarray:
    """For each difference of two sites of a periodic box how many ordered pairs of monomers have it.

    The counts are the correlation of the occupied sites with themselves, which Fourier transforms give.
    """
    sides = tuple(box.tolist())
    sites = np.ravel_multi_index(tuple((positions % box).T), sides)
    taken = np.bincount(sites, minlength=int(np.prod(box))).reshape(sides)
    spectrum = np.abs(np.fft.rfftn(taken)) ** 2
    counts = np.rint(np.fft.irfftn(spectrum, s=sides))
    counts[0, 0, 0] -= len(positions)
    return counts


def structure_factor(positions: np.ndarray, box: np.ndarray, waves: np.ndarray) -> np.ndarray:
    """The static structure factor: the squared sum of exp(i q r) over the number of monomers.

    The waves are rows of three whole numbers, and their wave vectors are 2 pi times these over the sides.
    """
    vectors = 2 * np.pi * np.asarray(waves, dtype=np.int64).reshape(-1, 3) / box
    sums = [np.exp(1j * (positions @ vector)).sum() for vector in vectors]
    return np.abs(np.array(sums)) ** 2 / len(positions)
