"""Figures of small worlds, worked by hand."""

import itertools

import numpy as np
import pytest

from conftest import SET, header, read
from piqwenal import (
    block_average,
    bond_distribution,
    centres_of_mass,
    displacements,
    displacements_over_origins,
    end_to_end_squared,
    made_whole,
    molecules_of,
    radial_distribution,
    radius_of_gyration_squared,
    structure_factor,
    wrapped,
)

BOX = np.array([16, 16, 16])
ALL = np.array([True, True, True])


def test_molecules_stand_in_the_order_of_their_least_members():
    found = molecules_of(np.array([[1, 5], [2, 3], [0, 4], [3, 6]]), 8)
    assert found.of.tolist() == [0, 1, 2, 2, 0, 1, 2, 3]
    assert found.sizes.tolist() == [2, 2, 3, 1]
    assert found.members(2).tolist() == [2, 3, 6]
    assert found.ends.tolist() == [[0, 4], [1, 5], [2, 6], [7, 7]]


def test_rings_stars_and_lassos_have_no_ends():
    ring = [[0, 1], [1, 2], [0, 2]]
    star = [[3, 4], [3, 5], [3, 6]]
    lasso = [[7, 8], [8, 9], [9, 10], [8, 10], [10, 11]]  # two ends, and a ring between them
    found = molecules_of(np.array(ring + star + lasso), 12)
    assert found.ends.tolist() == [[-1, -1]] * 3
    assert np.isnan(end_to_end_squared(np.zeros((12, 3), dtype=np.int64), found)).all()


def test_a_long_chain_in_mixed_order_is_one_molecule():
    order = np.random.default_rng(1).permutation(5000)
    found = molecules_of(np.stack((order[1:], order[:-1]), axis=1), 5000)
    assert found.sizes.tolist() == [5000]
    assert found.ends.tolist() == [sorted([order[0], order[-1]])]


def test_no_bonds_make_each_monomer_a_molecule():
    found = molecules_of(np.zeros((0, 2), dtype=np.int64), 3)
    assert found.of.tolist() == [0, 1, 2]
    assert end_to_end_squared(np.arange(9).reshape(3, 3), found).tolist() == [0, 0, 0]


def test_a_straight_chain(straight):
    # places 0, 2, 4, 6 along x: end to end 36; about the centre 3 the squares 9, 1, 1, 9 have the mean 5
    _, frames = straight
    found = molecules_of(frames[0].bonds, 4)
    for frame in frames:
        assert end_to_end_squared(frame.positions, found).tolist() == [36]
        assert radius_of_gyration_squared(frame.positions, found).tolist() == [5]
    assert centres_of_mass(frames[1].positions, found).tolist() == [[4, 2, 2]]


def test_displacements_of_a_shifted_frame(straight):
    # each monomer and the centre went by (1, 2, 2), whose square is 9
    _, frames = straight
    found = displacements(frames)
    assert found.times.tolist() == [0, 10]
    assert found.g1.tolist() == [0, 9]
    assert found.g3.tolist() == [0, 9]


def test_a_single_step_moves_the_centre_less():
    # of two bonded monomers one goes by 1: g1 is 1/2, the centre goes by 1/2, g3 is 1/4
    _, frames = read(header(2) + "!mcs=2\n0 0 0 A\n!mcs=3\n0 0 0 A\n!mcs=4\n0 0 0\n2 1 0\n")
    found = displacements(frames)
    assert found.times.tolist() == [0, 1, 2]
    assert found.g1.tolist() == [0, 0, 0.5]
    assert found.g3.tolist() == [0, 0, 0.25]
    # over two origins a distance of one sweep has 0 and 1/2
    over = displacements_over_origins(frames)
    assert over.times.tolist() == [0, 1, 2]
    assert over.g1.tolist() == [0, 0.25, 0.5]
    assert over.g3.tolist() == [0, 0.125, 0.25]


def test_origins_ask_for_equal_distances():
    _, frames = read(header(1) + "!mcs=0\n0 0 0\n!mcs=1\n0 0 0\n!mcs=3\n0 0 0\n")
    with pytest.raises(ValueError):
        displacements_over_origins(frames)


def test_some_lags_are_those_of_all():
    _, frames = read(header(1) + "".join(f"!mcs={10 * t}\n{t * t} 0 0\n" for t in range(5)))
    every, some = displacements_over_origins(frames), displacements_over_origins(frames, lags=[3, 1])
    assert some.times.tolist() == [30, 10]
    assert some.g1.tolist() == some.g3.tolist() == every.g1[[3, 1]].tolist()
    for lag in (-1, 5):
        with pytest.raises(ValueError):
            displacements_over_origins(frames, lags=[lag])


def test_block_averages():
    # the 9 is left out; blocks 1, 3 and 2, 2 and 5, 7 have the means 2, 2, 6: mean 10/3,
    # variance (16/9 + 16/9 + 64/9) / 2 = 16/3, error sqrt(16/9) = 4/3
    found = block_average([9, 1, 3, 2, 2, 5, 7], blocks=3)
    assert found.mean == pytest.approx(10 / 3)
    assert found.error == pytest.approx(4 / 3)
    assert found.blocks == 3
    for values, blocks in (([1, 2, 3], 1), ([1], 2), ([], 2), ([1, 2], 0)):
        with pytest.raises(ValueError):
            block_average(values, blocks)


def test_places_are_folded_along_periodic_axes_only():
    places = np.array([[-1, -1, 16], [17, 3, 15]])
    assert wrapped(places, BOX, np.array([True, False, True])).tolist() == [[15, -1, 0], [1, 3, 15]]


def test_a_bond_through_the_boundary_is_made_whole():
    _, (frame,) = read(header(3, more=SET + "!bonds\n1 2\n2 3\n") + "!mcs=0\n1 0 0\n15 0 0\n13 0 16\n")
    found = molecules_of(frame.bonds, 3)
    assert end_to_end_squared(frame.positions, found).tolist() == [12**2 + 16**2]
    whole = made_whole(frame.positions, frame.bonds, BOX, ALL)
    assert whole.tolist() == [[1, 0, 0], [-1, 0, 0], [-3, 0, 0]]
    assert end_to_end_squared(whole, found).tolist() == [16]
    walled = made_whole(frame.positions, frame.bonds, BOX, np.array([True, True, False]))
    assert walled.tolist() == [[1, 0, 0], [-1, 0, 0], [-3, 0, 16]]


def test_what_is_whole_stays(straight):
    _, frames = straight
    assert np.array_equal(made_whole(frames[1].positions, frames[1].bonds, BOX, ALL), frames[1].positions)


def test_radial_distribution_of_two():
    # one pair of one, 3 apart through the boundary, in the shell from 3 to 4 with 37 of 64 * 4/3 pi:
    # the box over the shell is 4096 / (37 * 4/3 pi)
    middles, density = radial_distribution(np.array([[1, 0, 0], [14 + 160, 0, -16]]), BOX, width=1)
    assert middles.tolist() == [0.5, 1.5, 2.5, 3.5, 4.5, 5.5, 6.5, 7.5]
    assert density[3] == pytest.approx(4096 / (37 * 4 / 3 * np.pi))
    assert np.count_nonzero(density) == 1


def test_radial_distribution_of_places_without_order_is_near_1():
    places = np.random.default_rng(3).integers(0, 128, (1500, 3))
    _, density = radial_distribution(places, np.array([128, 128, 128]), width=16)
    assert density[1:] == pytest.approx(1, abs=0.05)


def test_radial_distribution_counts_all_pairs():
    places = np.random.default_rng(4).integers(-40, 40, (60, 3))
    box = np.array([9, 12, 16])
    middles, density = radial_distribution(places, box, width=0.5, reach=4.5)
    counts = np.zeros(9)
    for one, other in itertools.combinations(places, 2):
        away = np.abs(one - other) % box
        distance = np.sqrt((np.minimum(away, box - away) ** 2).sum())
        if distance < 4.5:
            counts[int(distance / 0.5)] += 1
    shares = density * 4 / 3 * np.pi * np.diff((0.5 * np.arange(10)) ** 3)
    assert counts.sum() > 0
    assert shares == pytest.approx(counts * np.prod(box) / (60 * 59 / 2))


def test_bonds_by_their_squared_lengths():
    _, (frame,) = read(header(4, more=SET + "!bonds\n1 2\n2 3\n3 4\n") + "!mcs=0\n1 0 0\n15 0 0\n13 0 16\n12 2 0\n")
    lengths, counts = bond_distribution(frame.positions, frame.bonds, BOX, ALL)
    assert (lengths.tolist(), counts.tolist()) == ([4, 5], [2, 1])
    lengths, counts = bond_distribution(frame.positions, frame.bonds[:0], BOX, ALL)
    assert (lengths.tolist(), counts.tolist()) == ([], [])


def test_radial_distribution_refuses_a_reach_beyond_half_a_side():
    with pytest.raises(ValueError):
        radial_distribution(np.zeros((2, 3), dtype=np.int64), BOX, width=1, reach=9)


def test_structure_factor_of_two():
    # places 4 apart in a side of 16: the phases are 0, pi/2, pi and 2 pi; a whole side changes nothing
    waves = np.array([[0, 0, 0], [1, 0, 0], [2, 0, 0], [4, 0, 0], [0, 5, 0]])
    for places in ([[0, 0, 0], [4, 0, 0]], [[0, 0, 0], [20, -32, 0]]):
        assert structure_factor(np.array(places), BOX, waves) == pytest.approx([2, 1, 0, 2, 2])
