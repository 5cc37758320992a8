"""The tables of the program, read from a stand-in, and beside the package's own figures."""

import sys
from fractions import Fraction

import numpy as np
import pytest

from piqwenal import (
    ProgramError,
    check,
    clusters,
    contacts,
    displacements,
    end_to_end_squared,
    molecules_of,
    moves,
    radii,
    radius_of_gyration_squared,
    trial,
)
from worlds import needs_program, starts, trajectories


@pytest.fixture
def writes(tmp_path, monkeypatch):
    """A program that writes this text, whatever it is given."""

    def made(text: str) -> None:
        path = tmp_path / "program"
        path.write_text(f"#!{sys.executable}\nprint({text!r}, end='')\n")
        path.chmod(0o755)
        monkeypatch.setenv("BFM_CLI", str(path))

    return made


def test_radii_are_exact(tmp_path, writes):
    writes(f"molecule 1 2 4/4 4\nmolecule 3 1 {10**30}/9 0\n")
    found = radii(tmp_path / "program")
    assert found.first.tolist() == [0, 2] and found.sizes.tolist() == [2, 1]
    assert found.exact == [Fraction(1), Fraction(10**30, 9)] and found.end_squared == [4, 0]
    assert found.radius_squared.tolist() == [1.0, 1e30 / 9]


def test_moves_have_means(tmp_path, writes):
    writes("monomers 7/2\nmolecule 1 1 3/1\nmolecule 2 1 4/1\n")
    found = moves(tmp_path / "program")
    assert (found.g1, found.g3, found.monomers) == (3.5, 3.5, Fraction(7, 2))


def test_other_tables(tmp_path, writes):
    writes("0 0 5\n1 2 3\ntotal 8\n")
    assert contacts(tmp_path / "program") == {(0, 0): 5, (1, 2): 3}
    writes("1 5\n3 2\n")
    assert clusters(tmp_path / "program") == {1: 5, 3: 2}
    writes("crossing free\n")
    assert check(tmp_path / "program") is None
    writes("trial 7\naccepted 12\nradius 34\n")
    assert (trial(7).number, trial(7).accepted, trial(7).radius) == (7, 12, 34)


@pytest.mark.parametrize("text", ["", "molecule 1 2 3/4\n", "nothing\n", "monomers 3/1\nmolecule 1 2 3/4 5\n"])
def test_a_table_of_another_kind_is_refused(tmp_path, writes, text):
    writes(text)
    with pytest.raises(ValueError):
        moves(tmp_path / "program")


def test_contacts_that_do_not_add_up_are_refused(tmp_path, writes):
    writes("0 0 5\ntotal 6\n")
    with pytest.raises(ValueError):
        contacts(tmp_path / "program")


@needs_program
def test_tables_agree_with_frames(tmp_path):
    for name, (path, header, frames) in trajectories(tmp_path).items():
        last = frames[-1]
        found, far = radii(path), moves(path)
        molecules = molecules_of(last.bonds, header.monomers)
        assert found.sizes.tolist() == far.sizes.tolist() == molecules.sizes.tolist()
        assert found.first.tolist() == np.unique(molecules.of, return_index=True)[1].tolist()
        squared = radius_of_gyration_squared(last.positions, molecules)
        assert found.radius_squared == pytest.approx(squared, abs=1e-9)
        if name in ("melt", "brush"):
            assert found.end_squared == end_to_end_squared(last.positions, molecules).tolist()
        ways = displacements(frames, molecules)
        assert (far.g1, far.g3) == pytest.approx((ways.g1[-1], ways.g3[-1]))
        assert sum(size * count for size, count in clusters(path).items()) == header.monomers
        assert sum(contacts(path).values()) == _pairs_in_contact(header, last)
        assert check(path) is None


def _pairs_in_contact(header, frame):
    """All pairs of monomers whose wrapped difference has the squared length 4, 5 or 6."""
    difference = frame.positions[:, None] - frame.positions
    sides = np.where(header.periodic, header.box, 1)
    wrapped = difference - np.where(header.periodic, np.round(difference / sides) * sides, 0)
    squared = (wrapped**2).sum(axis=2)
    return int(((squared >= 4) & (squared <= 6)).sum() // 2)


@needs_program
def test_a_trial_has_the_same_lines_again():
    assert trial(1) == trial(1) != trial(2)


@needs_program
def test_a_refused_file_and_a_wrong_limit_are_told(tmp_path):
    starts(tmp_path)
    with pytest.raises(ProgramError) as caught:
        radii(tmp_path / "melt", limit=10)
    assert (caught.value.status, caught.value.report) == (8, "long 10\n")
