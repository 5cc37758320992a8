"""Files of a few lines, with figures worked by hand."""

import io

import numpy as np
import pytest

from conftest import SET, Slow, header, read
from piqwenal import FormatError, Trajectory, read_all


def test_the_header_is_read():
    text = header(3, 16, (1, 0, 1)) + (
        "!attributes\n1-3:7\n2:0\n!bfm_valence\n1 - 2 : 4\n!bfm_fixed\n3\n"
        "!bfm_contacts\n1 2:-5\n2 1:6\n3 3:1000\n!bfm_acceptance\n4294967296\n12\n!mcs=5\n0 0 0\n4 0 0\n8 0 0\n"
    )
    found, frames = read(text)
    assert found.monomers == 3
    assert found.box.tolist() == [16, 16, 16]
    assert found.periodic.tolist() == [True, False, True]
    assert found.vectors.tolist() == [[2, 0, 0], [-2, 0, 0], [0, 2, 0], [0, -2, 0], [2, 1, 0], [-2, -1, 0]]
    assert found.identifiers.tolist() == [65, 66, 67, 68, 32, 33]
    assert found.labels.tolist() == [7, 0, 7]
    assert found.classes.tolist() == [7, 0, 7]
    assert found.valences.tolist() == [4, 4, 0]
    assert found.fixed.tolist() == [False, False, True]
    assert found.contacts[1, 2] == found.contacts[2, 1] == 6
    assert found.contacts[3, 3] == 1000
    assert np.count_nonzero(found.contacts) == 3
    assert found.acceptance.tolist() == [4294967296, 12]
    assert [frame.mcs for frame in frames] == [5]


def test_a_label_above_15_is_class_0():
    found, _ = read(header(1) + "!attributes\n1:16\n!mcs=0\n0 0 0\n")
    assert found.labels.tolist() == [16] and found.classes.tolist() == [0]


def test_a_line_leads_from_monomer_to_monomer():
    _, (frame,) = read(header(4) + "!mcs=0\n3 -4 5 ACB\n")
    assert frame.positions.tolist() == [[3, -4, 5], [5, -4, 5], [5, -2, 5], [3, -2, 5]]
    assert frame.positions.dtype == np.int64
    assert frame.bonds.tolist() == [[0, 1], [1, 2], [2, 3]]


def test_two_lines_of_two():
    _, (frame,) = read(header(4) + "!mcs=0\n3 -4 5 A\n0 0 9 D\n")
    assert frame.positions.tolist() == [[3, -4, 5], [5, -4, 5], [0, 0, 9], [0, -2, 9]]
    assert frame.bonds.tolist() == [[0, 1], [2, 3]]


def test_bonds_of_lists_and_lines_come_together():
    _, frames = read(
        header(4, more=SET + "!bonds\n4 1\n2 3\n3 2\n") + "!mcs=0\n0 0 0 A\n2 2 0 B\n!mcs=1\n0 0 0 ACB\n"
    )
    assert [frame.bonds.tolist() for frame in frames] == [[[0, 1], [0, 3], [1, 2], [2, 3]]] * 2


def test_bonds_are_added_and_removed_between_frames():
    text = (
        header(3)
        + "!mcs=0\n0 0 0 A\n2 2 0\n!add_bonds\n3 2\n1 2\n!mcs=1\n0 0 0 AC\n!remove_bonds\n2 1\n!mcs=2\n0 0 0\n2 0 0 C\n"
    )
    _, frames = read(text)
    assert [frame.bonds.tolist() for frame in frames] == [[[0, 1]], [[0, 1], [1, 2]], [[1, 2]]]


def test_a_bond_is_removed_and_added_again():
    text = header(2) + "!mcs=0\n0 0 0 A\n!remove_bonds\n1 2\n!add_bonds\n1 2\n!mcs=0\n0 0 0 A\n"
    _, frames = read(text)
    assert [frame.bonds.tolist() for frame in frames] == [[[0, 1]], [[0, 1]]]


def test_coordinates_are_not_folded():
    _, (frame,) = read(header(3) + "!mcs=0\n15 0 -40 AA\n")
    assert frame.positions.tolist() == [[15, 0, -40], [17, 0, -40], [19, 0, -40]]


def test_comments_blanks_and_unknown_commands_are_skipped():
    text = (
        "# a comment\n \t\n!unheard=3\nany ! thing\n"
        + header(3)
        + "!no_such_thing\n1 2 3 4\n#!none\nxyz\n!\nx\n"
        "#!mcs = 7 \n# between\n\n  0\t0   0 A\n   \n\t2 2 0\n!unknown\n9 9 9 9 9\n!mcs=8\n0 0 0 A\n2 2 0\n"
    )
    with Trajectory.open(io.BytesIO(text.encode())) as trajectory:
        frames = list(trajectory)
        assert trajectory.skipped == 5
        assert trajectory.frames == 2
        assert trajectory.kept == len(text)
    assert [frame.mcs for frame in frames] == [7, 8]
    assert frames[0].positions.tolist() == [[0, 0, 0], [2, 0, 0], [2, 2, 0]]


def test_carriage_returns_are_dropped():
    text = header(3, more=SET + "!bonds\n1 3\n") + "\n!mcs=0\n0 0 0 A\n2 2 0\n\n!mcs=1\n0 0 0 A\n2 2 0\n"
    _, plain = read(text)
    _, returned = read(text.replace("\n", "\r\n"))
    assert [frame.positions.tolist() for frame in returned] == [frame.positions.tolist() for frame in plain]
    assert [frame.bonds.tolist() for frame in returned] == [frame.bonds.tolist() for frame in plain]
    assert len(plain) == 2


@pytest.mark.parametrize(
    "rest", ["!mcs=4\n0 0 0\n", "!mcs=4\n0 0 0\n2 0 ", "!mcs=4\n0 0 0\n2 0 0", "!mcs=4\n", "!mc", "junk"]
)
def test_an_unfinished_end_is_left_out(rest):
    text = header(2) + "!mcs=3\n0 0 0\n2 0 0\n"
    with Trajectory.open(io.BytesIO((text + rest).encode())) as trajectory:
        assert [frame.mcs for frame in trajectory] == [3]
        assert trajectory.kept == len(text)


def test_blanks_and_marks_are_identifiers_too():
    _, (frame,) = read(header(4) + "!mcs=0\n0 0 0  ! \n")
    assert frame.positions.tolist() == [[0, 0, 0], [2, 1, 0], [0, 0, 0], [2, 1, 0]]


def test_digits_equal_signs_and_high_bytes_are_identifiers_too():
    more = "!set_of_bondvectors\n2 0 0:49\n-2 0 0:45\n0 3 0:61\n0 -3 0:255\n0 0 2:35\n0 0 -2:1\n"
    _, (frame,) = read(header(7, more=more) + "!mcs=0\n-1 0 7 1-=\xff#\x01\n")
    places = [[-1, 0, 7], [1, 0, 7], [-1, 0, 7], [-1, 3, 7], [-1, 0, 7], [-1, 0, 9], [-1, 0, 7]]
    assert frame.positions.tolist() == places


def test_a_space_without_a_string_is_allowed():
    _, (frame,) = read(header(2) + "!mcs=0\n0 0 0 \n2 0 0 \r\n")
    assert frame.positions.tolist() == [[0, 0, 0], [2, 0, 0]]
    assert frame.bonds.tolist() == []


def test_single_bytes_give_the_same_frames():
    text = (
        header(5)
        + "\n!mcs=0\n0 0 0 A\r\n-12 2 0\n5 5 5 D\n!remove_bonds\n1 2\n\n!mcs=3\n1 1 1\n2 2 20\n3 3 300\n4 4 4 D\n"
    )
    _, whole = read(text)
    _, slow = read_all(Slow(text.encode()))
    assert len(whole) == len(slow) == 2
    for one, other in zip(whole, slow):
        assert one.positions.tolist() == other.positions.tolist()
        assert one.bonds.tolist() == other.bonds.tolist()
    assert whole[1].positions.tolist() == [[1, 1, 1], [2, 2, 20], [3, 3, 300], [4, 4, 4], [4, 2, 4]]


def test_numbers_with_zeros_before_them_and_far_places():
    far = 1 << 44
    _, (frame,) = read(header(3) + f"!mcs=0\n{'0' * 30}7 -0 -{'0' * 20}12\n{far} -{far} 0\n0 0 0\n")
    assert frame.positions.tolist() == [[7, 0, -12], [far, -far, 0], [0, 0, 0]]


def test_many_frames_of_single_monomers_across_pieces():
    body = "".join(
        f"\n!mcs={time}\n" + "".join(f"{k} {time} {-k}\n" for k in range(50)) for time in range(2000)
    )
    count = 0
    with Trajectory.open(io.BytesIO((header(50) + body).encode())) as trajectory:
        for time, frame in enumerate(trajectory):
            k = np.arange(50)
            assert frame.mcs == time
            assert np.array_equal(frame.positions, np.stack((k, np.full(50, time), -k), axis=1))
            count += 1
    assert count == 2000


def test_a_path_is_opened_and_closed(tmp_path):
    path = tmp_path / "file"
    path.write_text(header(1) + "!mcs=0\n1 2 3\n")
    with Trajectory.open(path) as trajectory:
        assert next(iter(trajectory)).positions.tolist() == [[1, 2, 3]]


BEGUN = header(2) + "!mcs=3\n"
WHOLE = BEGUN + "0 0 0 A\n"
# the header has 7 values, the name of the set and 6 vectors: line 15 is that of the first !mcs
WRONG = [
    ("", 1, "NoFrame"),
    ("# nothing\n\n", 3, "NoFrame"),
    ("1 2 3\n", 1, "BadLine"),
    ("!number_of_monomers\n", 1, "BadLine"),
    ("!number_of_monomers=0\n", 1, "OutOfLimit"),
    ("!box_x=7\n", 1, "OutOfLimit"),
    ("!box_x=8\n!box_x=8\n", 2, "Repeated"),
    ("!box_x=8\n5\n", 2, "BadLine"),
    ("!mcs=0\n", 1, "Missing"),
    ("!add_bonds\n", 1, "Misplaced"),
    ("!bfm_solid\n", 1, "Unbuilt"),
    ("!set_of_bondvectors\n1 1 0:65\n", 2, "BadVector"),
    ("!set_of_bondvectors\n2 0 0:13\n", 2, "OutOfLimit"),
    ("!set_of_bondvectors\n2 0 0:65\n2 0 0:66\n", 3, "Repeated"),
    ("!set_of_bondvectors\n2 0 0\n", 2, "BadLine"),
    ("!bonds\n2 2\n", 2, "BadMonomer"),
    ("!bfm_fixed\n3-2\n", 2, "BadMonomer"),
    ("!bfm_valence\n1:9\n", 2, "OutOfLimit"),
    ("!bfm_contacts\n0 1:1\n", 2, "OutOfLimit"),
    (header(2, more="!set_of_bondvectors\n2 0 0:65\n") + "!mcs=0\n", 10, "NotSymmetric"),
    (header(2, more="!bonds\n1 3\n") + "!mcs=0\n", 10, "BadMonomer"),
    (header(2, side=512) + "!mcs=0\n", 15, "OutOfLimit"),
    (BEGUN + "0 0\n", 16, "BadLine"),
    (BEGUN + "0 0 0\n0 0 x\n", 17, "BadLine"),
    (BEGUN + "0 0 0\n0 0 --1\n", 17, "BadLine"),
    (BEGUN + "0 0 0\n0 0 -\n", 17, "BadLine"),
    (BEGUN + "0 0 1-1\n", 16, "BadLine"),
    (BEGUN + "0 0,0\n", 16, "BadLine"),
    (BEGUN + "0 +0 0\n", 16, "BadLine"),
    (BEGUN + "0 0 0\tA\n", 16, "BadLine"),
    (BEGUN + f"0 0 {(1 << 44) + 1}\n", 16, "OutOfLimit"),
    (BEGUN + f"0 0 {10**30}\n", 16, "OutOfLimit"),
    (BEGUN + "0 0 0 Z\n", 16, "UnknownId"),
    (BEGUN + "0 0 0 AA\n", 16, "FrameLong"),
    (BEGUN + "0 0 0\n2 0 0 A\n", 17, "FrameLong"),
    (BEGUN + "0 0 0\n!mcs=4\n", 17, "FrameShort"),
    (BEGUN + "0 0 0\n!unknown\n", 17, "FrameShort"),
    (WHOLE + "4 0 0\n", 17, "FrameLong"),
    (WHOLE + "4 0\n", 17, "BadLine"),
    (WHOLE + "4 0 0 AZ\n", 17, "UnknownId"),
    (WHOLE + "!mcs=2\n", 17, "McsOrder"),
    (WHOLE + "!box_x=16\n", 17, "Misplaced"),
    (WHOLE + "!remove_bonds\n1 2\n2 1\n", 19, "BondUnknown"),
    (WHOLE + "!add_bonds\n1 3\n", 18, "BadMonomer"),
    (WHOLE + "!remove_bonds\n1 2\n1 2\nx\n", 19, "BondUnknown"),
    (WHOLE + "!remove_bonds\n1 2\nx\n1 2\n", 19, "BadLine"),
    ("!mcs=x\n", 1, "BadLine"),
    ("!mcs=-1\n", 1, "OutOfLimit"),
    (header(1) + f"!mcs={(1 << 40) + 1}\n", 15, "OutOfLimit"),
    (WHOLE + "!remove_bonds\n1 2\n!mcs=4\n0 0 0 A\n", 20, "BondUnknown"),
    (BEGUN + "0 0 0\n2 0 0\n!mcs=4\n0 0 0 A\n", 19, "BondUnknown"),
    (BEGUN + "0 0 0" + " " * 524_283 + "\n", 16, "OutOfLimit"),
]


@pytest.mark.parametrize("text, line, cause", WRONG)
def test_a_wrong_line_is_told(text, line, cause):
    with pytest.raises(FormatError) as caught:
        read(text)
    assert (caught.value.line, caught.value.cause) == (line, cause)
    assert str(caught.value).startswith(f"line {line}: {cause}: ")


def test_frames_before_a_wrong_line_are_given():
    trajectory = Trajectory.open(io.BytesIO((WHOLE + "4 0 0\n").encode()))
    frames = iter(trajectory)
    assert next(frames).mcs == 3
    with pytest.raises(FormatError):
        next(frames)
