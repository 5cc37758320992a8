"""Random files against a reader of a few plain lines, which knows well-formed files only."""

import io
import random
from typing import List, Set, Tuple

import pytest

from conftest import Pieces, header
from piqwenal import read_all

VECTORS = {(2, 0, 0): 32, (-2, 0, 0): 33, (0, 3, 1): 35, (0, -3, -1): 45, (1, 2, 2): 49, (-1, -2, -2): 255}
LIST = "!set_of_bondvectors\n" + "".join(
    "%d %d %d:%d\n" % (*vector, each) for vector, each in VECTORS.items()
)


def plain(text: bytes, count: int) -> List[Tuple[int, list, Set[Tuple[int, int]]]]:
    """Time, places and bonds of the frames of a file."""
    by_byte = {each: vector for vector, each in VECTORS.items()}
    frames, bonds, places, mode, mcs = [], set(), [], "", 0
    for line in text.split(b"\n")[:-1]:
        line = line[:-1] if line.endswith(b"\r") else line
        if line.startswith(b"!"):
            mode = line[1:].split(b"=")[0].decode()
            if mode == "mcs":
                mcs, places = int(line[5:]), []
        elif line.strip(b" \t") == b"" or line.startswith(b"#"):
            continue
        elif mode in ("bonds", "add_bonds"):
            bonds.add(tuple(sorted(int(each) - 1 for each in line.split())))
        elif mode == "remove_bonds":
            bonds.remove(tuple(sorted(int(each) - 1 for each in line.split())))
        elif mode == "mcs":
            x, y, z, *string = line.split(b" ", 3)
            places.append((int(x), int(y), int(z)))
            for byte in b"".join(string):
                places.append(tuple(a + b for a, b in zip(places[-1], by_byte[byte])))
                bonds.add((len(places) - 2, len(places) - 1))
            if len(places) == count:
                frames.append((mcs, places, set(bonds)))
    return frames


def pairs(random_: random.Random, bonds: Set[Tuple[int, int]], count: int, adds: bool) -> bytes:
    """Entries that add or remove some bonds, and the change itself."""
    chosen = set()
    for _ in range(random_.randint(0, 4)):
        if adds and count > 1:
            i, j = random_.sample(range(count), 2)
            chosen.add((min(i, j), max(i, j)))
        elif not adds and bonds:
            chosen.add(random_.choice(sorted(bonds)))
    bonds.update(chosen) if adds else bonds.difference_update(chosen)
    lines = b"".join(b"%d %d\n" % (j + 1, i + 1) for i, j in sorted(chosen))
    return (b"!add_bonds\n" if adds else b"!remove_bonds\n") + lines


def frame(random_: random.Random, bonds: Set[Tuple[int, int]], count: int, mcs: int) -> bytes:
    """A frame whose lines go on where the monomers are bonded, or in the first frame at random."""
    text, strung = b"\n!mcs=%d\n" % mcs, False
    for monomer in range(count):
        bonded = (monomer - 1, monomer) in bonds if mcs else random_.random() < 0.7
        if monomer and bonded and random_.random() < 0.8:
            text += (b"" if strung else b" ") + bytes([random_.choice(list(VECTORS.values()))])
            strung = True
            bonds.add((monomer - 1, monomer))
            continue
        ended = random_.choice([b"\n", b"\r\n", b"\n\n# comment\n"]) if monomer else b""
        text += ended + b"%d %d %d" % tuple(random_.randint(-300, 300) for _ in range(3))
        strung = False
    return text + b"\n"


@pytest.mark.parametrize("seed", range(60))
def test_a_random_file(seed):
    random_ = random.Random(seed)
    count = random_.choice([1, 2, 3, 10, 40, 200])
    bonds: Set[Tuple[int, int]] = set()
    text = header(count, more=LIST).encode()
    for mcs in range(random_.randint(1, 6)):
        text += frame(random_, bonds, count, mcs)
        for _ in range(random_.randint(0, 2)):
            text += pairs(random_, bonds, count, random_.random() < 0.5)
    text += random_.choice([b"", b"\n!mcs=9\n", b"1 2 3 nothing that ends"])
    expected = plain(text, count)
    for stream in (io.BytesIO(text), Pieces(text)):
        found = read_all(stream)[1]
        assert [each.mcs for each in found] == [mcs for mcs, _, _ in expected]
        for one, (_, places, together) in zip(found, expected):
            assert one.positions.tolist() == [list(place) for place in places]
            assert one.bonds.tolist() == sorted(map(list, together))
