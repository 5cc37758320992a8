"""Files with some bytes spoilt: each is read or refused, and in the same way however its bytes come in."""

import io
import random

import pytest

from conftest import SET, Pieces, header
from piqwenal import FormatError, read_all

TEXT = (
    header(6, 16, (1, 1, 0), SET + "!bonds\n1 6\n!attributes\n1-3:4\n!bfm_fixed\n2\n!bfm_contacts\n4 4:-3\n")
    + "!bfm_acceptance\n100\n\n!mcs=0\n0 0 0 ACB\n-8 8 8 A\r\n# comment\n!remove_bonds\n1 6\n!add_bonds\n4 5\n"
    + "\n!mcs=7\n0 0 0 AC\n-0 2 0\n 2\t2 0  \n!unknown\n1 2\n\n!mcs=9\n0 0 1\n2 0 1 C\n0 2 1\n2 2 2\n4 3 2\n"
).encode()
BYTES = b"\n\n\r \t!#=-:0123456789ABCD,x\x00\xff"


def outcome(stream):
    """What comes of a file: its frames, or the refused line and its cause."""
    try:
        return [(each.mcs, each.positions.tolist(), each.bonds.tolist()) for each in read_all(stream)[1]]
    except FormatError as error:
        return (error.line, error.cause)


def spoilt(random_: random.Random) -> bytes:
    """The text with one to three changes: a byte replaced, put in or taken out, or a line doubled."""
    text = TEXT
    for _ in range(random_.randint(1, 3)):
        at = random_.randrange(len(text))
        byte = bytes([random_.choice(BYTES)])
        line = text[text.rfind(b"\n", 0, at) + 1 : text.find(b"\n", at) + 1]
        begin = text.rfind(b"\n", 0, at) + 1
        change = random_.randrange(4)
        if change == 3:
            text = text[:begin] + line + text[begin:]
        else:
            text = text[:at] + (b"" if change == 0 else byte) + text[at + (change != 2) :]
    return text


@pytest.mark.parametrize("seed", range(20))
def test_a_spoilt_file_is_read_or_refused(seed):
    random_ = random.Random(seed)
    for _ in range(50):
        text = spoilt(random_)
        assert outcome(io.BytesIO(text)) == outcome(Pieces(text)), text


def test_the_text_itself_has_three_frames():
    assert [mcs for mcs, _, _ in outcome(io.BytesIO(TEXT))] == [0, 7, 9]
