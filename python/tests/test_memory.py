"""That a long file takes no more memory than a short one."""

import io
import tracemalloc

from conftest import header
from piqwenal import Trajectory


class Endless(io.RawIOBase):
    """A stream that makes a header and so many frames as they are read."""

    def __init__(self, frames: int, monomers: int) -> None:
        body = b"".join(b"%d %d 0 AAA\n" % (k, -k) for k in range(monomers // 4))
        self._parts = (b"\n!mcs=%d\n" % k + body for k in range(frames))
        self._rest = header(monomers).encode()

    def read(self, size: int = -1) -> bytes:
        while len(self._rest) < size:
            part = next(self._parts, b"")
            if not part:
                break
            self._rest += part
        given, self._rest = self._rest[:size], self._rest[size:]
        return given


def peak(frames: int) -> int:
    """The most bytes that are held while so many frames of 1000 monomers are read."""
    tracemalloc.start()
    with Trajectory.open(Endless(frames, 1000)) as trajectory:
        assert sum(1 for _ in trajectory) == frames
    most = tracemalloc.get_traced_memory()[1]
    tracemalloc.stop()
    return most


def test_memory_does_not_grow_with_the_file():
    peak(1)
    assert peak(1200) < 1.2 * peak(120)
