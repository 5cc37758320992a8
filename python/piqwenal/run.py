"""Starts the program and reads its report.

The program is the path that is given, or else that in the environment variable `BFM_CLI`. Input and output go
from file to file and not through this process.
"""

from __future__ import annotations

import operator
import os
import subprocess
import tempfile
from contextlib import contextmanager
from dataclasses import dataclass
from typing import BinaryIO, Dict, Iterator, List, Mapping, Optional, Tuple, Union

Path = Union[str, "os.PathLike[str]"]
Value = Union[int, str]

STATUSES: Dict[int, str] = {
    2: "BadWords",
    3: "BadFile",
    4: "NoRoom",
    5: "ReadFault",
    6: "WriteFault",
    7: "Memory",
    8: "TooLong",
    9: "ReportFault",
    10: "TooFar",
}


class ProgramError(RuntimeError):
    """The program ended with a status other than 0: its number, its name in docs/program.md, the report."""

    def __init__(self, words: List[str], status: int, report: str) -> None:
        ended = f"was ended by the signal {-status}" if status < 0 else f"ended with the status {status}"
        self.status = status
        self.name = STATUSES.get(status, "")
        self.report = report
        told = report.strip() or "an empty report"
        super().__init__(f"'{' '.join(words)}' {ended} {self.name}".rstrip() + f": {told}")


@dataclass(frozen=True)
class Crossing:
    """The first crossing move of a set, in the numbers of the lines `crossing` and `weights`."""

    bond: Tuple[int, int, int]
    step: Tuple[int, int, int]
    place: Tuple[int, int, int]
    other: Tuple[int, int, int]
    weights: Tuple[int, int, int, int, int]


@dataclass(frozen=True)
class Report:
    """The report of a run. `crossing` is none where the set is free."""

    kept: int
    frames: int
    mcs: int
    skipped: int
    accepted: int
    links: int
    crossing: Optional[Crossing]


def build(
    kind: str, target: Path, program: Optional[Path] = None, overwrite: bool = False, **keys: int
) -> None:
    """Writes a start: a melt, a brush or a network."""
    call(["build", kind], keys, target=target, program=program, overwrite=overwrite)


def run(
    source: Path, target: Path, program: Optional[Path] = None, overwrite: bool = False, **keys: Value
) -> Report:
    """Goes on from the last frame of a file and writes a longer one. Keys: seed, frames, every, link, limit.

    The value of link is "on" or "off", and the others are whole numbers.
    """
    return parse_report(
        call(["run"], keys, source=source, target=target, program=program, overwrite=overwrite)
    )


def info(source: Path, program: Optional[Path] = None, **keys: int) -> Dict[str, Tuple[int, ...]]:
    """What the program tells of a file, by the names of its lines."""
    return lines_of(output_of("info", source, program, **keys))


def output_of(job: str, source: Optional[Path] = None, program: Optional[Path] = None, **keys: int) -> str:
    """What a job writes whose output is short, as a text."""
    with tempfile.TemporaryDirectory() as folder:
        target = os.path.join(folder, "told")
        call([job], keys, source=source, target=target, program=program)
        with open(target, encoding="ascii") as file:
            return file.read()


def call(
    job: List[str],
    keys: Optional[Mapping[str, Value]] = None,
    source: Optional[Path] = None,
    target: Optional[Path] = None,
    program: Optional[Path] = None,
    overwrite: bool = False,
) -> str:
    """Starts a job with its keys, and gives the report where the status is 0.

    The input is empty where no source is given, and the output is dropped where no target is. Where the
    status is another one, no file is left at the target, or the one that was there before.
    """
    words = [*job, *(f"{key}={_word(value)}" for key, value in (keys or {}).items())]
    command = [_program(program), *words]
    with open(os.devnull if source is None else source, "rb") as given:
        if target is None:
            return _started(command, words, given, subprocess.DEVNULL)
        with _written(target, overwrite) as output:
            return _started(command, words, given, output)


def _word(value: Value) -> str:
    return value if isinstance(value, str) else str(operator.index(value))


def _program(program: Optional[Path]) -> str:
    path = program if program is not None else os.environ.get("BFM_CLI")
    if not path:
        raise FileNotFoundError("no program: give its path, or set the environment variable BFM_CLI")
    return os.fspath(path)


def _started(command: List[str], words: List[str], source: BinaryIO, output: Union[int, BinaryIO]) -> str:
    done = subprocess.run(command, stdin=source, stdout=output, stderr=subprocess.PIPE, check=False)
    report = done.stderr.decode("utf-8", "replace")
    if done.returncode != 0:
        raise ProgramError(words, done.returncode, report)
    return report


@contextmanager
def _written(target: Path, overwrite: bool) -> Iterator[BinaryIO]:
    """A new file that stands at the target once all went well; one that fails is taken away.

    Where the target may be overwritten, the new file is written beside it first and then takes its place.
    """
    if overwrite:
        number, name = tempfile.mkstemp(dir=os.path.dirname(os.path.abspath(target)), prefix=".piqwenal-")
        file: BinaryIO = os.fdopen(number, "wb")
    else:
        name = os.fspath(target)
        file = open(name, "xb")
    try:
        with file:
            yield file
        if overwrite:
            os.chmod(name, 0o666 & ~_mask())
            os.replace(name, target)
    except BaseException:
        os.unlink(name)
        raise


def _mask() -> int:
    mask = os.umask(0)
    os.umask(mask)
    return mask


def parse_report(text: str) -> Report:
    """The report of a run that was done."""
    lines = lines_of(text)
    names = ("kept", "frames", "mcs", "skipped", "accepted", "links")
    missing = [name for name in names if len(lines.get(name, ())) != 1]
    if missing or "crossing" not in lines:
        raise ValueError(f"this is no report of a run: {text[:200]!r}")
    return Report(**{name: lines[name][0] for name in names}, crossing=crossing_of(lines))


def crossing_of(lines: Dict[str, Tuple[int, ...]]) -> Optional[Crossing]:
    move, weights = lines["crossing"], lines.get("weights", ())
    if not move:
        return None
    if len(move) != 12 or len(weights) != 5:
        raise ValueError("the lines on crossing moves have another form")
    parts = [(move[at], move[at + 1], move[at + 2]) for at in range(0, 12, 3)]
    return Crossing(parts[0], parts[1], parts[2], parts[3], weights)  # type: ignore[arg-type]


def lines_of(text: str) -> Dict[str, Tuple[int, ...]]:
    """Lines of a name and numbers. The line `crossing free` has no numbers."""
    lines: Dict[str, Tuple[int, ...]] = {}
    for line in text.splitlines():
        name, *rest = line.split()
        lines[name] = () if (name, rest) == ("crossing", ["free"]) else tuple(map(int, rest))
    return lines
