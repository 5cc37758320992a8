"""The runner against a stand-in of a few lines, which shows what it was given."""

import sys

import pytest

from piqwenal import Crossing, ProgramError, build, call, info, run
from piqwenal.run import parse_report

REPORT = "kept 104\nframes 1\nmcs 2\nskipped 3\naccepted 4\nlinks 0\ncrossing free\n"


@pytest.fixture
def program(tmp_path, monkeypatch):
    """A program that writes its words and its input, and ends with the status and report that are set."""

    def made(status: int = 0, report: str = "") -> None:
        path = tmp_path / "program"
        path.write_text(
            f"#!{sys.executable}\nimport sys\n"
            "sys.stdout.write(' '.join(sys.argv[1:]) + '|' + sys.stdin.read())\n"
            f"sys.stderr.write({report!r})\nsys.exit({status})\n"
        )
        path.chmod(0o755)
        monkeypatch.setenv("BFM_CLI", str(path))

    return made


def test_a_run_goes_from_file_to_file(tmp_path, program):
    program(report=REPORT)
    (tmp_path / "old").write_text("input\n")
    report = run(tmp_path / "old", tmp_path / "new", seed=42, frames=1, every=2)
    assert (tmp_path / "new").read_text() == "run seed=42 frames=1 every=2|input\n"
    assert (report.kept, report.frames, report.mcs) == (104, 1, 2)
    assert (report.skipped, report.accepted, report.links, report.crossing) == (3, 4, 0, None)


def test_the_state_of_a_switch_is_a_word(tmp_path, program):
    program(report=REPORT)
    (tmp_path / "old").write_text("input\n")
    run(tmp_path / "old", tmp_path / "new", seed=42, frames=1, every=2, link="on")
    assert (tmp_path / "new").read_text() == "run seed=42 frames=1 every=2 link=on|input\n"
    with pytest.raises(TypeError):
        run(tmp_path / "old", tmp_path / "newer", seed=42, frames=1.5, every=2)
    assert not (tmp_path / "newer").exists()


def test_a_start_is_built(tmp_path, program):
    program()
    build("melt", tmp_path / "start", x=16, chains=2)
    assert (tmp_path / "start").read_text() == "build melt x=16 chains=2|"


def test_a_crossing_move_is_told():
    # the example of docs/program.md
    crossed = REPORT.replace("crossing free\n", "crossing 2 2 0 0 0 1 0 2 0 2 -2 0\nweights 8 8 0 8 8\n")
    assert parse_report(crossed).crossing == Crossing(
        (2, 2, 0), (0, 0, 1), (0, 2, 0), (2, -2, 0), (8, 8, 0, 8, 8)
    )
    for text in ("", "kept 104\n", REPORT.replace("links 0\n", ""), REPORT.replace("free", "1 2")):
        with pytest.raises(ValueError):
            parse_report(text)


@pytest.mark.parametrize(
    "status, name, report",
    [
        (2, "BadWords", "words 2\n"),
        (3, "BadFile", "line 7 cause 13 Overlap\n"),
        (4, "NoRoom", "room 8 4\n"),
        (5, "ReadFault", "read\n"),
        (6, "WriteFault", "write\n"),
        (7, "Memory", ""),
        (8, "TooLong", "long 10\n"),
        (9, "ReportFault", "kep"),
        (10, "TooFar", "far 1 2\n"),
        (77, "", "what\n"),
    ],
)
def test_each_other_status_is_an_error(tmp_path, program, status, name, report):
    program(status, report)
    for overwrite in (False, True):
        with pytest.raises(ProgramError) as caught:
            call(["check"], target=tmp_path / "new", overwrite=overwrite)
        assert (caught.value.status, caught.value.name, caught.value.report) == (status, name, report)
        assert f"the status {status} {name}".rstrip() in str(caught.value)
        assert (report.strip() or "an empty report") in str(caught.value)
        assert [path.name for path in tmp_path.iterdir()] == ["program"]


def test_nothing_is_overwritten(tmp_path, program):
    program()
    target = tmp_path / "new"
    target.write_text("old")
    with pytest.raises(FileExistsError):
        call(["check"], target=target)
    assert target.read_text() == "old"
    program(status=3)
    with pytest.raises(ProgramError):
        call(["check"], target=target, overwrite=True)
    assert target.read_text() == "old"
    program()
    call(["check"], target=target, source=target, overwrite=True)
    assert target.read_text() == "check|old"


def test_what_info_tells(tmp_path, monkeypatch):
    path = tmp_path / "program"
    path.write_text(f"#!{sys.executable}\nprint('monomers 3\\nbox 8 9 10\\nmcs 4')\n")
    path.chmod(0o755)
    (tmp_path / "file").write_text("")
    assert info(tmp_path / "file", program=path) == {"monomers": (3,), "box": (8, 9, 10), "mcs": (4,)}


def test_no_program_is_told(tmp_path, monkeypatch):
    monkeypatch.delenv("BFM_CLI", raising=False)
    with pytest.raises(FileNotFoundError, match="BFM_CLI"):
        call(["check"])


def test_a_signal_is_told(tmp_path):
    path = tmp_path / "program"
    path.write_text("#!/bin/sh\nkill -9 $$\n")
    path.chmod(0o755)
    with pytest.raises(ProgramError, match="ended by the signal 9"):
        call(["check"], program=path)
