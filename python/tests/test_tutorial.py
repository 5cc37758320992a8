"""That the lines of docs/tutorial.md run, in their order, and print what stands there. Takes half a minute."""

import os
import pathlib
import re
import subprocess
import sys
import textwrap

from worlds import needs_program

TOP = pathlib.Path(__file__).resolve().parents[2]


def blocks(text):
    """The indented blocks of a page, with empty lines between them."""
    return [textwrap.dedent(each) for each in re.findall(r"(?:^    .*\n)+", text, re.MULTILINE)]


def programs(folder, monkeypatch):
    """Goes into a folder, and has the program, this Python and the package in the paths."""
    program = pathlib.Path(os.environ["BFM_CLI"]).resolve()
    (folder / "bin").mkdir()
    for name, path in (("bfm_cli", program), ("python3", sys.executable)):
        script = folder / "bin" / name
        script.write_text(f"#!/bin/sh\nexec '{path}' \"$@\"\n")
        script.chmod(0o755)
    monkeypatch.setenv("PATH", f"{folder / 'bin'}:{os.environ['PATH']}")
    monkeypatch.setenv("PYTHONPATH", str(TOP / "python"))
    monkeypatch.chdir(folder)


@needs_program
def test_the_part_by_hand(tmp_path, monkeypatch, capsys):
    page = (TOP / "docs" / "tutorial.md").read_text()
    paths, start, sizes, longer, script, printed = blocks(page.split("## By hand")[1].split("\n## ")[0])
    assert all(name in paths for name in ("BFM_CLI=", "PATH=", "PYTHONPATH="))
    programs(tmp_path, monkeypatch)
    told = subprocess.run(["sh", "-ec", start], stdout=subprocess.PIPE, text=True, check=True).stdout
    assert told == sizes
    subprocess.run(["sh", "-ec", longer], check=True)
    exec(script, {})
    assert capsys.readouterr().out == printed


@needs_program
def test_the_five_lines_of_the_first_page(tmp_path, monkeypatch):
    page = (TOP / "README.md").read_text()
    lines = blocks(page.split("five lines")[1])[0]
    assert len(lines.splitlines()) == 5
    printed = re.search(r"The last one prints ([0-9.]+)", page).group(1)
    programs(tmp_path, monkeypatch)
    told = subprocess.run(["sh", "-ec", lines], stdout=subprocess.PIPE, text=True, check=True).stdout
    assert told.splitlines()[-1] == printed


def test_the_tables_are_those_of_the_script():
    page = (TOP / "docs" / "tutorial.md").read_text()
    values = (TOP / "docs" / "tutorial" / "values.txt").read_text().splitlines()
    shown = [line for each in blocks(page.split("## Watch it relax")[1]) for line in each.splitlines()]
    assert len(shown) > 30
    stripped = {line.strip() for line in values}
    assert [line for line in shown if line.strip() not in stripped] == []
