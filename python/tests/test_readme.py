"""That the lines of the page run."""

import pathlib
import re
import textwrap

from conftest import header


def test_the_lines_of_the_page_give_the_radius(tmp_path, monkeypatch, capsys):
    page = (pathlib.Path(__file__).parent.parent / "README.md").read_text()
    lines = re.search(r"\n\n((?:    .*\n)*    from piqwenal (?:.*\n)(?:    .*\n)*)", page)
    monkeypatch.chdir(tmp_path)
    pathlib.Path("trajectory.bfm").write_text(header(4) + "!mcs=0\n0 0 0 AAA\n!mcs=10\n1 0 0 AAA\n")
    exec(textwrap.dedent(lines.group(1)), {})
    assert capsys.readouterr().out == "0 5.0\n10 5.0\n"
