"""The notebook of the examples runs, cell by cell, and so do the lines of the README."""

from __future__ import annotations

import ast
import json
import shutil
from pathlib import Path

import pandas as pd
import pytest
from makers.days import INTERSECTION, TOP
from makers.runs import needs_program

NOTEBOOK = TOP / "examples" / "first-look.ipynb"


def run_cell(source: str, names: dict[str, object]) -> object:
    """Runs a cell, and answers what its last line is, where that is an expression."""
    tree = ast.parse(source)
    last = tree.body.pop() if isinstance(tree.body[-1], ast.Expr) else None
    exec(compile(tree, str(NOTEBOOK), "exec"), names)
    if not isinstance(last, ast.Expr):
        return None
    return eval(compile(ast.Expression(last.value), str(NOTEBOOK), "eval"), names)


@needs_program
def test_the_notebook_runs(tmp_path: Path, monkeypatch: pytest.MonkeyPatch) -> None:
    shutil.copytree(INTERSECTION, tmp_path / "intersection")
    monkeypatch.chdir(tmp_path)
    names: dict[str, object] = {}
    cells = [cell for cell in json.loads(NOTEBOOK.read_text())["cells"] if cell["cell_type"] == "code"]
    shown = [run_cell("".join(cell["source"]), names) for cell in cells]
    holes, verdicts, splits, arrivals = (one for one in shown if one is not None)
    assert isinstance(holes, list) and holes[-1] == "proposed 3 blanks 145.0 of 10800.0"
    assert isinstance(verdicts, pd.Series) and verdicts.sum() == 35
    assert isinstance(splits, pd.DataFrame) and splits.shape == (8, 3) and splits.loc[2].between(15, 150).all()
    assert isinstance(arrivals, pd.DataFrame) and arrivals["share"].between(0, 1).all()
    assert (tmp_path / "first-look.html").stat().st_size > 100_000


@needs_program
def test_the_lines_of_the_readme_run(tmp_path: Path, monkeypatch: pytest.MonkeyPatch) -> None:
    text = (TOP / "python" / "README.md").read_text().split("## In Python\n", 1)[1].split("\n##", 1)[0]
    lines = [line[4:] for line in text.split("\n") if line.startswith("    ")]
    assert len(lines) <= 10 and lines[0] == "import pandas as pd"
    shutil.copytree(INTERSECTION, tmp_path / "examples" / "intersection")
    monkeypatch.chdir(tmp_path)
    exec("\n".join(lines), {})
    assert (tmp_path / "page.html").is_file()
