"""What is said last of a run."""

from __future__ import annotations

from sigaudit_tools import run as runs
from sigaudit_tools.cli import _manners

MUCH_PERCENT = 1.0


def say_summary(run: runs.Run) -> None:
    """Says how much is blanked, what is broken and on how solid a log it stands, and where the page is."""
    table = run.verdicts
    counts = {verdict: int((table["verdict"] == verdict).sum()) for verdict in ("broken", "undecided")}
    refused = sum(edit.startswith("load ") for edit in run.refusals["edit"])
    if refused:
        _manners.say(f"{refused} hours are refused, and nothing of them is in the answer")
    path = run.folder / runs.DOUBTS
    if run.holes is not None and path.is_file():
        solid, blanked = path.read_text("latin-1").splitlines()[-2:]
        holes = run.folder / runs.HOLES
        _manners.say(f"{blanked}, see {holes}")
        if _percent(blanked) > MUCH_PERCENT:
            _manners.say(f"that is more than {MUCH_PERCENT:.0f} %: read {holes} before you use a number")
        _manners.say(f"{solid}, see {path}")
    _manners.say(f"broken {counts['broken']} undecided {counts['undecided']}, see "
                 f"{run.folder / runs.TABLES / 'verdicts.csv'}")
    _manners.say(f"the page of all this is {run.folder / runs.PAGE}")


def _percent(blanked: str) -> float:
    """The share of a line `blanked S of W s, P %: ..`."""
    return float(blanked.split(" s, ")[1].split(" %")[0])
