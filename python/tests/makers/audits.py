"""The audit of the intersection's three hours with outages, of a kept answer, so that no program is needed."""

from __future__ import annotations

import dataclasses
import functools
import lzma
import tempfile
from pathlib import Path

from makers.days import INTERSECTION

from sigaudit_tools.answer import Answer, parse_answer
from sigaudit_tools.events import Events
from sigaudit_tools.holes import Holes, read_holes
from sigaudit_tools.intake import hour_files, read_export
from sigaudit_tools.report.audit import Audit
from sigaudit_tools.report.make import audit_of
from sigaudit_tools.signal.config import Config, parse_config

KEPT = Path(__file__).parents[1] / "kept" / "report"


@dataclasses.dataclass(frozen=True, eq=False)
class Made:
    """What a run of the intersection has, in its folder."""

    folder: Path
    config: Config
    events: Events
    answer: Answer
    holes: Holes
    faults_said: list[str] | None
    fillings: str

    def audit(self) -> Audit:
        """What its page is made of."""
        return audit_of(self.answer, self.events, self.folder, self.holes, self.faults_said, self.fillings)


def kept_text(name: str) -> str:
    """A text that was kept of the intersection."""
    return (KEPT / "intersection" / name).read_text(encoding="utf-8")


def kept_answer() -> bytes:
    """The answer that was kept of the intersection."""
    return lzma.decompress((KEPT / "intersection" / "answer.txt.xz").read_bytes())


def made(folder: Path, signal: str = "5101") -> Made:
    """The run of the intersection in a folder, its signal called otherwise where it is."""
    text = (INTERSECTION / "config.toml").read_text(encoding="utf-8").replace('"5101"', f'"{signal}"')
    (folder / "config.toml").write_text(text, encoding="utf-8")
    config = parse_config(text.encode(), Path("config.toml"))
    exports = []
    for hour in ("05", "06", "07"):
        export = (INTERSECTION / f"o{hour}.csv").read_text(encoding="utf-8").replace("\n5101,", f"\n{signal},")
        exports.append(folder / f"o{hour}.txt")
        exports[-1].write_text(export, encoding="utf-8")
    intake = read_export(exports, config=config)
    hour_files(intake, folder)
    answer = parse_answer(config, kept_text("session.txt"), kept_answer(), "session.txt", "answer.txt")
    holes = read_holes(KEPT / "intersection" / "holes.txt")
    return Made(folder, config, intake.events, answer, holes, None, kept_text("pairs.txt"))


@functools.cache
def intersection() -> Made:
    """The run of the intersection, made once."""
    return made(Path(tempfile.mkdtemp(prefix="sigaudit-test-")))


@functools.cache
def audit() -> Audit:
    """What the page of the intersection is made of, made once."""
    return intersection().audit()
