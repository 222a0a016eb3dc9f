"""Tools around the proved program `sigaudit`: tested, not proved.

What `sigaudit` prints is proved; what stands here comes before and after it: exports read into events, holes and faults
looked for, a script written, the answer read back, tables, charts and a page made of it.

    import sigaudit_tools as st

    log = st.read_export("day.csv", config=st.read_config("config.toml"))
    run = st.audit("config.toml", log.events)
    run.verdicts, run.measures("phases"), run.points
    run.report("report.html")

Modules are imported when one of these names is asked for.
"""

from __future__ import annotations

import importlib
from typing import TYPE_CHECKING

from sigaudit_tools._version import VERSION

if TYPE_CHECKING:
    from sigaudit_tools.answer import Answer, parse_answer, read_answer
    from sigaudit_tools.auditing import Wishes, audit
    from sigaudit_tools.errors import InputError, ProgramError, ResourceError, ToolError, UsageError
    from sigaudit_tools.events import Events
    from sigaudit_tools.faults import Faults, find_faults
    from sigaudit_tools.holes import Holes, find_holes, read_holes
    from sigaudit_tools.holes.doubts import Doubts, find_doubts
    from sigaudit_tools.intake import Intake, hour_files, read_export
    from sigaudit_tools.program import Program, find_program
    from sigaudit_tools.run import Run, open_run
    from sigaudit_tools.signal.config import Config, parse_config, read_config

_MODULES = {
    "answer": ("Answer", "parse_answer", "read_answer"),
    "auditing": ("Wishes", "audit"),
    "errors": ("InputError", "ProgramError", "ResourceError", "ToolError", "UsageError"),
    "events": ("Events",),
    "faults": ("Faults", "find_faults"),
    "holes": ("Holes", "find_holes", "read_holes"),
    "holes.doubts": ("Doubts", "find_doubts"),
    "intake": ("Intake", "hour_files", "read_export"),
    "program": ("Program", "find_program"),
    "run": ("Run", "open_run"),
    "signal.config": ("Config", "parse_config", "read_config"),
}
_WHERE = {name: module for module, names in _MODULES.items() for name in names}

__all__ = [
    "VERSION", "Answer", "Config", "Doubts", "Events", "Faults", "Holes", "InputError", "Intake", "Program",
    "ProgramError", "ResourceError", "Run", "ToolError", "UsageError", "Wishes", "audit", "find_doubts", "find_faults",
    "find_holes", "find_program", "hour_files", "open_run", "parse_answer", "parse_config", "read_answer",
    "read_config", "read_export", "read_holes",
]


def __getattr__(name: str) -> object:
    if name not in _WHERE:
        raise AttributeError(f"sigaudit_tools has no {name}")
    found: object = getattr(importlib.import_module(f"{__name__}.{_WHERE[name]}"), name)
    globals()[name] = found
    return found


def __dir__() -> list[str]:
    return sorted(__all__)
