"""The version of the tools, which is that of the program: a number for both."""

from __future__ import annotations

from pathlib import Path


def _version() -> str:
    """The text of VERSION: in the package where it was installed, at the top of the checkout otherwise."""
    here = Path(__file__).parent
    for path in (here / "VERSION", here.parent.parent / "VERSION"):
        if path.is_file():
            return path.read_text("ascii").strip()
    raise FileNotFoundError(f"no VERSION in {here}: the package isn't whole")


VERSION = _version()
