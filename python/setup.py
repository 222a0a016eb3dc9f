"""Gives the package the VERSION that stands at the top of the checkout: one number for the program and its tools."""

from __future__ import annotations

from pathlib import Path

from setuptools import setup
from setuptools.command.build_py import build_py

VERSION = (Path(__file__).resolve().parent.parent / "VERSION").read_text("ascii").strip()


class BuildWithVersion(build_py):
    """Puts VERSION into the built package."""

    def run(self) -> None:
        super().run()
        if not self.editable_mode:
            Path(self.build_lib, "sigaudit_tools", "VERSION").write_text(VERSION + "\n", "ascii")


setup(version=VERSION, cmdclass={"build_py": BuildWithVersion})
