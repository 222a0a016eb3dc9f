"""Errors of the tools: each says what is wrong, where, and what to do, and has a status to end with."""

from __future__ import annotations

import enum


class Status(enum.IntEnum):
    """With what a command ends, the same in all verbs."""

    RIGHT = 0
    FINDINGS = 1
    USAGE = 2
    INPUT = 3
    PROGRAM = 4
    RESOURCE = 5


class ToolError(Exception):
    """Something that can't be done, in words for who asked for it.

    Args:
        what: what is wrong, a sentence without its end.
        where: a file, with line and column where they are known; or an argument's name. May be empty.
        remedy: what to do, a sentence without its end.
    """

    status: Status = Status.INPUT
    usual_remedy: str = ""

    def __init__(self, what: str, where: str = "", remedy: str = "") -> None:
        super().__init__(what)
        self.what = what
        self.where = where
        self.remedy = remedy or self.usual_remedy

    def __str__(self) -> str:
        place = f"{self.where}: " if self.where else ""
        remedy = f"; {self.remedy}" if self.remedy else ""
        return f"{place}{self.what}{remedy}"


class UsageError(ToolError):
    """The arguments can't be meant so."""

    status = Status.USAGE


class InputError(ToolError):
    """A file or a table isn't what it has to be."""

    status = Status.INPUT


class ProgramError(ToolError):
    """The proved program refused, is of another version, or isn't there."""

    status = Status.PROGRAM


class ResourceError(ToolError):
    """The disk is full, a file may not be read or written, memory ran out."""

    status = Status.RESOURCE
    usual_remedy = "look at the file, its folder and their rights"
