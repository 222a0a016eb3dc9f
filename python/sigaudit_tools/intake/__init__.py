"""Exports of logs read into events: files of any usual form and cut, tables, and hour files made of them."""

from sigaudit_tools.intake.hours import hour_files
from sigaudit_tools.intake.read import Intake, Source, read_export

__all__ = ["Intake", "Source", "hour_files", "read_export"]
