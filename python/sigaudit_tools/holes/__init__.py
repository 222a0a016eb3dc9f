"""Holes: gaps of a log that hide lost rows, and which verdicts stand on log that may have some."""

from sigaudit_tools.holes.found import Holes, find_holes, read_holes
from sigaudit_tools.holes.values import Hole, Suspect

__all__ = ["Hole", "Holes", "Suspect", "find_holes", "read_holes"]
