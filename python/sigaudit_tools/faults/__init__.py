"""Faults of detectors and other channels: silent, stuck, chattering."""

from sigaudit_tools.faults.faults import Faults, find_faults
from sigaudit_tools.faults.find import Finding

__all__ = ["Faults", "Finding", "find_faults"]
