"""The events of a log as columns."""

from __future__ import annotations

import dataclasses

import numpy as np
import numpy.typing as npt

Tenths = npt.NDArray[np.int64]
Codes = npt.NDArray[np.uint8]
Params = npt.NDArray[np.uint16]


@dataclasses.dataclass(frozen=True, eq=False)
class Events:
    """Events of one signal in the order in which they hold: by tenth, those of one tenth as they were logged.

    Attributes:
        tenth: tenths of a second since 1970-01-01 by the log's clock (`times`), never falling, shape (n,).
        code: event codes, 0 to 255, shape (n,).
        param: their parameters, 0 to 65535, shape (n,).
    """

    tenth: Tenths
    code: Codes
    param: Params

    def __post_init__(self) -> None:
        if not len(self.tenth) == len(self.code) == len(self.param):
            raise ValueError("columns of different lengths")
        if len(self.tenth) and bool((np.diff(self.tenth) < 0).any()):
            raise ValueError("tenths fall")

    def __len__(self) -> int:
        return len(self.tenth)

    @classmethod
    def none(cls) -> Events:
        """No event."""
        return cls(np.empty(0, np.int64), np.empty(0, np.uint8), np.empty(0, np.uint16))

    @classmethod
    def in_order(cls, tenth: Tenths, code: Codes, param: Params) -> Events:
        """Events put in order by their tenths; those of one tenth stay in the order that they have."""
        order = np.argsort(tenth, kind="stable")
        return cls(tenth[order], code[order], param[order])

    def between(self, begin: int, end: int) -> Events:
        """Those from the tenth `begin` up to but without the tenth `end`; views, no copies."""
        low, high = np.searchsorted(self.tenth, [begin, end])
        return Events(self.tenth[low:high], self.code[low:high], self.param[low:high])

    def where(self, mask: npt.NDArray[np.bool_]) -> Events:
        """Those for which the mask, shape (n,), holds."""
        return Events(self.tenth[mask], self.code[mask], self.param[mask])

    def of(self, codes: tuple[int, ...], param: int | None = None) -> Events:
        """Those with one of these codes, and of one parameter where one is given."""
        mask = np.isin(self.code, codes)
        return self.where(mask if param is None else mask & (self.param == param))
