"""What is known of a log where an answer was given."""

from __future__ import annotations

import numpy as np

from sigaudit_tools.answer import Answer, Known
from sigaudit_tools.events import Events


def known_events(events: Events, answer: Answer, known: Known | None = None) -> Events:
    """The events of the window that were known at a moment of an answer's script, at its end without one."""
    inside = events.between(answer.config.start_tenth, answer.config.end_tenth)
    unknown = answer.unknown(known)
    if not unknown:
        return inside
    begins, ends = np.array(unknown, np.int64).T
    place = np.searchsorted(begins, inside.tenth, "right") - 1
    return inside.where((place < 0) | (inside.tenth >= ends[place]))
