"""Of the silence of a channel at a tenth what each witness saw, and what is usual."""

from __future__ import annotations

import math
from collections.abc import Iterator, Sequence

import numpy as np

from sigaudit_tools.errors import InputError
from sigaudit_tools.faults.answers import BOUNCE
from sigaudit_tools.faults.find import Finding, name_of
from sigaudit_tools.faults.tracks import mark_in_words
from sigaudit_tools.faults.watch import LEAST, Silence, Usual, Watch
from sigaudit_tools.faults.witnesses import Name
from sigaudit_tools.times import stamp_of


def evidence(watch: Watch, findings: Sequence[Finding], name: str, tenth: int) -> list[str]:
    """What is known of a channel at a tenth, in lines: its findings, and the silence that it is in.

    Raises:
        InputError: the log has no such channel.
    """
    mine = [finding for finding in findings if finding.name == name and finding.begin <= tenth < finding.end]
    lines = [finding.line() for finding in mine]
    groups = [group for group in watch.tracks if name_of(group, watch.log) == name]
    if not groups:
        raise InputError(f"the log has no {name}", remedy="name a channel as it is printed: detector 5")
    told = any(finding.word == "chatter" for finding in mine)
    for silence in watch.judged(-math.inf, groups):
        if silence.begin <= tenth < silence.end:
            lines += _of_silence(watch, silence, name)
            told = True
    return lines if told else [*lines, f"no silence of {LEAST // 10} s or more of {name} at {stamp_of(tenth)}"]


def _of_silence(watch: Watch, silence: Silence, name: str) -> Iterator[str]:
    yield (f"silence {(silence.end - silence.begin) / 10:.1f} {stamp_of(silence.begin)} {stamp_of(silence.end)} of "
           f"{name} after {mark_in_words(silence.mark)}")
    for mark in watch.marks(silence.group, silence.mark, silence.next):
        usual = watch.learned.get((silence.group, mark))
        if usual is None:
            yield f"too few silences after {mark_in_words(mark)}"
            continue
        yield f"learned from {usual.count} silences after {mark_in_words(mark)}"
        yield from _of_witnesses(watch, silence, usual)
        yield from _of_answers(watch, silence, mark)


def _of_witnesses(watch: Watch, silence: Silence, usual: Usual) -> Iterator[str]:
    """What each witness saw, that at the pace of the whole log, and what others saw."""
    if not usual.chosen:
        return
    begin, end, chosen = np.array([silence.begin]), np.array([silence.end]), np.array(usual.chosen)
    amounts = watch.amounts(silence.group, chosen, watch.tracks[silence.group].spans(begin, end), end)
    for witness, seen, amount in zip(usual.chosen, watch.witnesses.seen(chosen, begin, end)[:, 0].tolist(),
                                     amounts[:, 0].tolist()):
        mine = usual.amounts[witness]
        without = amount if silence.counted else None
        edge, reached = mine.tail(without).edge, mine.tail(without).reached
        if edge == 0:
            edge, reached = 1, sum(mine.times.values()) - (silence.counted and amount > 0)
        expected = math.exp(mine.expected(amount, without))
        yield (f"witness {_in_words(watch.witnesses.names[witness])} saw {seen}, as {amount} at the usual pace, "
               f"{reached} others saw {edge} or more, likely from {usual.needs[witness]}, expected {expected:.1g} "
               "in this log")


def _of_answers(watch: Watch, silence: Silence, mark: int) -> Iterator[str]:
    """How many came unanswered, and what each adds."""
    for answer in watch.answers[silence.group].get(mark, []):
        seen = watch.witnesses.seen(np.array([answer.witness]), np.array([silence.begin + BOUNCE]),
                                    np.array([silence.end]))
        yield (f"unanswered {_in_words(watch.witnesses.names[answer.witness])} "
               f"{max(0, int(seen[0, 0]) - answer.before)}, each adds {answer.worth:.1f}")


def _in_words(name: Name) -> str:
    kind, number = name
    return f"all {kind}" if number is None else f"{kind} {number}"
