"""The rules of a configuration: their names, the channels that they look at, and what they forbid."""

from __future__ import annotations

from typing import NamedTuple

from sigaudit_tools.signal.channels import Channel
from sigaudit_tools.signal.config import Config
from sigaudit_tools.signal.machines import COLOURS

SERVED = frozenset(("On", "Green", "Term", "Yellow", "Clear"))
PHASE = frozenset(COLOURS["phase"])


class Bound(NamedTuple):
    """What a duration rule wants: of a channel that a colour lasts at `least` or at `most` so many tenths."""

    channel: Channel
    colour: str
    at: str
    tenths: int


def names_of(config: Config) -> dict[int, str]:
    """The name of each rule by its number, as the program prints it."""
    found = []
    for rule in config.intervals:
        at, tenths = ("least", rule.at_least) if rule.at_least is not None else ("most", rule.at_most)
        found.append(f"{rule.channel.name} {rule.colour} at {at} {tenths}")
    found += [f"conflict {a} {b}" for a, b in _conflicts(config)]
    found += [f"companion {number}" for number in sorted(ped.number for ped in config.peds)]
    found += [f"parents {number}" for number in sorted(overlap.number for overlap in config.overlaps)]
    return dict(enumerate(found, 1))


def bound_of(name: str) -> Bound | None:
    """What the rule of a name bounds; None of one that forbids colours of several channels."""
    kind, *rest = name.split(" ")
    if len(rest) != 5:
        return None
    number, colour, _, at, tenths = rest
    return Bound(Channel(kind, int(number)), colour, at, int(tenths))


def channels_of(name: str, config: Config) -> tuple[Channel, ...]:
    """The channels that the rule of a name looks at."""
    bound = bound_of(name)
    return (bound.channel,) if bound else tuple(channel for channel, _ in forbidden(name, config))


def forbidden(name: str, config: Config) -> list[tuple[Channel, frozenset[str]]]:
    """The colours of each channel that a conflict, companion or parents rule forbids together."""
    kind, *rest = name.split(" ")
    numbers = [int(number) for number in rest]
    if kind == "conflict":
        return [(Channel("phase", number), SERVED) for number in numbers]
    if kind == "companion":
        return [(Channel("ped", numbers[0]), frozenset(("Walk",))),
                (Channel("phase", numbers[0]), PHASE - {"On", "Green"})]
    parents = next(overlap.parents for overlap in config.overlaps if overlap.number == numbers[0])
    return [(Channel("overlap", numbers[0]), frozenset(("Green",))),
            *((Channel("phase", number), PHASE - SERVED) for number in parents)]


def _conflicts(config: Config) -> list[tuple[int, int]]:
    """The pairs of phases that conflict, by rings and barrier and by what the configuration says of pairs."""
    conflicts = {frozenset((pair.a, pair.b)) for pair in config.conflicts}
    allows = {frozenset((pair.a, pair.b)) for pair in config.allows}
    phases = sorted(config.phases, key=lambda phase: phase.number)
    found = []
    for a in phases:
        for b in phases:
            pair = frozenset((a.number, b.number))
            by_ring = a.ring == b.ring or a.side != b.side
            if a.number < b.number and (pair in conflicts or by_ring and pair not in allows):
                found.append((a.number, b.number))
    return found
