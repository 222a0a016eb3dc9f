"""What a log shows of its channels, beside a way that goes row by row."""

from __future__ import annotations

from hypothesis import given
from hypothesis import strategies as st
from makers import days
from makers.faults import events_of, rows_of

from sigaudit_tools.events import Events
from sigaudit_tools.signal.channels import CHANNELS, CODES, Channel, by_channel, channel_ids, channel_of
from sigaudit_tools.signal.machines import MACHINES, STRICT
from sigaudit_tools.signal.shown import shown

Durations = dict[tuple[Channel, str], tuple[int, int]]


def by_rows(events: Events) -> Durations:
    """The least and the greatest duration of each colour whose begin and end are known."""
    state: dict[Channel, tuple[str | None, int | None]] = {}
    found: Durations = {}
    for tenth, code, param in rows_of(events):
        channel = channel_of(code, param)
        if channel is None or channel.kind not in STRICT:
            continue
        colour, begin = state.get(channel, (None, None))
        table = MACHINES[channel.kind][code]
        targets = set(table.values())
        after = table.get(colour or "") or (targets.pop() if len(targets) == 1 else None)
        if after != colour:
            if begin is not None and colour in table:
                least, greatest = found.get((channel, str(colour)), (tenth - begin, tenth - begin))
                found[channel, str(colour)] = min(least, tenth - begin), max(greatest, tenth - begin)
            state[channel] = after, tenth if colour is None or colour in table else None
    return found


def test_a_true_day() -> None:
    events = days.day("d3")
    assert shown(events).durations == by_rows(events)
    ids = channel_ids(events.code, events.param).tolist()
    assert [CHANNELS[place] if place >= 0 else None for place in ids] == [
        channel_of(code, param) for _, code, param in rows_of(events)]


ROWS = st.lists(st.tuples(st.integers(1, 30), st.sampled_from([code for kind in STRICT for code in CODES[kind][0]]),
                          st.integers(1, 2)), min_size=1, max_size=60)


@given(ROWS)
def test_rows_at_random(steps: list[tuple[int, int, int]]) -> None:
    tenth, rows = 0, []
    for step, code, number in steps:
        tenth += step
        rows.append((tenth, code, number))
    events = events_of(rows)
    assert shown(events).durations == by_rows(events)
    assert shown(events).channels == {channel_of(code, number) for _, code, number in rows}
    places = by_channel(events)
    assert sorted(places) == list(places)
    assert sorted(place for some in places.values() for place in some.tolist()) == list(range(len(rows)))
