"""Short plays, all of them: every level and target, every level and step, every rate, every value of each byte of a record."""
from plays.model import SECOND, settings_number
from plays.records import *
from plays.scenes import Play, decided, pack, small_lists

TIMES = (None, 0, 1, 3, 11, 100, 16384, 65535)
EVENTS = 255


def plays(rows):
    """`rows`: the settings that the bench knows."""
    yield from levels_and_targets()
    yield from levels_and_steps()
    yield from rates()
    yield from bytes_of_events()
    yield from bytes_of_settings(rows)


def scenes_of_small_lists():
    """Each small list as the pairs of a scene, and the answer if there is a request. Unlike the others these are plays with their pairs."""
    lists = list(small_lists())
    for first in range(0, len(lists), EVENTS // 3):
        some, events = lists[first:first + EVENTS // 3], []
        for number, (ids, values) in enumerate(some):
            level, at = decided(ids, values), 5 * SECOND * number
            events += [update(at, 100), scene(at, level), answer(at, 101)]
        records, pairs = b''.join([settings(MIN=0, level=0), *events]), [pack(*pair) for pair in some]
        yield Play(records, b''.join(pairs))
    yield Play(records, b''.join(pairs[:len(pairs) // 2]))      # the other scenes have the pair that their record names


def packed(record, cases):
    """The cases one after the other in plays of at most 255 events; each is a function of its clock time."""
    events, at = [], 0
    for case in cases:
        more = case(at)
        if len(events) + len(more) > EVENTS:
            yield record + b''.join(events)
            events, at = [], 0
            more = case(at)
        events += more
        at += 5 * SECOND
    yield record + b''.join(events)


def levels_and_targets():
    def case(level, target, on):
        time = TIMES[(level + 5 * target) % 8]
        answered = target if not time else level + (1 if level < target else -1) if level != target else 0
        delay = (level + target) % 3 * 600_000       # sometimes a second passes, and sometimes the period
        return lambda at: [update(at, level), to(at, target, time, with_on_off=on), answer(at + delay, answered, on=on)]

    for record, on in ((settings(level=10), 0), (settings(MIN=10, MAX=20, coupled=1, level=15, common=3), 1)):
        yield from packed(record, (case(level, target, on) for level in range(256) for target in range(256)))


def levels_and_steps():
    def case(level, size, down):
        time = TIMES[(level + 3 * size) % 8]
        answered = max(level - 1, 0) if down else min(level + 1, 255)
        return lambda at: [update(at, level), step(at, down, size, time), answer(at, answered)]

    yield from packed(settings(MIN=50, MAX=200),
                      (case(level, size, down) for level in range(256) for size in range(256) for down in (0, 1)))


def rates():
    def case(rate, down, default):
        """The answer in time, the wake a microsecond early and when due, and the next answer late."""
        period = (SECOND + rate // 2) // rate if rate else 0
        default_rate, asked_rate = (rate, None) if default else (None, rate)
        return lambda at: [update(at, 100), set_rate(at, default_rate), move(at, down, asked_rate), answer(at, 101 - 2 * down),
                           wake(at + max(period - 1, 0)), wake(at + period), answer(at + 2 * period + 1, 102 - 4 * down),
                           answer(at + 2 * period + 1, 103 - 6 * down)]

    yield from packed(settings(level=10),
                      (case(rate, down, default) for rate in range(256) for down in (0, 1) for default in (0, 1)))


LIT = settings(coupled=1, options=1, level=10, on_level=20, start_up=7, rate=3, common=3, on_time=2, off_time=4)

# For each kind: what comes before it, a record that is accepted there, and what shows the state after it.
NEXT = [answer(SECOND, 11, on=1), wake(2 * SECOND, on=1), stop(2 * SECOND, on=1), start_up(2 * SECOND)]
RECORDS = (
    ([], start_up(5), NEXT),
    ([], to(5, 13, 3, with_on_off=1, mask=1, override=1, on=1), NEXT),
    ([], move(5, 0, 200, with_on_off=1, mask=1, override=1, on=1), NEXT),
    ([], step(5, 0, 3, 30, with_on_off=1, mask=1, override=1, on=1), NEXT),
    ([to(0, 13, 30, on=1), answer(0, 11, on=1)], stop(5, with_on_off=1, mask=1, override=1, on=1), NEXT),
    ([to(0, 13, 30, on=1)], answer(5, 11, on=1), NEXT),
    ([to(0, 13, 30, on=1), answer(0, 11, on=1)], wake(SECOND, on=1), NEXT),
    ([], on_off(5, 1, on=1), NEXT),
    ([], scene(5, 13, 300, on=1), NEXT),
    ([to(0, 13, 30, on=1), answer(0, 11, on=1)], update(5, 200, on=1), NEXT),
    ([to(0, 13, 30, on=1), answer(0, 11, on=1)], device_stop(5, on=1), NEXT),
    ([], set_on_level(5, 30, on=1), [on_off(6, 1, on=1), answer(7, 1, on=1), answer(7, 2, on=1)]),
    ([], set_rate(5, 30, on=1), [move(6, 0, on=1), answer(7, 11, on=1), reset(8)]),
    ([], set_start_up(5, 30, on=1), NEXT),
    ([set_on_level(0, 9, on=1), to(0, 13, 30, on=1), answer(0, 11, on=1)], reset(5, on=1), NEXT),
)


def bytes_of_events():
    for before, record, after in RECORDS:
        for at in range(20):
            for value in range(256):
                yield changed_event(before, record, after, at, value)


def changed_event(before, record, after, at, value):
    return b''.join([LIT, *before, record[:at], bytes([value]), record[at + 1:], *after])


def bytes_of_settings(rows):
    """As far as the bench has a type for them, or none is needed: a missing value may be anything, and 1 and 3 are its own."""
    known = {without_missing(row) for row in rows}
    for record in (LIT, settings(), settings(MIN=0, MAX=0), settings(MIN=254, level=200), settings(MIN=0, coupled=1, lighting=0)):
        for at in range(20):
            for value in range(256):
                changed = record[:at] + bytes([value]) + record[at + 1:]
                if settings_number(changed) in (1, 3) or without_missing(changed) in known:
                    yield b''.join([changed, to(5, 13, 3, mask=1, override=1), *NEXT])
