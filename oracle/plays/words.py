"""Plays in words, for the index and for differences."""
import struct

from plays.records import OPTIONAL, records_of, time_of, well_formed, well_formed_settings
from plays.scenes import lists_of


def describe(play):
    """A play in one line."""
    length = len(play.records)
    if not 20 <= length <= 5120 or length % 20:
        return '%d bytes' % length
    first, *events = records_of(play.records)
    return ' | '.join([describe_settings(first)] + [describe_event(*e) for e in zip(events, lists_of(play))])


def describe_settings(s):
    if not well_formed_settings(s):
        return s.hex()
    common, on_time, off_time = struct.unpack_from('<3H', s, 12)
    values = (('level', s[7]), ('on level', s[8]), ('start-up level', s[9]), ('default rate', s[10]), ('on time', on_time),
              ('off time', off_time))
    words = ['MIN %d MAX %d' % (s[2], s[3])] + ['coupled'] * s[4] + ['options %d' % s[5]] * (s[5] > 0) + ['fastest %d' % s[6]]
    words += ['%s %d' % pair for bit, pair in enumerate(values) if s[11] >> bit & 1]
    return ', '.join(words + ['common time %d' % common] * (common > 0) + ['lighting'] * s[18])


KINDS = ('start-up', 'to', 'move', 'step', 'stop', 'answer', 'wake', 'on/off changed', 'scene', 'update', 'device stop',
         'set on level', 'set default rate', 'set start-up level', 'reset')


def describe_event(e, lists):
    if not well_formed(e):
        return e.hex()
    kind = e[2]
    known, values = OPTIONAL.get(kind, (12, ()))
    value = int.from_bytes(bytes(e[at] for at in values), 'little') if e[known] else None
    words = [str(time_of(e)), KINDS[kind]]
    if kind == 1:
        words += [str(e[13])]
    elif kind in (2, 3):
        words += [('up', 'down')[e[13]]] + [str(e[14])] * (kind == 3)
    elif kind == 5:
        words += [(str(e[13]), 'missing', 'failed')[e[12]]]
    elif kind == 7:
        words += [('off', 'on')[e[12]]]
    elif kind == 8:
        words += ['%d in %d ms' % (e[13], value >> 8) if e[12] else 'without a level']
        for name, numbers in zip(('ids', 'values'), lists):
            words += [name, *map(str, numbers)]
    elif kind == 9:
        words += [str(e[12])]
    elif kind in (11, 12, 13):
        words += ['missing' if value is None else str(value)]
    if kind in (1, 3) and value is not None:
        words += ['in %d' % value]
    if kind == 2 and value is not None:
        words += ['rate %d' % value]
    if kind in (1, 2, 3, 4):
        options = {1: 17, 2: 16, 3: 18, 4: 13}[kind]
        words += ['with on/off'] * e[12]
        words += ['mask %d override %d' % (e[options], e[options + 1])] * any(e[options:options + 2])
    return ' '.join(words + ['(on)'] * e[3])
