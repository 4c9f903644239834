"""The records of docs/RULES.md, built and described."""
import struct

# ---- Settings


def settings(MIN=1, MAX=254, coupled=0, options=0, fastest=50, level=None, on_level=None, start_up=None, rate=None,
             common=0, on_time=None, off_time=None, lighting=0):
    known = sum(1 << bit for bit, value in enumerate((level, on_level, start_up, rate, on_time, off_time)) if value is not None)
    return struct.pack('<2s10B3H2B', b'LG', MIN, MAX, coupled, options, fastest, level or 0, on_level or 0, start_up or 0,
                       rate or 0, known, common, on_time or 0, off_time or 0, lighting, 0)


def read_settings(path):
    """The records of settings.txt: its columns stand in the order of the arguments above."""
    rows = (line.split('#')[0].split() for line in open(path))
    return [settings(*(None if word == '-' else int(word) for word in row)) for row in rows if row]


# A value marked missing is ignored: where it stands, by its bit in byte 11.
SETTINGS_VALUES = ((7,), (8,), (9,), (10,), (14, 15), (16, 17))


def without_missing(record):
    """The settings with 0 for each missing value, as settings.txt has them."""
    record = bytearray(record)
    for bit, places in enumerate(SETTINGS_VALUES):
        for at in places:
            record[at] *= record[11] >> bit & 1
    return bytes(record)


def well_formed_settings(s):
    return s[:2] == b'LG' and s[4] <= 1 and s[11] <= 63 and s[18] <= 1 and s[19] == 0


# ---- Events: the clock time first, the on/off value last


def event(kind, at, on, *body):
    return struct.pack('<2s2BQ', b'LE', kind, on, at) + bytes(body).ljust(8, b'\0')


def _byte(value):
    return (0, 0) if value is None else (1, value)


def _time(value):
    return (0, 0, 0) if value is None else (1, value & 255, value >> 8)


def start_up(at, on=0):
    return event(0, at, on)


def to(at, level, time=None, with_on_off=0, mask=0, override=0, on=0):
    return event(1, at, on, with_on_off, level, *_time(time), mask, override)


def move(at, down, rate=None, with_on_off=0, mask=0, override=0, on=0):
    return event(2, at, on, with_on_off, down, *_byte(rate), mask, override)


def step(at, down, size, time=None, with_on_off=0, mask=0, override=0, on=0):
    return event(3, at, on, with_on_off, down, size, *_time(time), mask, override)


def stop(at, with_on_off=0, mask=0, override=0, on=0):
    return event(4, at, on, with_on_off, mask, override)


def answer(at, level, on=0):
    return event(5, at, on, 0, level)


def missing(at, on=0):
    return event(5, at, on, 1)


def failed(at, on=0):
    return event(5, at, on, 2)


def wake(at, on=0):
    return event(6, at, on)


def on_off(at, value, on=0):
    return event(7, at, on, value)


def scene(at, level, millis=0, on=0):
    return event(8, at, on, *_byte(level), *struct.pack('<I', millis))


def update(at, level, on=0):
    return event(9, at, on, level)


def device_stop(at, on=0):
    return event(10, at, on)


def set_on_level(at, value, on=0):
    return event(11, at, on, *_byte(value))


def set_rate(at, value, on=0):
    return event(12, at, on, *_byte(value))


def set_start_up(at, value, on=0):
    return event(13, at, on, *_byte(value))


def reset(at, on=0):
    return event(14, at, on)


# For each kind: the bytes that are flags, the first byte that is unnamed, and the known flag with the value it makes ignored.
FLAGS = ((), (12, 14), (12, 13, 14), (12, 13, 15), (12,), (), (), (12,), (12,), (), (), (12,), (12,), (12,), ())
UNNAMED = (12, 19, 18, 20, 15, 14, 12, 13, 18, 13, 12, 14, 14, 14, 12)
OPTIONAL = {1: (14, (15, 16)), 2: (14, (15,)), 3: (15, (16, 17)), 8: (12, (13, 14, 15, 16, 17)),
            11: (12, (13,)), 12: (12, (13,)), 13: (12, (13,))}


def well_formed(e):
    kind = e[2]
    return (e[:2] == b'LE' and kind <= 14 and e[3] <= 1 and all(e[at] <= 1 for at in FLAGS[kind])
            and (kind != 5 or e[12] <= 2) and not any(e[UNNAMED[kind]:]))


def time_of(record):
    return struct.unpack_from('<Q', record, 4)[0]


def records_of(play):
    return [play[at:at + 20] for at in range(0, len(play), 20)]
