"""The pairs of a play's scenes: drawn so that they decide what its records say, or all small lists of them."""
import itertools
import random
import struct
from typing import NamedTuple

from plays.records import records_of, well_formed

IDS = 0, 1, 65_536, 2 ** 31, 2 ** 32 - 1
VALUES = 0, 254, 255, 256, 65_535
MOST = 20           # pairs of a scene

OTHER_IDS = IDS[1:] + (2, 8, 255, 256, 65_535, 65_537, 2 ** 24, 2 ** 31 - 1)
NO_VALUES = 256, 256, 65_535, 65_535, 257, 511, 512, 32_768, 65_280


class Play(NamedTuple):
    records: bytes
    pairs: bytes = b''      # of each right record of a scene, packed one after the other (README.md, "A list of plays")


def decided(ids, values):
    """The first pair with id 0 and a value decides: docs/RULES.md, Scenes."""
    for name, value in zip(ids, values):
        if name == 0 and value <= 255:
            return value
    return None


# ---- Packed


def pack(ids, values):
    return struct.pack('<B%dIB%dH' % (len(ids), len(values)), len(ids), *ids, len(values), *values)


def unpack(pairs):
    """The lists of each scene: ids and values."""
    at = 0
    while at < len(pairs):
        ids = struct.unpack_from('<%dI' % pairs[at], pairs, at + 1)
        at += 1 + 4 * len(ids)
        values = struct.unpack_from('<%dH' % pairs[at], pairs, at + 1)
        at += 1 + 2 * len(values)
        yield ids, values


def is_scene(record):
    return record[2] == 8 and well_formed(record)


def level_of(record):
    return record[13] if record[12] else None


def named_lists(record):
    """The one pair that the record of a scene names, or none: what stands for pairs that are not given."""
    level = level_of(record)
    return ([], []) if level is None else ([0], [level])


def lists_of(play):
    """The lists of each event of a play: None where it is no scene."""
    given = unpack(play.pairs)
    for record in records_of(play.records)[1:]:
        yield next(given, named_lists(record)) if is_scene(record) else None


# ---- Drawn


def with_pairs(name, records):
    """A play of these records whose scenes have pairs, drawn by the name; one play in five leaves its last scenes, or all, without."""
    if 8 not in records[22::20] or len(records) % 20:
        return Play(records)
    R, L = random.Random('pairs of %s' % name), random.Random('how many pairs of %s' % name)
    lists = [pack(*draw(R, level_of(record))) for record in records_of(records)[1:] if is_scene(record)]
    return Play(records, b''.join(lists[:L.randrange(len(lists) + 1)] if L.random() < .2 else lists))


def draw(R, level):
    """Lists that decide this level: pairs that do not decide, the one that does, any, and an end that one list alone has."""
    ids, values = [], []
    for _ in range(R.choice((0, 0, 0, 1, 1, 2, 3, 7, 8, 9, MOST - 1))):
        name = R.choice((0, *OTHER_IDS))
        ids.append(name)
        values.append(R.choice(NO_VALUES) if name == 0 else any_value(R))
    if level is not None:
        after = R.choice((0, 1, 1, 2, MOST - 1 - len(ids)))
        ids, values = ids + [0] + any_ids(R, after), values + [level] + [any_value(R) for _ in range(after)]
    ids, values = ids[:MOST], values[:MOST]
    more = min(R.choice((0, 0, 1, 1, 2, MOST)), MOST - len(ids))
    if R.random() < .5:
        ids += any_ids(R, more)
    else:
        values += [any_value(R) for _ in range(more)]
    return ids, values


def any_ids(R, count):
    return [R.choice((0, 0, 0, *OTHER_IDS, R.randrange(2 ** 32))) for _ in range(count)]


def any_value(R):
    return R.choice((*VALUES, 1, 99, 257, R.randrange(256), R.randrange(65_536)))


# ---- All small lists


def small_lists():
    """Every list of at most two ids beside every list of at most two values; and longer ones, in which what decides stands at each place."""
    ids, values = ([list(row) for length in range(3) for row in itertools.product(of, repeat=length)] for of in (IDS, (*VALUES, 77)))
    yield from itertools.product(ids, values)
    undecided = [(name, 77) for name in IDS[1:]] + [(0, value) for value in VALUES[3:]]
    for (name, value), place in itertools.product(undecided, range(MOST)):
        ids, values = [name] * place, [value] * place
        for level in VALUES[:3]:
            yield ids + [0], values + [level]
            yield ids + [0] * (MOST - place), values + [level] + [78] * (MOST - place - 1)
        yield ids + [0], values             # the id that would decide stands beside nothing,
        yield ids, values + [78]            # or the value does
