"""The recorded list: what is in it, and making it again from the bench."""
import hashlib
import random

from plays import bench, exhaustive, random_plays, scenes
from plays.lists import pack_list, unpack_list
from plays.named import NAMED, STATE
from plays.records import records_of
from plays.words import KINDS, describe

FOLDER = bench.ROOT / 'recorded'
INPUT = bench.ROOT / '../crates/replay/stdin'     # the same list again
SEED = 1
RANDOM = 1500       # random plays to choose from
LONG = 60           # the first of them are taken as they are,
SHORT = 40          # of the others those with at most so many events


class Wrong(Exception):
    """The bench or the list is not as it must be."""


def chosen():
    """Names and records, in the order of the list."""
    for name, play, _ in NAMED:
        yield name, play
    R = random.Random(SEED)
    for kind, (before, record, after) in enumerate(exhaustive.RECORDS):
        for at in range(20):
            value = R.choice([value for value in (0, 1, 2, 3, 128, 255) if value != record[at]])
            yield '%s, byte %d is %d' % (KINDS[kind], at, value), exhaustive.changed_event(before, record, after, at, value)
    for number, play in enumerate(random_plays.plays(SEED, RANDOM, bench.settings(), borrows=False)):
        if number < LONG or len(play) <= 20 + 20 * SHORT:
            yield 'random %d/%d' % (SEED, number), play


def make():
    """The bytes of the list and the text of its index."""
    names, records = zip(*chosen())
    plays = [scenes.with_pairs('recorded %d' % number, bytes(play)) for number, play in enumerate(records, 1)]
    whole = bench.sheets(bench.rust(state=True), plays)
    sheets, states = zip(*map(bench.sheet_and_states, whole))
    if bench.sheets(bench.rust(), plays) != [*sheets]:
        raise Wrong('the sheets with the state are not those without')
    check_named(sheets)
    check_whole(plays, sheets)
    check_pairs(plays)
    index = ['%d  %s: %s\n' % (number, name, describe(play)) for number, (name, play) in enumerate(zip(names, plays), 1)]
    return pack_list(plays, [sheet.encode() for sheet in sheets], [state.encode() for state in states]), ''.join(index)


def check_named(texts):
    """The named plays come first, and first of all the small play."""
    states = bench.sheets(bench.rust(state=True), [scenes.Play(bytes(records)) for _, records, _ in STATE])
    alone = bench.sheet(NAMED[0][1])
    for (name, _, wanted), given in zip([*NAMED, *STATE, NAMED[0]], [*texts[:len(NAMED)], *states, alone]):
        if given != wanted:
            raise Wrong('%s: the Rust gives\n%snot\n%s' % (name, given, wanted))


def check_whole(plays, texts):
    """Every kind of event accepted and refused, every number, every action; and no play that ends in a double borrow."""
    kinds, numbers, actions = set(), set(), set()
    for play, text in zip(plays, texts):
        if '!' in text:
            raise Wrong('not compared to its end: %s' % describe(play))
        if text.startswith('0 '):
            numbers.add(text.strip())
            continue
        for record, line in zip(records_of(play.records)[1:], text.splitlines()):
            _, number, _, _, *done = line.split()
            kinds.add((record[2], number == '0'))
            numbers.add(number)
            actions.update(action if action[0] in 'CE' else action[0] for action in done)
    missing = {(kind, accepted) for kind in range(15) for accepted in (True, False)} - kinds
    missing |= {'0 1', '0 2', '0 3', '0 4', '0', '1', *map(str, range(5, 15))} - numbers
    missing |= {'D', 'P', 'S', 'C0', 'C1', 'L', 'R', 'W', 'E11', 'E15', 'K', 'X'} - actions
    if missing:
        raise Wrong('the list lacks %s' % missing)


def check_pairs(plays):
    """The ids and values that tell wrong searches apart, up to 20 pairs, and lists of which either is the longer."""
    lists = [pair for play in plays for pair in scenes.unpack(play.pairs)]
    ids, values = ({number for pair in lists for number in pair[of]} for of in (0, 1))
    longer = {(len(pair[0]) > len(pair[1])) - (len(pair[0]) < len(pair[1])) for pair in lists}
    if not (ids >= {*scenes.IDS} and values >= {*scenes.VALUES} and longer == {-1, 0, 1}):
        raise Wrong('the scenes lack an id, a value, or lists of unequal length')
    if len(lists) >= sum(scenes.is_scene(record) for play in plays for record in records_of(play.records)[1:] if len(play.records) % 20 == 0):
        raise Wrong('every scene has pairs')
    if max(min(map(len, pair)) for pair in lists) != scenes.MOST or max(max(map(len, pair)) for pair in lists) != scenes.MOST:
        raise Wrong('the scenes have not up to %d pairs' % scenes.MOST)


def plays():
    """The plays of the list as it stands."""
    return unpack_list((FOLDER / 'plays').read_bytes())[0]


def source_sum():
    return hashlib.sha256(bench.source().read_bytes()).hexdigest()


def verify():
    """The files are what the bench gives now, from the source that they name. Returns the numbers of plays and lines."""
    if source_sum() not in (FOLDER / 'README.md').read_text():
        raise Wrong('recorded/README.md names another source: this one has sha256 %s' % source_sum())
    data, index = make()
    for name, made in (('plays', data), ('plays.txt', index.encode())):
        if (FOLDER / name).read_bytes() != made:
            raise Wrong('recorded/%s is not what the bench gives' % name)
    _, sheets, _ = unpack_list(data)
    return len(sheets), sum(sheet.count(b'\n') for sheet in sheets)
