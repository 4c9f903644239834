"""Plays in words (docs/WORDS.md): the records of a text, and the one text of records. It judges the program `lamp`, and is written from that page alone."""
import re
import struct

from plays.model import settings_number
from plays.records import *

EVENTS = 255
WITH = b'-with-on-off'
VERBS = {b'start-up': 0, b'move-to-level': 1, b'move': 2, b'step': 3, b'stop': 4, b'answer': 5, b'wake': 6, b'onoff': 7, b'recall-scene': 8,
         b'device-update': 9, b'device-stop': 10, b'write': 11, b'factory-reset': 14}
VERBS.update({verb + WITH: VERBS[verb] for verb in (b'move-to-level', b'move', b'step', b'stop')})
ATTRIBUTES = {b'on-level': set_on_level, b'default-move-rate': set_rate, b'start-up-current-level': set_start_up}
ON = {b'off': 0, b'on': 1}
DOWN = {b'up': 0, b'down': 1}


class Fault(Exception):
    """The first fault of a text: its place, its number in the table, the word there (None where the line ends too early), and of 25 the names."""

    def __init__(self, line, column, number, word=None, names=()):
        super().__init__(line, column, number, word, names)
        self.line, self.column, self.number, self.word, self.names = line, column, number, word, names


class Wrong(Exception):
    """Records that have no text: the index of the first wrong event, or 0 for the settings or the length."""

    def __init__(self, index):
        super().__init__(index)
        self.index = index


# ---- From a text to records


def read(text):
    """The records of a text, or a Fault."""
    mark = b'\xef\xbb\xbf'
    if text.startswith(mark):
        text = text[len(mark):]
    lines = [Line(number, line) for number, line in enumerate(text.split(b'\n'), 1)]
    first, *others = [line for line in lines if line.word is not None] or lines[-1:]
    records = [read_settings(first)]
    for line in others:
        if len(records) > EVENTS:
            raise line.fault(26)
        records.append(read_event(line))
    return b''.join(records)


class Line:
    """A line of a text, and which of its words is due."""

    def __init__(self, number, line):
        said = line.split(b'#')[0]
        words = [(word.start() + 1, word.group()) for word in re.finditer(rb'[^ \t\r\f]+', said)]
        self.number, self.words, self.at = number, words + [(len(said) + 1, None)], 0

    @property
    def word(self):
        return self.words[self.at][1]

    def fault(self, number, names=(), back=0):
        return Fault(self.number, *self.words[self.at - back][:1], number, self.words[self.at - back][1], names)

    def take(self, number, values):
        """What the word says that is due, by a dict or by a function that gives None for any other word; or the fault of that number."""
        say = values.get if isinstance(values, dict) else values
        value = None if self.word is None else say(self.word)
        if value is None:
            raise self.fault(number)
        self.at += 1
        return value

    def named(self, names):
        """The values by name up to the line's end, in the order of `names`, which has what reads them."""
        given, left = {}, list(names)
        while self.word is not None:
            name = self.word
            if name not in left:
                raise self.fault(25, left) if left else self.fault(24)
            left = left[left.index(name) + 1:]
            self.at += 1
            given[name] = names[name](self)
        return given


def byte(word):
    return int(word) if re.fullmatch(rb'0|[1-9][0-9]{0,2}', word) and int(word) <= 255 else None


def byte_from_1(word):
    return byte(word) or None


def byte_or_null(word):
    """A list of the value, since a missing one is read too."""
    return [None] if word == b'null' else None if byte(word) is None else [byte(word)]


def time(word, digits, most):
    """A TIME as a number of units that have so many digits after the point of a second."""
    found = re.fullmatch(rb'(0|[1-9][0-9]{0,13})(?:\.([0-9]{1,6}))?s', word)
    if found:
        value, rest = divmod(int(found[1] + (found[2] or b'').ljust(6, b'0')), 10 ** (6 - digits))
        if rest == 0 and value <= most:
            return value


def tenths(word):
    return time(word, 1, 2 ** 16 - 1)


def tenths_from_1(word):
    return tenths(word) or None


def millis(word):
    return time(word, 3, 2 ** 32 - 1)


def micros(word):
    return time(word, 6, 2 ** 64 - 1)


def due(number, values):
    return lambda line: line.take(number, values)


SETTINGS = {b'level': due(5, byte), b'on-level': due(5, byte), b'start-up-current-level': due(5, byte), b'default-move-rate': due(5, byte),
            b'on-off-transition-time': due(23, tenths_from_1), b'on-transition-time': due(22, tenths), b'off-transition-time': due(22, tenths),
            b'options': due(6, byte_from_1), b'coupled': lambda line: 1}
OPTIONS = {b'mask': due(6, byte_from_1), b'override': due(6, byte_from_1)}
IN = {b'in': due(22, tenths)}
RATE = {b'rate': due(5, byte)}


def read_settings(line):
    line.take(1, {b'settings': True})
    line.take(2, {b'min': True})
    MIN = line.take(5, byte)
    if MIN > 254:
        raise line.fault(7, back=1)
    line.take(3, {b'max': True})
    MAX = line.take(5, byte)
    if MAX > 254 or MAX < MIN:
        raise line.fault(8 if MAX > 254 else 9, back=1)
    line.take(4, {b'fastest-rate': True})
    fastest = line.take(5, byte)

    def lighting(line):
        if MIN == 0:
            raise line.fault(10, back=1)
        return 1

    given = line.named({**SETTINGS, b'lighting': lighting})
    value = given.get
    return settings(MIN, MAX, value(b'coupled', 0), value(b'options', 0), fastest, value(b'level'), value(b'on-level'),
                    value(b'start-up-current-level'), value(b'default-move-rate'), value(b'on-off-transition-time', 0),
                    value(b'on-transition-time'), value(b'off-transition-time'), value(b'lighting', 0))


def read_event(line):
    at, on, verb = line.take(11, micros), line.take(12, ON), line.word
    kind = line.take(13, VERBS)

    def options(given):
        return dict(with_on_off=int(verb.endswith(WITH)), mask=given.get(b'mask', 0), override=given.get(b'override', 0), on=on)

    if kind == 0:
        record = start_up(at, on)
    elif kind == 1:
        level, given = line.take(5, byte), line.named({**IN, **OPTIONS})
        record = to(at, level, given.get(b'in'), **options(given))
    elif kind == 2:
        down, given = line.take(14, DOWN), line.named({**RATE, **OPTIONS})
        record = move(at, down, given.get(b'rate'), **options(given))
    elif kind == 3:
        down, size, given = line.take(14, DOWN), line.take(5, byte), line.named({**IN, **OPTIONS})
        record = step(at, down, size, given.get(b'in'), **options(given))
    elif kind == 4:
        record = stop(at, **options(line.named(OPTIONS)))
    elif kind == 5:
        record = line.take(15, lambda word: missing(at, on) if word == b'null' else failed(at, on) if word == b'failed'
                           else None if byte(word) is None else answer(at, byte(word), on))
    elif kind == 6:
        record = wake(at, on)
    elif kind == 7:
        record = on_off(at, line.take(16, ON), on)
    elif kind == 8:
        level = None
        if line.take(19, {b'level': True, b'in': False}):
            level = line.take(5, byte)
            line.take(20, {b'in': True})
        record = scene(at, level, line.take(21, millis), on)
    elif kind == 9:
        record = update(at, line.take(5, byte), on)
    elif kind == 10:
        record = device_stop(at, on)
    elif kind == 11:
        attribute = line.take(17, ATTRIBUTES)
        record = attribute(at, *line.take(18, byte_or_null), on)
    else:
        record = reset(at, on)
    line.named({})
    return record


# ---- From records to their text


def without_missing_values(records):
    """Right records with 0 in the bytes of missing values. (A scene's time is said where its level is missing too.)"""
    first, *others = records_of(records)
    return b''.join([without_missing(first), *map(without_missing_value, others)])


def without_missing_value(e):
    known, places = OPTIONAL.get(e[2], (12, ()))
    if e[2] == 5:
        missing, places = e[12] > 0, (13,)
    else:
        missing, places = not e[known], places[:1] if e[2] == 8 else places
    return bytes(0 if missing and at in places else value for at, value in enumerate(e))


def write(records):
    """The text of a play, or Wrong."""
    if not 20 <= len(records) <= 20 + 20 * EVENTS or len(records) % 20 or settings_number(records[:20]):
        raise Wrong(0)
    first, *others = records_of(records)
    lines = [settings_text(first)]
    for index, e in enumerate(others, 1):
        if not well_formed(e):
            raise Wrong(index)
        lines.append(event_text(e))
    return ''.join(line + '\n' for line in lines).encode()


def seconds(value, digits):
    return '%d.%0*ds' % (value // 10 ** digits, digits, value % 10 ** digits)


def settings_text(s):
    common, on_time, off_time = struct.unpack_from('<3H', s, 12)
    known = [s[11] >> bit & 1 for bit in range(6)]
    return '  '.join(['settings', 'min %d' % s[2], 'max %d' % s[3], 'fastest-rate %d' % s[6]]
                     + ['level %d' % s[7]] * known[0]
                     + ['on-level %d' % s[8]] * known[1]
                     + ['start-up-current-level %d' % s[9]] * known[2]
                     + ['default-move-rate %d' % s[10]] * known[3]
                     + ['on-off-transition-time ' + seconds(common, 1)] * (common > 0)
                     + ['on-transition-time ' + seconds(on_time, 1)] * known[4]
                     + ['off-transition-time ' + seconds(off_time, 1)] * known[5]
                     + ['options %d' % s[5]] * (s[5] > 0)
                     + ['coupled'] * s[4]
                     + ['lighting'] * s[18])


def event_text(e):
    return '  '.join([seconds(time_of(e), 6), ('off', 'on')[e[3]], ' '.join(said(e[2], *e[12:]))])


def said(kind, b12, b13, b14, b15, b16, b17, b18, b19):
    """The words of an event from its verb on."""
    def with_on_off(verb):
        return [verb + '-with-on-off' * b12]

    def taking(known, low, high):
        return ['in', seconds(low + 256 * high, 1)] * known

    def options(mask, override):
        return ['mask', str(mask)] * (mask > 0) + ['override', str(override)] * (override > 0)

    def or_null(known, value):
        return [str(value) if known else 'null']

    if kind == 1:
        return with_on_off('move-to-level') + [str(b13)] + taking(b14, b15, b16) + options(b17, b18)
    if kind == 2:
        return with_on_off('move') + [('up', 'down')[b13]] + ['rate', str(b15)] * b14 + options(b16, b17)
    if kind == 3:
        return with_on_off('step') + [('up', 'down')[b13], str(b14)] + taking(b15, b16, b17) + options(b18, b19)
    if kind == 4:
        return with_on_off('stop') + options(b13, b14)
    if kind == 5:
        return ['answer', (str(b13), 'null', 'failed')[b12]]
    if kind == 7:
        return ['onoff', ('off', 'on')[b12]]
    if kind == 8:
        return ['recall-scene'] + ['level', str(b13)] * b12 + ['in', seconds(int.from_bytes(bytes((b14, b15, b16, b17)), 'little'), 3)]
    if kind == 9:
        return ['device-update', str(b12)]
    if kind in (11, 12, 13):
        return ['write', ('on-level', 'default-move-rate', 'start-up-current-level')[kind - 11]] + or_null(b12, b13)
    return [{0: 'start-up', 6: 'wake', 10: 'device-stop', 14: 'factory-reset'}[kind]]
