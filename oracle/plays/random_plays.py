"""Random plays by a seed: mostly what fits the open request or the wait, and now and then what does not."""
import random
import struct

from plays.model import LAST_TIME, SECOND, DoubleBorrow, Lamp, settings_number
from plays.records import *


def plays(seed, count, rows, borrows=True):
    """`count` plays, each on one of the settings in `rows`; with `borrows`, some come to the double borrow."""
    for number in range(count):
        R = random.Random('%d/%d' % (seed, number))
        record = R.choice(rows)
        if settings_number(record):
            yield record + wake(0)
            continue
        if R.random() < .2:
            record = litter_settings(R, record)
        chance = R.random()
        length = R.randint(5, 60) if chance < .85 else R.randint(61, 255) if chance < .97 else 255
        play = Author(R, record, borrows).play(length)
        if R.random() < .01:
            play = damage_whole(R, play)
        yield play


def litter_settings(R, record):
    """Anything in the place of a missing value."""
    record = bytearray(record)
    for bit, places in enumerate(SETTINGS_VALUES):
        for at in places:
            if not record[11] >> bit & 1:
                record[at] = R.randrange(256)
    return bytes(record)


def litter_event(R, e):
    e = bytearray(e)
    known, places = OPTIONAL.get(e[2], (0, ()))
    if e[2] == 5 and e[12]:
        places = (13,)
    elif e[known]:
        places = ()
    for at in places:
        e[at] = R.randrange(256)
    return bytes(e)


def damage_whole(R, play):
    """A cut play, or settings that are refused with 1 or 3."""
    if R.random() < .5:
        return play[:R.randrange(len(play))]
    at, value = R.choice(((0, 0x4D), (1, 0x45), (4, 2), (11, 0x40), (11, 0x80), (18, 2), (19, 1), (2, 255)))
    return play[:at] + bytes([value]) + play[at + 1:]


class Author:
    """Writes one play, and follows it on the model to know what is open."""

    def __init__(self, R, record, borrows):
        self.R, self.record, self.lamp = R, record, Lamp(record)
        self.MIN, self.MAX = record[2], record[3]
        # The play's temper, as shares.
        self.honest = R.choice((1, .95, .8, .3))        # answers that give the asked level
        self.damaged = R.choice((0, .02, .1, .3))       # records meant to be refused
        self.late = R.choice((0, 0, 0, .3, .8))         # answers later than the period
        self.other = R.choice((.02, .1, .3, .6))        # other events than the wake that is waited for
        self.mild = R.choice((0, .3, .8))               # of those, setters, which let the task go on
        self.switched = R.choice((0, 0, .1, .5))        # changes of the on/off value
        self.reset = R.choice((0, .05))
        self.long = R.random() < .3                     # fade times up to 65,535
        self.borrows = borrows and R.random() < .1      # moves that make the Rust borrow twice
        self.kinds = R.choices((1, 2, 3, 4, 7, 8, 9, 10, 11, 12, 13), [R.random() ** 2 + .02 for _ in range(11)], k=400)
        self.now = R.choice((0, 0, 5, SECOND - 1, SECOND, 2 * SECOND, 10 ** 12, R.randrange(2 ** 40),
                             LAST_TIME - 10 ** R.choice((7, 9, 18))))
        self.on = R.choice((0, 1))
        self.asked = 0
        self.left_wait = None                           # the last wait: once its task has ended, a wake is refused

    def chance(self, share):
        return self.R.random() < share

    def play(self, length):
        records = [self.record]
        for index in range(length):
            e = start_up(self.now, self.on) if index == 0 and self.chance(.25) else self.next()
            try:
                _, actions = self.lamp.event(e)
            except DoubleBorrow:
                if self.borrows:
                    return b''.join([*records, e])      # nothing is compared from here on
                e = e[:16] + bytes([e[16] | 1]) + e[17:]
                _, actions = self.lamp.event(e)
            records.append(e)
            if actions and actions[-1][0] == 'D':
                self.asked = int(actions[-1][1:])
        return b''.join(records)

    def next(self):
        R, lamp = self.R, self.lamp
        if self.chance(self.switched):
            self.on ^= 1
        if lamp.wait_until is not None:
            self.left_wait = lamp.wait_until
        if lamp.asked_at is not None:
            e = self.answered()
        elif lamp.wait_until is not None and not self.chance(self.other):
            e = self.woken(lamp.wait_until)
        elif lamp.wait_until is None and self.left_wait is not None and self.chance(.3):
            e, self.left_wait = self.woken(self.left_wait), None
        else:
            e = self.anything()
        if self.chance(.3):
            e = litter_event(R, e)
        return self.damage(e) if self.chance(self.damaged) else e

    def answered(self):
        R, task = self.R, self.lamp.task
        period = getattr(task, 'period', 0) * (1000 if hasattr(task, 'counter') else 1)
        if self.chance(self.late):
            delay = R.choice((period + 1, period, 2 * period + 3, period + R.randrange(SECOND)))
        else:
            delay = R.choice((0, 0, 0, 0, 0, 1, period // 2, period))
        self.now = self.lamp.last_accepted + delay
        return self.answer()

    def answer(self):
        R, asked = self.R, self.asked
        if self.chance(self.honest):
            return answer(self.now, asked, self.on)
        if self.chance(.2):
            return R.choice((missing, missing, failed))(self.now, self.on)
        near = max(asked - 1, 0), min(asked + 1, 255)
        return answer(self.now, R.choice((*near, self.MIN, self.MAX, 0, 255, self.level())), self.on)

    def woken(self, until):
        R = self.R
        late = R.choice((0, 0, 0, 0, 1, R.randrange(2000), R.randrange(SECOND)))
        early = R.choice((1, 1, 1000))
        self.now = max(self.lamp.last_accepted, until - early if self.chance(.05) else until + late)
        return wake(self.now, self.on)

    def anything(self):
        R, lamp = self.R, self.lamp
        waits = lamp.wait_until is not None
        if waits and self.chance(.7):
            self.now = R.randint(lamp.last_accepted, max(lamp.last_accepted, lamp.wait_until))
        else:
            later = R.choice((0, 0, 1, 100_000, SECOND - 1, SECOND, SECOND + 1, R.randrange(2 * SECOND)))
            self.now = max(lamp.last_accepted, self.now) + later
        if self.chance(self.reset):
            return reset(self.now, self.on)
        if waits and self.chance(self.mild):
            return self.command(R.choice((11, 11, 12, 13)))
        if lamp.level in (0, 255) and self.chance(.3):
            return move(self.now, lamp.level == 0, R.choice((None, 1, 255)), on=self.on, **self.options())
        return self.command(R.choice(self.kinds))

    def command(self, kind):
        R, at, on = self.R, self.now, self.on
        if kind == 0:
            return start_up(at, on)
        if kind == 1:
            return to(at, self.level(), self.time(), on=on, **self.options())
        if kind == 2:
            rate = R.choice((None, None, 0, 1, 2, 3, 7, 50, 100, 255, R.randrange(256)))
            return move(at, R.choice((0, 1)), rate, on=on, **self.options())
        if kind == 3:
            return step(at, R.choice((0, 1)), self.size(), self.time(), on=on, **self.options())
        if kind == 4:
            return stop(at, on=on, **self.options())
        if kind == 5:
            return self.answer()
        if kind == 6:
            return wake(at, on)
        if kind == 7:
            value = R.choice((0, 1))
            if self.chance(.8):
                self.on = value
            return on_off(at, value, self.on)
        if kind == 8:
            millis = R.choice((0, 99, 100, 101, 199, 300, 500, 1000, 1100, 2500, 6553500, 6553599, 6553600, 2 ** 32 - 1,
                               R.randrange(2 ** 32), R.randrange(3000)))
            return scene(at, None if self.chance(.1) else self.level(), millis, on)
        if kind == 9:
            return update(at, self.level(), on)
        if kind == 10:
            return device_stop(at, on)
        if kind == 12:
            return set_rate(at, R.choice((None, 0, 1, 3, 50, 255, R.randrange(256))), on)
        if kind == 14:
            return reset(at, on)
        return (set_on_level if kind == 11 else set_start_up)(at, None if self.chance(.4) else self.level(), on)

    def level(self):
        R, level = self.R, self.lamp.level
        near = () if level is None else (level, *(max(0, min(255, level + R.randint(-6, 6))) for _ in range(3))) * 2
        return R.choice((self.MIN, self.MAX, max(0, self.MIN - 1), min(255, self.MAX + 1), 0, 255, 254, R.randrange(256),
                         R.randint(self.MIN, self.MAX), R.randint(self.MIN, self.MAX), *near))

    def size(self):
        """Of a step: some that just reach a limit, or just pass it."""
        R, level = self.R, self.lamp.level or 0
        up, down = abs(self.MAX - level), abs(level - self.MIN)
        return R.choice((0, 1, 1, 2, 3, 5, 10, 100, 254, 255, R.randrange(256), up, min(up + 1, 255), down, min(down + 1, 255)))

    def time(self):
        R = self.R
        if self.chance(.08):
            return None
        if self.long:
            return R.choice((0, 1, 3, 11, 30, 100, 255, 600, 6000, 16383, 16384, 65534, 65535, R.randrange(65536)))
        return R.choice((0, 0, 1, 1, 2, 3, 5, 10, 11, 12, 20, 21, 22, 40))

    def options(self):
        R = self.R
        return dict(with_on_off=R.choice((0, 0, 1)), mask=R.choice((0, 0, 1, 1, 2, 3, 254, 255)),
                    override=R.choice((0, 1, 1, 2, 254, 255)))

    def damage(self, e):
        """A damaged byte, a wrong time, noise, or an event out of its turn: most are refused."""
        R, last = self.R, self.lamp.last_accepted
        way = R.random()
        if way < .3:
            at = R.choice((0, 1, 2, 3, *range(12, 20)))
            return e[:at] + bytes([R.choice((0, 1, 2, 3, 4, 15, 255, e[at] ^ 1 << R.randrange(8)))]) + e[at + 1:]
        if way < .5:
            at = R.choice((max(0, last - 1), max(0, last - R.randrange(1, SECOND)), 0, LAST_TIME + 1, 2 ** 63, 2 ** 64 - 1, last,
                           LAST_TIME if self.chance(.1) else 1))
            return e[:4] + struct.pack('<Q', at) + e[12:]
        if way < .6:
            return R.randbytes(20)
        return self.command(R.randrange(15))
