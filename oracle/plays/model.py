"""The rules (docs/RULES.md) in Python, from their words. The generator follows them to make plausible events, and
`compare --self-test` takes this for a port. It judges nothing: the Rust does."""
import struct
from types import SimpleNamespace

from plays import scenes
from plays.records import records_of, time_of, well_formed, well_formed_settings

SECOND = 1_000_000
LAST_TIME = 2 ** 62 - 1


def u16(record, at):
    return record[at] | record[at + 1] << 8


def settings_number(s):
    if not well_formed_settings(s):
        return 1
    if s[3] > 254:
        return 2
    if s[2] > s[3]:
        return 3
    return 4 if s[18] and s[2] == 0 else 0


class DoubleBorrow(Exception):
    """The Rust would borrow its state twice here: such a play is compared up to this event."""


class Lamp:
    def __init__(self, record):
        value = lambda bit, v: v if record[11] >> bit & 1 else None
        self.MIN, self.MAX, self.coupled, self.fastest = record[2], record[3], record[4], record[6]
        self.configured = dict(options=record[5], on_level=value(1, record[8]), start_up=value(2, record[9]),
                               rate=value(3, record[10]), common=u16(record, 12), on_time=value(4, u16(record, 14)),
                               off_time=value(5, u16(record, 16)), remaining=0, last_report=0, previous=None)
        self.__dict__.update(self.configured)
        self.level = value(0, record[7])
        self.last_accepted, self.any_accepted = 0, False
        self.task = None
        self.asked_at = None        # time of the open request
        self.wait_until = None
        self.actions = []
        self.lists = None           # of the scene in hand, if they are given

    # ---- Remaining time, Options, Level reports, Coupling

    def write_remaining_time_quietly(self, millis, start):
        new, old = -(-millis // 100), self.remaining
        self.remaining = new
        return old != 0 and new == 0 or old == 0 and new > 10 or abs(new - old) > 10 and start

    def should_continue(self, with_on_off, mask, override):
        if with_on_off or not self.coupled or self.on:
            return True
        return bool((override if mask & 1 else self.options) & 1)

    def store(self, level):
        if level != self.level:
            self.actions.append('P')
        self.level = level

    def set_level(self, level, end, scene=False):
        """True if a level report is due."""
        self.previous = self.level
        self.store(level)
        if not scene:
            self.actions.append('S')
        due = self.now - self.last_report >= SECOND or end or self.previous is None or level is None
        if due:
            self.last_report = self.now
        return due

    def update_coupled_on_off(self, level, with_on_off):
        if with_on_off and self.coupled and (level > self.MIN) != self.on:
            self.actions.append('C%d' % (level > self.MIN))

    # ---- Tasks

    def ask(self, level):
        self.actions.append('D%d' % level)
        self.asked_at = self.now

    def wait_or(self, ask_next, period):
        """After an answer in time a wait, after a late one the next request."""
        until = self.task.since + period
        if until >= self.now:
            self.actions.append('W%d' % until)
            self.wait_until = until
        else:
            ask_next()

    def end_task(self):
        self.task = self.wait_until = None

    def fail(self, number):
        self.actions.append('E%d' % number)
        self.end_task()

    def clamp(self, target):
        return target if target > 254 else min(max(target, self.MIN), self.MAX)

    def move_to_level(self, target, tenths, with_on_off=0, mask=0, override=0, scene=False, put_back=None):
        """The rules of Targets. `put_back`: the level before an off change, in a list."""
        if target <= 254 and not self.should_continue(with_on_off, mask, override):
            return
        target = self.clamp(target)
        self.end_task()
        if self.level == target:
            self.update_coupled_on_off(target, with_on_off)
            self.put_back(put_back)
        elif self.level is None:
            self.fail(11)
        else:
            period = 100 * tenths // abs(target - self.level)
            self.task = SimpleNamespace(answered=self.fade_answered, ask=self.ask_fade, counter=self.level, target=target,
                                        tenths=tenths, millis=100 * tenths, period=period, with_on_off=with_on_off,
                                        scene=scene, put_back=put_back)
            self.ask_fade()

    def ask_fade(self):
        fade = self.task
        if fade.tenths == 0:
            fade.counter = fade.target
        else:
            fade.counter += 1 if fade.counter < fade.target else -1
        fade.since = self.now
        self.ask(fade.counter)

    def fade_answered(self, level):
        fade = self.task
        end = fade.counter == fade.target
        start = fade.millis == 100 * fade.tenths
        level_due = self.set_level(level, end, fade.scene)
        if level is None:
            return self.fail(15)
        if start or end:
            self.update_coupled_on_off(level, fade.with_on_off)
        fade.millis = 0 if end else max(fade.millis - fade.period, 0)
        time_due = self.write_remaining_time_quietly(fade.millis, start)
        self.actions += ['L'] * level_due + ['R'] * time_due
        if end:
            self.end_task()
            self.put_back(fade.put_back)
        else:
            self.wait_or(self.ask_fade, 1000 * fade.period)

    def put_back(self, before):
        """What follows an off fade that came to its end."""
        if before and self.on_level is None:
            self.store(before[0])
            self.actions.append('L')

    def ask_move(self):
        move = self.task
        if self.level is None:
            return self.fail(11)
        asked = self.level + (-1 if move.down else 1)
        if not 0 <= asked <= 255:
            return self.end_task()
        if self.level == self.MIN and asked > self.MIN:
            self.update_coupled_on_off(asked, move.with_on_off)
        move.asked, move.since = asked, self.now
        self.ask(asked)

    def move_answered(self, level):
        move = self.task
        end = move.asked in (self.MIN, self.MAX)
        self.actions += ['L'] * self.set_level(level, end)
        if level is None:
            self.fail(15)
        elif end:
            self.update_coupled_on_off(level, move.with_on_off)
            self.end_task()
        else:
            self.wait_or(self.ask_move, move.period)

    def on_answered(self, level):
        before = self.task.before
        self.actions += ['L'] * self.set_level(level, False)
        target = self.on_level if self.on_level is not None else before
        if level is None or target is None:
            return self.fail(15)
        self.move_to_level(target, self.common if self.on_time is None else self.on_time, with_on_off=1)

    def start_up_answered(self, level):
        self.store(level)
        self.end_task()

    # ---- Events

    def event(self, e):
        """The number and the actions."""
        self.actions = []
        number = self.refusal(e)
        if number == 0:
            self.now, self.on = time_of(e), e[3] == 1
            number = getattr(self, 'event_%d' % e[2])(e) or 0
        if number == 0:
            self.last_accepted, self.any_accepted = self.now, True
        return number, self.actions

    def refusal(self, e):
        if not well_formed(e):
            return 1
        kind, at = e[2], time_of(e)
        if at < self.last_accepted or at > LAST_TIME:
            return 5
        if self.asked_at is not None and kind != 5:
            return 6
        if self.asked_at is None and kind == 5:
            return 7
        if kind == 6 and (self.wait_until is None or at < self.wait_until):
            return 8
        return 9 if kind == 0 and self.any_accepted else 0

    def event_0(self, e):
        level = self.level if self.start_up is None else min(max(self.start_up, self.MIN), self.MAX)
        if level is not None:
            self.task = SimpleNamespace(answered=self.start_up_answered)
            self.ask(level)

    def event_1(self, e):
        self.move_to_level(e[13], u16(e, 15) if e[14] else 0, e[12], e[17], e[18])

    def event_2(self, e):
        rate = e[15] if e[14] else self.fastest if self.rate is None else self.rate
        if rate == 0:
            return 10
        if not e[12] and self.coupled and not self.on and not e[16] & 1:
            raise DoubleBorrow
        if self.should_continue(e[12], e[16], e[17]) and self.level != (self.MIN if e[13] else self.MAX):
            self.start_move(e[13], e[12], (SECOND + rate // 2) // rate)

    def start_move(self, down, with_on_off, period):
        self.end_task()
        self.task = SimpleNamespace(answered=self.move_answered, ask=self.ask_move, down=down, with_on_off=with_on_off,
                                    period=period)
        self.ask_move()

    def event_3(self, e):
        size, tenths = e[14], u16(e, 16) if e[15] else 0
        if size == 0:
            return 10
        if not self.should_continue(e[12], e[18], e[19]):
            return 0
        if self.level is None:
            return 11
        target = max(self.level - size, 0, self.MIN) if e[13] else min(self.level + size, 255, self.MAX)
        actual = abs(target - self.level)
        if actual != size:
            if tenths * actual > 65535:
                return 12
            tenths = tenths * actual // size
        self.move_to_level(target, tenths, e[12], e[18], e[19])

    def event_4(self, e):
        if self.should_continue(e[12], e[13], e[14]):
            self.event_10(e)

    def event_5(self, e):
        self.asked_at = None
        if e[12] < 2:
            self.task.answered(e[13] if e[12] == 0 else None)
        elif self.task.answered == self.start_up_answered:
            self.end_task()
        else:
            self.previous = self.level
            self.fail(15)

    def event_6(self, e):
        self.wait_until = None
        self.task.ask()

    def event_7(self, e):
        if e[12]:
            self.end_task()
            self.task = SimpleNamespace(answered=self.on_answered, before=self.level)
            self.ask(self.MIN)
        else:
            tenths = self.common if self.off_time is None else self.off_time
            self.move_to_level(self.MIN, tenths, with_on_off=1, put_back=[self.level])

    def event_8(self, e):
        level = self.decided(*(self.lists or scenes.named_lists(e)))
        if level is not None:
            self.move_to_level(level, min(struct.unpack_from('<I', e, 14)[0] // 100, 65535), scene=True)

    def decided(self, ids, values):
        return scenes.decided(ids, values)

    def event_9(self, e):
        self.end_task()
        self.set_level(e[12], True)
        self.actions += ['L'] + ['R'] * self.write_remaining_time_quietly(0, False)

    def event_10(self, e):
        self.end_task()
        self.actions += ['R'] * self.write_remaining_time_quietly(0, False)

    def event_11(self, e):
        return self.set_bounded('on_level', e)

    def event_12(self, e):
        if e[12] and e[13] == 0:
            return 14
        self.rate = e[13] if e[12] else None
        self.actions.append('K')

    def event_13(self, e):
        return self.set_bounded('start_up', e)

    def set_bounded(self, name, e):
        if e[12] and not self.MIN <= e[13] <= self.MAX:
            return 13
        setattr(self, name, e[13] if e[12] else None)
        self.actions.append('K')

    def event_14(self, e):
        self.end_task()
        self.__dict__.update(self.configured)
        self.actions.append('X')

    # ---- Text

    def state_line(self):
        values = (self.on_level, self.options, self.common, self.on_time, self.off_time, self.rate, self.start_up,
                  self.last_report, self.previous)
        return '  = %s\n' % ' '.join(known(value) for value in values)

    def line(self, index, number, actions):
        return ' '.join([str(index), str(number), known(self.level), str(self.remaining), *actions]) + '\n'


def known(value):
    return '-' if value is None else str(value)


def sheet(play, state=False, model=Lamp):
    """The text of a play, with the whole state after each line if asked; up to a double borrow."""
    records = play.records
    if not 20 <= len(records) <= 5120 or len(records) % 20:
        return '0 1\n'
    number = settings_number(records)
    if number:
        return '0 %d\n' % number
    lamp, text = model(records[:20]), []
    try:
        for index, (record, lamp.lists) in enumerate(zip(records_of(records)[1:], scenes.lists_of(play)), 1):
            text.append(lamp.line(index, *lamp.event(record)))
            if state:
                text.append(lamp.state_line())
    except DoubleBorrow:
        pass
    return ''.join(text)
