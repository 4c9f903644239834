"""A port to try `compare` on: the model, or a wrong model, called as a port is.

    python3 -m plays.stand_in_port [--state] MODEL < LIST
"""
import itertools
import sys

from plays import model
from plays.lists import unpack_list
from plays.model import SECOND, Lamp


class Right(Lamp):
    """The rules, as the Rust has them."""


# ---- Keys: wrong keys candidates write


class Clamps255(Lamp):
    def clamp(self, target):
        return min(max(target, self.MIN), self.MAX)


class CountsFromTheAnswer(Lamp):
    def fade_answered(self, level):
        fade = self.task
        end = fade.counter == fade.target
        super().fade_answered(level)
        if level is not None and not end:
            fade.counter = level


class ZeroesWhenAMoveReplacesAFade(Lamp):
    def start_move(self, down, with_on_off, period):
        self.remaining = 0
        super().start_move(down, with_on_off, period)


# ---- What Every event, last paragraph, shuts out


class RefusesAll(Lamp):
    def refusal(self, e):
        return 1


class IgnoresEvents(Lamp):
    def event(self, e):
        return super().refusal(e), []


class RefusesADueWake(Lamp):
    def refusal(self, e):
        return super().refusal(e) or (8 if e[2] == 6 and self.wait_until == model.time_of(e) else 0)


class FailsUnasked(Lamp):
    def event_10(self, e):
        super().event_10(e)
        self.actions.append('E15')


# ---- Other readings of the words


class RoundsRemainingTimeDown(Lamp):
    def write_remaining_time_quietly(self, millis, start):
        return super().write_remaining_time_quietly(millis // 100 * 100, start)


class ReportsAfterMoreThanASecond(Lamp):
    def set_level(self, level, end, scene=False):
        self.last_report += self.now - self.last_report == SECOND
        return super().set_level(level, end, scene)


class AsksAtOnceWhenTheAnswerTakesThePeriod(Lamp):
    def wait_or(self, ask_next, period):
        super().wait_or(ask_next, period if self.task.since + period != self.now else -1)


class CouplesOnceAMove(Lamp):
    def ask_move(self):
        again, coupled = hasattr(self.task, 'asked'), self.coupled
        self.coupled = coupled and not again
        super().ask_move()
        self.coupled = coupled


class RestoresWithoutAReport(Lamp):
    def put_back(self, before):
        if before and self.level != before[0]:
            super().put_back(before)


class MovesTimeWhenRefused(Lamp):
    def event(self, e):
        number, actions = super().event(e)
        if number in (6, 7, 8, 9):
            self.last_accepted = model.time_of(e)
        return number, actions


class Gives8ForADamagedRecord(Lamp):
    def refusal(self, e):
        number = super().refusal(e)
        return 8 if number == 1 else number


# ---- Wrong searches of a scene's pairs


class ComparesIdsIn16Bits(Lamp):
    def decided(self, ids, values):
        return super().decided([name & 0xFFFF for name in ids], values)


class ComparesIdsIn31Bits(Lamp):
    def decided(self, ids, values):
        return super().decided([name & 0x7FFF_FFFF for name in ids], values)


class Takes0ForNone(Lamp):
    def decided(self, ids, values):
        return super().decided(ids, [value or 256 for value in values])


class Takes255ForNone(Lamp):
    def decided(self, ids, values):
        return super().decided(ids, [256 if value == 255 else value for value in values])


class ReadsValuesIn8Bits(Lamp):
    def decided(self, ids, values):
        return super().decided(ids, [value & 0xFF for value in values])


class ReadsEightPairs(Lamp):
    def decided(self, ids, values):
        return super().decided(ids[:8], values)


class SkipsTheFirstPair(Lamp):
    def decided(self, ids, values):
        return super().decided(ids[1:], values[1:])


class TakesTheLastPair(Lamp):
    def decided(self, ids, values):
        return super().decided(*zip(*[*reversed([*zip(ids, values)]), (1, 256)]))


class EndsAtAnIdWithoutAValue(Lamp):
    def decided(self, ids, values):
        return super().decided(ids[:ids.index(0) + 1] if 0 in ids else ids, values)


class ReadsPastTheShorterList(Lamp):
    def decided(self, ids, values):
        return super().decided(*zip(*[(1, 256), *itertools.zip_longest(ids, values, fillvalue=0)]))


# ---- Wrong in the state alone


class ForgetsThePreviousLevel(Lamp):
    def event_5(self, e):
        previous = self.previous
        super().event_5(e)
        if e[12] == 2:
            self.previous = previous


class LeavesLastReportAfterAMissingAnswer(Lamp):
    def fade_answered(self, level):
        last_report = self.last_report
        super().fade_answered(level)
        if level is None:
            self.last_report = last_report


class ResetKeepsTheStartUpLevel(Lamp):
    def event_14(self, e):
        start_up = self.start_up
        super().event_14(e)
        self.start_up = start_up


WRONG_IN_STATE = (ForgetsThePreviousLevel, LeavesLastReportAfterAMissingAnswer, ResetKeepsTheStartUpLevel)
WRONG = tuple(kind for kind in Lamp.__subclasses__() if kind is not Right and kind not in WRONG_IN_STATE)

if __name__ == '__main__':
    *flags, name = sys.argv[1:]
    for number, play in enumerate(unpack_list(sys.stdin.buffer.read())[0], 1):
        sys.stdout.write('# play %d\n' % number + model.sheet(play, '--state' in flags, globals()[name]))
