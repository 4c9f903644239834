"""Plays with a name: the small play (docs/RULES.md, A play and a sheet), the questions with keys, and the points that were in doubt, each with the
sheet that it must give. `decided N` is row N of docs/DECISIONS.md."""
from plays.model import LAST_TIME as LAST
from plays.model import SECOND
from plays.records import *
from plays.records import settings as S

NAMED = []


def named(name, record, events, sheet):
    """`sheet`: its lines, with ` / ` between them."""
    NAMED.append((name, record + b''.join(events), sheet.replace(' / ', '\n') + '\n' * bool(sheet)))


# ---- Sheet: the small play

named('the small play', S(level=10),
      [to(2_000_000, 13, 3), answer(2_000_000, 11), wake(2_100_000), answer(2_150_000, 12), wake(2_190_000), wake(2_200_000),
       answer(2_200_000, 13)],
      '1 0 10 0 D11 / 2 0 11 2 P S L W2100000 / 3 0 11 2 D12 / 4 0 12 1 P S W2200000 / 5 8 12 1 / 6 0 12 1 D13 / '
      '7 0 13 0 P S L R')

# ---- Keys: the questions

named('key 1: 100 ms is 1 tenth', S(level=10), [to(0, 12, 2), answer(0, 11)], '1 0 10 0 D11 / 2 0 11 1 P S W100000')
named('key 1: 101 ms is 2', S(level=10),
      [to(0, 16, 2), answer(0, 11), wake(33_000), answer(33_000, 12), wake(66_000), answer(66_000, 13)],
      '1 0 10 0 D11 / 2 0 11 2 P S W33000 / 3 0 11 2 D12 / 4 0 12 2 P S W66000 / 5 0 12 2 D13 / 6 0 13 2 P S W99000')
named('key 2: 0 to 10, no report', S(level=10), [to(0, 21, 11), answer(0, 11)], '1 0 10 0 D11 / 2 0 11 10 P S W100000')
named('key 2: 0 to 11, report', S(level=10), [to(0, 22, 12), answer(0, 11)], '1 0 10 0 D11 / 2 0 11 11 P S R W100000')
named('key 3: 20 to 9 at the start', S(level=10), [to(0, 12, 40), answer(0, 11), to(0, 21, 10), answer(0, 12)],
      '1 0 10 0 D11 / 2 0 11 20 P S R W2000000 / 3 0 11 20 D12 / 4 0 12 9 P S R W100000')
named('key 3: 20 to 10 at the start', S(level=10), [to(0, 12, 40), answer(0, 11), to(0, 22, 11), answer(0, 12)],
      '1 0 10 0 D11 / 2 0 11 20 P S R W2000000 / 3 0 11 20 D12 / 4 0 12 10 P S W100000')
named('key 3: 20 to 10 later', S(level=10), [to(0, 13, 30), answer(0, 11), wake(SECOND), answer(SECOND, 12)],
      '1 0 10 0 D11 / 2 0 11 20 P S R W1000000 / 3 0 11 20 D12 / 4 0 12 10 P S L W2000000')
named('key 4: 1 tenth over 100 levels, period 1 ms', S(level=10),
      [to(0, 110, 1), answer(0, 11)],
      '1 0 10 0 D11 / 2 0 11 1 P S W1000')
named('key 4: over 101 levels, period 0', S(level=10), [to(7, 111, 1), answer(7, 11)], '1 0 10 0 D11 / 2 0 11 1 P S W7')
named('key 5: 65,535 tenths over 254 levels, period 25,801 ms', S(MIN=0, level=0), [to(0, 254, 65535), answer(0, 1)],
      '1 0 0 0 D1 / 2 0 1 65277 P S R W25801000')
named('key 6: 250 up 10 in 100 tenths takes 40', S(level=250),
      [step(0, 0, 10, 100), answer(0, 251)],
      '1 0 250 0 D251 / 2 0 251 30 P S R W1000000')
named('key 7: the same in 16,383 takes 6,553', S(level=250),
      [step(0, 0, 10, 16383), answer(0, 251)],
      '1 0 250 0 D251 / 2 0 251 4915 P S R W163825000')
named('key 7: in 16,384 is 12, and the play goes on', S(level=250),
      [step(5, 0, 10, 16384), step(4, 0, 10, 16383)],
      '1 12 250 0 / 2 0 250 0 D251')
named('key 8: rate 3', S(level=10), [move(0, 0, 3), answer(0, 11)], '1 0 10 0 D11 / 2 0 11 0 P S W333333')
named('key 8: rate 255', S(level=10), [move(0, 0, 255), answer(0, 11)], '1 0 10 0 D11 / 2 0 11 0 P S W3922')
named('key 9: 250 to 255 in 1 tenth, five requests', S(level=250),
      [to(0, 255, 1), answer(0, 251), wake(20_000), answer(20_000, 252), wake(40_000), answer(40_000, 253), wake(60_000),
       answer(60_000, 254), wake(80_000), answer(80_000, 255)],
      '1 0 250 0 D251 / 2 0 251 1 P S W20000 / 3 0 251 1 D252 / 4 0 252 1 P S W40000 / 5 0 252 1 D253 / '
      '6 0 253 1 P S W60000 / 7 0 253 1 D254 / 8 0 254 1 P S W80000 / 9 0 254 1 D255 / 10 0 255 0 P S L R')
named('key 10: no report at 999,999', S(level=10),
      [move(999_999, 0, 3), answer(999_999, 11)],
      '1 0 10 0 D11 / 2 0 11 0 P S W1333332')
named('key 10: report at 1,000,000', S(level=10),
      [move(SECOND, 0, 3), answer(SECOND, 11)],
      '1 0 10 0 D11 / 2 0 11 0 P S L W1333333')
named('key 11: a scene in 99 ms takes 0', S(level=10), [scene(0, 20, 99)], '1 0 10 0 D20')
named('key 11: in 6,553,600 ms takes 65,535', S(level=10),
      [scene(0, 12, 6_553_600), answer(0, 11)],
      '1 0 10 0 D11 / 2 0 11 32768 P R W3276750000')
named('key 12: on, level and on level missing', S(coupled=1), [on_off(0, 1), answer(0, 1)], '1 0 - 0 D1 / 2 0 1 0 P S L E15')
named('key 12: the same uncoupled', S(), [on_off(0, 1), answer(0, 1)], '1 0 - 0 D1 / 2 0 1 0 P S L E15')

# ---- Keys: wrong keys candidates write

named('wrong key: clamping 255', S(MIN=10, MAX=20, level=15), [to(0, 255), answer(0, 255)], '1 0 15 0 D255 / 2 0 255 0 P S L')
named("wrong key: counting a fade from the device's answer", S(level=10), [to(0, 13, 3), answer(0, 50), wake(100_000)],
      '1 0 10 0 D11 / 2 0 50 2 P S W100000 / 3 0 50 2 D12')
named('wrong key: zeroing remaining time when a move replaces a fade', S(level=10),
      [to(0, 12, 2), answer(0, 11), move(0, 0, 50), answer(0, 12)],
      '1 0 10 0 D11 / 2 0 11 1 P S W100000 / 3 0 11 1 D12 / 4 0 12 1 P S W20000')

# ---- Decided: reactions to on/off

named('decided 1 and 7: off is with-on-off, the options do not stop it, C at its start and end; seven actions',
      S(coupled=1, level=3, common=2),
      [on_off(0, 0), answer(0, 2), wake(100_000, on=1), answer(100_000, 1, on=1)],
      '1 0 3 0 D2 / 2 0 2 1 P S C1 W100000 / 3 0 2 1 D1 / 4 0 3 0 P S C0 L R P L')
named('decided 2: C compares with byte 3, not with the value of event 7', S(coupled=1, level=1),
      [on_off(0, 0, on=1)],
      '1 0 1 0 C0 L')
named('decided 2: event 7 uncoupled, off', S(level=10), [on_off(0, 0), answer(0, 1)], '1 0 10 0 D1 / 2 0 10 0 P S L P L')
named('decided 2: event 7 uncoupled, on', S(level=10),
      [on_off(0, 1), answer(0, 1), answer(0, 10)],
      '1 0 10 0 D1 / 2 0 1 0 P S D10 / 3 0 10 0 P S L')
named('decided 3: on asks for MIN at MIN; its first answer is no end', S(coupled=1, level=1, on_level=1),
      [on_off(0, 1, on=1), answer(0, 1, on=1)],
      '1 0 1 0 D1 / 2 0 1 0 S C0')
named('decided 3: from 1,000,000 on with L, and C after it', S(coupled=1, level=1, on_level=1),
      [on_off(SECOND, 1, on=1), answer(SECOND, 1, on=1)],
      '1 0 1 0 D1 / 2 0 1 0 S L C0')
named('decided 4: the restore looks at the on level at the end of the fade', S(level=3, common=2),
      [on_off(0, 0), answer(0, 2), set_on_level(0, 9), wake(SECOND), answer(SECOND, 1)],
      '1 0 3 0 D2 / 2 0 2 1 P S W100000 / 3 0 2 1 K / 4 0 2 1 D1 / 5 0 1 0 P S L R')
named('decided 4: so too where it is set to missing on the way', S(level=3, on_level=9, common=2),
      [on_off(0, 0), answer(0, 2), set_on_level(0, None), wake(SECOND), answer(SECOND, 1)],
      '1 0 3 0 D2 / 2 0 2 1 P S W100000 / 3 0 2 1 K / 4 0 2 1 D1 / 5 0 3 0 P S L R P L')
named('decided 4: the level put back is the one at the off event', S(level=3),
      [to(0, 9, 6), answer(0, 4), on_off(0, 0), answer(0, 1)],
      '1 0 3 0 D4 / 2 0 4 5 P S W100000 / 3 0 4 5 D1 / 4 0 4 0 P S L R P L')
named('decided 4: its P only if the level changes, its L always', S(level=3),
      [on_off(0, 0), answer(0, 3)],
      '1 0 3 0 D1 / 2 0 3 0 S L L')
named('decided 4: it does not move the last-report time', S(level=1),
      [on_off(5 * SECOND, 0), to(5 * SECOND, 3, 2), answer(5 * SECOND, 2)],
      '1 0 1 0 L / 2 0 1 0 D2 / 3 0 2 1 P S L W5100000')
named('decided 5: off at MIN, L alone', S(level=1), [on_off(0, 0)], '1 0 1 0 L')
named('decided 5: with an on level, nothing', S(level=1, on_level=9), [on_off(0, 0)], '1 0 1 0')
named('decided 6: an on level outside MIN..MAX is clamped', S(MIN=10, MAX=20, level=15, on_level=200),
      [on_off(0, 1), answer(0, 10)],
      '1 0 15 0 D10 / 2 0 10 0 P S D20')
named('decided 6: 255 is not', S(MIN=10, MAX=20, level=15, on_level=255),
      [on_off(0, 1), answer(0, 10)],
      '1 0 15 0 D10 / 2 0 10 0 P S D255')

# ---- Decided: remaining time

FADING = [to(0, 12, 2), answer(0, 11)]
FADED = '1 0 10 0 D11 / 2 0 11 1 P S W100000 / '
named('decided 8: a target already reached writes no remaining time', S(level=10), [*FADING, to(0, 11)], FADED + '3 0 11 1')
named('decided 8: nor in the on reaction', S(level=10, on_level=1),
      [*FADING, on_off(0, 1), answer(0, 1)],
      FADED + '3 0 11 1 D1 / 4 0 1 1 P S')
named('decided 8: nor in the off reaction', S(level=2), [to(0, 4, 2), answer(0, 1), on_off(0, 0)],
      '1 0 2 0 D3 / 2 0 1 1 P S W100000 / 3 0 1 1 L')
named('decided 8: nor a fade that fails', S(level=10),
      [*FADING, wake(SECOND), failed(SECOND)],
      FADED + '3 0 11 1 D12 / 4 0 11 1 E15')
named('decided 8: nor one that is replaced, until the first answer of the next', S(level=10),
      [*FADING, to(0, 60, 600), answer(0, 12)],
      FADED + '3 0 11 1 D12 / 4 0 12 588 P S R W1224000')
named('decided 9: stop with no task clears a stale remaining time', S(level=10), [*FADING, to(0, 11), stop(0), stop(0)],
      FADED + '3 0 11 1 / 4 0 11 0 R / 5 0 11 0')
named('decided 9: device stop too', S(level=10),
      [*FADING, to(0, 11), device_stop(0), device_stop(0)],
      FADED + '3 0 11 1 / 4 0 11 0 R / 5 0 11 0')
named('decided 9: reset gives X alone', S(level=10), [*FADING, reset(0), wake(SECOND)], FADED + '3 0 11 0 X / 4 8 11 0')
named('decided 10: a late answer shows the remaining time after the fall', S(level=10), [to(0, 13, 3), answer(100_001, 11)],
      '1 0 10 0 D11 / 2 0 11 2 P S D12')
named('decided 11: with period 0 the start holds to the end, C at every answer', S(coupled=1, level=10),
      [to(0, 111, 1, with_on_off=1), answer(0, 11), wake(0), answer(0, 12), wake(0), answer(0, 13, on=1)],
      '1 0 10 0 D11 / 2 0 11 1 P S C1 W0 / 3 0 11 1 D12 / 4 0 12 1 P S C1 W0 / 5 0 12 1 D13 / 6 0 13 1 P S W0')

# ---- Decided: level reports

named('decided 12: a device update sets the last-report time', S(level=10),
      [update(5 * SECOND, 20), to(5 * SECOND, 22, 2), answer(5 * SECOND, 21)],
      '1 0 20 0 P S L / 2 0 20 0 D21 / 3 0 21 1 P S W5100000')
named("decided 12 and 24: start-up's answer leaves it; the stored level is asked for unclamped", S(MIN=10, MAX=20, level=255),
      [start_up(5 * SECOND), answer(5 * SECOND, 15), to(5 * SECOND, 17, 2), answer(5 * SECOND, 16)],
      '1 0 255 0 D255 / 2 0 15 0 P / 3 0 15 0 D16 / 4 0 16 1 P S L W5100000')
named('decided 13: a missing answer in a fade (its last-report time shows in the state alone)', S(level=10),
      [to(5 * SECOND, 12, 2), missing(5 * SECOND)],
      '1 0 10 0 D11 / 2 0 - 0 P S E15')
named("decided 14: a move's end is a ground for L", S(level=253),
      [move(0, 0, 1), answer(0, 254)],
      '1 0 253 0 D254 / 2 0 254 0 P S L')

# ---- Decided: moves

named('decided 15: MIN ends a move upwards', S(MIN=10, MAX=20, level=9),
      [move(0, 0, 1), answer(0, 10)],
      '1 0 9 0 D10 / 2 0 10 0 P S L')
named('decided 15: MAX ends a move downwards', S(MIN=10, MAX=20, level=21),
      [move(0, 1, 1), answer(0, 20)],
      '1 0 21 0 D20 / 2 0 20 0 P S L')
named('decided 15: the answered level does not', S(MIN=10, MAX=20, level=12), [move(0, 0, 1), answer(0, 20), wake(SECOND)],
      '1 0 12 0 D13 / 2 0 20 0 P S W1000000 / 3 0 20 0 D21')
named('decided 16: past 255 at the command, the running task ends', S(level=10),
      [to(0, 12, 2), answer(0, 255), move(0, 0, 1), wake(SECOND)],
      '1 0 10 0 D11 / 2 0 255 1 P S W100000 / 3 0 255 1 / 4 8 255 1')
named('decided 16: past 0', S(MIN=10, MAX=20, level=0), [move(0, 1, 1)], '1 0 0 0')
named('decided 16: at MAX the running task goes on', S(level=10), [to(0, 12, 2), answer(0, 254), move(0, 0, 1), wake(SECOND)],
      '1 0 10 0 D11 / 2 0 254 1 P S W100000 / 3 0 254 1 / 4 0 254 1 D12')
named('decided 16: in mid-move the wake ends it', S(MAX=253, level=254),
      [move(0, 0, 1), answer(0, 255), wake(SECOND), wake(SECOND)],
      '1 0 254 0 D255 / 2 0 255 0 P S W1000000 / 3 0 255 0 / 4 8 255 0')
named('decided 16: a late answer there ends it at once', S(MAX=253, level=254),
      [move(0, 0, 1), answer(1_000_001, 255), wake(2 * SECOND)],
      '1 0 254 0 D255 / 2 0 255 0 P S L / 3 8 255 0')
named('decided 17: C before every request that leaves MIN upwards', S(coupled=1, level=2),
      [move(0, 0, 1, with_on_off=1), answer(0, 1), wake(SECOND), answer(SECOND, 1), wake(2 * SECOND)],
      '1 0 2 0 D3 / 2 0 1 0 P S W1000000 / 3 0 1 0 C1 D2 / 4 0 1 0 S L W2000000 / 5 0 1 0 C1 D2')
named('decided 18: a default rate of 0 is in force', S(level=10, rate=0), [move(0, 0)], '1 10 10 0')
named('decided 18: 10 before the options', S(coupled=1, level=10), [move(0, 0, 0), step(0, 0, 0)], '1 10 10 0 / 2 10 10 0')

# ---- Decided: steps and targets

named('decided 19: a lengthened step takes longer, and may be 12', S(MIN=10, MAX=20, level=255),
      [step(0, 0, 1, 278), answer(0, 254), step(0, 0, 1, 281)],
      '1 0 255 0 D254 / 2 0 254 65052 P S R W27800000 / 3 12 254 65052')
named('decided 19: a missing time never gives 12', S(level=250), [step(0, 0, 10)], '1 0 250 0 D254')
named('decided 19: the clamp comes after the size', S(MIN=10, MAX=20, level=0),
      [step(0, 0, 1, 3), answer(0, 1)],
      '1 0 0 0 D1 / 2 0 1 3 P S W30000')
named('decided 19: up 1 from 255 is 1 down, and no different', S(level=255),
      [step(0, 0, 1, 65535), answer(0, 254)],
      '1 0 255 0 D254 / 2 0 254 0 P S L')
named('decided 20: from a missing level, E11; a step is refused', S(),
      [to(0, 9), move(0, 0), on_off(0, 0), scene(0, 9), to(0, 255), step(0, 0, 1)],
      '1 0 - 0 E11 / 2 0 - 0 E11 / 3 0 - 0 E11 / 4 0 - 0 E11 / 5 0 - 0 E11 / 6 11 - 0')
named('decided 21: 12 leaves the running task', S(level=250),
      [to(0, 252, 2), answer(0, 251), step(0, 0, 10, 65535), wake(SECOND)],
      '1 0 250 0 D251 / 2 0 251 1 P S W100000 / 3 12 251 1 / 4 0 251 1 D252')

# ---- Decided: scenes, settings, the rest

named('decided 22: stored options stop a scene, but not to 255', S(coupled=1, level=250),
      [scene(0, 20), scene(0, 255)],
      '1 0 250 0 / 2 0 250 0 D255')
named('decided 22: without a value the running task goes on', S(level=10),
      [*FADING, scene(0, None), wake(100_000)],
      FADED + '3 0 11 1 / 4 0 11 1 D12')
named('decided 22: a missing answer in a scene fade gives no S', S(level=10),
      [scene(0, 12, 200), missing(0)],
      '1 0 10 0 D11 / 2 0 - 0 P E15')
named('decided 22: its end gives neither S nor C', S(coupled=1, level=10),
      [scene(0, 12, on=1), answer(0, 12)],
      '1 0 10 0 D12 / 2 0 12 0 P L')
named('decided 23: K for the same value too; the running task goes on', S(level=10),
      [*FADING, set_on_level(0, None), set_rate(0, None), set_start_up(0, None), wake(100_000)],
      FADED + '3 0 11 1 K / 4 0 11 1 K / 5 0 11 1 K / 6 0 11 1 D12')
named('numbers 13 and 14', S(level=10),
      [set_on_level(0, 0), set_start_up(0, 255), set_rate(0, 0)],
      '1 13 10 0 / 2 13 10 0 / 3 14 10 0')
named('start-up clamps the start-up level; a failed device is ignored', S(MIN=50, MAX=90, level=60, start_up=0),
      [start_up(0), failed(0), missing(0)],
      '1 0 60 0 D50 / 2 0 60 0 / 3 7 60 0')
named('start-up with nothing to ask for', S(), [start_up(0)], '1 0 - 0')
named('a missing answer to start-up', S(level=10), [start_up(0), missing(0)], '1 0 10 0 D10 / 2 0 - 0 P')
named('decided 25: an event that the options stop is accepted: start-up comes too late, and its time counts',
      S(coupled=1, level=250),
      [to(5, 20), start_up(5), start_up(4), reset(5), start_up(5)],
      '1 0 250 0 / 2 9 250 0 / 3 5 250 0 / 4 0 250 0 X / 5 9 250 0')
named('decided 26: a wait of nothing is woken now', S(level=10),
      [to(0, 13, 3), answer(100_000, 11), wake(99_999), wake(100_000)],
      '1 0 10 0 D11 / 2 0 11 2 P S W100000 / 3 5 11 2 / 4 0 11 2 D12')
named("decided 26: the next request's time is the wake's", S(level=10),
      [to(0, 13, 3), answer(0, 11), wake(150_000), answer(150_000, 12)],
      '1 0 10 0 D11 / 2 0 11 2 P S W100000 / 3 0 11 2 D12 / 4 0 12 1 P S W250000')
named('decided 26: a wait past the last time is never woken', S(level=10),
      [to(LAST, 13, 3), answer(LAST, 11), wake(LAST), wake(LAST + 100_000), stop(LAST)],
      '1 0 10 0 D11 / 2 0 11 2 P S L W4611686018427487903 / 3 8 11 2 / 4 5 11 2 / 5 0 11 0 R')
named('decided 27: bytes of a missing value are ignored',
      bytearray(S(level=10)[:8] + bytes([99, 98, 97, 1, 0, 0, 96, 95, 94, 93, 0, 0])),
      [event(1, 0, 0, 0, 12, 0, 255, 255), event(5, 0, 0, 1, 255), event(8, 0, 0, 0, 255, 255, 255, 255, 255),
       event(11, 0, 0, 0, 255), on_off(0, 0)],
      '1 0 10 0 D12 / 2 0 - 0 P S E15 / 3 0 - 0 / 4 0 - 0 K / 5 0 - 0 E11')
named('decided 27: event 7 and a scene take flags; mask and override any bits, of which bit 0 counts', S(coupled=1, level=10),
      [event(7, 0, 0, 2), event(8, 0, 0, 2, 9), to(0, 20, 0, mask=254, override=255), to(0, 20, 0, mask=255, override=254),
       to(0, 20, 0, mask=3, override=129)],
      '1 1 10 0 / 2 1 10 0 / 3 0 10 0 / 4 0 10 0 / 5 0 10 0 D20')
named('decided 28: a failed answer is accepted, its time counts', S(level=10),
      [to(0, 12), failed(7), stop(6)],
      '1 0 10 0 D12 / 2 0 10 0 E15 / 3 5 10 0')
named('decided 28: settings alone', S(level=10), [], '')
named('decided 29: MAX 255 is 2', S(MAX=255), [wake(0)], '0 2')
named('decided 29: lighting with MIN 0 is 4', S(MIN=0, lighting=1), [], '0 4')
named('both: 2 comes first', S(MIN=0, MAX=255, lighting=1), [], '0 2')
named('MIN above MAX is 3', S(MIN=9, MAX=8), [], '0 3')

# ---- Causes: 1 and 5 to 9

for at, value in ((0, 0x4D), (1, 0x45), (4, 2), (11, 0x40), (11, 0x80), (18, 2), (19, 1)):
    named('settings: byte %d is %d' % (at, value), S(level=10)[:at] + bytes([value]) + S(level=10)[at + 1:], [wake(0)], '0 1')
for length in (0, 1, 19, 21, 39, 5121, 5140):
    named('%d bytes' % length, (S(level=10) + 256 * wake(0))[:length], [], '0 1')
named('255 events', S(level=10), 255 * [wake(0)], ' / '.join('%d 8 10 0' % index for index in range(1, 256)))
named('5: before the last accepted time, or past the last of all', S(level=10),
      [update(7, 11), update(6, 12), update(LAST + 1, 12), update(2 ** 64 - 1, 12), update(7, 12)],
      '1 0 11 0 P S L / 2 5 11 0 / 3 5 11 0 / 4 5 11 0 / 5 0 12 0 P S L')
named('6: an answer is open', S(level=10),
      [to(0, 12), *(f(0) for f in (start_up, wake, device_stop, reset)), stop(0), update(0, 9), answer(0, 12)],
      '1 0 10 0 D12 / 2 6 10 0 / 3 6 10 0 / 4 6 10 0 / 5 6 10 0 / 6 6 10 0 / 7 6 10 0 / 8 0 12 0 P S L')
named('7: no answer is open', S(level=10), [answer(0, 9), missing(0), failed(0)], '1 7 10 0 / 2 7 10 0 / 3 7 10 0')
named('8: nothing is waited for, or early; due is accepted', S(level=10), [wake(0), *FADING, wake(99_999), wake(100_000)],
      '1 8 10 0 / 2 0 10 0 D11 / 3 0 11 1 P S W100000 / 4 8 11 1 / 5 0 11 1 D12')
named('9: start-up is not the first accepted event', S(level=10), [wake(0), start_up(0), start_up(0), failed(0), start_up(0)],
      '1 8 10 0 / 2 0 10 0 D10 / 3 6 10 0 / 4 0 10 0 / 5 9 10 0')
named('the first cause of several', S(level=10),
      [to(5, 12), event(6, 4, 2), wake(4), wake(5), answer(5, 12), answer(4, 12), start_up(4), step(4, 0, 0)],
      '1 0 10 0 D12 / 2 1 10 0 / 3 5 10 0 / 4 6 10 0 / 5 0 12 0 P S L / 6 5 12 0 / 7 5 12 0 / 8 5 12 0')

# ---- What only the state shows: the text with the state after each line

STATE = []


def in_state(name, record, events, text):
    STATE.append((name, record + b''.join(events), text.replace(' / ', '\n') + '\n'))


in_state('all values', S(options=3, level=10, on_level=20, start_up=7, rate=3, common=4, on_time=5, off_time=6),
         [update(9, 11)],
         '1 0 11 0 P S L /   = 20 3 4 5 6 3 7 9 10')
in_state('decided 12: start-up leaves the last-report time and the noted previous level', S(level=10),
         [start_up(5), answer(5, 11)],
         '1 0 10 0 D10 /   = - 0 0 - - - - 0 - / 2 0 11 0 P /   = - 0 0 - - - - 0 -')
in_state('decided 13: a missing answer in a fade sets the last-report time', S(level=10), [to(5, 12, 2), missing(5)],
         '1 0 10 0 D11 /   = - 0 0 - - - - 0 - / 2 0 - 0 P S E15 /   = - 0 0 - - - - 5 10')
in_state('decided 28: a failed answer notes the previous level', S(level=10), [to(5, 12, 2), failed(5)],
         '1 0 10 0 D11 /   = - 0 0 - - - - 0 - / 2 0 10 0 E15 /   = - 0 0 - - - - 0 10')
in_state('reset puts the settings back, the last-report time to 0 and the previous level to missing', S(level=10),
         [set_on_level(7, 9), set_rate(7, 8), set_start_up(7, 7), update(7, 12), reset(8)],
         '1 0 10 0 K /   = 9 0 0 - - - - 0 - / 2 0 10 0 K /   = 9 0 0 - - 8 - 0 - / 3 0 10 0 K /   = 9 0 0 - - 8 7 0 - / '
         '4 0 12 0 P S L /   = 9 0 0 - - 8 7 7 10 / 5 0 12 0 X /   = - 0 0 - - - - 0 -')
