"""The format of a list of plays (README.md, "A list of plays")."""
import struct

from plays.scenes import Play

MAGIC = b'LCPLAYS2'


def pack_list(plays, sheets=None, states=None):
    """`sheets` and `states` are empty in a list that is only to be played."""
    none = [b''] * len(plays)
    body = b''.join(struct.pack('<4I', len(records), len(sheet), len(state), len(pairs)) + records + sheet + state + pairs
                    for (records, pairs), sheet, state in zip(plays, sheets or none, states or none))
    return MAGIC + struct.pack('<2I', len(plays), sum(body) % 2 ** 32) + body


def unpack_list(data):
    """The plays, sheets and states of a list, or a ValueError that says what is wrong with it."""
    if data[:8] != MAGIC or len(data) < 16:
        raise ValueError('not a list of plays')
    count, total = struct.unpack_from('<2I', data, 8)
    if sum(data[16:]) % 2 ** 32 != total:
        raise ValueError('damaged or cut: the sum of its bytes is wrong')
    plays, sheets, states, at = [], [], [], 16
    for _ in range(count):
        parts, lengths = [], struct.unpack_from('<4I', data, at)
        at += 16
        for length in lengths:
            parts.append(data[at:at + length])
            at += length
        plays.append(Play(parts[0], parts[3]))
        sheets.append(parts[1])
        states.append(parts[2])
    if at != len(data):
        raise ValueError('its lengths do not add up')
    return plays, sheets, states
