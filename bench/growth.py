#!/usr/bin/env python3
"""Measures how calls grow: each on a state, and on one that has about 16 times its used bytes.

  bench/build                first; it takes the proofs along
  bench/growth.py            prints a table

Every call has the state check in it, which is measured alone on the same state and taken off. The exponent is that of
the growth of the rest from one to the other: 1 is linear, 2 is quadratic.
"""
import ctypes
import math

from states import CLOCK, LARGEST, State, Txn, entry, hashes, image, key, library, medians, record, records

SMALL = LARGEST._replace(transactions=1, own=64, reads=4, writes=4, entries=4, hashes=16, active=64, area=9)
ACTIVE = SMALL._replace(own=65536, writes=128, hashes=512, active=1048576)
OWN = SMALL._replace(own=1048576, writes=4096)
AREA = SMALL._replace(area=16777216)
KEY_OUT, VALUE_OUT = ctypes.create_string_buffer(65536), ctypes.create_string_buffer(65536)
REPLY = (ctypes.c_uint64 * 3)()
UNBOUNDED = 2


# ---- the cases, each of a size: a state, and the call on it

def scan(state):
    return state.call('scan', 1, UNBOUNDED, b'', UNBOUNDED, b'', KEY_OUT, VALUE_OUT, REPLY)


def commit(settings, txn, **parts):
    state = State(settings, [txn], **parts)
    return state, lambda: state.call('commit', 1, REPLY)


def active(count):
    return records(count, CLOCK, first=1, step=2)


def commit_in_front(count):
    return commit(ACTIVE, Txn([(key(0), b'w' * 36)]), active=active(count))


def commit_behind(count):
    return commit(ACTIVE, Txn([(key(2 * count), b'w' * 36)]), active=active(count))


def commit_spread(count):
    return commit(ACTIVE, Txn([(key(2 * (i * count // 100)), b'w' * 36) for i in range(100)]), active=active(count))


def commit_history(count):
    """16 hashes in each entry, and 16 reads for each: none is shared, and those of an entry are spread over the reads."""
    settings = SMALL._replace(reads=65536, entries=4096, hashes=65536, active=4096)
    history = b''.join(entry(2 + i, range(2 * i + 1, 32 * count, 2 * count)) for i in range(count))
    return commit(settings, Txn([(b'k', b'v')], hashes(range(0, 32 * count, 2)), 1), history=history)


def freeze(count):
    state = State(ACTIVE._replace(area=16777216), active=active(count))
    return state, lambda: state.call('freeze')


def own(count):
    return [(key(2 * i + 1), b'w' * 236) for i in range(count)]


def put_in_front(count):
    state = State(OWN, [Txn(own(count))])
    return state, lambda: state.call('put', 1, key(0), b'w' * 236)


def put_behind(count):
    state = State(OWN, [Txn(own(count))])
    return state, lambda: state.call('put', 1, key(2 * count), b'w' * 236)


def get_own(count):
    state = State(OWN, [Txn(own(count))])
    return state, lambda: state.call('get', 1, key(2 * count - 1), VALUE_OUT, REPLY)


def get_last(count):
    state = State(AREA, [Txn()], images=[image(count, records(count, 1))])
    return state, lambda: state.call('get', 1, key(count - 1), VALUE_OUT, REPLY)


def scan_deleted(count):
    """All keys but the last are deleted."""
    packed = b''.join(record(key(i), 1, b'') for i in range(count)) + record(key(count), 1, b'v')
    state = State(AREA, [Txn()], images=[image(count + 1, packed)])
    return state, lambda: scan(state)


def scan_versions(count):
    """All versions but the last are above the read number."""
    packed = b''.join(record(b'k', 10 + count - i, b'') for i in range(count)) + record(b'k', 1, b'v')
    state = State(AREA, [Txn([], b'', 1)], images=[image(count + 1, packed)])
    return state, lambda: scan(state)


def scan_long_heads(count):
    """Deleted keys in one run, while two other runs stand at keys of 32 bytes for each of them, equal but for the end."""
    packed = b''.join(record(key(i), 3, b'') for i in range(count))
    heads = [image(1, record(b'z' * min(32 * count, 65534) + bytes([i]), i, b'v')) for i in (2, 1)]
    state = State(AREA, [Txn()], images=[image(count, packed)] + heads)
    return state, lambda: scan(state)


def begin_beside(count):
    state = State(SMALL._replace(transactions=64), [Txn()] * count)
    return state, lambda: state.call('begin', REPLY)


def opened(count):
    """An opening has no state check in it: it judges the images, and copies them."""
    whole = image(count, records(count, 1))
    state = State(AREA)
    numbers = [ctypes.c_uint64(n) for n in (1, *AREA)]
    lengths = (ctypes.c_uint64 * 1)(len(whole))
    call = library.ngalovuki_open
    call.restype = ctypes.c_uint64
    state.used = len(whole)
    state.sound = None
    return state, lambda: call(state.lent, ctypes.c_size_t(state.length), *numbers, whole, ctypes.c_size_t(len(whole)),
                               lengths, ctypes.c_size_t(1), REPLY, ctypes.c_size_t(3))


def check_beside(count):
    """The state check itself, of transactions that have neither read nor written."""
    state = State(SMALL._replace(transactions=64), [Txn([], b'', CLOCK - i) for i in range(count)])
    state.put_back, sound, state.sound = (lambda: None), state.sound, None
    return state, lambda: sound() - 1


ACTIVES = (1000, 16000)
OWNS = (250, 4000)
RUNS = (15616, 250000)
CASES = (
    ('commit of 1 write in front of the active run', commit_in_front, ACTIVES),
    ('commit of 1 write behind it', commit_behind, ACTIVES),
    ('commit of 100 writes spread over it', commit_spread, (1000, 15900)),
    ('commit with reads and a history, both growing', commit_history, (255, 4095)),
    ('freeze', freeze, ACTIVES),
    ('put in front of own writes', put_in_front, OWNS),
    ('put behind them', put_behind, OWNS),
    ('get of the last own write', get_own, OWNS),
    ('get of the last key of a run', get_last, RUNS),
    ('scan past deleted keys', scan_deleted, RUNS),
    ('scan past versions above the read number', scan_versions, RUNS),
    ('scan past deleted keys, two other runs at long keys', scan_long_heads, (127, 2047)),
    ('begin beside other transactions', begin_beside, (4, 63)),
    ('the state check of idle transactions', check_beside, (4, 64)),
    ('open', opened, RUNS),
)


def measured(make, count):
    """Used bytes, seconds of the call, and seconds of the state check in it."""
    state, call = make(count)
    number = call()
    assert number == 0, f'refused: {number}'
    if state.sound is None:
        return (state.used, *medians([call], state.put_back), 0)
    state.put_back()
    assert state.sound() == 1, 'the state made here is not sound'
    return (state.used, *medians([call, state.sound], state.put_back))


def rest(point):
    """Seconds of a call without its check."""
    return point[1] - point[2]


def exponent(a, b):
    """That of the growth from one point to another."""
    return f'{math.log(rest(b) / rest(a)) / math.log(b[0] / a[0]):.2f}' if rest(a) > 0 and rest(b) > 0 else ''


def told(seconds):
    return f'{seconds * 1e3:,.2f} ms' if seconds >= 1e-3 else f'{seconds * 1e6:.1f} µs'


def main():
    print('| call | used bytes | call without the check | used bytes | check | call without the check | exponent |')
    print('|---|---|---|---|---|---|---|')
    for name, make, (few, many) in CASES:
        a, b = measured(make, few), measured(make, many)
        cells = [name, f'{a[0]:,}', told(rest(a)), f'{b[0]:,}', told(b[2]) if b[2] else '', told(rest(b)), exponent(a, b)]
        print('| ' + ' | '.join(cells) + ' |')


if __name__ == '__main__':
    main()
