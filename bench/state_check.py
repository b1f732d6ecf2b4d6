#!/usr/bin/env python3
"""Measures the state check: how long `ngalovuki_sound` takes, by the bytes in use and by what they hold.

  bench/build                first; it takes the proofs along
  bench/state_check.py       prints two tables

The states of the first table have the largest settings of document 01 (103 MB), filled to a share of their room:
overlays with their write sets, read sets, history, active run and 16 images; the smallest settings stand beside them, so
that capacity can be told from use. Those of the second table hold one thing alone.
"""
from states import (CLOCK, LARGEST, SMALLEST, State, Txn, entry, hashes, image, key, medians, record, records)


def filled(settings, share):
    """A state with `share` of each room in use."""
    size = settings.own // settings.writes
    pairs = [(key(i), b'v' * (size - 20)) for i in range(int(settings.writes * share))] if share else []
    txn = Txn(pairs, hashes(range(int(settings.reads * share))))
    each = settings.hashes // settings.entries
    history = b''.join(entry(i + 1, range(each)) for i in range(int(settings.entries * share)))
    active = records(int(settings.active * share) // 256, CLOCK, 256)
    count = (int(settings.area * share) // 16 - 9) // 256
    images = [image(count, records(count, 1 + i, 256)) for i in range(16)] if share else []
    return State(settings, [txn] * int(settings.transactions * share), history, active, images)


RUNS = LARGEST._replace(transactions=1, own=64, reads=1, writes=1, entries=1, hashes=1, active=64)
MANY = LARGEST._replace(own=262144, reads=1, entries=1, hashes=1, active=64, area=9)
LONG = LARGEST._replace(transactions=16, reads=1, writes=16, entries=1, hashes=1, active=64, area=9)
READS = LARGEST._replace(own=64, writes=1, entries=1, hashes=1, active=64, area=9)
HISTORY = LARGEST._replace(transactions=1, own=64, reads=1, writes=1, active=64, area=9)


def run(count, packed):
    return State(RUNS, images=[image(count, packed)])


def kinds():
    """States that hold one thing alone, by name."""
    yield 'runs, records of 256 bytes (key 16, value 228)', lambda: run(62500, records(62500, 1, 256))
    yield 'runs, records of 64 bytes (key 16, value 36)', lambda: run(250000, records(250000, 1))
    yield 'runs, records of 29 bytes (key 16, value 1)', lambda: run(550000, records(550000, 1, 29))
    yield ('runs, records of 13 bytes (key 1, no value, 4,000 versions of each key)',
           lambda: run(1024000, b''.join(record(bytes([k]), 4000 - t, b'') for k in range(256) for t in range(4000))))
    yield ('runs, records of 1,048 bytes (key 1,000, all but the last 16 bytes shared; value 36)',
           lambda: run(15000, b''.join(record(b'k' * 984 + key(i), 1, b'v' * 36) for i in range(15000))))
    yield ('own writes, 4,096 of 64 bytes (key 16) in each of 64 transactions',
           lambda: State(MANY, [Txn([(key(i), b'v' * 44) for i in range(4096)])] * 64))
    yield ('own writes, 15 of 65,539 bytes (key 65,535) in each of 16 transactions',
           lambda: State(LONG, [Txn([(bytes([65 + i]) * 65535, b'') for i in range(15)])] * 16))
    yield ('own writes, 1,000 of 1,004 bytes (key 1,000, all but the last 16 bytes shared) in each of 16 transactions',
           lambda: State(LONG._replace(writes=1024), [Txn([(b'k' * 984 + key(i), b'') for i in range(1000)])] * 16))
    yield ('own writes, 4,096 of 6 bytes (key 2, no value) in each of 64 transactions',
           lambda: State(MANY, [Txn([((i * 15).to_bytes(2, 'big'), b'') for i in range(4096)])] * 64))
    yield 'read sets, 65,536 hashes in each of 64 transactions', lambda: State(READS, [Txn([], hashes(range(65536)))] * 64)
    yield ('history, 4,096 entries of 16 hashes',
           lambda: State(HISTORY, history=b''.join(entry(i + 1, range(16)) for i in range(4096))))


def judged(state):
    assert state.sound() == 1, 'the state made here is not sound'
    return medians([state.sound])[0]


def shares():
    """Rows of the first table: settings, length, bytes in use, seconds."""
    for name, settings, share in (('largest', LARGEST, 1), ('largest, half of each room in use', LARGEST, 0.5),
                                  ('largest, a tenth', LARGEST, 0.1), ('largest, a hundredth', LARGEST, 0.01),
                                  ('largest, opened and empty', LARGEST, 0), ('smallest, empty', SMALLEST, 0)):
        state = filled(settings, share)
        yield name, state.length, state.used, judged(state)


def contents():
    """Rows of the second table: what is in use, bytes, seconds."""
    for name, make in kinds():
        state = make()
        yield name, state.used, judged(state)


def rate(used, took):
    return f'{used / took / 1e6:,.0f} MB' if used > 1000 else ''


def main():
    print('| settings | length of the state | bytes in use | time | used bytes in a second |')
    print('|---|---|---|---|---|')
    for name, length, used, took in shares():
        print(f'| {name} | {length:,} | {used:,} | {took * 1000:.3f} ms | {rate(used, took)} |')
    print()
    print('| in use | bytes in use | time | used bytes in a second |')
    print('|---|---|---|---|')
    for name, used, took in contents():
        print(f'| {name} | {used:,} | {took * 1000:.3f} ms | {rate(used, took)} |')


if __name__ == '__main__':
    main()
