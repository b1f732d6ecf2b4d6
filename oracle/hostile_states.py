#!/usr/bin/env python3
"""Judges damaged states: document 01's state rules, as a model in Python, beside our state check.

  ./hostile_states.py | diff - ../crates/hostile/stdout    in oracle/; silent where both say the same

The program crates/hostile builds a small sound state, damages it, and asks our state check which of the
states are sound: every change of one byte, every cut, and pseudo-random damage. This script builds the
same state, does the same damage, asks the model of state_model.py, and prints the same lines, one for each
kind of damage. So the program's expected output is not only what the program says. It needs half a
minute of processor time.

The state is put together at offsets that stand here, not by the model's `write`, so that the model isn't
only held to itself. The store that the model reads from it, written over it, must change nothing.
"""
import sys

from state_model import fnv1a, sound, store, write

LENGTH = 848

# ---------------------------------------------------------------------------------------------
# A sound state.


def numbers(*ns):
    return b''.join(n.to_bytes(8, 'big') for n in ns)


def hashes(*ns):
    return b''.join(n.to_bytes(4, 'big') for n in ns)


def field(data):
    """Its length in 2 bytes in front."""
    return len(data).to_bytes(2, 'big') + data


def listed(*parts):
    """The number of bytes in front."""
    used = b''.join(parts)
    return numbers(len(used)) + used


def version(key, time, value):
    return field(key) + numbers(time) + field(value)


def image(key, time, value):
    """A run of one version, with its length in front."""
    return listed(b'RUN', b'\0\1', b'\0\0\0\1', version(key, time, value))


def built():
    state = bytearray(LENGTH)

    def put(at, data):
        state[at:at + len(data)] = data

    # Serializable; 3 transactions, each with 64 overlay bytes, 2 read and 2 write hashes; 2 history entries
    # and 3 hashes; active run 64, run area 60.
    put(0, numbers(1, 3, 64, 2, 2, 2, 3, 64, 60))
    # The clock, and the counter.
    put(72, numbers(5, 3))
    # One reader at 3 and one at 4.
    put(88, listed(numbers(3, 1), numbers(4, 1)))
    # Commit 4 with the hash 9, and commit 5 with the hashes 7 and 9.
    put(144, listed(numbers(4, 4), hashes(9), numbers(5, 8), hashes(7, 9)))
    # The active run.
    put(196, listed(version(b'fir', 4, b'q'), version(b'oak', 5, b'r'), version(b'oak', 4, b's')))
    # The run area.
    put(268, listed(image(b'oak', 3, b't'), image(b'fir', 2, b'u')))
    # Transaction 2, read number 3, open: it put elm and deleted oak, and read two hashes.
    put(464, numbers(2, 3, 1))
    put(488, listed(field(b'elm'), field(b'v'), field(b'oak'), field(b'')))
    put(560, listed(hashes(4, 6)))
    put(576, listed(hashes(fnv1a(b'elm'), fnv1a(b'oak'))))
    # A free place, at 592.
    # Transaction 3, read number 4, closed: it read one hash.
    put(720, numbers(3, 4, 0))
    put(744, listed())
    put(816, listed(hashes(8)))
    put(832, listed())
    return bytes(state)


# ---------------------------------------------------------------------------------------------
# Damage: each function yields the damaged states.


def changed(state, start, end):
    """Each byte from start to end, changed to each of the 255 others."""
    for at in range(start, end):
        for value in range(256):
            if value != state[at]:
                yield state[:at] + bytes([value]) + state[at + 1:]


def cut(state):
    for end in range(len(state)):
        yield state[:end]


def following(x):
    """The next pseudo-random number."""
    return (x * 1103515245 + 12345) % 2**31


def struck(state, count):
    """Four bytes anywhere become small numbers, count times."""
    x = 1
    for _ in range(count):
        damaged = bytearray(state)
        for _ in range(4):
            x = following(x)
            damaged[x // 2**7 % LENGTH] = x // 2**28 % 8
        yield damaged


def scattered(state, start, count):
    """Every byte from start on becomes pseudo-random, count times."""
    x = 2
    for _ in range(count):
        damaged = bytearray(state)
        for at in range(start, LENGTH):
            x = following(x)
            damaged[at] = x // 2**23 % 256
        yield damaged


# ---------------------------------------------------------------------------------------------


def report(name, states):
    verdicts = [sound(state) for state in states]
    print(f'{name}: checked {len(verdicts)}, sound {sum(verdicts)}')


def main():
    state = built()
    found = store(state)
    if found is not None and write(found, state) != state:
        sys.exit('the store of the state as built, written over it, changes it')
    report('as built', [state])
    report('settings, clock and counter, one byte changed', changed(state, 0, 88))
    report('reader rows', changed(state, 88, 144))
    report('history', changed(state, 144, 196))
    report('active run', changed(state, 196, 268))
    report('run area', changed(state, 268, 464))
    report('an open transaction', changed(state, 464, 592))
    report('a free place', changed(state, 592, 720))
    report('a closed transaction', changed(state, 720, 848))
    report('cut short', cut(state))
    report('four bytes changed', struck(state, 10000))
    report('all behind the settings', scattered(state, 72, 10000))
    report('all bytes', scattered(state, 0, 10000))
    return 0


if __name__ == '__main__':
    sys.exit(main())
