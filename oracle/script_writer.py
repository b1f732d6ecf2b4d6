#!/usr/bin/env python3
"""Random scripts for the program `replay` of document 01, of several kinds.

  script_writer.py SEED PLACE [KIND]      writes the script that compare_scripts.py SEED has at that place, from 1

A writer keeps a model of the store beside the script, so that it can aim: at handles that are open, closed or ended, at the
last key of a scan, and at exactly the last byte of a room.
"""
import itertools
import random
import sys

from script_model import Replay, fnv1a

LETTERS = Replay.LETTERS_AND_DIGITS
ROOM_FOR_LINES = Replay.INPUT - 256     # so that a few lines more always fit

# Keys with one hash. Since FNV-1a goes on from the hash alone, equal ends keep the hashes equal.
EQUAL = (
    (b'HKJ', b'WTDx'), (b'HZ0', b'WTuN'), (b'BvQ', b'qIdWRX'), (b'EKu', b'3FVWhM'), (b'HcT', b'5sL0yT'),
    (b'HKJxJxj', b'HKJd5de', b'WTDxxJxj', b'WTDxd5de'),
)
assert all(len({fnv1a(word) for word in words}) == 1 for words in EQUAL)


class Writer:
    """A script in the making."""

    def __init__(self, rng, serializable=True):
        self.rng = rng
        self.store = Replay(serializable)
        self.lines = []
        self.size = 0
        self.keys = self.some_keys()
        self.last = {}      # by handle, the last key that a scan handed out
        self.new = 0        # how many new keys were made
        self.wild = 0.03    # how often a handle is none of an open transaction
        self.crowd = 0.001  # how often a begin doesn't wait for a free place

    # -----------------------------------------------------------------------------------------
    # Words.

    def chance(self, share):
        return self.rng.random() < share

    def some_word(self, length):
        return bytes(self.rng.choices(LETTERS, k=length))

    def some_keys(self):
        """A few keys: short ones, ones that begin with another, ones with an equal hash, ones of 16 bytes."""
        keys = [self.some_word(self.rng.randint(1, 3))]
        for _ in range(self.rng.choice((0, 1, 1, 2, 3, 5, 8, 12))):
            way = self.rng.random()
            if way < 0.4:
                keys.append(self.some_word(self.rng.randint(1, 3)))
            elif way < 0.7:
                keys.append((self.rng.choice(keys) + self.some_word(1))[:16])
            elif way < 0.9:
                end = self.some_word(self.rng.choice((0, 0, 1, 5)))
                keys += [word + end for word in self.rng.choice(EQUAL)]
            else:
                keys.append(self.some_word(16))
        return keys

    def some_value(self):
        return self.some_word(self.rng.choice((1, 1, 1, 2, 3, 8, 16)))

    def new_key(self):
        """A key of two bytes that the script has from nowhere else but by chance."""
        self.new += 1
        return bytes([LETTERS[self.new // 62 % 62], LETTERS[self.new % 62]])

    # -----------------------------------------------------------------------------------------
    # Lines.

    def full(self):
        return self.size > ROOM_FOR_LINES

    def line(self, line):
        """Adds a line; the fields behind its number in the output."""
        self.lines.append(line)
        self.size += len(line) + 1
        return self.store.answer(line)[0]

    def say(self, *fields):
        return self.line(b' '.join(field if isinstance(field, bytes) else str(field).encode() for field in fields))

    def begin(self):
        """The new handle. Where no place is free, a transaction is ended first, a closed one if there is one."""
        begun = self.store.begun
        if len(begun) >= self.store.TRANSACTIONS:
            self.say('e', min(begun, key=lambda handle: (not begun[handle].closed, self.rng.random())))
        return int(self.say('b')[1])

    def end_all(self):
        for handle in list(self.store.begun):
            self.say('e', handle)

    def commit(self, handle):
        """Commits and ends, as most callers do."""
        said = self.say('c', handle)
        self.say('e', handle)
        return said

    def write(self, handle, key):
        if self.chance(0.25):
            return self.say('d', handle, key)
        return self.say('p', handle, key, self.some_value())

    def scan(self, handle):
        """Mostly goes on from the last answer."""
        above = self.last.get(handle, b'-')
        if self.chance(0.3):
            above = self.rng.choice(self.keys)
        elif self.chance(0.2):
            above = self.rng.choice((b'-', self.some_word(1), self.some_word(16)))
        said = self.say('f', handle, above)
        if len(said) == 3:
            self.last[handle] = said[1]
        else:
            self.last.pop(handle, None)

    def some_handle(self):
        """Mostly of an open transaction, which is begun if there is none; else closed, ended, the next one, or far away."""
        closed = [handle for handle, txn in self.store.begun.items() if txn.closed]
        if not self.chance(self.wild):
            opened = [handle for handle in self.store.begun if handle not in closed]
            return self.rng.choice(opened) if opened else self.begin()
        counter = self.store.counter
        return self.rng.choice((*closed, *closed, self.rng.randint(0, counter), counter + 1, 0, 2**32 + 1, 2**63, 2**64 - 1))

    def step(self, b=10, g=20, p=20, d=6, f=14, c=10, e=4, z=1):
        """One line of any kind, in these shares, and what it needs before it."""
        letter = self.rng.choices('bgpdfcez', (b, g, p, d, f, c, e, z))[0]
        key = self.rng.choice(self.keys)
        if letter == 'z' or letter == 'b' and self.chance(self.crowd):
            self.say(letter)
        elif letter == 'b':
            self.begin()
        elif letter == 'p':
            self.say('p', self.some_handle(), key, self.some_value())
        elif letter == 'f':
            self.scan(self.some_handle())
        else:
            self.say(letter, self.some_handle(), *([key] if letter in 'gd' else []))

    def steps(self, most, **shares):
        for _ in range(self.rng.randint(most // 4, most)):
            if self.full():
                return
            self.step(**shares)

    # -----------------------------------------------------------------------------------------
    # Aiming at the end of a room.

    def near(self):
        """How far from its end a room is filled: mostly to the last byte, or one too many."""
        return self.rng.choice((-2, -1, 0, 0, 0, 1, 1, 2))

    def fill(self, handle, gap, each, words=(b'',), most=60):
        """Writes that take `gap` bytes together, `each` for every one beside key and value. The keys are new ones behind
        the words, so that words with one hash make keys with one hash."""
        keys = (word + end for end in iter(self.new_key, None) for word in words)
        for key in itertools.islice(keys, most):
            least, largest = each + len(key), each + len(key) + 16
            if gap < least:
                return
            size = gap if gap <= largest else max(least, min(largest, gap // 2))
            value = self.some_word(size - each - len(key))
            self.say(*(('p', handle, key, value) if value else ('d', handle, key)))
            gap -= size


# ---------------------------------------------------------------------------------------------
# The kinds. Each writes its own lines; most end with some lines of any kind.


def mix(w):
    "all commands, few keys"
    w.steps(500)


def conflicts(w):
    "short transactions over very few keys"
    w.keys = w.keys[:1] + list(w.rng.choice(EQUAL))
    for _ in range(w.rng.randint(20, 300)):
        w.steps(4, b=20, g=40, p=3, d=1, f=12, c=3, e=1, z=0.3)
        handle = w.some_handle()
        w.write(handle, w.rng.choice(w.keys))
        w.say('c', handle)


def freezes(w):
    "a freeze after every commit or two, up to the 17th run"
    for _ in range(w.rng.randint(6, 22)):
        w.steps(10, z=0)
        handle = w.begin()
        w.keys.append(w.new_key())
        w.write(handle, w.keys[-1])
        for _ in range(w.rng.randint(1, 3)):
            w.write(handle, w.rng.choice(w.keys))
        w.commit(handle)
        w.say('z')
    handle = w.begin()
    for key in w.keys:
        w.say('g', handle, key)
    w.steps(60, g=30, f=30, z=2)


def scans(w):
    "scans from answer to answer over many keys, with own writes and commits of others between"
    w.keys += [w.some_word(w.rng.randint(1, 2)) for _ in range(w.rng.randint(5, 40))]
    for _ in range(w.rng.randint(1, 5)):
        handle = w.begin()
        for key in w.rng.sample(w.keys, min(len(w.keys), 20)):
            w.write(handle, key)
        w.commit(handle)
        if w.chance(0.6):
            w.say('z')
    w.steps(400, b=6, g=4, p=6, d=4, f=60, c=5, e=2)


def read_set(w):
    "gets and scans up to the last read hash and over it"
    handle, reads = w.begin(), w.store.READS
    length = w.rng.choice((2, 6))
    for _ in range(reads + w.rng.choice((-12, -6, -2))):
        w.say('g', handle, w.new_key() if length == 2 else w.some_word(length))
    w.keys += [w.new_key() for _ in range(4)]
    other = w.begin()
    for key in w.keys[:8]:
        w.write(other, key)
    w.commit(other)
    for _ in range(40):
        key = w.rng.choice(w.keys)
        w.rng.choice((lambda: w.say('g', handle, key), lambda: w.scan(handle), lambda: w.write(handle, key)))()
    w.say('c', handle)
    w.steps(60)


def write_set(w):
    "puts and deletes up to the last write hash and over it"
    handle, writes = w.begin(), w.store.WRITES
    for _ in range(writes + w.rng.choice((-12, -6, -2))):
        w.write(handle, w.new_key())
    w.keys += [w.new_key() for _ in range(4)]
    for _ in range(30):
        w.write(handle, w.rng.choice(w.keys))
    w.say('c', handle)
    w.steps(100)


def overlay(w):
    "own writes up to the last byte; only keys with equal hashes are enough for that before the write set is full"
    words = EQUAL[-1]
    handle = w.begin()
    own = w.store.begun[handle].own
    for key in w.keys[:w.rng.randint(0, 3)]:
        w.write(handle, key)
    gap = w.store.OVERLAY + w.near() - w.store.overlay_bytes(own)
    w.fill(handle, gap, 4, words, most=200)
    for _ in range(12):
        w.write(handle, w.rng.choice(list(own)))
    for word in words:
        w.say('p', handle, word + b'x', b'x')
    w.commit(handle)
    w.steps(60)


def history_entries(w):
    "commits beside an old reader up to the last history entry and over it"
    w.keys = w.keys[:4]
    for _ in range(w.rng.choice((0, 1, 3))):
        handle = w.begin()
        w.write(handle, w.keys[0])
        w.commit(handle)
    old = w.begin()
    w.say('g', old, w.rng.choice(w.keys))
    for _ in range(w.store.ENTRIES + w.rng.choice((-1, 0, 1, 2, 4))):
        handle = w.begin()
        w.say('d', handle, w.rng.choice(w.keys))
        w.commit(handle)
    if w.chance(0.5):
        w.write(old, w.keys[0])
        w.say('c', old)
    if w.chance(0.7):
        w.say('e', old)
    w.steps(100)


def history_hashes(w):
    "large commits beside an old reader up to the last hash of the history and over it"
    store = w.store
    old = w.begin()
    w.say('g', old, w.rng.choice(w.keys))
    hashes = 0
    while hashes < store.HASHES - store.WRITES:
        count = w.rng.randint(40, store.WRITES)
        handle = w.begin()
        for _ in range(count):
            w.say('d', handle, w.new_key())
        if w.commit(handle)[0] == b'0':
            hashes += count
        else:
            w.say('z')
    w.say('z')
    handle = w.begin()
    for _ in range(store.HASHES - hashes + w.near()):
        w.say('d', handle, w.new_key())
    w.say('c', handle)
    if w.chance(0.5):
        w.say('e', old)
        w.say('c', handle)
    w.steps(60)


def active_run(w):
    "commits up to the last byte of the active run and over it"
    for _ in range(w.rng.randint(1, 2)):
        while not w.full():
            handle = w.begin()
            gap = w.store.ACTIVE - w.store.active_bytes(w.store.active)
            last = gap < 1200
            w.fill(handle, gap + w.near() if last else 1000, 12)
            w.say('c', handle)
            if last:
                break
            w.say('e', handle)
        if w.chance(0.5):
            w.say('z')
            w.say('c', handle)
        w.end_all()
    w.steps(60)


def run_area(w):
    "freezes up to the last byte of the run area and over it"
    store = w.store
    while not w.full():
        left = store.AREA - store.area_bytes(store.frozen) - store.image_bytes(store.active)
        room = store.ACTIVE - store.active_bytes(store.active)
        last = left < 1200
        handle = w.begin()
        w.fill(handle, left + w.near() if last else 1000, 12, w.rng.choice(((b'',), (b'abcdefghijkl',))))
        w.commit(handle)
        if last or room < 2200 or w.chance(0.1):
            w.say('z')
        if last:
            break
    w.steps(60, z=8)


def places(w):
    "more transactions than places"
    w.crowd = 0.6
    w.steps(150, b=40, e=12)


def handles(w):
    "handles that are closed, ended, not begun yet, 0, or very large"
    w.wild = 0.5
    w.steps(300, c=14, e=10)


def malformed(w):
    "lines that are not understood among good ones"
    for _ in range(w.rng.randint(20, 200)):
        w.step()
        if w.chance(0.5):
            w.line(garbled(w.rng, w.rng.choice(w.lines)))


def garbled(rng, line):
    """A line with something wrong, or that is good by a hair."""
    fields = line.split(b' ')
    at = rng.randrange(len(fields))
    odd = bytes([rng.choice((0, 9, 11, 13, 32, 39, 43, 45, 46, 47, 58, 64, 91, 95, 96, 123, 127, 128, 195, 233, 255))])
    large = b'%d' % rng.choice((2**64 - 1, 2**64, 2**64 + 1, 10**20 - 1, 10**40))
    number = rng.choice((b'0' + large, b'0', b'00', b'01', b'+1', b'-1', b'0x1', b'1e0', b'1.', b'', b'-'))
    word = rng.choice((b'-', b'', b'a' * 16, b'a' * 17, b'a' * 300, b'--', b'a_b', b'a' * 15 + b'-', b'\xc3\xa9', b'9', b'z',
                       b'0'))
    return rng.choice((
        lambda: line.replace(b' ', b'  ', 1),
        lambda: b' ' + line,
        lambda: line + b' ',
        lambda: line + b'\r',
        lambda: line.replace(b' ', b'\t', 1),
        lambda: line.swapcase(),
        lambda: line[:-1],
        lambda: line[1:],
        lambda: line + odd,
        lambda: line[:1] + odd + line[1:],
        lambda: line[:-1] + odd,
        lambda: odd + line[1:],
        lambda: b' '.join(fields + [word]),
        lambda: b' '.join(fields[:at] + fields[at + 1:]),
        lambda: b' '.join(fields[:1] + [large] + fields[2:]),
        lambda: b' '.join(fields[:1] + [number] + fields[2:]),
        lambda: b' '.join(fields[:1] + [b'0' + field for field in fields[1:2]] + fields[2:]),
        lambda: b' '.join(fields[:2] + [word] + fields[3:]),
        lambda: b' '.join(fields[:-1] + [word]),
        lambda: bytes([rng.choice(b'acdhijkmqyBGPDFCEZ#')]) + line[1:],
        lambda: b'',
        lambda: bytes(rng.choice((0, 32, 45, 48, 98, 122, 200)) for _ in range(rng.randint(1, 6))),
    ))()


def lengths(w):
    "inputs of about 32,768 bytes, by good lines, by empty ones, or by one long line; and of none"
    w.steps(200)
    size = Replay.INPUT + w.rng.choice((-1, 0, 0, 0, 1, 1, 2))
    way = w.rng.choice(('good', 'good', 'good', 'long', 'long', 'long', 'empty', 'none'))
    while way == 'good' and not w.full():
        w.step()
    if way == 'none':
        w.lines.clear()
    elif way == 'empty':
        w.lines += [b''] * (size - w.size)
    else:
        w.lines.append(b'x' * (size - w.size - 1))


# With how often each is written.
KINDS = {mix: 8, conflicts: 8, freezes: 5, scans: 5, read_set: 2, write_set: 3, overlay: 2, history_entries: 2, history_hashes: 2,
         active_run: 2, run_area: 2, places: 2, handles: 4, malformed: 5, lengths: 2}
NAMES = {kind.__name__: kind for kind in KINDS}


def script(seed, place, names=tuple(NAMES), serializable=True):
    """The script with its kind's name. The same numbers and names make the same script."""
    rng = random.Random(f'{seed} {place}')
    kinds = [NAMES[name] for name in names]
    kind = rng.choices(kinds, [KINDS[kind] for kind in kinds])[0]
    writer = Writer(rng, serializable)
    kind(writer)
    whole = b'\n'.join(writer.lines)
    return kind.__name__, whole if rng.random() < 0.1 else whole + b'\n'


if __name__ == '__main__':
    sys.stdout.buffer.write(script(int(sys.argv[1]), int(sys.argv[2]), sys.argv[3:] or tuple(NAMES))[1])
