"""States made byte by byte, as docs/STATE.md lays them out, and the calls of the library on them.

`bench/build` makes the library first.
"""
import ctypes
import pathlib
import time
from typing import NamedTuple

HERE = pathlib.Path(__file__).resolve().parent
library = ctypes.CDLL(str(HERE / 'target/libhost.so'))
library.ngalovuki_sound.restype = ctypes.c_uint64


class Settings(NamedTuple):
    transactions: int
    own: int
    reads: int
    writes: int
    entries: int
    hashes: int
    active: int
    area: int


LARGEST = Settings(64, 1048576, 65536, 4096, 4096, 65536, 1048576, 16777216)
SMALLEST = Settings(1, 64, 1, 1, 1, 1, 64, 9)
CLOCK, COUNTER = 1000000, 64


# ---- bytes

def n2(n):
    return n.to_bytes(2, 'big')


def n8(n):
    return n.to_bytes(8, 'big')


def listed(data, width):
    """A list in its room: the number of its bytes in front, zeros behind."""
    assert len(data) <= width
    return (n8(len(data)) + data).ljust(8 + width, b'\0')


def fnv1a(key):
    h = 2166136261
    for byte in key:
        h = (h ^ byte) * 16777619 % 2**32
    return h


def key(i):
    return b'%016d' % i


def record(key, stamp, value):
    return n2(len(key)) + key + n8(stamp) + n2(len(value)) + value


def records(count, stamp, size=64, first=0, step=1):
    """Versions of `count` keys, `size` bytes each."""
    value = b'v' * (size - 28)
    return b''.join(record(key(first + step * i), stamp, value) for i in range(count))


def image(count, packed):
    return b'RUN\0\1' + count.to_bytes(4, 'big') + packed


def pair(key, value):
    return n2(len(key)) + key + n2(len(value)) + value


def hashes(values):
    return b''.join(h.to_bytes(4, 'big') for h in values)


def entry(number, values):
    packed = hashes(values)
    return n8(number) + n8(len(packed)) + packed


# ---- a store

class Txn(NamedTuple):
    """An open transaction: its own pairs, in order, and its read set, packed."""
    pairs: list = []
    reads: bytes = b''
    read: int = CLOCK


def place(settings, handle, txn):
    writes = hashes(sorted({fnv1a(k) for k, _ in txn.pairs}))
    return (n8(handle) + n8(txn.read) + n8(1) + listed(b''.join(pair(k, v) for k, v in txn.pairs), settings.own)
            + listed(txn.reads, 4 * settings.reads) + listed(writes, 4 * settings.writes))


def stride(settings):
    return 48 + settings.own + 4 * settings.reads + 4 * settings.writes


def rows(txns):
    times = sorted({t.read for t in txns})
    return b''.join(n8(t) + n8(sum(x.read == t for x in txns)) for t in times)


class State:
    """A state, how many of its bytes are in use, and how it is put back to what it was."""

    def __init__(self, settings, txns=(), history=b'', active=b'', images=()):
        """The handles of the transactions are 1, 2, ..; the images are given in run order. Transactions that hold the
        same stand beside each other as one object, so that their place is made once."""
        packed = b''.join(n8(len(i)) + i for i in reversed(images))
        used = rows(txns)
        places, last = [], None
        for i, txn in enumerate(txns):
            if txn is not last:
                last, rest = txn, place(settings, 1, txn)[8:]
            places.append(n8(i + 1) + rest)
        places.append(bytes(stride(settings) * (settings.transactions - len(txns))))
        head = n8(1) + b''.join(map(n8, settings)) + n8(CLOCK) + n8(COUNTER)
        self.bytes = b''.join([head, listed(used, 16 * settings.transactions),
                               listed(history, 16 * settings.entries + 4 * settings.hashes),
                               listed(active, settings.active), listed(packed, 128 + settings.area)] + places)
        self.length = len(self.bytes)
        self.used = len(head) + len(used) + len(history) + len(active) + len(packed) + sum(
            48 + sum(4 + len(k) + len(v) + 4 for k, v in t.pairs) + len(t.reads) for t in txns)
        self.lent = ctypes.create_string_buffer(self.bytes, self.length)

    def put_back(self):
        ctypes.memmove(self.lent, self.bytes, self.length)

    def sound(self):
        return library.ngalovuki_sound(self.lent, ctypes.c_size_t(self.length))

    def call(self, name, *arguments):
        """The number that a call gives. Byte strings go with their lengths, other arguments are numbers."""
        whole = [self.lent, ctypes.c_size_t(self.length)]
        for a in arguments:
            whole += [a, ctypes.c_size_t(len(a))] if isinstance(a, (bytes, ctypes.Array)) else [ctypes.c_uint64(a)]
        call = library['ngalovuki_' + name]
        call.restype = ctypes.c_uint64
        return call(*whole)


# ---- time

def medians(things, before=lambda: None, most=51, limit=1.0):
    """The median processor time of each thing in seconds, taken in turn, with what is done before each and not timed."""
    times = [[] for _ in things]
    for thing in things:
        before()
        thing()
    start = time.perf_counter()
    while len(times[0]) < 5 or (len(times[0]) < most and time.perf_counter() - start < limit):
        for thing, list_ in zip(things, times):
            before()
            begun = time.thread_time_ns()
            thing()
            list_.append(time.thread_time_ns() - begun)
    return [sorted(t)[len(t) // 2] / 1e9 for t in times]
