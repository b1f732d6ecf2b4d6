#!/usr/bin/env python3
"""Our read path as a program for compare_reads.py: cases on standard input, in the language at the top
of src/scans.rs, and a line for each read on standard output.

  ./build_ours                                            first; it takes the proofs along
  ./compare_reads.py SEED COUNT --program ./ours_reads.py

Every answer comes from crate `probe`'s `probe_scan` or `probe_get`. This file packs the runs and
the own writes into bytes, calls them by ctypes, and asks a scan for answer after answer as document 01
says: 'from the same upper bound and the last key as an excluded lower bound'. The read set that the
language asks for is the hashes of the keys handed out; they are computed here, not by our library.
"""
import ctypes
import pathlib
import sys

HERE = pathlib.Path(__file__).resolve().parent
KINDS = {'i': 0, 'x': 1, 'u': 2}

library = ctypes.CDLL(str(HERE / 'target/libprobe.so'))
numbers, byte, bytes_ = ctypes.c_uint64, ctypes.c_uint8, ctypes.c_char_p
pointer = ctypes.POINTER(numbers)
view = [bytes_, numbers, pointer, numbers, numbers, numbers, numbers, numbers]
library.probe_scan.argtypes = view + [byte, bytes_, numbers, byte, bytes_, numbers, pointer, numbers]
library.probe_scan.restype = numbers
library.probe_get.argtypes = view + [bytes_, numbers, pointer, numbers]
library.probe_get.restype = numbers


def short(n):
    return n.to_bytes(2, 'big')


class View:
    """Runs and own writes as bytes. A run is a dictionary from (key, timestamp) to value."""

    def __init__(self, runs, own, read):
        packed, places = b'', []
        for run in runs:
            start = len(packed)
            packed += b''.join(
                short(len(k)) + k + t.to_bytes(8, 'big') + short(len(v)) + v
                for (k, t), v in sorted(run.items(), key=lambda version: (version[0][0], -version[0][1])))
            places += [start, len(packed)]
        self.start = len(packed)
        self.bytes = packed + b''.join(short(len(k)) + k + short(len(v)) + v for k, v in sorted(own.items()))
        self.places = (numbers * 34)(*places)
        self.runs = len(runs)
        self.read = read
        self.out = (numbers * 4)()

    def asked(self):
        return (self.bytes, len(self.bytes), self.places, 34, self.runs, self.start, len(self.bytes), self.read)

    def get(self, key):
        if not library.probe_get(*self.asked(), key, len(key), self.out, 4):
            return None
        return self.bytes[self.out[2]:self.out[3]]

    def first(self, lower, upper):
        """The first pair within the bounds, or None."""
        low, high = ((KINDS[kind], key, len(key)) for kind, key in (lower, upper))
        if not library.probe_scan(*self.asked(), *low, *high, self.out, 4):
            return None
        ks, ke, vs, ve = self.out
        return self.bytes[ks:ke], self.bytes[vs:ve]


class Store:
    """The runs of a case, and what other transactions add to them while a `live` scan goes on."""

    def __init__(self, place, runs):
        # The first run is the active one, or there is an empty one before the others.
        self.runs = [dict(run) for run in runs] if place == 'act' and runs else [{}, *map(dict, runs)]
        self.keys = {k for run in runs for k, _ in run}

    def commit(self, keys, number):
        for key in keys:
            self.runs[0][key, number] = b'late'

    def freeze(self):
        """Freezes the active run, where a run more has its place."""
        if self.runs[0] and len(self.runs) < 17:
            self.runs.insert(0, {})


def fnv1a(key):
    h = 2166136261
    for byte in key:
        h = (h ^ byte) * 16777619 % 2**32
    return h


def dotted(data):
    return '.' + data.hex()


def plain(field):
    return bytes.fromhex(field[1:])


def bound(field):
    return field[0], plain(field[1:])


def scan(store, own, read, lower, upper, others=None):
    """A scan's line. With `others` (a list of keys), another transaction commits after every answer, and after
    every second the active run is frozen."""
    now = View(store.runs, own, read)
    pairs = []
    while (pair := now.first(lower, upper)) is not None:
        pairs.append(pair)
        lower = 'x', pair[0]
        if others is not None:
            store.commit(store.keys | set(others), read + len(pairs))
            if len(pairs) % 2 == 0:
                store.freeze()
            now = View(store.runs, own, read)
    shown = ''.join(f'{dotted(k)}={dotted(v)} ' for k, v in pairs)
    return shown + '|' + ''.join(f' {h:08x}' for h in sorted({fnv1a(k) for k, _ in pairs}))


def main():
    place, runs, own, others, lines = 'mem', [], {}, [], []
    for line in sys.stdin:
        field = line.split()
        if field[0] == 'new':
            place, runs, own, others = field[1], [], {}, []
        elif field[0] == 'run':
            runs.append({})
        elif field[0] == 'v':
            runs[-1][plain(field[1]), int(field[2])] = plain(field[3])
        elif field[0] == 'own':
            own[plain(field[1])] = plain(field[2])
        elif field[0] == 'other':
            others.append(plain(field[1]))
        elif field[0] == 'get':
            value = View(Store(place, runs).runs, own, int(field[1])).get(plain(field[2]))
            lines.append('-' if value is None else dotted(value))
        else:
            asked = Store(place, runs), own, int(field[1]), bound(field[2]), bound(field[3])
            lines.append(scan(*asked, others if field[0] == 'live' else None))
    sys.stdout.write(''.join(line + '\n' for line in lines))


main()
