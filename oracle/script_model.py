#!/usr/bin/env python3
"""The program `replay` of document 01 as a model in Python, from the bytes of a script to the bytes of the output.

  script_model.py < script       writes the output; with -n the store isn't serializable

The model is written from document 01's sentences alone and shares nothing with the Rust or with our code. What stands
in double quotes behind "01:" is document 01's, word for word. The model looks at every version for every read, which is
slow and plain. Each rule has a method of its own, so that script_wrong.py can break one at a time.
"""
import sys



class Refused(Exception):
    """A call that returns another number than 0. `rooms` names what is short where the number is 5."""

    def __init__(self, number, rooms=()):
        super().__init__(number)
        self.number = number
        self.rooms = tuple(rooms)


def no_room(*rules):
    """01: "No room means exactly: .." Several rooms may be short at once; the number is 5 all the same."""
    short = [name for name, broken in rules if broken]
    if short:
        raise Refused(5, short)


def fnv1a(key):
    """01: "start 2166136261; for each byte, exclusive-or, then times 16777619, and the product wraps at 32 bits"."""
    h = 2166136261
    for byte in key:
        h = (h ^ byte) * 16777619 % 2**32
    return h


def records(run):
    """The versions of a run. A run is a dictionary from a key to its values by timestamp."""
    return [(key, time, value) for key, values in run.items() for time, value in values.items()]


class Transaction:
    def __init__(self, read):
        self.read = read        # the read number
        self.closed = False     # by an accepted commit or a conflict
        self.own = {}           # the overlay; an empty value is a deletion
        self.reads = set()      # hashes
        self.writes = set()


class Store:
    """A store with the settings of `replay`. 01: "4 transactions, each with 4,096 overlay bytes, 256 read and 64 write
    hashes; 256 history entries, 1,024 hashes; active run 8,192, run area 16,384"."""
    TRANSACTIONS = 4
    OVERLAY = 4096
    READS = 256
    WRITES = 64
    ENTRIES = 256
    HASHES = 1024
    ACTIVE = 8192
    AREA = 16384
    RUNS = 16   # 01: "At most 16 opening and frozen runs together."

    def __init__(self, serializable=True):
        self.serializable = serializable
        self.clock = 0      # 01: "the largest timestamp among the records of all runs, 0 if there are none"
        self.counter = 0    # the last handle given
        self.begun = {}     # transactions begun and not ended, by handle
        self.history = {}   # the hashes that a commit wrote, by its number
        self.active = {}
        self.frozen = []    # from newest to oldest

    # -----------------------------------------------------------------------------------------
    # 01, 'Versions and what a reader sees'.

    def runs(self):
        """01: "Run order: the active run, frozen runs from newest to oldest, opening runs as given." """
        return [self.active, *self.frozen]

    def values(self, key):
        """A key's values by timestamp. 01: "of versions equal in key and timestamp only the one from the earliest
        run"."""
        merged = {}
        for run in self.runs():
            for time, value in run.get(key, {}).items():
                merged.setdefault(time, value)
        return merged

    def visible(self, key, r):
        """01: "for a key, the version with the largest timestamp at or below r. If there is none, or its value is
        empty, the key is absent." None is absent."""
        found = {time: value for time, value in self.values(key).items() if time <= r}
        return (found[max(found)] or None) if found else None

    def seen(self, txn, key):
        """01: "the transaction's own last write of a key hides the snapshot"."""
        if key in txn.own:
            return txn.own[key] or None
        return self.visible(key, txn.read)

    def keys(self, txn, above):
        """The keys that there are above a key, rising; all of them where the bound is None."""
        keys = {key for run in self.runs() for key in run} | set(txn.own)
        return sorted(key for key in keys if above is None or key > above)

    def first(self, txn, above):
        """01: "A scan answers with the first present key within the bounds". None is the end."""
        for key in self.keys(txn, above):
            value = self.seen(txn, key)
            if value is not None:
                return key, value
        return None

    # -----------------------------------------------------------------------------------------
    # 01, 'Clock, readers, commit'.

    def hash(self, key):
        return fnv1a(key)

    def readers(self):
        """01: "is one reader of that timestamp until it is ended, also after its commit"."""
        return [txn.read for txn in self.begun.values()]

    def watermark(self):
        """01: "the smallest timestamp with a reader; with no reader, the clock"."""
        return min(self.readers(), default=self.clock)

    def above_read(self, number, read):
        """01: "a history entry with commit number above the read timestamp"."""
        return number > read

    def conflict(self, txn):
        """01: "there are writes, and a history entry with commit number above the read timestamp shares a hash with the
        read set"."""
        return bool(txn.own) and any(
            self.above_read(number, txn.read) and hashes & txn.reads for number, hashes in self.history.items())

    def stays(self, number):
        """01: "entries strictly below the watermark leave"."""
        return number >= self.watermark()

    def pruned(self):
        return {number: hashes for number, hashes in self.history.items() if self.stays(number)}

    # -----------------------------------------------------------------------------------------
    # The calls. 01: "Other calls: 9, 3, 4, 1, 2, then the rest."

    def transaction(self, handle):
        """01, 3: "handle not of a transaction begun and not ended"."""
        if handle not in self.begun:
            raise Refused(3)
        return self.begun[handle]

    def opened(self, handle):
        """01, 4: "transaction closed by an accepted commit or a conflict"."""
        txn = self.transaction(handle)
        if txn.closed:
            raise Refused(4)
        return txn

    def read(self, txn, key):
        """Adds a key to the read set. 01: "hash new and set full"; "In the other mode no set and no history is kept." """
        if self.serializable:
            h = self.hash(key)
            no_room(('read set', h not in txn.reads and len(txn.reads) >= self.READS))
            txn.reads.add(h)

    def overlay_bytes(self, own):
        """01: "4 bytes plus key and value for each entry, a replaced value counted no more"."""
        return sum(4 + len(key) + len(value) for key, value in own.items())

    def begin(self):
        """01: "A new transaction gets the next handle, 1 for the first after opening, reads at the clock". The reader
        table has a row for each place, so it is never full before the places are, and no counter of a script reaches
        its end (7)."""
        no_room(('transaction place', len(self.begun) >= self.TRANSACTIONS))
        self.counter += 1
        self.begun[self.counter] = Transaction(self.clock)
        return self.counter, self.clock

    def get(self, handle, key):
        """01: "A get that answers, present or absent, adds its key's hash to the read set, own writes included." """
        txn = self.opened(handle)
        self.read(txn, key)
        return self.seen(txn, key)

    def scan(self, handle, above):
        """01: "A scan answer adds the key handed out; skipped keys and the end add nothing." """
        txn = self.opened(handle)
        pair = self.first(txn, above)
        if pair is not None:
            self.read(txn, pair[0])
        return pair

    def put(self, handle, key, value):
        """01: "Put and delete add to the write set." """
        txn = self.opened(handle)
        h = self.hash(key)
        no_room(
            ('overlay', self.overlay_bytes({**txn.own, key: value}) > self.OVERLAY),
            ('write set', self.serializable and h not in txn.writes and len(txn.writes) >= self.WRITES))
        txn.own[key] = value
        if self.serializable:
            txn.writes.add(h)

    def delete(self, handle, key):
        """01: "An empty value is a deletion." """
        self.put(handle, key, b'')

    def active_after(self, txn):
        """01: "each overlay entry becomes a version with that timestamp in the active run"."""
        after = {key: dict(values) for key, values in self.active.items()}
        for key, value in txn.own.items():
            after.setdefault(key, {})[self.clock + 1] = value
        return after

    def history_after(self, txn):
        """01: "in serializable mode the write hashes enter the history under that number and entries strictly below the
        watermark leave"."""
        return {**self.pruned(), self.clock + 1: set(txn.writes)} if self.serializable else {}

    def active_bytes(self, run):
        """01: "12 bytes plus key and value for each version"."""
        return sum(12 + len(key) + len(value) for key, _, value in records(run))

    def commit_room(self, txn):
        """01: "history after pruning plus the new entry above a limit; active run .. too small"."""
        history = self.history_after(txn)
        no_room(
            ('history entries', len(history) > self.ENTRIES),
            ('history hashes', sum(map(len, history.values())) > self.HASHES),
            ('active run', self.active_bytes(self.active_after(txn)) > self.ACTIVE))

    def check_commit(self, txn):
        """01: "Commit: 9, 3, 4, 6, 7, 5."; "6 alone marks its transaction closed"; "After 5 or 7 a transaction stays open
        and may try again." """
        if self.conflict(txn):
            txn.closed = True
            raise Refused(6)
        if txn.own:
            self.commit_room(txn)

    def commit(self, handle):
        """01: "Commit without writes: accepted, nothing checked or stored; the clock stays." Else "the clock rises by
        1"."""
        txn = self.opened(handle)
        self.check_commit(txn)
        txn.closed = True
        if not txn.own:
            return None
        self.active, self.history = self.active_after(txn), self.history_after(txn)
        self.clock += 1
        return self.clock

    def end(self, handle):
        """01: "a closed transaction may be ended, and writes not committed are dropped"."""
        self.transaction(handle)
        del self.begun[handle]

    def image_bytes(self, run):
        """01: "Three bytes `RUN`, version 1 in 16 bits, record count in 32 bits, then for each record: key length 16
        bits, key, timestamp 64 bits, value length 16 bits, value." """
        return 3 + 2 + 4 + sum(2 + len(key) + 8 + 2 + len(value) for key, _, value in records(run))

    def area_bytes(self, runs):
        """01: "run area (whole images)"."""
        return sum(map(self.image_bytes, runs))

    def freeze(self):
        """01: "Freezing makes the active run such an image, first among the frozen, and empties it; freezing an empty one
        changes nothing." """
        if not self.active:
            return
        after = [self.active, *self.frozen]
        no_room(('run area', self.area_bytes(after) > self.AREA), ('17th run', len(after) > self.RUNS))
        self.active, self.frozen = {}, after


class Replay(Store):
    """The script language. 01, 'Sheet of cases': "The program `replay` reads standard input .." """

    INPUT = 32768
    WORD = 16
    LAST = 2**64 - 1
    DIGITS = b'0123456789'
    LETTERS_AND_DIGITS = DIGITS + b'ABCDEFGHIJKLMNOPQRSTUVWXYZabcdefghijklmnopqrstuvwxyz'

    def handle(self, field):
        """01: "H decimal, 0 to 2^64-1, no leading zero". None is not understood."""
        if not field or any(byte not in self.DIGITS for byte in field):
            return None
        if len(field) > 1 and field[:1] == b'0':
            return None
        n = 0
        for byte in field:
            n = 10 * n + self.DIGITS.index(byte)
            if n > self.LAST:
                return None
        return n

    def word(self, field):
        """01: "keys and values 1 to 16 ASCII letters or digits". None is not understood."""
        good = 1 <= len(field) <= self.WORD and all(byte in self.LETTERS_AND_DIGITS for byte in field)
        return field if good else None

    def bound(self, field):
        """01: "the first pair above that key, `-` for unbounded"."""
        return '-' if field == b'-' else self.word(field)

    def understood(self, line):
        """01: "`b`; `g H key`; `p H key value`; `d H key`; `f H key`, ..; `c H`; `e H`; `z` freezes. One space between
        fields". The command and its fields; None is not understood."""
        H, key, value = self.handle, self.word, self.word
        forms = {b'b': (), b'g': (H, key), b'p': (H, key, value), b'd': (H, key), b'f': (H, self.bound), b'c': (H,),
                 b'e': (H,), b'z': ()}
        name, *fields = line.split(b' ')
        if name not in forms or len(fields) != len(forms[name]):
            return None
        fields = [take(field) for take, field in zip(forms[name], fields)]
        return None if None in fields else (name, *fields)

    def call(self, name, *fields):
        """01: "only on 0: handle and read number for `b`; value or `-` for `g`; key and value, or `-`, for `f`; commit
        number or `-` for `c`"."""
        number = lambda n: str(n).encode()
        if name == b'b':
            return list(map(number, self.begin()))
        if name == b'g':
            return [self.get(*fields) or b'-']
        if name == b'f':
            handle, above = fields
            return self.scan(handle, None if above == '-' else above) or [b'-']
        if name == b'c':
            stamp = self.commit(*fields)
            return [b'-' if stamp is None else number(stamp)]
        {b'p': self.put, b'd': self.delete, b'e': self.end, b'z': self.freeze}[name](*fields)
        return []

    def answer(self, line):
        """What stands behind the line number, as fields, and the rooms that are short. 01, 13: "script line not
        understood (program only; the next line is still read)"."""
        call = self.understood(line)
        if call is None:
            return [b'13'], ()
        try:
            return [b'0', *self.call(*call)], ()
        except Refused as no:
            return [str(no.number).encode()], no.rooms

    def lines(self, data):
        """01: "Lines end in LF, the last may lack it"."""
        lines = data.split(b'\n')
        return lines[:-1] if lines[-1] == b'' else lines

    def whole(self, data):
        """For each output line its fields and the rooms that are short. 01: "at most 32,768 bytes (more: the single line
        `0 13`)"; "Output: line number, return number, then .." """
        if len(data) > self.INPUT:
            return [([b'0', b'13'], ())]
        said = []
        for number, line in enumerate(self.lines(data), 1):
            fields, rooms = self.answer(line)
            said.append(([str(number).encode(), *fields], rooms))
        return said


def output(said):
    return b''.join(b' '.join(fields) + b'\n' for fields, _ in said)


def replay(data, serializable=True):
    return output(Replay(serializable).whole(data))


if __name__ == '__main__':
    sys.stdout.buffer.write(replay(sys.stdin.buffer.read(), serializable='-n' not in sys.argv[1:]))
