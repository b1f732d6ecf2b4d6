#!/usr/bin/env python3
"""Wrong models of `replay`, each with an error that comes easily, for `compare_scripts.py --self-test`.

  script_wrong.py NAME < script      answers a script as a wrong model does, so that the comparison itself can be tried:

  ./compare_scripts.py 1 100 --no-oracle --program './script_wrong.py PrunesEqual'
"""
import sys

from script_model import Refused, Replay, fnv1a, output

# ---------------------------------------------------------------------------------------------
# Reading.


class FirstRunOnly(Replay):
    "looks for a key only in the first run that has it"

    def values(self, key):
        return next((run[key] for run in self.runs() if key in run), {})


class FallsThrough(Replay):
    'falls through a visible deletion to an older value'

    def visible(self, key, r):
        found = {time: value for time, value in self.values(key).items() if time <= r and value}
        return found[max(found)] if found else None


class ReadsBelow(Replay):
    'reads below the read number and not at it'

    def visible(self, key, r):
        return super().visible(key, r - 1)


class ReadsLatest(Replay):
    'reads what is committed by now'

    def visible(self, key, r):
        return super().visible(key, self.clock)


class NoOwn(Replay):
    "doesn't see own writes"

    def seen(self, txn, key):
        return self.visible(key, txn.read)


class OwnDeletion(Replay):
    'lets an own deletion show the snapshot'

    def seen(self, txn, key):
        return txn.own.get(key) or self.visible(key, txn.read)


class ForgetsFrozen(Replay):
    "doesn't look into the oldest of 16 frozen runs"

    def runs(self):
        return [self.active, *self.frozen[:15]]


class ScanIncludes(Replay):
    'takes the bound of a scan as included'

    def keys(self, txn, above):
        keys = super().keys(txn, None)
        return [key for key in keys if above is None or key >= above]


class ScanWithoutOwn(Replay):
    'scans the snapshot alone'

    def first(self, txn, above):
        pairs = ((key, self.visible(key, txn.read)) for key in self.keys(txn, above))
        return next((pair for pair in pairs if pair[1]), None)


class ScanStops(Replay):
    'ends a scan at the first absent key'

    def first(self, txn, above):
        keys = self.keys(txn, above)
        value = self.seen(txn, keys[0]) if keys else None
        return (keys[0], value) if value else None


class LongerFirst(Replay):
    'orders a key before its prefixes'

    def keys(self, txn, above):
        order = lambda key: key.ljust(16, b'\xff')
        keys = {key for run in self.runs() for key in run} | set(txn.own)
        return sorted((key for key in keys if above is None or order(key) > order(above)), key=order)


# ---------------------------------------------------------------------------------------------
# The read set and the hash.


class ScanUnread(Replay):
    "doesn't add the key of a scan's answer to the read set"

    def scan(self, handle, above):
        return self.first(self.opened(handle), above)


class SkippedRead(Replay):
    'adds the keys that a scan skips to the read set'

    def scan(self, handle, above):
        pair = super().scan(handle, above)
        txn = self.opened(handle)
        for key in self.keys(txn, above):
            if self.serializable and (pair is None or key < pair[0]) and len(txn.reads) < self.READS:
                txn.reads.add(self.hash(key))
        return pair


class EndNeedsRoom(Replay):
    'refuses the end of a scan where the read set is full'

    def scan(self, handle, above):
        pair = super().scan(handle, above)
        if pair is None and len(self.opened(handle).reads) == self.READS:
            raise Refused(5, ['read set'])
        return pair


class AbsentUnread(Replay):
    "doesn't add an absent key to the read set"

    def get(self, handle, key):
        txn = self.opened(handle)
        value = self.seen(txn, key)
        if value is not None:
            self.read(txn, key)
        return value


class OwnUnread(Replay):
    "doesn't add an own write to the read set"

    def get(self, handle, key):
        txn = self.opened(handle)
        if key not in txn.own:
            self.read(txn, key)
        return self.seen(txn, key)


class WritesRead(Replay):
    'adds what is written to the read set'

    def put(self, handle, key, value):
        super().put(handle, key, value)
        txn = self.opened(handle)
        if len(txn.reads) < self.READS:
            txn.reads.add(self.hash(key))


class DeleteUnwritten(Replay):
    "doesn't add a deletion to the write set"

    def delete(self, handle, key):
        txn = self.opened(handle)
        writes = set(txn.writes)
        super().delete(handle, key)
        txn.writes = writes


class KnownNeedsRoom(Replay):
    'refuses a known hash where the read set is full'

    def read(self, txn, key):
        if len(txn.reads) >= self.READS:
            raise Refused(5, ['read set'])
        super().read(txn, key)


class KeysForHashes(Replay):
    'compares keys and not their hashes'

    def hash(self, key):
        return key


class OtherFnv(Replay):
    'multiplies before the exclusive-or (FNV-1)'

    def hash(self, key):
        h = 2166136261
        for byte in key:
            h = h * 16777619 % 2**32 ^ byte
        return h


class ShortHash(Replay):
    'keeps 16 bits of the hash'

    def hash(self, key):
        return fnv1a(key) % 2**16


# ---------------------------------------------------------------------------------------------
# Commit, history, readers, handles.


class ReadNumberToo(Replay):
    'checks the history from the read number itself'

    def above_read(self, number, read):
        return number >= read


class NewestOnly(Replay):
    'checks only the newest commit of the history'

    def above_read(self, number, read):
        return number > read and number == self.clock


class NeverConflicts(Replay):
    'accepts every commit'

    def conflict(self, txn):
        return False


class ReadersConflict(Replay):
    'checks a commit without writes'

    def conflict(self, txn):
        return any(number > txn.read and hashes & txn.reads for number, hashes in self.history.items())


class WritersConflict(Replay):
    'checks the write set against the history too'

    def conflict(self, txn):
        return super().conflict(txn) or any(
            number > txn.read and hashes & txn.writes for number, hashes in self.history.items())


class ConflictLeavesOpen(Replay):
    'leaves a transaction open after a conflict'

    def check_commit(self, txn):
        if self.conflict(txn):
            raise Refused(6)
        super().check_commit(txn)


class RoomBeforeConflict(Replay):
    'asks for room before it looks for a conflict'

    def check_commit(self, txn):
        if txn.own:
            self.commit_room(txn)
        super().check_commit(txn)


class RoomCloses(Replay):
    'closes a transaction whose commit finds no room'

    def check_commit(self, txn):
        try:
            super().check_commit(txn)
        except Refused:
            txn.closed = True
            raise


class EmptyCommitCounts(Replay):
    'lets the clock rise on a commit without writes'

    def commit(self, handle):
        stamp = super().commit(handle)
        if stamp is None:
            self.clock += 1
        return stamp


class EmptyCommitOpen(Replay):
    'leaves a transaction open after a commit without writes'

    def commit(self, handle):
        stamp = super().commit(handle)
        self.begun[handle].closed = stamp is not None
        return stamp


class PrunesEqual(Replay):
    'prunes the entry equal to the watermark'

    def stays(self, number):
        return number > self.watermark()


class NeverPrunes(Replay):
    'never prunes the history'

    def stays(self, number):
        return True


class PrunesAll(Replay):
    'prunes all entries but the new one'

    def stays(self, number):
        return False


class LargestReader(Replay):
    'takes the largest timestamp with a reader for the watermark'

    def watermark(self):
        return max(self.readers(), default=self.clock)


class CommitEndsReader(Replay):
    'counts a closed transaction as no reader'

    def readers(self):
        return [txn.read for txn in self.begun.values() if not txn.closed]


class CommitFreesPlace(Replay):
    'gives the place of a closed transaction to a new one'

    def begin(self):
        closed = [handle for handle, txn in self.begun.items() if txn.closed]
        if len(self.begun) >= self.TRANSACTIONS and closed:
            del self.begun[closed[0]]
        return super().begin()


class HandlesAgain(Replay):
    'gives the handle of an ended transaction again'

    def begin(self):
        self.counter = next(n for n in range(len(self.begun) + 1) if n + 1 not in self.begun)
        return super().begin()


class RefusedBeginCounts(Replay):
    'counts a refused begin as a handle'

    def begin(self):
        if len(self.begun) >= self.TRANSACTIONS:
            self.counter += 1
        return super().begin()


class ClosedStays(Replay):
    'refuses to end a closed transaction'

    def end(self, handle):
        self.opened(handle)
        super().end(handle)


class EndedCloses(Replay):
    'says closed of a transaction that was ended'

    def transaction(self, handle):
        if handle not in self.begun and 1 <= handle <= self.counter:
            raise Refused(4)
        return super().transaction(handle)


class ShortHandles(Replay):
    'takes 32 bits of a handle'

    def transaction(self, handle):
        return super().transaction(handle % 2**32)

    def end(self, handle):
        super().end(handle % 2**32)


# ---------------------------------------------------------------------------------------------
# Room.


class ReplacedCounts(Replay):
    'counts a replaced value in the overlay'

    def put(self, handle, key, value):
        txn = self.opened(handle)
        if self.overlay_bytes(txn.own) + 4 + len(key) + len(value) > self.OVERLAY:
            raise Refused(5, ['overlay'])
        super().put(handle, key, value)


class OverlayTwo(Replay):
    'counts 2 bytes for each own write beside key and value'

    def overlay_bytes(self, own):
        return super().overlay_bytes(own) - 2 * len(own)


class ActiveEight(Replay):
    'counts 8 bytes for each version beside key and value'

    def active_bytes(self, run):
        return super().active_bytes(run) - 4 * sum(map(len, run.values()))


class AreaWithoutHeads(Replay):
    'counts the versions of a frozen run and not its whole image'

    def image_bytes(self, run):
        return self.active_bytes(run)


class EmptyFreezes(Replay):
    'lets an empty freeze take the place of a run'

    def freeze(self):
        super().freeze()
        if not self.active and len(self.frozen) < self.RUNS:
            self.frozen.insert(0, {})


class RefusedPutCounts(Replay):
    'adds the hash of a refused put to the write set'

    def put(self, handle, key, value):
        txn = self.opened(handle)
        try:
            super().put(handle, key, value)
        except Refused:
            txn.writes.add(self.hash(key))
            raise


class RefusedEnters(Replay):
    'keeps the new entry of a commit that finds no room'

    def commit_room(self, txn):
        try:
            super().commit_room(txn)
        except Refused:
            self.history = self.history_after(txn)
            raise


class BeforePruning(Replay):
    'asks for room in the history before pruning'

    def commit_room(self, txn):
        if len(self.history) >= self.ENTRIES:
            raise Refused(5, ['history entries'])
        super().commit_room(txn)


def off_by_one(name, what):
    """The two models with one more and one less in a limit."""
    limit = getattr(Replay, name)
    for by in (1, -1):
        doc = f'has {limit + by:,} for {limit:,} {what}'
        yield type(f'{name}_{limit + by}', (Replay,), {name: limit + by, '__doc__': doc})


LIMITS = [wrong for name, what in (
    ('TRANSACTIONS', 'transactions'), ('OVERLAY', 'overlay bytes'), ('READS', 'read hashes'), ('WRITES', 'write hashes'),
    ('ENTRIES', 'history entries'), ('HASHES', 'history hashes'), ('ACTIVE', 'active run bytes'), ('AREA', 'run area bytes'),
    ('RUNS', 'runs'), ('INPUT', 'input bytes'), ('WORD', 'bytes of a key or value'), ('LAST', 'as the last handle'))
    for wrong in off_by_one(name, what)]


# ---------------------------------------------------------------------------------------------
# The script language.


class LeadingZero(Replay):
    'takes a leading zero'

    def handle(self, field):
        return super().handle(field.lstrip(b'0') or field[:1])


class WrapsHandles(Replay):
    'lets a handle wrap at 64 bits'

    def handle(self, field):
        return int(field) % 2**64 if field.isdigit() and field[:1] != b'0' else super().handle(field)


class NoHandleZero(Replay):
    "doesn't understand the handle 0"

    def handle(self, field):
        return super().handle(field) or None


class AnySpaces(Replay):
    'takes several spaces for one'

    def understood(self, line):
        return super().understood(b' '.join(line.split(b' ', 1)[:1] + line.split()[1:]) if line[:1] != b' ' else line)


class TakesTabs(Replay):
    'takes a tab for a space'

    def understood(self, line):
        return super().understood(line.replace(b'\t', b' '))


class TakesCr(Replay):
    'takes CR LF for LF'

    def understood(self, line):
        return super().understood(line.removesuffix(b'\r'))


class TakesCapitals(Replay):
    'takes capital letters for commands'

    def understood(self, line):
        return super().understood(line[:1].lower() + line[1:])


class TakesMore(Replay):
    'passes over what stands behind the last field'

    def understood(self, line):
        fields = line.split(b' ')
        return super().understood(b' '.join(fields[:{b'b': 1, b'z': 1, b'c': 2, b'e': 2, b'p': 4}.get(fields[0], 3)]))


class AnyBytes(Replay):
    'takes any bytes but spaces in keys and values'

    def word(self, field):
        return field if 1 <= len(field) <= 16 else None


class TakesLatin(Replay):
    'takes bytes above 127 in keys and values'

    LETTERS_AND_DIGITS = Replay.LETTERS_AND_DIGITS + bytes(range(128, 256))


class TakesDash(Replay):
    'takes `-` for a key'

    def word(self, field):
        return field if field == b'-' else super().word(field)


class StopsAtNul(Replay):
    'ends a line at a NUL'

    def understood(self, line):
        return super().understood(line.split(b'\0')[0])


class SkipsEmpty(Replay):
    "doesn't count empty lines"

    def lines(self, data):
        return [line for line in super().lines(data) if line]


class NeedsLf(Replay):
    'passes over a last line without LF'

    def lines(self, data):
        return data.split(b'\n')[:-1]


class LastIsEmpty(Replay):
    'counts an empty line behind the last LF'

    def lines(self, data):
        return data.split(b'\n')


class StopsAtFirst(Replay):
    'stops at the first line that is not understood'

    def whole(self, data):
        said = super().whole(data)
        first = next((at for at, (fields, _) in enumerate(said) if fields[1] == b'13'), len(said))
        return said[:first + 1]


class UncountedLine(Replay):
    "doesn't number the lines that are not understood"

    def whole(self, data):
        said, number = super().whole(data), 0
        for fields, _ in said:
            number += fields[1] != b'13'
            fields[0] = b'%d' % number
        return said


WRONG = Replay.__subclasses__()


if __name__ == '__main__':
    named = {wrong.__name__: wrong for wrong in WRONG}
    if sys.argv[1:2] == [] or sys.argv[1] not in named:
        sys.exit('One of: ' + ' '.join(named))
    sys.stdout.buffer.write(output(named[sys.argv[1]]().whole(sys.stdin.buffer.read())))
