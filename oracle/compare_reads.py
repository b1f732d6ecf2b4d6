#!/usr/bin/env python3
"""Compares reads: document 01's reading rules, as a model in Python, against programs.

  compare_reads.py SEED COUNT                    COUNT random cases, against the oracle
  compare_reads.py SEED COUNT --program 'CMD'    against CMD too; may be given more than once
  compare_reads.py SEED COUNT --no-oracle ..     without the oracle
  compare_reads.py SEED COUNT --kinds get,scan   only these reads, of get, scan and live
  compare_reads.py SEED COUNT --long             long keys and values are the longest there are
  compare_reads.py SEED COUNT --print            writes the cases and the model's answers, runs nothing
  compare_reads.py SEED COUNT --self-test        tells the model from wrong models, runs nothing else

A program reads cases on standard input, in the language at the top of src/scans.rs, and writes one
line for each read. Every line is compared with the model's. The first case with a difference is made
smaller for as long as the difference stays, and printed; the exit status is then 1. The same seed and
count make the same cases.

The model is written from document 01's sentences and shares nothing with the Rust or with our code.
It looks at every version for every read, which is slow and plain.
"""
import argparse
import collections
import pathlib
import random
import shlex
import subprocess
import sys

LAST = 2**64 - 1  # the largest timestamp
HERE = pathlib.Path(__file__).resolve().parent

# ---------------------------------------------------------------------------------------------
# The model. A version is (key, timestamp, value); a run is a list of them; a bound is ('u', b''),
# ('i', key) or ('x', key). Python compares bytes as document 01 orders keys: a prefix first.


class Model:
    """Document 01, 'Versions and what a reader sees'."""

    def tie(self, runs):
        """Of versions equal in key and timestamp only the one from the earliest run."""
        merged = {}
        for run in runs:
            for key, time, value in run:
                merged.setdefault((key, time), value)
        return merged

    def visible(self, runs, key, r):
        """The version with the largest timestamp at or below r; None: the key is absent."""
        merged = self.tie(runs)
        times = [t for k, t in merged if k == key and t <= r]
        value = merged[key, max(times)] if times else b''
        return value or None

    def seen(self, runs, own, key, r):
        """The transaction's own last write of a key hides the snapshot."""
        if key in own:
            return own[key] or None
        return self.visible(runs, key, r)

    def above(self, key, lower):
        kind, end = lower
        return kind == 'u' or (key >= end if kind == 'i' else key > end)

    def below(self, key, upper):
        kind, end = upper
        return kind == 'u' or (key <= end if kind == 'i' else key < end)

    def first(self, runs, own, r, lower, upper):
        """The first present key within the bounds, with its value; None is the end."""
        for key in sorted({k for run in runs for k, _, _ in run} | set(own)):
            if self.above(key, lower) and self.below(key, upper):
                value = self.seen(runs, own, key, r)
                if value is not None:
                    return key, value
        return None

    def scan(self, runs, own, r, lower, upper):
        """All answers, each from the last key as an excluded lower bound, and the keys that are read."""
        pairs, read = [], []
        while (pair := self.first(runs, own, r, lower, upper)) is not None:
            pairs.append(pair)
            read.append(pair[0])
            lower = ('x', pair[0])
        return pairs, read


def fnv1a(key):
    h = 2166136261
    for byte in key:
        h = (h ^ byte) * 16777619 % 2**32
    return h


# ---------------------------------------------------------------------------------------------
# The language.


def dotted(data):
    return '.' + data.hex()


def bound_text(bound):
    kind, key = bound
    return kind if kind == 'u' else kind + dotted(key)


def is_read(step):
    return step[0] in ('get', 'scan', 'live')


def text(case):
    """A case in the language of src/scans.rs. A case is (place, runs, steps)."""
    place, runs, steps = case
    lines = ['new ' + place]
    for run in runs:
        lines.append('run')
        lines += [f'v {dotted(k)} {t} {dotted(v)}' for k, t, v in run]
    for step in steps:
        if step[0] == 'own':
            lines.append(f'own {dotted(step[1])} {dotted(step[2])}')
        elif step[0] == 'other':
            lines.append(f'other {dotted(step[1])}')
        elif step[0] == 'get':
            lines.append(f'get {step[1]} {dotted(step[2])}')
        else:
            lines.append(f'{step[0]} {step[1]} {bound_text(step[2])} {bound_text(step[3])}')
    return ''.join(line + '\n' for line in lines)


def answers(model, case):
    """What the programs are to write, a line for each read. What other transactions commit between
    the answers of a `live` scan has newer timestamps and so changes nothing."""
    _, runs, steps = case
    own, lines = {}, []
    for step in steps:
        if step[0] == 'own':
            own[step[1]] = step[2]
        elif step[0] == 'get':
            value = model.seen(runs, own, step[2], step[1])
            lines.append('-' if value is None else dotted(value))
        elif is_read(step):
            pairs, read = model.scan(runs, own, *step[1:])
            shown = ''.join(f'{dotted(k)}={dotted(v)} ' for k, v in pairs)
            lines.append(shown + '|' + ''.join(f' {h:08x}' for h in sorted({fnv1a(k) for k in read})))
    return lines


# ---------------------------------------------------------------------------------------------
# Random cases.


def some_key(rng, known):
    """A key of 1 byte or more; often one that is known, a prefix of it, or one byte longer."""
    way = rng.random()
    if known and way < 0.45:
        return rng.choice(known)
    if known and way < 0.60:
        return (rng.choice(known) + bytes([rng.choice(ALPHABET)]))[:LONGEST[-1]]
    if known and way < 0.70:
        key = rng.choice(known)
        return key[:rng.randint(1, len(key))]
    if way < 0.98:
        return bytes(rng.choice(ALPHABET) for _ in range(rng.randint(1, 4)))
    return bytes([rng.choice(ALPHABET)]) * rng.choice(LONG)


ALPHABET = (0, 1, 97, 98, 255)
# The lengths of long keys; with --long they are the longest that document 01 allows, and values are as long.
LONG = (255, 256, 257, 1000)
LONGEST = (65534, 65535)


def some_value(rng):
    way = rng.random()
    if way < 0.3:
        return b''
    if way < 0.99:
        return bytes(rng.choice(ALPHABET) for _ in range(rng.randint(1, 3)))
    return bytes(rng.choice(LONG if LONG == LONGEST else (255, 256, 1000)))


def some_bound(rng, known):
    way = rng.random()
    if way < 0.4:
        return 'u', b''
    kind = rng.choice('ix')
    return kind, b'' if way < 0.46 else some_key(rng, known)


def some_case(rng, kinds):
    # The active run and 16 others are the most that a store has.
    count = rng.choice((0, 1, 1, 2, 2, 2, 3, 3, 4, 5, rng.randint(6, 16), 17))
    place = 'act' if count == 17 else rng.choice(('act', 'mem', 'l0', 'tier'))
    times = [rng.choice((0, 1, LAST - 1, LAST)), *rng.sample(range(2, 9), 4), rng.choice((2**32, 2**63))]
    known = []
    for _ in range(rng.randint(1, 7)):
        known.append(some_key(rng, known))
    runs = []
    for _ in range(count):
        versions = {}
        for _ in range(rng.choice((0, 1, 2, 3, 5, 8))):
            versions[rng.choice(known), rng.choice(times)] = some_value(rng)
        rising = sorted(versions, key=lambda v: (v[0], -v[1]))
        runs.append([(k, t, versions[k, t]) for k, t in rising])
    steps = []
    for _ in range(rng.randint(1, 6)):
        while rng.random() < 0.4:
            steps.append(('own', some_key(rng, known), some_value(rng)))
        r = rng.choice(times) if rng.random() < 0.7 else rng.choice((0, 1, 9, LAST, rng.randint(0, LAST)))
        kind = rng.choice(kinds)
        if kind == 'get':
            steps.append(('get', r, some_key(rng, known)))
            continue
        if kind == 'live':
            # The others commit at numbers above r, so there must be some.
            r = min(r, LAST - 1000)
            while rng.random() < 0.5:
                steps.append(('other', some_key(rng, known)))
        steps.append((kind, r, some_bound(rng, known), some_bound(rng, known)))
    return place, runs, steps


# ---------------------------------------------------------------------------------------------
# Programs, and a smaller case with the same difference.


def run(command, script):
    """The lines that a program writes for a script, and how it ended if not well."""
    try:
        done = subprocess.run(command, input=script, capture_output=True, text=True, timeout=300)
    except subprocess.TimeoutExpired:
        return [], 'did not end within 300 seconds'
    said = done.stdout.split('\n')
    ended = '' if done.returncode == 0 else f'ended with status {done.returncode}: {done.stderr.strip()[-300:]}'
    return said[:-1], ended


def difference(command, case):
    """None, or the first read with another answer: its number, the model's answer, the program's."""
    right = answers(Model(), case)
    said, ended = run(command, text(case))
    for i, line in enumerate(right):
        if i >= len(said):
            return i, line, f'(none: the program {ended or "wrote no line"})'
        if said[i] != line:
            return i, line, said[i]
    if len(said) > len(right) or ended:
        return len(right), '(no more reads)', ended or said[len(right)]
    return None


def without(items):
    """The list without a half, a quarter, .. and without each single item."""
    size = len(items)
    while size > 1:
        size = (size + 1) // 2
        for at in range(0, len(items), size):
            yield items[:at] + items[at + size:]
    if len(items) == 1:
        yield []


def shorter(data, least):
    """Smaller byte strings of at least so many bytes."""
    if len(data) > least:
        yield data[:max(least, len(data) // 2)]
        yield data[:-1]
        yield data[1:]
    for at, byte in enumerate(data[:8]):
        if byte not in (97, 98):
            yield data[:at] + b'a' + data[at + 1:]


def rises(run):
    order = [(k, -t) for k, t, _ in run]
    return all(a < b for a, b in zip(order, order[1:]))


def smaller(case):
    """Cases that are smaller than a case in one point."""
    place, runs, steps = case
    if place != 'mem':
        yield 'mem', runs[:16], steps
    for fewer in without(steps):
        yield place, runs, fewer
    for fewer in without(runs):
        yield place, fewer, steps
    for i, run in enumerate(runs):
        for fewer in without(run):
            yield place, runs[:i] + [fewer] + runs[i + 1:], steps
    # One key or one timestamp everywhere, so that equal ones stay equal.
    keys = {k for run in runs for k, _, _ in run} | {f for s in steps for f in s[1:] if isinstance(f, bytes) and f}
    keys |= {b[1] for s in steps for b in s[1:] if isinstance(b, tuple) and b[1]}
    for key in sorted(keys):
        for other in shorter(key, 1):
            put = lambda x: other if x == key else x
            changed = [[(put(k), t, v) for k, t, v in run] for run in runs]
            yield place, changed, [
                tuple((b[0], put(b[1])) if isinstance(b, tuple) else put(b) if j == 1 or s[0] == 'get' else b
                      for j, b in enumerate(s)) for s in steps]
    times = sorted({t for run in runs for _, t, _ in run} | {s[1] for s in steps if is_read(s)})
    for rank, time in enumerate(times):
        if time > rank:
            put = lambda x: rank if x == time else x
            yield place, [[(k, put(t), v) for k, t, v in run] for run in runs], [
                (s[0], put(s[1]), *s[2:]) if is_read(s) else s for s in steps]
    for i, run in enumerate(runs):
        for j, (k, t, v) in enumerate(run):
            for other in shorter(v, min(1, len(v))):
                yield place, runs[:i] + [run[:j] + [(k, t, other)] + run[j + 1:]] + runs[i + 1:], steps
    for i, step in enumerate(steps):
        if step[0] == 'own':
            for other in shorter(step[2], min(1, len(step[2]))):
                yield place, runs, steps[:i] + [step[:2] + (other,)] + steps[i + 1:]
        if step[0] in ('scan', 'live'):
            for j in (2, 3):
                if step[j][0] != 'u':
                    yield place, runs, steps[:i] + [step[:j] + (('u', b''),) + step[j + 1:]] + steps[i + 1:]
        if step[0] == 'live':
            yield place, runs, steps[:i] + [('scan', *step[1:])] + steps[i + 1:]


def shrunk(command, case, tries=3000):
    again = True
    while again and tries:
        again = False
        for less in smaller(case):
            if not tries:
                break
            if not all(rises(run) for run in less[1]) or text(less) == text(case):
                continue
            tries -= 1
            if difference(command, less):
                case, again = less, True
                break
    return case


# ---------------------------------------------------------------------------------------------
# Wrong models, each with an error that comes easily.


class EarliestRun(Model):
    "takes the earliest run's version, not the newest timestamp's"

    def visible(self, runs, key, r):
        for run in runs:
            times = {t: v for k, t, v in run if k == key and t <= r}
            if times:
                return times[max(times)] or None
        return None


class LatestTie(Model):
    'takes the latest run where key and timestamp are equal'

    def tie(self, runs):
        return super().tie(runs[::-1])


class FallsThrough(Model):
    'falls through a visible deletion to an older value'

    def visible(self, runs, key, r):
        merged = self.tie(runs)
        times = [t for k, t in merged if k == key and t <= r and merged[k, t]]
        return merged[key, max(times)] if times else None


class Below(Model):
    'reads below r and not at it'

    def visible(self, runs, key, r):
        return super().visible(runs, key, r - 1)


class SignedTimes(Model):
    'compares timestamps as signed numbers'

    def visible(self, runs, key, r):
        signed = lambda n: n - 2**64 if n >= 2**63 else n
        return super().visible([[(k, signed(t), v) for k, t, v in run] for run in runs], key, signed(r))


class SnapshotFirst(Model):
    'lets the snapshot hide own writes'

    def seen(self, runs, own, key, r):
        return self.visible(runs, key, r) or own.get(key) or None


class OwnDeletion(Model):
    'lets an own deletion show the snapshot'

    def seen(self, runs, own, key, r):
        return own.get(key) or self.visible(runs, key, r)


class LowerKinds(Model):
    'takes an excluded lower bound as included where the scan begins'

    def scan(self, runs, own, r, lower, upper):
        if lower[0] == 'x' and self.below(lower[1], upper):
            value = self.seen(runs, own, lower[1], r)
            if value is not None:
                pairs, read = super().scan(runs, own, r, lower, upper)
                return [(lower[1], value)] + pairs, [lower[1]] + read
        return super().scan(runs, own, r, lower, upper)


class UpperExcluded(Model):
    'takes an excluded upper bound as included'

    def below(self, key, upper):
        return upper[0] == 'u' or key <= upper[1]


class UpperIncluded(Model):
    'takes an included upper bound as excluded'

    def below(self, key, upper):
        return upper[0] == 'u' or key < upper[1]


class LongerFirst(Model):
    'orders a key before its prefixes'

    def first(self, runs, own, r, lower, upper):
        down = lambda k: k + b'\xff' * (1100 - len(k))
        present = [k for k in {k for run in runs for k, _, _ in run} | set(own)
                   if (lower[0] == 'u' or down(k) > down(lower[1]) or (lower[0] == 'i' and k == lower[1]))
                   and self.below(k, upper) and self.seen(runs, own, k, r) is not None]
        key = min(present, key=lambda k: (down(k), -len(k)), default=None)
        return None if key is None else (key, self.seen(runs, own, key, r))


class SkippedRead(Model):
    'adds the keys that a scan skips to the read set'

    def scan(self, runs, own, r, lower, upper):
        pairs, read = super().scan(runs, own, r, lower, upper)
        keys = {k for run in runs for k, _, _ in run} | set(own)
        return pairs, [k for k in keys if self.above(k, lower) and self.below(k, upper)]


class ShorterRead(Model):
    'leaves the last key handed out out of the read set'

    def scan(self, runs, own, r, lower, upper):
        pairs, read = super().scan(runs, own, r, lower, upper)
        return pairs, read[:-1]


class SixteenRuns(Model):
    'leaves out the 17th run'

    def tie(self, runs):
        return super().tie(runs[:16])


WRONG = (EarliestRun, LatestTie, FallsThrough, Below, SignedTimes, SnapshotFirst, OwnDeletion, LowerKinds,
         UpperExcluded, UpperIncluded, LongerFirst, SkippedRead, ShorterRead, SixteenRuns)


def self_test(cases):
    """How many of the reads tell each wrong model from the right one; each must be told at least once."""
    told = collections.Counter()
    for case in cases:
        right = answers(Model(), case)
        for wrong in WRONG:
            told[wrong] += sum(a != b for a, b in zip(right, answers(wrong(), case)))
    for wrong in WRONG:
        print(f'{told[wrong]:8} reads tell a model that {wrong.__doc__}')
    return all(told[wrong] for wrong in WRONG)


# ---------------------------------------------------------------------------------------------


def compare(command, cases):
    """The reads compared, and the first case with a difference."""
    reads = 0
    for at in range(0, len(cases), 100):
        part = cases[at:at + 100]
        right = [line for case in part for line in answers(Model(), case)]
        said, ended = run(command, ''.join(text(case) for case in part))
        if said != right or ended:
            for case in part:
                if difference(command, case):
                    return reads, case
                reads += sum(map(is_read, case[2]))
            sys.exit(f'{shlex.join(command)}: cases {at} to {at + len(part) - 1} differ together and not alone')
        reads += len(right)
    return reads, None


def counts(cases):
    """What the cases have, so that a reader sees that they ask something."""
    lines = collections.Counter()
    for case in cases:
        reads = [step for step in case[2] if is_read(step)]
        for step, line in zip(reads, answers(Model(), case)):
            lines[step[0]] += 1
            if step[0] == 'get':
                lines['present'] += line != '-'
            else:
                lines['pairs'] += line.count('=')
    return (f'{lines["get"]} gets ({lines["present"]} present), {lines["scan"]} scans and '
            f'{lines["live"]} scans with commits between their answers ({lines["pairs"]} pairs handed out)')


def main():
    ask = argparse.ArgumentParser(description=__doc__.split('\n')[0])
    ask.add_argument('seed', type=int)
    ask.add_argument('count', type=int)
    ask.add_argument('--program', action='append', default=[], metavar='CMD')
    ask.add_argument('--no-oracle', action='store_true')
    ask.add_argument('--kinds', default='get,scan,live')
    ask.add_argument('--long', action='store_true')
    ask.add_argument('--print', action='store_true')
    ask.add_argument('--self-test', action='store_true')
    told = ask.parse_args()
    kinds = told.kinds.split(',')
    if not set(kinds) <= {'get', 'scan', 'live'}:
        ask.error('--kinds: of get, scan and live')
    if told.long:
        global LONG
        LONG = LONGEST
    rng = random.Random(told.seed)
    cases = [some_case(rng, kinds) for _ in range(told.count)]
    if told.print:
        for case in cases:
            sys.stdout.write(text(case) + ''.join(f'# {line}\n' for line in answers(Model(), case)))
        return 0
    if told.self_test:
        return 0 if self_test(cases) else 1
    commands = [] if told.no_oracle else [[str(HERE / 'target/release/oracle_scan')]]
    commands += [shlex.split(program) for program in told.program]
    status = 0
    print(f'seed {told.seed}: {len(cases)} cases: {counts(cases)}')
    for command in commands:
        name = pathlib.Path(command[0]).name
        reads, case = compare(command, cases)
        if case is None:
            print(f'{name}: {reads} reads compared, no difference')
            continue
        status = 1
        case = shrunk(command, case)
        number, right, said = difference(command, case)
        print(f'{name}: {reads} reads agreed, then this case differs in read {number + 1}:')
        print(text(case), end='')
        print(f'document 01: {right}\n{name}: {said}')
    return status


if __name__ == '__main__':
    sys.exit(main())
