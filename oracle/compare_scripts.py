#!/usr/bin/env python3
"""Compares scripts: the program `replay` of document 01, as a model in Python, against programs.

  compare_scripts.py SEED COUNT                    COUNT random scripts, against the oracle
  compare_scripts.py SEED COUNT --program 'CMD'    against CMD too, which is started for each script
  compare_scripts.py SEED COUNT --batch 'CMD'      against CMD too, which is started once, with --batch behind it
  compare_scripts.py SEED COUNT --no-oracle ..     without the oracle
  compare_scripts.py SEED COUNT --kinds mix,scans  only scripts of these kinds, of those in script_writer.py
  compare_scripts.py SEED COUNT -n ..              the store isn't serializable; the programs are called with -n
  compare_scripts.py SEED COUNT --print            writes the scripts and the model's answers, runs nothing
  compare_scripts.py SEED COUNT --self-test        tells the model from wrong models, runs nothing else

A program reads one script on standard input and writes the output of `replay`; with --batch it reads many, each behind its
length in bytes and an LF, and answers each in the same form. Its output is compared whole with that of script_model.py. The
Rust has no room limits, so of a script in which the model answers 5 the oracle is asked the lines before the first 5.

The first script with a difference is made smaller for as long as the difference stays, and printed with both outputs; the exit
status is then 1. The same seed and kinds make the same scripts. The wrong models are in script_wrong.py.
"""
import argparse
import collections
import itertools
import pathlib
import shlex
import subprocess
import sys
import time

from script_model import Replay, output
from script_writer import NAMES, script
from script_wrong import WRONG

HERE = pathlib.Path(__file__).resolve().parent

# ---------------------------------------------------------------------------------------------
# Programs.


class Program:
    """A program that is started for each script. `rooms`: whether it is held to the answers of 5."""

    def __init__(self, command, rooms=True):
        self.command, self.rooms = command, rooms
        self.name = pathlib.Path(command[0]).name
        self.scripts = self.parts = self.lines = 0  # compared: whole scripts, scripts up to the first 5, lines

    def run(self, text):
        """What the program writes, and how it ended if not well."""
        try:
            done = subprocess.run(self.command, input=text, capture_output=True, timeout=60)
        except subprocess.TimeoutExpired:
            return b'', 'did not end within 60 seconds'
        said = done.stderr.decode(errors='replace').strip()[-300:]
        return done.stdout, f'ended with status {done.returncode}: {said}' if done.returncode else ''

    def asked(self, text, said):
        """The script as far as the program is asked it, and the output that it is to write."""
        if not self.rooms:
            first = next((at for at, (_, rooms) in enumerate(said) if rooms), None)
            if first is not None:
                return b''.join(line + b'\n' for line in text.split(b'\n')[:first]), output(said[:first])
        return text, output(said)

    def differs(self, text, said):
        asked, right = self.asked(text, said)
        return self.run(asked) != (right, '')

    def count(self, text, said):
        asked, right = self.asked(text, said)
        self.scripts += asked == text
        self.parts += asked != text
        self.lines += right.count(b'\n')


class Batch(Program):
    """A program that is started once."""

    running = None

    def run(self, text):
        if self.running is None:
            self.running = subprocess.Popen(self.command + ['--batch'], stdin=subprocess.PIPE, stdout=subprocess.PIPE)
        try:
            self.running.stdin.write(b'%d\n' % len(text) + text)
            self.running.stdin.flush()
            return self.running.stdout.read(int(self.running.stdout.readline())), ''
        except (BrokenPipeError, ValueError):   # ValueError: no length came
            ended, self.running = self.running.wait(), None
            return b'', f'ended with status {ended}'


# ---------------------------------------------------------------------------------------------
# A smaller script with the same difference.


def fewer_lines(lines):
    """Without half of the lines, without a quarter, .. and without one line."""
    size = len(lines)
    while size > 1:
        size = (size + 1) // 2
        for at in range(0, len(lines), size):
            yield lines[:at] + lines[at + size:]


def without_transaction(lines, handle):
    """Without a transaction: its begin, all lines that name it, and the handles above it one lower."""
    begins = 0
    for line in lines:
        fields = line.split(b' ')
        begins += line == b'b'
        named = int(fields[1]) if len(fields) > 1 and fields[1].isdigit() else None
        if named == handle or line == b'b' and begins == handle:
            continue
        if named is not None and handle < named < 2**20:
            fields[1] = b'%d' % (named - 1)
        yield b' '.join(fields)


def fewer_transactions(lines):
    for handle in range(lines.count(b'b'), 0, -1):
        yield list(without_transaction(lines, handle))


def shorter_words(lines):
    """With one key or value shorter, wherever it stands."""
    for word in sorted({word for line in lines for word in line.split(b' ')[2:]}):
        for other in (b'a', b'b', b'c', word[:len(word) // 2], word[:-1], word[1:]):
            if (len(other), other) < (len(word), word):
                yield [b' '.join(line.split(b' ')[:2] + [other if field == word else field for field in line.split(b' ')[2:]])
                       for line in lines]


def smaller(program, text, serializable, seconds=90):
    """A smaller script that differs too, as small as was found in this time. After a step that is taken, the next ones go on
    from its place."""
    until, tried, before = time.monotonic() + seconds, {text}, None
    while before != text:
        before = text
        for ways in (fewer_lines, fewer_transactions, shorter_words):
            place, steps = 0, list(ways(text.split(b'\n')))
            while place < len(steps) and time.monotonic() < until:
                less = b'\n'.join(steps[place])
                if less not in tried and program.differs(less, Replay(serializable).whole(less)):
                    text, steps = less, list(ways(steps[place]))
                else:
                    place += 1
                tried.add(less)
    return text


# ---------------------------------------------------------------------------------------------
# What is printed.


def shown(data):
    return repr(data)[2:-1]


def print_script(title, text, said):
    print(f'# {title}, {len(text)} bytes{"" if text.endswith(bytes([10])) else ", no last LF"}')
    for line, (fields, rooms) in zip(text.split(b'\n'), said):
        short = f'   ({", ".join(rooms)})' if rooms else ''
        print(f'{shown(line[:60]):40} | {shown(b" ".join(fields))}{short}')


def print_difference(program, text, serializable):
    """The script made smaller, with both outputs."""
    text = smaller(program, text, serializable)
    said = Replay(serializable).whole(text)
    asked, right = program.asked(text, said)
    print_script('the script made smaller, with the answers of document 01', asked, said)
    wrote, ended = program.run(asked)
    pairs = zip(wrote.split(b'\n'), right.split(b'\n'))
    same = len(list(itertools.takewhile(lambda pair: pair[0] == pair[1], pairs)))
    print(f'# {program.name} differs from line {same + 1} on{f", and {ended}" if ended else ""}; it writes:')
    print('\n'.join(map(shown, wrote.split(b'\n')[:-1])))
    print(f'# the script as Python has it:\n{asked!r}')


class Counts:
    """What the answers are, so that a reader sees that the scripts ask something."""

    def __init__(self):
        self.kinds, self.numbers, self.rooms = collections.Counter(), collections.Counter(), collections.Counter()
        self.met = 0    # scripts in which room is short

    def add(self, kind, said):
        self.kinds[kind] += 1
        self.met += any(rooms for _, rooms in said)
        for fields, rooms in said:
            self.numbers[int(fields[1])] += 1
            self.rooms.update(rooms)

    def __str__(self):
        each = lambda counter: ', '.join(f'{name} {n:,}' for name, n in sorted(counter.items()))
        return (f'scripts: {self.kinds.total():,} ({each(self.kinds)})\n'
                f'lines: {self.numbers.total():,}; of each number returned: {each(self.numbers)}\n'
                f'conflicts: {self.numbers[6]:,}; room is short in {self.met:,} scripts ({each(self.rooms)})')


def self_test(scripts):
    """The first script that tells each wrong model from the right one; whether all are told."""
    left = list(WRONG)
    for place, (kind, text) in enumerate(scripts, 1):
        right = output(Replay().whole(text))
        for wrong in [wrong for wrong in left if output(wrong().whole(text)) != right]:
            left.remove(wrong)
            print(f'script {place}, {kind}, tells a model that {wrong.__doc__}')
        if not left:
            break
    for wrong in left:
        print(f'NO SCRIPT tells a model that {wrong.__doc__}')
    print(f'{len(WRONG) - len(left)} of {len(WRONG)} wrong models told')
    return not left


def compare(scripts, programs, serializable):
    """Whether no program differs."""
    counts = Counts()
    for kind, text in scripts:
        said = Replay(serializable).whole(text)
        counts.add(kind, said)
        for program in programs:
            if program.differs(text, said):
                print_difference(program, text, serializable)
                return False
            program.count(text, said)
    print(counts)
    for program in programs:
        parts = f' and {program.parts:,} up to the first 5' if program.parts else ''
        print(f'{program.name}: {program.lines:,} lines of {program.scripts:,} whole scripts{parts} compared, no difference')
    return True


def main():
    ask = argparse.ArgumentParser(description=__doc__.split('\n')[0])
    ask.add_argument('seed', type=int)
    ask.add_argument('count', type=int)
    ask.add_argument('--program', action='append', default=[], metavar='CMD')
    ask.add_argument('--batch', action='append', default=[], metavar='CMD')
    ask.add_argument('--no-oracle', action='store_true')
    ask.add_argument('--kinds', default=','.join(NAMES))
    ask.add_argument('-n', action='store_true')
    ask.add_argument('--print', action='store_true')
    ask.add_argument('--self-test', action='store_true')
    told = ask.parse_args()
    kinds = told.kinds.split(',')
    if not set(kinds) <= set(NAMES):
        ask.error(f'--kinds: of {", ".join(NAMES)}')
    if told.n and told.self_test:
        ask.error('--self-test is for the serializable store')
    scripts = (script(told.seed, place, kinds, not told.n) for place in range(1, told.count + 1))
    if told.self_test:
        return self_test(scripts)
    if told.print:
        for kind, text in scripts:
            print_script(kind, text, Replay(not told.n).whole(text))
        return True
    mode = ['-n'] * told.n
    programs = [Program(shlex.split(command) + mode) for command in told.program]
    programs += [Batch(shlex.split(command) + mode) for command in told.batch]
    if not told.no_oracle:
        programs.append(Program([str(HERE / 'target/release/oracle')] + mode, rooms=False))
    return compare(scripts, programs, not told.n)


if __name__ == '__main__':
    sys.exit(0 if main() else 1)
