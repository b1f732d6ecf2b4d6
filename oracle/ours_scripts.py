#!/usr/bin/env python3
"""Our store as a program for compare_scripts.py: scripts in the language of `replay` in, their answers out.

  ../bench/build                                             first; it takes the proofs along
  ./compare_scripts.py SEED COUNT --batch ./ours_scripts.py

  ours_scripts.py < script            answers one script
  ours_scripts.py --batch < scripts   answers many: each stands behind its length in bytes and an LF, and so does its output
  ours_scripts.py -n ..               the store isn't serializable
  ours_scripts.py --library PATH ..   another library than ../bench/target/libhost.so

Every answer comes from a function of crate `host`, called by ctypes from the shared library that bench/build makes. This
file takes the lines apart and prints the answers.

It also watches the lent buffers. The state is opened over bytes of 165, and such bytes lie behind each buffer. A refusal that
changes a lent byte (6 changes one bit, the mark of its transaction), an answer that changes an out buffer behind its own bytes,
or a write behind a buffer is told on standard error, and the exit status is 70.
"""
import argparse
import ctypes
import pathlib
import re
import sys

HERE = pathlib.Path(__file__).resolve().parent
SETTINGS = (4, 4096, 256, 64, 256, 1024, 8192, 16384)
LONGEST_INPUT, LONGEST_WORD = 32768, 16
HANDLE, WORD = rb' (0|[1-9][0-9]{0,19})', rb' ([0-9A-Za-z]{1,16})'
FORMS = {letter: re.compile(form) for letter, form in {
    'b': b'b', 'g': b'g' + HANDLE + WORD, 'p': b'p' + HANDLE + WORD + WORD, 'd': b'd' + HANDLE + WORD,
    'f': b'f' + HANDLE + rb' (-|[0-9A-Za-z]{1,16})', 'c': b'c' + HANDLE, 'e': b'e' + HANDLE, 'z': b'z'}.items()}
EXCLUDED, UNBOUNDED = 1, 2
FILL, BEHIND = 165, 32
NUMBER, SIZE, TEXT = ctypes.c_uint64, ctypes.c_size_t, ctypes.c_char_p
BYTES, NUMBERS = ctypes.POINTER(ctypes.c_uint8), ctypes.POINTER(NUMBER)


def functions(path):
    """The library, with the types that ngalovuki.h has."""
    library = ctypes.CDLL(str(path))
    state, reply, key, out = [BYTES, SIZE], [NUMBERS, SIZE], [TEXT, SIZE], [BYTES, SIZE]
    types = {
        'state_length': [NUMBER] * 9,
        'open': state + [NUMBER] * 9 + key + reply + reply,
        'begin': state + reply,
        'get': state + [NUMBER] + key + out + reply,
        'scan': state + [NUMBER] + [NUMBER, *key] * 2 + out * 2 + reply,
        'put': state + [NUMBER] + key + key,
        'delete': state + [NUMBER] + key,
        'commit': state + [NUMBER] + reply,
        'end': state + [NUMBER],
        'freeze': state,
    }
    for name, taken in types.items():
        function = getattr(library, 'ngalovuki_' + name)
        function.argtypes, function.restype = taken, NUMBER
    return library


def broken(what):
    print('ours_scripts: ' + what, file=sys.stderr)
    sys.exit(70)


class Lent:
    """A lent buffer, with bytes behind it that no call may change."""

    def __init__(self, size):
        self.size = size
        self.bytes = (ctypes.c_uint8 * (size + BEHIND))()
        self.clear()

    def clear(self):
        ctypes.memset(self.bytes, FILL, self.size + BEHIND)

    def held(self):
        return bytes(self.bytes)

    def only(self, length):
        """The first bytes; all behind them must be as `clear` has them."""
        held = self.held()
        if held[length:].strip(bytes([FILL])):
            broken('an out buffer is changed behind the answer')
        return held[:length]


class Store:
    """An opened store, and the out buffers."""

    def __init__(self, library, serializable):
        self.library = library
        self.reply = (NUMBER * 3)()
        self.state = Lent(library.ngalovuki_state_length(serializable, *SETTINGS))
        self.key, self.value = Lent(LONGEST_WORD), Lent(LONGEST_WORD)
        number = library.ngalovuki_open(
            self.state.bytes, self.state.size, serializable, *SETTINGS, b'', 0, (NUMBER * 1)(), 0, self.reply, 3)
        if number != 0:
            broken(f'opening returned {number}')

    def call(self, name, *told):
        """The number returned. What the call may not change is looked at."""
        self.key.clear()
        self.value.clear()
        self.reply[:] = [FILL] * 3
        before = self.state.held()
        number = getattr(self.library, 'ngalovuki_' + name)(self.state.bytes, self.state.size, *told)
        after = self.state.held()
        if after[self.state.size:] != before[self.state.size:]:
            broken(f'{name} wrote behind the state')
        if number == 6 and (int.from_bytes(before, 'big') ^ int.from_bytes(after, 'big')).bit_count() != 1:
            broken(f'{name} returned 6 and changed more or less than a mark')
        if number not in (0, 6) and after != before:
            broken(f'{name} returned {number} and changed the state')
        if number != 0:
            self.key.only(0)
            self.value.only(0)
            if self.reply[:] != [FILL] * 3:
                broken(f'{name} returned {number} and changed the reply')
        return number

    def answer(self, letter, handle=None, *words):
        """The number returned and the values that follow it on 0."""
        reply = self.reply
        told = [part for word in words for part in (word, len(word))]
        if letter == 'b':
            return self.call('begin', reply, 3), reply[:2]
        if letter == 'g':
            number = self.call('get', handle, *told, self.value.bytes, LONGEST_WORD, reply, 3)
            return number, self.found(number, (self.value, 1))
        if letter == 'f':
            low = (UNBOUNDED, b'', 0) if words[0] == b'-' else (EXCLUDED, *told)
            number = self.call('scan', handle, *low, UNBOUNDED, b'', 0, self.key.bytes, LONGEST_WORD,
                               self.value.bytes, LONGEST_WORD, reply, 3)
            return number, self.found(number, (self.key, 1), (self.value, 2))
        if letter == 'c':
            return self.call('commit', handle, reply, 3), [reply[1] if reply[0] else '-']
        if letter == 'z':
            return self.call('freeze'), []
        return self.call({'p': 'put', 'd': 'delete', 'e': 'end'}[letter], handle, *told), []

    def found(self, number, *outs):
        """The words in the out buffers, whose lengths the reply has at these places; `-` for none."""
        if number != 0:
            return []
        here = self.reply[0]
        words = [out.only(self.reply[place] if here else 0).decode('latin-1') for out, place in outs]
        return words if here else ['-']


def understood(line):
    """A line's letter, handle and words; None if it isn't understood."""
    form = FORMS.get(line[:1].decode('latin-1'))
    found = form and form.fullmatch(line)
    if not found:
        return None
    fields = found.groups()
    if fields and int(fields[0]) >= 2**64:
        return None
    return [line[:1].decode(), *map(int, fields[:1]), *fields[1:]]


def replay(library, serializable, script):
    """The output for a script."""
    if len(script) > LONGEST_INPUT:
        return b'0 13\n'
    store, out = Store(library, serializable), []
    for place, line in enumerate(script.removesuffix(b'\n').split(b'\n') if script else [], 1):
        call = understood(line)
        number, values = store.answer(*call) if call else (13, [])
        out.append(' '.join(map(str, [place, number, *(values if number == 0 else [])])) + '\n')
    return ''.join(out).encode('latin-1')


def main():
    ask = argparse.ArgumentParser(description=__doc__.split('\n')[0])
    ask.add_argument('-n', action='store_true', help="the store isn't serializable")
    ask.add_argument('--batch', action='store_true')
    ask.add_argument('--library', default=HERE.parent / 'bench/target/libhost.so')
    told = ask.parse_args()
    library, serializable = functions(told.library), 0 if told.n else 1
    read, write = sys.stdin.buffer, sys.stdout.buffer
    if not told.batch:
        write.write(replay(library, serializable, read.read()))
        return
    while length := read.readline():
        said = replay(library, serializable, read.read(int(length)))
        write.write(b'%d\n' % len(said) + said)
        write.flush()


main()
