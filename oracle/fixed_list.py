#!/usr/bin/env python3
"""Writes crate `answers`: a fixed list of reads, and the oracle's answers as the program's expected output.

  ./fixed_list.py        writes ../crates/answers/{src/{main,views,cases}.rt, specs/Packed.antt, stdout}; then run `rt fmt` there

The reads are over five runs and own writes, made from a fixed seed, in three views: the runs alone, the
runs with the own writes on top, and the runs in the opposite order with the own writes. Each line of
`stdout` is the oracle's answer to one read; the program answers the same reads by our proved read path.
"""
import pathlib
import random
import subprocess

HERE = pathlib.Path(__file__).resolve().parent
CRATE = HERE.parent / 'crates/answers'
WORDS = 'a ab b fir fire oak'.split()
VALUES = ['', 'p', 'q', 'xy']
SEED, RUNS, CASES = 3, 5, 48


def dotted(word):
    return '.' + word.encode().hex()


def undotted(field):
    return bytes.fromhex(field[1:]).decode()


def short(word):
    return len(word).to_bytes(2, 'big') + word.encode()


rng = random.Random(SEED)
runs = []
for _ in range(RUNS):
    versions = {(rng.choice(WORDS), rng.randint(1, 4)): rng.choice(VALUES) for _ in range(4)}
    runs.append(sorted(((k, t, v) for (k, t), v in versions.items()), key=lambda x: (x[0], -x[1])))
own = sorted({rng.choice(WORDS): rng.choice(VALUES) for _ in range(4)}.items())

packed, places = b'', []
for run in runs:
    start = len(packed)
    packed += b''.join(short(k) + t.to_bytes(8, 'big') + short(v) for k, t, v in run)
    places.append((start, len(packed)))
begin = len(packed)
packed += b''.join(short(k) + short(v) for k, v in own)

cases = []
for i in range(CASES):
    view, read = rng.choice(('plain', 'topped', 'turned')), rng.randint(1, 5)
    if i % 3 == 2:
        cases.append((view, read, rng.choice(WORDS)))
    else:
        ends = [rng.choice(WORDS + ['', 'yew']) for _ in range(2)]
        low, high = sorted(ends) if rng.random() < 0.9 else ends
        cases.append((view, read, (rng.choice('ixu'), low), (rng.choice('ixu'), high)))


def bound(kind, word):
    return kind if kind == 'u' else kind + dotted(word)


def script(view, read, *what):
    lines = ['new mem']
    for run in reversed(runs) if view == 'turned' else runs:
        lines += ['run', *(f'v {dotted(k)} {t} {dotted(v)}' for k, t, v in run)]
    if view != 'plain':
        lines += [f'own {dotted(k)} {dotted(v)}' for k, v in own]
    asked = f'get {read} {dotted(*what)}' if len(what) == 1 else f'scan {read} {bound(*what[0])} {bound(*what[1])}'
    return ''.join(line + '\n' for line in lines + [asked])


def told(case, line):
    """The oracle's line, as the program writes it."""
    if len(case) == 3:
        return 'get' + ('' if line == '-' else ' ' + undotted(line))
    pairs = line.split('|')[0].split()
    return 'scan' + ''.join(f' {undotted(k)} {undotted(v)}' for k, v in (pair.split('=') for pair in pairs))


oracle = subprocess.run([HERE / 'target/release/oracle_scan'], input=''.join(script(*case) for case in cases),
                        capture_output=True, text=True, check=True).stdout.splitlines()
(CRATE / 'stdout').write_text(''.join(told(case, line) + '\n' for case, line in zip(cases, oracle, strict=True)))

BOUNDS = {'i': 'Bound::Included(b"{}")', 'x': 'Bound::Excluded(b"{}")', 'u': 'Bound::Unbounded'}


def call(view, read, *what):
    if len(what) == 1:
        return f'    get(s, {view}(s, {read}), b"{what[0]}");'
    low, high = (BOUNDS[kind].format(word) for kind, word in what)
    return f'    scan(s, {view}(s, {read}), {low}, {high});'


text = '''// The fixed list of reads, four to a function. Written by oracle/fixed_list.py.
ghost use Rattle.std.specs.Prelude.{◌≡◌};
ghost use Rattle.answers.specs.Packed.{list_bytes};

use crate::reading::{get, plain, scan, topped, turned};
use std::ops::Bound;
'''
for group, at in enumerate(range(0, CASES, 4)):
    text += f'''
pub(crate) fn group{'abcdefghijkl'[group]}(s: &[u8])
    requires {{ s.now ≡ list_bytes }}
{{
''' + '\n'.join(call(*case) for case in cases[at:at + 4]) + '\n}\n'
(CRATE / 'src').mkdir(parents=True, exist_ok=True)
(CRATE / 'specs').mkdir(exist_ok=True)
(CRATE / 'src/cases.rt').write_text(text)

quoted = ''.join(chr(b) if 97 <= b < 123 else f'\\x{b:02x}' for b in packed)
cursor = 'Cursor {{ at: {}, end: {}, run: {} }}'
views = {'plain': (places, begin), 'topped': (places, len(packed)), 'turned': (places[::-1], len(packed))}
text = '''// The packed bytes and the views of them. Written by oracle/fixed_list.py.
ghost use Rattle.std.specs.Prelude.{◌≡◌};
ghost use Rattle.answers.specs.Packed.{view_of, plain_view, topped_view, turned_view};

use lsm::view::View;
use merge::heap::{Cursor, MOST_RUNS};

// Five runs, and own writes from `own` to `stop`.
fn view(a: Cursor, b: Cursor, c: Cursor, d: Cursor, e: Cursor, own: usize, stop: usize, read: u64) -> View
    ensures { result ≡ view_of a b c d e own stop read }
{
    let mut cursors = [Cursor::NOWHERE; MOST_RUNS];
    cursors[0] = a;
    cursors[1] = b;
    cursors[2] = c;
    cursors[3] = d;
    cursors[4] = e;
    View {
        cursors,
        runs: 5,
        own,
        stop,
        read,
    }
}
'''
for name, (where, stop) in views.items():
    text += f'''
pub(crate) fn {name}_view(read: u64) -> View
    ensures {{ result ≡ {name}_view read }}
{{
    view(
''' + ''.join(f'        Cursor {{\n            at: {a},\n            end: {e},\n            run: {i},\n        }},\n'
              for i, (a, e) in enumerate(where)) + f'        {begin},\n        {stop},\n        read,\n    )\n}}\n'
(CRATE / 'src/views.rt').write_text(text)

text = f'''-- The packed bytes of five runs and own writes, and three views of them. Written by oracle/fixed_list.py.
-- Assumes nothing.
use Rattle.std.specs.Prelude.{{ℕ, [], ◌∷◌}}
use Rattle.paper.specs.Keys.{{Bytes}}
use Rattle.merge.specs.Cursors.{{nowhere}}
use Rattle.merge.specs.declared.heap.Cursor.{{Cursor}}
use Rattle.lsm.specs.declared.view.View.{{View}}

-- the runs one after the other, then the own writes
unfoldable pub list_bytes : Bytes
list_bytes = {' ∷ '.join(map(str, packed))} ∷ []

-- five runs, own writes, a read number
abbrev pub view_of : Cursor → Cursor → Cursor → Cursor → Cursor → ℕ → ℕ → ℕ → View
view_of a b c d e own stop read =
    record {{
      cursors = a ∷ b ∷ c ∷ d ∷ e ∷ {'nowhere ∷ ' * 12}[];
      runs = 5;
      own = own;
      stop = stop;
      read = read;
    }}
'''
for name, (where, stop) in views.items():
    cursors = ' '.join(f'(record {{ at = {a}; end = {e}; run = {i} }})' for i, (a, e) in enumerate(where))
    text += f'\nabbrev pub {name}_view : ℕ → View\n{name}_view read = view_of {cursors} {begin} {stop} read\n'
(CRATE / 'specs/Packed.antt').write_text(text)
main = f'''// A fixed list of reads over packed runs, each answered on a line. The expected lines are the answers of the original Rust.
// Written by oracle/fixed_list.py.
#![tactic(auto)]

mod reading; // reading.rt: a whole scan and a get, written as a line
mod views; // views.rt: the views of the packed bytes
mod cases; // cases.rt: the reads

fn main() {{
    let s =
        b"{quoted}";
''' + ''.join(f'    cases::group{g}(s);\n' for g in 'abcdefghijkl') + '}\n'
(CRATE / 'src/main.rt').write_text(main)
