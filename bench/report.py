#!/usr/bin/env python3
"""Writes the measured tables into docs/SPEED.md, between their marks, and draws docs/speed.svg.

`bench/run` measures, puts what it found into bench/target, and calls this.
"""
import datetime
import math
import pathlib
import re
import subprocess
from typing import NamedTuple

ROOT = pathlib.Path(__file__).resolve().parent.parent
FOUND = ROOT / 'bench/target'


# ---- what was measured

class Times(NamedTuple):
    """Nanoseconds: the median and the quartiles, and of how many."""
    median: float
    low: float
    high: float
    count: int


class Cell(NamedTuple):
    bytes: int
    calls: int
    ours: Times
    check: Times
    rust: Times


def times(words):
    return Times(*map(float, words[:3]), int(words[3]))


def measured():
    """The cells by call, size and runs; scans made anew by size and runs; the three times of the hash."""
    cells, anew, fnv = {}, {}, None
    for line in (FOUND / 'calls.tsv').read_text().splitlines():
        kind, *w = line.split('\t')
        if kind == 'call':
            cells[w[0], w[1], int(w[3])] = Cell(int(w[2]), int(w[4]), times(w[5:9]), times(w[9:13]), times(w[13:17]))
        elif kind == 'anew':
            anew[w[0], int(w[1])] = times(w[2:6])
        elif kind == 'fnv':
            fnv = int(w[0]), times(w[1:5]), times(w[5:9]), times(w[9:13])
    return cells, anew, fnv


def order(cells, i):
    return list(dict.fromkeys(k[i] for k in cells))


# ---- tables

def figures(x):
    """Three figures."""
    return f'{x:,.0f}' if x >= 100 else f'{x:.1f}' if x >= 10 else f'{x:.2f}'


def told(ns):
    for unit, name in ((1e9, 's'), (1e6, 'ms'), (1e3, 'µs')):
        if ns >= unit:
            return f'{figures(ns / unit)} {name}'
    return f'{ns:.0f} ns'


def table(head, rows):
    lines = ['| ' + ' | '.join(head) + ' |', '|' + '---|' * len(head)]
    return '\n'.join(lines + ['| ' + ' | '.join(row) + ' |' for row in rows])


def share(cell):
    return f'{min(100, 100 * cell.calls * cell.check.median / cell.ours.median):.0f} %'


def factor(cell):
    x = cell.ours.median / cell.rust.median
    return f'{x:,.0f}' if x >= 10 else f'{x:.1f}'


def calls_table(cells):
    head = ['call', 'runs']
    for n in (1, 16):
        head += [f'ours, {n} run' + 's' * (n > 1), 'of it the check', 'the Rust', 'ours / Rust']
    rows = []
    for call in order(cells, 0):
        for size in order(cells, 1):
            row = [call, size]
            for runs in (1, 16):
                cell = cells[call, size, runs]
                row += [told(cell.ours.median), share(cell), told(cell.rust.median), factor(cell)]
            rows.append(row)
    return table(head, rows)


def slope(a, b, x, y):
    return f'{math.log(y / x) / math.log(b / a):.2f}' if x > 0 and y > 0 else ''


def growth_table(cells):
    """Exponents between successive sizes: of whole calls of ours."""
    sizes = order(cells, 1)
    steps = list(zip(sizes, sizes[1:]))
    head = ['call'] + [f'{a} to {b}, {n} run' + 's' * (n > 1) for n in (1, 16) for a, b in steps]
    rows = []
    for call in order(cells, 0):
        row = [call]
        for runs in (1, 16):
            for a, b in steps:
                x, y = cells[call, a, runs], cells[call, b, runs]
                row.append(slope(x.bytes, y.bytes, x.ours.median / x.calls, y.ours.median / y.calls))
        rows.append(row)
    return table(head, rows)


def anew_table(cells, anew):
    rows = []
    for size in order(cells, 1):
        row = [size]
        for runs in (1, 16):
            cell = cells['scan of 100 pairs', size, runs]
            row += [told(cell.ours.median), told(cell.rust.median), told(anew[size, runs].median)]
        rows.append(row)
    head = ['runs']
    for n in (1, 16):
        head += [f'ours, {n} run' + 's' * (n > 1), 'the Rust, one iterator', 'the Rust, a new scan for each']
    return table(head, rows)


def hash_lines(fnv):
    length, short, whole, rust = fnv
    ours = (whole.median - short.median) / (length - 1)
    theirs = rust.median / length
    return table(['hash of a key of 65,535 bytes', 'a byte', 'bytes in a second'],
                 [['ours', f'{ours:.2f} ns', f'{1e3 / ours:,.0f} MB'],
                  ['the Rust', f'{theirs:.2f} ns', f'{1e3 / theirs:,.0f} MB']])


def machine():
    model = re.search(r'model name\s*: (.*)', pathlib.Path('/proc/cpuinfo').read_text()).group(1)
    cores = pathlib.Path('/proc/cpuinfo').read_text().count('model name')
    rustc = subprocess.run(['rustc', '--version'], capture_output=True, text=True).stdout.split()[1]
    day = datetime.date.today().strftime('%d %B %Y').lstrip('0')
    return f'Measured on {day}: {model}, {cores} cores, rustc {rustc}.'


def filled(text, parts):
    """The text with each part between its marks."""
    for name, part in parts.items():
        marks = f'<!-- {name} -->', f'<!-- end of {name} -->'
        before, found, behind = text.partition(marks[0])
        _, closed, behind = behind.partition(marks[1])
        assert found and closed, f'docs/SPEED.md has no marks for {name}'
        text = f'{before}{marks[0]}\n{part.strip()}\n{marks[1]}{behind}'
    return text


# ---- the drawing

OURS, RUST, CHECK, INK, GRID = '#1f5fa8', '#d9730d', '#c9dcf2', '#222222', '#e3e3e3'
WIDTH, LEFT, TOP, PANEL, TALL, GAP, BELOW = 1000, 68, 104, 290, 190, 18, 62


class Panel:
    """One call: sizes along the bottom, time upwards, both by powers of ten."""

    def __init__(self, x, y, sizes, low, high):
        self.x, self.y, self.sizes, self.low, self.high = x, y, sizes, math.log10(low), math.log10(high)
        self.out = []

    def across(self, n):
        a, b = math.log10(self.sizes[0][1]), math.log10(self.sizes[-1][1])
        return self.x + 16 + (PANEL - 32) * (math.log10(n) - a) / (b - a)

    def up(self, ns):
        return self.y + TALL - TALL * (math.log10(ns) - self.low) / (self.high - self.low)

    def frame(self, name):
        add = self.out.append
        add(f'<text x="{self.x}" y="{self.y - 9}" font-weight="bold">{name}</text>')
        for power in range(math.ceil(self.low), math.floor(self.high) + 1):
            y = self.up(10.0 ** power)
            add(f'<line x1="{self.x}" y1="{y:.1f}" x2="{self.x + PANEL}" y2="{y:.1f}" stroke="{GRID}"/>')
            if self.x == LEFT:
                add(f'<text x="{self.x - 6}" y="{y + 4:.1f}" text-anchor="end" font-size="11">{axis(power)}</text>')
        for name, n in self.sizes:
            x = self.across(n)
            add(f'<line x1="{x:.1f}" y1="{self.y + TALL}" x2="{x:.1f}" y2="{self.y + TALL + 4}" stroke="{INK}"/>')
            add(f'<text x="{x:.1f}" y="{self.y + TALL + 17}" text-anchor="middle" font-size="11">{name}</text>')
        add(f'<rect x="{self.x}" y="{self.y}" width="{PANEL}" height="{TALL}" fill="none" stroke="#9a9a9a"/>')

    def series(self, points, style):
        places = [(self.across(n), self.up(ns)) for n, ns in points]
        self.out += drawn(places, style)


def axis(power):
    unit = {0: 'ns', 1: 'µs', 2: 'ms', 3: 's'}[power // 3]
    return f'{10 ** (power % 3)} {unit}'


class Style(NamedTuple):
    colour: str
    dashes: str = ''
    shape: str = ''
    full: bool = True
    width: float = 1.6


def drawn(places, style):
    """A line through places, with a mark at each."""
    path = ' '.join(f'{x:.1f},{y:.1f}' for x, y in places)
    dashes = f' stroke-dasharray="{style.dashes}"' if style.dashes else ''
    yield f'<polyline points="{path}" fill="none" stroke="{style.colour}" stroke-width="{style.width}"{dashes}/>'
    look = f'fill="{style.colour if style.full else "white"}" stroke="{style.colour}" stroke-width="1.6"'
    for x, y in places:
        if style.shape == 'circle':
            yield f'<circle cx="{x:.1f}" cy="{y:.1f}" r="4" {look}/>'
        elif style.shape == 'square':
            yield f'<rect x="{x - 3.6:.1f}" y="{y - 3.6:.1f}" width="7.2" height="7.2" {look}/>'


LEGEND = (
    ('the state check in ours, 1 run', 'check', 1, Style(CHECK, width=9)),
    ('ours, 1 run', 'ours', 1, Style(OURS, shape='circle')),
    ('ours, 16 runs', 'ours', 16, Style(OURS, '6 3', 'circle', False)),
    ('the Rust, 1 run', 'rust', 1, Style(RUST, shape='square')),
    ('the Rust, 16 runs', 'rust', 16, Style(RUST, '6 3', 'square', False)),
)


def drawing(cells):
    calls, sizes = order(cells, 0), order(cells, 1)
    spread = [(s, cells[calls[0], s, 1].bytes) for s in sizes]
    every = [t for c in cells.values() for t in (c.ours.median, c.rust.median)]
    low, high = 10 ** math.floor(math.log10(min(every))), 10 ** math.ceil(math.log10(max(every)))
    rows = math.ceil(len(calls) / 3)
    height = TOP + rows * (TALL + BELOW) - 26
    out = [f'<svg xmlns="http://www.w3.org/2000/svg" viewBox="0 0 {WIDTH} {height}" font-family="sans-serif" '
           f'font-size="14" fill="{INK}">',
           '<title>Time of each call by the bytes of runs, ours and the Rust</title>',
           f'<rect width="{WIDTH}" height="{height}" fill="white"/>',
           '<text x="20" y="26" font-size="16" font-weight="bold">Time of each call by the bytes of runs</text>']
    x = 20
    for name, _, _, style in LEGEND:
        out += drawn([(x, 50), (x + 34, 50)], style._replace(shape=''))
        out += drawn([(x + 17, 50)], style)
        out.append(f'<text x="{x + 42}" y="55" font-size="13">{name}</text>')
        x += 62 + 7.2 * len(name)
    for i, call in enumerate(calls):
        panel = Panel(LEFT + (i % 3) * (PANEL + GAP), TOP + (i // 3) * (TALL + BELOW), spread, low, high)
        panel.frame(call)
        for _, who, runs, style in LEGEND:
            points = []
            for size in sizes:
                cell = cells[call, size, runs]
                ns = getattr(cell, who).median * (cell.calls if who == 'check' else 1)
                points.append((cell.bytes, max(ns, low)))
            panel.series(points, style)
        out += panel.out
    return '\n'.join(out + ['</svg>', ''])


def main():
    cells, anew, fnv = measured()
    page = ROOT / 'docs/SPEED.md'
    page.write_text(filled(page.read_text(), {
        'machine': machine(),
        'calls': calls_table(cells),
        'scans': anew_table(cells, anew),
        'growth of calls': growth_table(cells),
        'growth': (FOUND / 'growth.md').read_text(),
        'state check': (FOUND / 'state_check.md').read_text(),
        'hash': hash_lines(fnv),
    }))
    (ROOT / 'docs/speed.svg').write_text(drawing(cells))


if __name__ == '__main__':
    main()
