#!/usr/bin/env python3
"""Counts, in crates/*/src, the places that docs/DESIGN-PASS.md speaks of: `tools/design_places.py [--list] [POINT..]` at the top.

It goes by text: what it finds is read by eye, and the page says what each place became or why it stays.
"""
import glob
import re
import sys

FILES = sorted(glob.glob("crates/*/src/**/*.rt", recursive=True))
TEXT = {f: "\n".join(l if not l.lstrip().startswith("//") else "" for l in open(f).read().split("\n")) for f in FILES}

# A signature: name, and parameters as one line.
SIGNATURE = re.compile(r"\bfn (\w+)(?:<[^(]*>)?\(([^{;]*?)\)\s*(?:->|\n\s*(?:requires|ensures|where)|\{)", re.S)

# Each point: name, pattern, and what has to stand in the match's body, if anything.
POINTS = {
    "1-enums": r"^\s*(?:pub )?enum \w+",
    "1-flags": r"^    (?:pub )?\w+: bool,$",
    "1-numbers": r"\b(?:kind|mode|code|serializable): u(?:8|64)\b|-> u64\s*\n?\s*ensures \{ result ≡ (?:told_number|refusal_number|room_number|verdict_number|edge)",
    "3-while": r"\bwhile\b",
    "3-index": r"\b(?:i|k|j|n|left|passed|hole|count|number|start) [-+]= 1;",
    "4-orders": r"Ord(?:er|ering)::Less =>",
    "4-own": r"\bfn (?:smaller|larger|lesser|later|either|equal|less|compare_numbers|newly|mode_number|reach|whole|note|within|compare|ts|is_letter_or_digit|byte)\(",
    "4-fields": r"\b([a-z_]+): \1\b[,} ]",
    "4-false": r"\{\s*return (?:false|true);\s*\}",
    "6-offsets": r"",
    "7-steps": r"Mark::\w+ =>",
}


def signatures(text):
    for m in SIGNATURE.finditer(text):
        yield m, m.group(1), re.sub(r"\s+", " ", m.group(2))


def places(point):
    if point == "5-together":
        groups = [("state", "shape"), ("place", "rooms"), ("rooms", "serializable"), ("edge", "lo"), ("edge", "hi"), ("low", "lo"), ("out", "at"), ("places", "stride"), ("reads", "count"), ("times", "counts")]
        for f, text in TEXT.items():
            for m, name, params in signatures(text):
                names = re.findall(r"(\w+):", params)
                for g in groups:
                    if all(x in names for x in g):
                        yield f, text.count("\n", 0, m.start()) + 1, f"fn {name}: {' '.join(g)}"
        return
    if point == "6-offsets":
        for f, text in TEXT.items():
            for m, name, params in signatures(text):
                if re.search(r"&(?:mut )?\[u(?:8|64)\]", params) and len(re.findall(r"\w+: usize", params)) >= 2:
                    yield f, text.count("\n", 0, m.start()) + 1, f"fn {name}({params})"
        return
    for f, text in TEXT.items():
        for m in re.finditer(POINTS[point], text, re.M):
            yield f, text.count("\n", 0, m.start()) + 1, m.group(0).strip().split("\n")[0]


if __name__ == "__main__":
    args = [a for a in sys.argv[1:] if a != "--list"]
    for point in args or sorted([*POINTS, "5-together"]):
        found = list(places(point))
        print(f"{point}: {len(found)}")
        if "--list" in sys.argv:
            for f, line, what in found:
                print(f"    {f}:{line}: {what}")
