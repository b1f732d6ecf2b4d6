#!/usr/bin/env python3
"""Writes the repository's own definitions, lemmas, fields and variables in snake case, as the installed Rattle's library has them.

usage: respell.py FOLDER [--check]

FOLDER is the repository, after port.py ran in it. A name is turned where it is declared or bound in an .antt file of the repository's
specs/ or proofs/ and has a part (between dashes) in lower camel case: 'numberFrom' becomes 'number_from', 'bigEndian-again' becomes
'big_endian-again'. Types, modules, constructors of the source, functions of src/, file names, strings, inputs and outputs keep their names.
The names are turned wherever they stand as whole words: in .antt and .rt files (not in strings), in must-fail edits and in pages.
--check writes nothing and prints what it would turn, and each new name that something else has already.
"""

import collections
import glob
import os
import re
import sys

WORD = re.compile(r"[A-Za-z_ℕ\u0370-\u03ff\u2080-\u2089\u2070-\u207f0-9][A-Za-z0-9_'\u0370-\u03ff\u2080-\u2089\u2070-\u207fℕ-]*")
# A part of a name, between dashes, is in camel case where a capital follows a small letter, a digit or a prime.
CAMEL = re.compile(r"[a-z0-9'][A-Z]")
# Lemmas that have the new name of the definition they speak of: they get '_lem', as the library's do. With each, the crates that cite it.
LEMMAS = {
    "count_at": ["table"],
    "numbers_on": ["host"],
    "own_held": ["txn", "writing"],
    "place_at": ["layout"],
    "place_read": ["table"],
    "rows_in": ["watermark"],
    "same_key": ["paper", "lsm"],
    "too_long": ["writing"],
    "value_out": ["answering"],
    "whole_run": ["run"],
}
# Names that Rattle makes from the source, and so keep the source's spelling.
MADE = {"is_IsWord"}


def pages(root, patterns):
    for pattern in patterns:
        for path in sorted(glob.glob(os.path.join(root, pattern), recursive=True)):
            if os.path.isfile(path) and "/out/" not in path:
                yield path


def without_comments(text):
    return re.sub(r"(?m)(^|\s)--(\s[^\n]*|$)", r"\1", text)


def snake(name):
    parts = name.split("-")
    return "-".join(snake_part(p) for p in parts)


def snake_part(part):
    if not re.match(r"[a-z]", part):
        return part
    return re.sub(r"(?<=[a-z0-9'_])([A-Z]+)", lambda m: ("" if part[m.start() - 1] == "_" else "_") + m.group(1).lower(), part)


def library_names(texts, own):
    names = set()
    for text in texts:
        for m in re.finditer(r"(?m)^(?:pub )?use ([^\s{]+?)\.\{([^}]*)\}", text):
            seg = m.group(1).split(".")
            if not (seg[0] == "Rattle" and seg[1] in own):
                names |= {re.split(r"\s+as\s+", n.strip())[0] for n in m.group(2).split(",")}
    return names


def apart(root, antt):
    """Gives '_lem' to each lemma of LEMMAS in the proof files of its crates."""
    for path in antt:
        crate = os.path.relpath(path, root).split(os.sep)[1]
        if f"{os.sep}proofs{os.sep}" not in path:
            continue
        text = open(path, encoding="utf-8").read()
        new = text
        for name, crates in LEMMAS.items():
            if crate in crates:
                new = re.sub(r"(?<![\w.'`-])" + name + r"(?![\w'-])", name + "_lem", new)
        if new != text:
            open(path, "w", encoding="utf-8").write(new)


def main(argv):
    root = argv[0]
    own = {os.path.basename(d) for d in glob.glob(os.path.join(root, "crates/*"))}
    antt = list(pages(root, ["crates/*/specs/**/*.antt", "crates/*/proofs/**/*.antt"]))
    texts = {p: open(p, encoding="utf-8").read() for p in antt}
    bare = {p: without_comments(t) for p, t in texts.items()}
    if "--check" not in argv:
        apart(root, antt)
        texts = {p: open(p, encoding="utf-8").read() for p in antt}
        bare = {p: without_comments(t) for p, t in texts.items()}
    words = collections.Counter(w for t in bare.values() for w in WORD.findall(t))
    library = library_names(bare.values(), own)
    turned = {}
    for w in words:
        if CAMEL.search(w) and w not in library and w not in MADE and snake(w) != w:
            turned[w] = snake(w)
    back = collections.defaultdict(list)
    for old, new in turned.items():
        back[new].append(old)
    for new, olds in sorted(back.items()):
        if len(olds) > 1 or new in words:
            print("falls together:", new, olds, "stands already" if new in words else "")
    if "--check" in argv:
        print(len(turned), "names")
        for old, new in sorted(turned.items()):
            print(old, new)
        return 0
    sub = lambda m: turned.get(m.group(0), m.group(0))
    n = 0
    rt = list(pages(root, ["crates/*/src/**/*.rt"]))
    rest = list(pages(root, ["crates/*/must-fail/*", "edits/**/*", "README.md", "docs/*.md", "docs/examples/*.md"]))
    for path in antt + rt + rest:
        text = open(path, encoding="utf-8").read()
        if path.endswith(".rt"):
            new = re.sub(r'"(?:[^"\\\n]|\\.)*"|' + WORD.pattern, lambda m: m.group(0) if m.group(0)[0] == '"' else sub(m), text)
        else:
            new = WORD.sub(sub, text)
        if new != text:
            n += 1
            open(path, "w", encoding="utf-8").write(new)
    print(f"respell: {len(turned)} names, {n} files")
    return 0


if __name__ == "__main__":
    raise SystemExit(main(sys.argv[1:]))
