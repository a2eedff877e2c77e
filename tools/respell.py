#!/usr/bin/env python3
"""Brings the repository's own definitions and lemmas to today's spelling, after port.py and before the commit of both.

usage: python3 tools/respell.py [--dry]     at the top, with what port.py wrote not committed yet

Words are in snake case; types, facts and modules keep upper camel case. A dash stays in a name only where it joins two names of definitions;
elsewhere it is `_`. A lemma that would get the name of a definition ends in `_lem`. The names are those that .antt files of specs/ and proofs/
declare. They are turned in .antt and .rt files, and with what port.py itself respelled in must-fail edits and in pages; an edit of a definition
gets its projections written tight too. Two names that fall together in a file are listed, and stop the script; a definition may have the name
of a function of the code, and a field that of a field of the code (FIELDS_OF_BOTH).
"""

import glob
import os
import re
import subprocess
import sys

DECLARED = re.compile(r"^ *(?P<kind>(?:abbrev |unfoldable |pub |record |data )*)(?P<name>[^\s:(){}]+)(?P<bound>(?: [({][^)}]*[)}])*) : ")
WORDS = re.compile(r"[^\s(){}\[\],;.`λ\"∥⌜⌝|]+")
# Words of std and of the logic that a dash of a lemma's name may stand beside.
LIBRARY = set("length take drop get_or set min max suc zero bit_and bit_or bit_xor cond eqb ltb leb map paste tabulate replicate and or not".split())
# Names that would fall together with another one of the same file, and how they are spelled in its place.
APART = {"block-bytes": "blocks_in_byte", "lastDigits": "last_places"}
# Files where a field of the code and one of a definition get one name; each is read behind a dot.
FIELDS_OF_BOTH = {
    "crates/matrix_blocks/specs/Layouts.antt",
    "crates/pair_frames/specs/Schemes.antt",
    "crates/pair_units/specs/Units.antt",
    "crates/pair_units/proofs/Rooms.antt",
}


def read(path):
    with open(path, encoding="utf-8") as f:
        return f.read()


def antt_files():
    return sorted(glob.glob("crates/*/specs/**/*.antt", recursive=True) + glob.glob("crates/*/proofs/**/*.antt", recursive=True))


def at_head(path):
    r = subprocess.run(["git", "show", "HEAD:" + path], capture_output=True, text=True)
    return r.stdout if r.returncode == 0 else ""


def declared(text):
    """Each name with its kind: the words before it, or "field"."""
    inside = None
    for line in text.splitlines():
        depth = len(line) - len(line.lstrip())
        if line.strip() and inside is not None and depth <= inside:
            inside = None
        if re.match(r" *(pub )?record .* where$", line):
            inside = depth
        m = DECLARED.match(line)
        if m and not line.lstrip().startswith("let ") and " : tie." not in line:
            yield m.group("name"), "field" if inside is not None and depth > inside else m.group("kind")


def snake(name):
    name = re.sub(r"(?<=[a-z0-9ŵ̂̃])(?=[A-Z])", "_", name)
    return name.lower()


def turned(name, definitions):
    """The new spelling of a name."""
    if name in APART:
        return APART[name]
    if "◌" in name or not re.match(r"[a-z]", name):
        if "-" not in name:
            return name
    parts = name.split("-")
    if "" in parts:
        return name
    parts = [snake(p) if re.match(r"[a-z]", p) and re.search(r"[A-Z]", p) else p for p in parts]
    if parts[-1] != "spec":
        for i in range(len(parts) - 1, 0, -1):
            if "_".join(parts[:i]) in definitions:
                begins = any("_".join(parts[i:j]) in definitions for j in range(len(parts), i, -1))
                return "_".join(parts[:i]) + ("-" if begins else "_") + "_".join(parts[i:])
    return "_".join(parts)


def tight(edit):
    """An edit of a definition with its projections written tight, as port.py writes them in the definition."""
    if not re.search(r"(?m)^file: (specs|proofs)/", edit):
        return edit
    lines = []
    for line in edit.splitlines(keepends=True):
        if line.startswith(("old:", "new:")):
            line = line[:4] + re.sub(r"(?<=[^\s:]) \.(?=\w)", ".", line[4:])
            line = re.sub(r"\((\w+(?:\.\w+)+)\)", r"\1", line)
        lines.append(line)
    return "".join(lines)


def main():
    dry = "--dry" in sys.argv
    files = antt_files()
    names, definitions, ported = {}, set(LIBRARY), {}
    for p in files:
        now = list(declared(read(p)))
        was = list(declared(at_head(p).replace(" tie .", " tie.")))
        for name, kind in now:
            names.setdefault(name, set()).add(kind)
            if not p.endswith("Proof.antt") and ("abbrev" in kind or "unfoldable" in kind):
                if len(name) > 1:
                    definitions.add(snake(name) if re.match(r"[a-z]", name) else name)
        if len(was) == len(now):
            for (a, _), (b, _) in zip(was, now):
                if a != b:
                    ported[a] = b
    defines = ("abbrev", "unfoldable", "field")
    taken = {turned(n, definitions): n for n, kinds in names.items() if any(d in k for k in kinds for d in defines)}
    turn = {}
    for n, kinds in names.items():
        t = turned(n, definitions)
        if t in taken and taken[t] != n and not any(d in k for k in kinds for d in defines):
            t += "_lem"
        if t != n:
            turn[n] = t
    fallen = 0
    texts = {}
    for p in files + sorted(glob.glob("crates/*/src/**/*.rt", recursive=True)):
        text = read(p)
        seen = {}

        def put(m):
            w = m.group(0)
            before = text[m.start() - 1 : m.start()]
            if before == "." and p.endswith("Proof.antt") and "pub " not in "".join(names.get(w, ())):
                return w
            new = turn.get(w, w)
            seen.setdefault(new, set()).add(w)
            return new

        lines = WORDS.sub(put, text)
        for new, olds in seen.items():
            if len(olds) > 1 and not (olds - set(turn) and p.endswith(".rt")) and p not in FIELDS_OF_BOTH:
                fallen += 1
                print(f"{p}: {' and '.join(sorted(olds))} would both be {new}")
        texts[p] = lines
    whole = dict(ported)
    for a, b in ported.items():
        whole[a] = turn.get(b, b)
    for a, b in turn.items():
        whole.setdefault(a, b)
    for p in sorted(glob.glob("crates/*/must-fail/*.edit")):
        texts[p] = tight(WORDS.sub(lambda m: whole.get(m.group(0), m.group(0)), read(p)))
    for p in sorted(glob.glob("docs/**/*.md", recursive=True) + ["README.md", "tests/README.md"]):
        texts[p] = re.sub(r"`[^`\n]*`", lambda q: WORDS.sub(lambda m: whole.get(m.group(0), m.group(0)), q.group(0)), read(p))
    print(f"{len(turn)} names turned, {len(ported)} turned by port.py before, {fallen} places fall together")
    if "--names" in sys.argv:
        for a, b in sorted(turn.items()):
            print(f"{a}\t{b}")
    if dry or fallen:
        return 1 if fallen else 0
    for p, t in texts.items():
        if t != read(p):
            with open(p, "w", encoding="utf-8") as f:
                f.write(t)
    return 0


if __name__ == "__main__":
    raise SystemExit(main())
