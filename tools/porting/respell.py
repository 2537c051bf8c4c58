#!/usr/bin/env python3
"""Spells the definitions and lemmas of crates/ in snake case: powUp and pow-up become pow_up. Types and modules keep their names.

usage: tools/porting/respell.py [--look]      at the top, after the kit's port.py; --look lists names that fall together and writes nothing
"""

import collections
import glob
import re
import sys

HUMP = re.compile(r"^[a-z][^-]*[a-z0-9₀-₉][A-Z][^-]*$")
HUMPS = re.compile(r"(?<=[a-z0-9₀-₉])(?=[A-Z])|(?<=[A-Z])(?=[A-Z][a-z])")
NAME = re.compile(r'[^\s(){}.;,@"«»]+')
DECL = re.compile(r"(?m)^[ \t]*(?:(?:abbrev|unfoldable|pub|data|record|infixl|infixr) )*([^\s(){}.;,@\"«»:]+)(?: [\{\(][^\n]*?[\}\)])* :(?=\s)[ \t]*(tie\.Need-)?")
LIBRARY = re.compile(r"(?m)^ *(?:ghost )?use (?!Rattle\.(?!std\b|core\b))([\w.']+)\.\{([^}]*)\}")
# Names that would fall together with another of their module or of a file that has both, and what they are called instead.
OTHER = {
    "mie-lists": "mie_lists_again",
    "quantum-lists": "quantum_lists_again",
    "pair-entry": "pair_entry_is",
    "state-lengths": "state_lengths_told",
    "orders-at": "orders_at_entry",
    "radii-lengths": "radii_lengths_told",
    "mie-lengths": "mie_lengths_told",
    "times-high": "times_high_is",
    "times-low": "times_low_is",
    "meeting-4": "meeting_4_is",
    "meeting-5": "meeting_5_is",
    "whole-root": "whole_root_is",
    "about-zero": "about_zero_bounded",
    "node-turn": "node_turn_is",
    "five-tested": "five_tested_is",
    "as-factors": "as_factors_is",
    "first-turn": "first_turn_same",
    "third-turn": "third_turn_same",
    "hard-sphere-at": "hard_sphere_at_is",
    "mie-energy": "mie_energy_is",
    "tank-right": "tank_right_told",
    "tank-set": "tank_set_refused",
    "one-sign": "one_sign_told",
}


def is_told_apart(name):
    return name[0].islower() and ("-" in name[1:] or re.search(r"[a-z0-9₀-₉][A-Z]", name))


def snake(name):
    if name in OTHER:
        return OTHER[name]
    first, *rest = HUMPS.split(name)
    return "_".join([first] + [re.sub("^[A-Z]+", lambda m: m[0].lower(), w) for w in rest]).replace("-", "_")


def texts():
    for f in sorted(glob.glob("crates/**/*", recursive=True)):
        if "/out/" not in f and f.endswith((".antt", ".rt", ".edit")):
            with open(f, encoding="utf-8") as it:
                yield f, it.read()


def declared(files):
    found = collections.defaultdict(set)
    for f, t in files.items():
        if f.endswith(".antt"):
            for m in DECL.finditer(t):
                if not m[2] and is_told_apart(m[1]):
                    found[m[1]].add(f)
    return found


def from_library(text):
    return {w.split(" as ")[0].strip() for m in LIBRARY.finditer(text) for w in m[2].split(",")}


def in_code(line, names):
    return NAME.sub(lambda m: snake(m[0]) if m[0] in names else m[0], line)


def in_comment(text, names):
    if not text:
        return text
    return re.sub(r"`[^`]*`|[^\s`]+", lambda m: in_code(m[0], names) if m[0][0] == "`" or HUMP.search(m[0]) else m[0], text)


def antt(text, names):
    out = []
    for line in text.split("\n"):
        m = re.search(r"(?:^|(?<=\s))--(?=\s|$|-)", line)
        cut = m.start() if m else len(line)
        out.append(in_code(line[:cut], names) + in_comment(line[cut:], names))
    return "\n".join(out)


def rust(text, names):
    """Clauses, imports and ghost items alone: in Rust's code such names do not occur."""
    words = re.compile(r"(?<![\w'₀-₉-])[a-z][\w'₀-₉-]*(?![\w'-])")
    out = []
    for line in text.split("\n"):
        m = re.search(r"//", line)
        cut = m.start() if m else len(line)
        out.append(words.sub(lambda m: snake(m[0]) if m[0] in names else m[0], line[:cut]) + in_comment(line[cut:], names))
    return "\n".join(out)


def turned(f, text, names):
    own = names - from_library(text)
    if f.endswith(".antt"):
        return antt(text, own)
    if f.endswith(".rt"):
        return rust(text, own)
    file = re.search(r"(?m)^file: *(\S+)", text)[1]
    part = rust if file.endswith(".rt") else antt
    return "\n".join(l[:5] + part(l[5:], own) if l[:4] in ("old:", "new:") else in_comment(l, own) if l[:1] == "#" else l for l in text.split("\n"))


def words_of(text):
    """Those behind no dot: a field or a part of a path meets nothing."""
    cuts = (re.split(r"(?:^|(?<=\s))--(?=\s|$)", line)[0] for line in text.split("\n"))
    return {m[0] for line in cuts for m in NAME.finditer(line) if line[m.start() - 1 : m.start()] != "."}


def meets(files, names):
    """Each file with two words that would be one, with those words."""
    for f, text in files.items():
        if not f.endswith(".antt"):
            continue
        own, by = names - from_library(text), collections.defaultdict(set)
        for w in words_of(text):
            by[snake(w) if w in own else w].add(w)
        for new, old in by.items():
            if len(old) > 1:
                yield f, new, sorted(old)


def main(argv):
    files = dict(texts())
    names = set(declared(files))
    found = list(meets(files, names))
    for f, new, old in found:
        print(f"{f}: {new}: {' '.join(old)}")
    if "--look" in argv:
        return 0
    n = 0
    for f, text in files.items():
        new = turned(f, text, names)
        if new != text:
            n += 1
            with open(f, "w", encoding="utf-8") as it:
                it.write(new)
    print(f"{len(names)} names, {n} files")
    return 0


if __name__ == "__main__":
    raise SystemExit(main(sys.argv[1:]))
