"""The definitions of a folder, ready to be evaluated."""
import glob
import os
import re

from .compiler import Compiler
from .reader import NotUnderstood

# worked once for the same arguments: the elementary functions are asked for the same numbers again and again
REMEMBERED = {"root.Root.root", "logarithm.Logarithm.ln_of", "logarithm.Logarithm.ln1p_of", "exponential.Exp.exp_of", "exponential.ExpM1.exp_m1_of", "exponential.Tanh.tanh_of", "power.Power.powf_of", "power.Power.exponent_of", "binary_log.BinaryLog.log_of"}
MANY = 200_000


def remember(f):
    known = {}

    def asked(*x):
        if 0.0 in x:  # -0 and +0 would be one key
            return f(*x)
        if x not in known:
            if len(known) > MANY:
                known.clear()
            known[x] = f(*x)
        return known[x]
    return asked


# a variant: its name, and what it holds, or its number in the source
VARIANT = re.compile(r"(\w+)(?:\((.*)\)|\s*=\s*\d+)?$", re.S)


# what the commas of a text part, but for those in brackets
def parted(text):
    found, depth = [""], 0
    for c in text:
        depth += (c in "(<[{") - (c in ")>]}")
        found = found + [""] if c == "," and not depth else found[:-1] + [found[-1] + c]
    return [part.strip() for part in found if part.strip()]


def types_of(text):
    """Structs, and enums with the number of things that each variant holds."""
    text = re.sub(r"//[^\n]*", "", text)
    found = {name: {} for name in re.findall(r"\bstruct (\w+)", text)}
    for name, body in re.findall(r"\benum (\w+)(?:<[^>]*>)? \{(.*?)\n\}", text, re.S):
        variants = {part: VARIANT.match(part) for part in parted(body)}
        if None in variants.values():
            raise NotUnderstood(f"a variant of {name} that is not known: {[part for part, v in variants.items() if v is None]}")
        found[name] = {v.group(1): len(parted(v.group(2) or "")) for v in variants.values()}
    return found


def texts_of(folder):
    """The texts of specs/. Of Laws.antt nothing is read: lemmas that an impl's laws name, which a root imports from specs/ alone; they define nothing."""
    found = {}
    for path in sorted(glob.glob(os.path.join(folder, "crates/*/specs/*.antt"))):
        with open(path) as f:
            found[os.path.relpath(path, folder)] = "" if os.path.basename(path) == "Laws.antt" else f.read()
    return found


def declared_in(folder):
    """Each crate's types by their path below `declared`: the module's name and a dot stand before the name of a type that no root declares."""
    found = {}
    for path in sorted(glob.glob(os.path.join(folder, "crates/*/src/*.rt"))):
        crate, module = os.path.relpath(path, folder).split(os.sep)[1], os.path.basename(path)[:-len(".rt")]
        below = "" if module in ("lib", "main") else module + "."
        with open(path) as f:
            found.setdefault(crate, {}).update({below + name: held for name, held in types_of(f.read()).items()})
    return found


def load(texts, declared):
    """All of specs/ read and translated."""
    c = Compiler(declared, texts, REMEMBERED, remember)
    for path in texts:
        crate, module = path.split(os.sep)[1], os.path.basename(path)[:-len(".antt")]
        c.file(crate, module)
    known = {f"{d.file.name}.{d.name}" for d in c.definitions}
    if not REMEMBERED <= known:
        raise KeyError(f"no definitions: {sorted(REMEMBERED - known)}")
    c.translate()
    return c
