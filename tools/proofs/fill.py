#!/usr/bin/env python3
"""fill.py CRATE FN 'use lines;..' 'names to unfold' [--fold|--refl]: writes `returns..` of FN's skeleton by the lists of paths.py, answers by `via answer`."""
import re
import sys

from goals import Goals
from paths import rewrites

crate, function, uses, unfolded = sys.argv[1:5]
mode = sys.argv[5] if len(sys.argv) > 5 else ""
goals = Goals(crate, function)
file = f"crates/{crate}/proofs/{function}/Proof.antt"
text = open(file).read()
for use in filter(None, uses.split(";")):
    if use not in text:
        text = use + "\n" + text
for need in goals.needs:
    if need.startswith("returns"):
        told = rewrites(goals, need, mode == "--fold")
        body = "rw\n    (" + ",\n    ".join(told) + ")" if told and mode != "--refl" else "refl"
        head = f"unfolding {unfolded}\n" if unfolded else ""
        text = re.sub(r"(unfolding [^\n]*\n)?(?m:^)%s c =[^\n]*(\n    [^\n]*)*" % re.escape(need), lambda m: f"{head}{need} c =\n    {body}", text)
open(file, "w").write(text)
