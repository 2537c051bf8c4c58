#!/usr/bin/env python3
"""fill(crate, function, uses, {need: (unfolding, body)}) answers the holes (`?`) of a printed skeleton; a need that is not named gets `search needs`.
In a body `@thing` stands for the path from `c` to the nearest place of that name (`@loop .inv .1`, `@within .ensures`), `@thing~2` for the second nearest.
Run after `rt goals CRATE`. As a program, fill_places.py CRATE FN, it shows the places of each need."""
import os
import re
import subprocess
import sys

from goals import Goals, path


def resolve(goals, need, body):
    places = goals.chain(need) if need in goals.needs else []
    names = [goals.name(p) for p in places]

    def place(m):
        name, k = m.group(1), int(m.group(2) or 1)
        if name in ("args", "pre"):
            return f"({path(len(names) - 1)} .{name})"
        hits = [n for n, t in enumerate(names) if t == name]
        if len(hits) < k:
            print("no place", name, "at", need, ":", " <- ".join(names))
            return "?"
        return f"({path(hits[k - 1])} .{name})"

    return re.sub(r"@([A-Za-z0-9-]+)(?:~(\d))?", place, body)


def fill(crate, function, uses, answers):
    file = f"crates/{crate}/proofs/{function}/Proof.antt"
    text = open(file).read() if os.path.exists(file) else ""
    if not re.search(r"= \?$", text, flags=re.M):
        return
    goals = Goals(crate, function)
    head = [u for u in uses if u not in text]
    if "borrow.Author.Needs" not in text:
        head.append("use borrow.Author.Needs.{needs}")

    def answered(m):
        name, arguments = m.group(1), m.group(2)
        if name.startswith(("Inv", "μ")) and name not in answers:
            return m.group(0)
        unfolded, body = answers.get(name, ("", "search needs"))
        if body == "?":
            return m.group(0)
        return (f"unfolding {unfolded}\n" if unfolded else "") + f"{name} {arguments}= " + resolve(goals, name, body)

    text = re.sub(r"^(\S+) ([^=\n]*)= \?$", answered, "".join(h + "\n" for h in head) + text, flags=re.M)
    open(file, "w").write(text)
    print("filled", function)


if __name__ == "__main__":
    subprocess.run(["rt", "goals", sys.argv[1]], capture_output=True)
    goals = Goals(sys.argv[1], sys.argv[2])
    for need in goals.needs:
        print(need, ":", " <- ".join(f"{n}:{goals.name(p)}" for n, p in enumerate(goals.chain(need))))
