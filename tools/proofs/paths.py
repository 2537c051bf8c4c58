#!/usr/bin/env python3
"""After `rt goals CRATE`:
paths.py CRATE FN          each need of FN, with the places behind `c` (N:thing is `c` + N times ` .before` + ` .thing`)
paths.py CRATE FN --rw     the `rw` list of each `returns..`: plain calls latest first, then the matched calls (`via`), earliest first
paths.py CRATE FN --fold   the same in the order of the code, plain calls as `←`: where a matched call's argument is an earlier call's result"""
import re
import sys

from goals import Goals, path


def rewrites(goals, need, fold=False):
    places = goals.chain(need)
    plain, via, matched = [], [], set()
    refusal = goals.thing.get(places[0], "").startswith("enum-told")
    for n, place in enumerate(places):
        name = goals.thing.get(place, "")
        if n + 2 < len(places) and place not in goals.calls and re.match(r"At-match|Then|Else", places[n + 1]) and places[n + 2] in goals.calls and not name.startswith("struct"):
            via.append((n, n + 2, name))
            matched.add(n + 2)
        elif place in goals.calls and n not in matched:
            plain.append((n, name))

    def matching(n, m, name):
        return f"via answer ({path(m)} .{goals.thing[places[m]]} .ensures) ({path(n)} .{name} .given .1)"

    if fold:
        told = [(n, f"← {path(n)} .{name} .ensures") for n, name in plain] + [(m, matching(n, m, name)) for n, m, name in via]
        return [text for _, text in sorted(told, key=lambda x: -x[0])]
    return ([] if refusal else [f"{path(n)} .{name} .ensures" for n, name in plain]) + [matching(*v) for v in via[::-1]]


if __name__ == "__main__":
    goals = Goals(sys.argv[1], sys.argv[2])
    fold = "--fold" in sys.argv
    for need in goals.needs:
        if not fold and "--rw" not in sys.argv:
            print(need, ":", " <- ".join(f"{n}:{goals.name(p)}" for n, p in enumerate(goals.chain(need))))
        elif need.startswith("returns"):
            print(need, "c = rw (" + ", ".join(rewrites(goals, need, fold)) + ")")
