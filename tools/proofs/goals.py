"""What `rt goals CRATE` writes of a function, read once: the places of its code, and for each need the chain of places behind `c`."""
import re


class Goals:
    def __init__(self, crate, function):
        path = f"target/goals/{crate}/Rattle·{crate}·proofs/proofs/{function}/Lts.antt"
        lines = open(path).read().split("\n")
        self.before, self.thing, self.needs = {}, {}, {}
        self.calls = set()  # places behind a call
        record = None
        for line, following in zip(lines, lines[1:] + [""]):
            if m := re.match(r"\s+pub record (\S+) : Type 0 where", line):
                if not m.group(1).endswith("·own"):
                    record = m.group(1)
                continue
            if record and (m := re.match(r"\s+pub before : (\S+)", line)):
                self.before[record] = m.group(1)
                continue
            if record and (m := re.match(r"\s+pub (\S+) : (\S+)·own before", line)):
                self.thing[record] = m.group(1)
                continue
            if m := re.match(r"\s+After-(\S+)·gave\b", line):
                self.calls.add("After-" + m.group(1))
            if m := re.match(r"\s+Need-(\S+) =(.*)", line):
                text = m.group(2) if "(c :" in m.group(2) else m.group(2) + following
                if place := re.search(r"\(c : (\S+?)\)", text):
                    self.needs[m.group(1)] = place.group(1)

    def chain(self, need):
        """The places behind the need's `c`, the nearest first."""
        place, places = self.needs[need], []
        while place in self.before:
            places.append(place)
            place = self.before[place]
        return places + [place]

    def name(self, place):
        return self.thing.get(place, place)


def path(n):
    return "c" + " .before" * n
