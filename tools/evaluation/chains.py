"""Chains of calls from a file of docs/VECTORS.md, each call worked by the definitions and held to the file's answer."""
import math
import struct
from fractions import Fraction

from .library import of_bits, same, to_bits
from .sizes import COUNTS, LISTS, SHEET, SHEETS, SIDE, TABLE

F64 = ("binary64",)
OUT = (7.0,) * SHEETS  # what stands in a lent list before a call
START = 0xcbf2_9ce4_8422_2325
NAMES = {1: "quantum parameters", 2: "quantum table", 3: "quantum energies", 4: "VR Mie parameters", 5: "VR Mie diameters", 6: "VR Mie dispersion", 7: "quantum energies' ends", 8: "quantum diameter's ends", 9: "VR Mie dispersion's ends", 13: "VR Mie diameter's ends", 14: "quantum radii", 15: "VR Mie radius"}


def number(bits):
    return of_bits(F64, bits)


def floats(bits):
    return tuple(map(number, bits))


def patterns(values):
    return [to_bits(F64, x) for x in values]


# what a place is of: component lists, a set's sheets, its orders, the table's sheets or the diameters, the table's counts
LIST, SET, ORDERS, WORKED, SPENT = (k * 1_000_000 for k in range(1, 6))


def index(place):
    """A place of a list by its number: 10000 for each sheet, 100 for each row, 1 for each column."""
    return SHEET * (place // 10_000 % 100) + SIDE * (place // 100 % 100) + place % 100


# the places that are not +0, each with its number and bits
def filled(start, words):
    return [x for k, w in enumerate(words) if w for x in (start + 10_000 * (k // SHEET) + 100 * (k % SHEET // SIDE) + k % SIDE, w)]


# the same of component lists, one behind the other: a list's number is that of a sheet
def filled_lists(words):
    return [x for k in range(0, len(words), SIDE) for x in filled(LIST + 10_000 * (k // SIDE), words[k:k + SIDE])]


def in_lists(place):
    return SIDE * (place // 10_000 % 100) + place % 100


# a length as it is stored of a list that is whole, one place shorter or empty
def lent(short, whole):
    return (whole, whole - 1, 0)[short]


def hashed(*lists):
    h = START
    for words in lists:
        for w in words:
            for b in w.to_bytes(8, "little"):
                h = (h ^ b) * 0x100_0000_01b3 % 2**64
    return h


class Call:
    """A record: 24 words and a list."""

    def __init__(self, head, listed):
        self.what, self.number, self.count, self.value, self.flag = head[:5]
        self.lengths, self.answers, self.listed = head[6:15], head[15:], listed

    # the list cut by the lengths
    def cut(self, n):
        found, at = [], 0
        for length in self.lengths[:n]:
            found.append(self.listed[at:at + length])
            at += length
        return found


def chains(path):
    """The file's chains: a chain is a list of calls."""
    with open(path, "rb") as f:
        data = f.read()
    found, at = [], 0
    while at < len(data):
        head = struct.unpack_from("<24Q", data, at)
        listed = struct.unpack_from(f"<{head[5]}Q", data, at + 192)
        at += 192 + 8 * head[5]
        if head[0] == 10:
            found.append([])
        else:
            found[-1].append(Call(head, listed))
    return found


class Quantum:
    """A set, a table and counts between the calls of a chain. Each call goes through the boundary's definition, which has the operation's in it."""

    def __init__(self, c):
        self.c = c
        self.number = c.get("saftvrqmie_potential", "Potential", "order_number")
        self.stored = c.get("mie_parameters", "Answer", "stored")
        self.keep(("refused",))
        self.table, self.counts = (0.0,) * TABLE, (0,) * COUNTS

    # the set of an answer; beside a refusal the files have count 0 and all +0
    def keep(self, a):
        self.count, self.m, self.sheets, self.orders = 0, (0.0,) * SIDE, (0.0,) * SHEETS, (0,) * SHEET
        if a[0] == "held":
            s = a[1]
            self.count, self.m, self.sheets, self.orders = s.count, s.m, s.sheets, tuple(self.number(o.order) for o in s.orders)

    # the set as the definitions have it
    def record(self):
        of = self.c.get("saftvrqmie_parameters", "Parameters", "order_of")
        return self.c.record(count=self.count, m=self.m, sheets=self.sheets, orders=tuple(self.c.record(order=of(o)) for o in self.orders))

    # a call of the boundary on the set
    def at(self, name, *more):
        return boundary(self.c, name, {"count": self.count, "m": self.m, "sheets": self.sheets, "orders": self.orders}, more)

    def lists(self, call):
        names = ["m", "sigma", "epsilon_k", "lr", "la", "mass", "k_ij", "l_ij"]
        *parts, fh = call.cut(9)
        return self.c.record(count=call.count, fh=tuple(fh), **{n: floats(p) for n, p in zip(names, parts)})

    def changed(self, call):
        m, sheets, orders, table = list(self.m), list(self.sheets), list(self.orders), list(self.table)
        for place, bits in zip(call.listed[::2], call.listed[1::2]):
            if place < LIST:
                self.count = bits
            elif place < SET:
                m[in_lists(place)] = number(bits)
            elif place < ORDERS:
                sheets[index(place)] = number(bits)
            elif place < WORKED:
                orders[index(place)] = bits
            else:
                table[index(place)] = number(bits)
        self.m, self.sheets, self.orders, self.table = tuple(m), tuple(sheets), tuple(orders), tuple(table)

    # what a call gives: the number and the words that stand in the record
    def worked(self, call):
        t = number(call.value)
        if call.what == 1:
            return self.parameters(self.lists(call))
        if call.what == 2:
            values, numbers = lent(call.lengths[0], TABLE), lent(call.lengths[1], COUNTS)
            before = self.c.record(values=self.table[:values], numbers=self.counts[:numbers])
            a = self.at("vrq_table", t, before)
            after = self.stored(before, a)
            self.table = after.values + self.table[values:]
            self.counts = after.numbers + self.counts[numbers:]
            return refusal(a), [hashed(filled(WORKED, patterns(self.table))), hashed(filled(SPENT, self.counts))]
        if call.what == 8:
            handed = (*call.lengths[:2], t, *floats(call.listed))
            return around(self.at("vrq_diameter", *handed), self.at("vrq_diameter_ends", *handed, OUT[:2]))
        if call.what == 14:
            a = self.at("vrq_radii", *call.lengths[:2], t, self.c.record(values=OUT[:6], numbers=(7,) * 3))
            return refusal(a), patterns(a[1].values) + list(a[1].numbers) if a[0] == "held" else []
        name, out = {3: ("vrq_energies", OUT[:3]), 7: ("vrq_energies_ends", OUT[:6])}[call.what]
        handed = (t, *map(floats, call.cut(2)), self.table[:lent(call.lengths[2], TABLE)], call.flag == 1)
        a = self.at(name, *handed, out)
        if call.what == 3 and not same(self.total(*handed), totalled(a, call.flag == 1)):
            return None, []
        return told(a)

    def total(self, *handed):
        s = self.c.record(count=self.count, m=self.m, sheets=self.sheets, orders=self.orders)
        return self.c.get("domthelv", "Total", "vrq_total")(s, *handed, OUT[:4])

    # the set's energies with slopes, by the boundary's definition
    def sloped(self, state, wanted, out):
        s = self.c.record(count=self.count, m=self.m, sheets=self.sheets, orders=self.orders)
        return self.c.get("slopes_calls", "Calls", "vrq_energies_slopes")(s, state, wanted, OUT[:out])

    # a tank over the set, by the boundary's definition
    def tank(self, name, tank, wanted, out):
        s = self.c.record(count=self.count, m=self.m, sheets=self.sheets, orders=self.orders)
        return self.c.get("domthelv", "Tank", name)(s, tank, wanted, OUT[:out])

    def parameters(self, lists):
        a = self.c.get("saftvrqmie_parameters", "Parameters", "saft_vrq_mie_pars")(lists)
        self.keep(a)
        written = operation(self.c, "vrq_parameters")(lists, self.c.record(m=OUT[:SIDE], sheets=OUT, orders=(7,) * SHEET))
        if refusal(written) != refusal(a) or (a[0] == "held" and not same((written[1].m, written[1].sheets, written[1].orders), (self.m, self.sheets, self.orders))):
            return None, []
        return refusal(a), [hashed(filled_lists(patterns(self.m)), filled(SET, patterns(self.sheets)), filled(ORDERS, self.orders))]

    # parameters, a table and energies in one, for the lists, state and part of two calls
    def stage(self, first, last):
        return told(operation(self.c, "vrq_stage")(self.lists(first), number(last.value), *map(floats, last.cut(2)), last.flag == 1, OUT[:3]))


class Mie:
    """A set and diameters between the calls of a chain."""

    FIVE = ["m", "sigma", "epsilon_k", "lr", "la"]

    def __init__(self, c):
        self.c = c
        self.stored = c.get("mie_parameters", "Answer", "stored")
        self.keep(("refused",))
        self.diameters = (0.0,) * SIDE

    # the set of an answer; beside a refusal the files have count 0 and all +0
    def keep(self, a):
        self.count, self.lists, self.sheets = 0, (0.0,) * LISTS, (0.0,) * SHEETS
        if a[0] == "held":
            s = a[1]
            self.count, self.lists, self.sheets = s.count, s.m + s.sigma + s.epsilon_k + s.lr + s.la, s.sheets

    def record(self):
        five = {n: self.lists[SIDE * k:SIDE * (k + 1)] for k, n in enumerate(self.FIVE)}
        return self.c.record(count=self.count, sheets=self.sheets, **five)

    def at(self, name, *more):
        return boundary(self.c, name, {"count": self.count, "lists": self.lists, "sheets": self.sheets}, more)

    def changed(self, call):
        lists, sheets, d = list(self.lists), list(self.sheets), list(self.diameters)
        for place, bits in zip(call.listed[::2], call.listed[1::2]):
            if place < LIST:
                self.count = bits
            elif place < SET:
                lists[in_lists(place)] = number(bits)
            elif place < ORDERS:
                sheets[index(place)] = number(bits)
            else:
                d[index(place)] = number(bits)
        self.lists, self.sheets, self.diameters = tuple(lists), tuple(sheets), tuple(d)

    def handed(self, call):
        names = ["m", "sigma", "epsilon_k", "lr", "la", "k_ij", "gamma_ij"]
        return self.c.record(count=call.count, **{n: floats(p) for n, p in zip(names, call.cut(7))})

    def worked(self, call):
        t = number(call.value)
        if call.what == 4:
            return self.parameters(self.handed(call))
        if call.what == 5:
            before = self.diameters[:call.lengths[0]]
            a = self.at("vr_diameters", t, before)
            self.diameters = self.stored(before, a) + self.diameters[call.lengths[0]:]
            return refusal(a), [hashed(filled(WORKED, patterns(self.diameters)))]
        if call.what == 13:
            handed = (*call.lengths[:2], t, *floats(call.listed))
            return around(self.at("vr_diameter", *handed), self.at("vr_diameter_ends", *handed, OUT[:2]))
        if call.what == 15:
            return told(self.at("vr_radius", *call.lengths[:2], t))
        state = (t, *map(floats, call.cut(2)), self.diameters[:call.lengths[2]], call.flag == 1)
        if call.what == 6:
            return told(self.at("vr_dispersion", *state))
        return told(self.at("vr_dispersion_ends", *state, OUT[:2])) if call.what == 9 else None

    def parameters(self, lists):
        a = self.c.get("saftvrmie_parameters", "Parameters", "saft_vr_mie_pars")(lists)
        self.keep(a)
        written = operation(self.c, "vr_parameters")(lists, self.c.record(lists=OUT[:LISTS], sheets=OUT))
        if refusal(written) != refusal(a) or (a[0] == "held" and not same((written[1].lists, written[1].sheets), (self.lists, self.sheets))):
            return None, []
        return refusal(a), [hashed(filled_lists(patterns(self.lists)), filled(SET, patterns(self.sheets)))]

    def stage(self, first, last):
        return told(self.c.get("stages", "Stages", "mie_stage")(self.handed(first), number(last.value), *map(floats, last.cut(2)), last.flag == 1))


def operation(c, name):
    return c.get("domthelv", "Operations", name)


# an operation of the boundary on a set, which it takes as its lists or as one record of them, and on more
def boundary(c, name, lists, more):
    takes = len(c.definition_of("domthelv", "Operations", name).domains) - len(more)
    return operation(c, name)(*([c.record(**lists)] if takes == 1 else lists.values()), *more)


# a sum and what it leaves, by fractions; of energies that were given, the two sums as the boundary writes them
def summed(x, y):
    s = x + y
    return s, float(Fraction(x) + Fraction(y) - Fraction(s)) if math.isfinite(s) else 0.0


def totalled(energies, wanted):
    if energies[0] != "held":
        return energies
    h, d, a = energies[1]
    first = summed(h, d)
    last = summed(first[0], a) if wanted else (first[0], 0.0)
    return ("held", (*first, *last)) if math.isfinite(first[0]) and math.isfinite(last[0]) else ("refused", 7)


def refusal(a):
    return 0 if a[0] == "held" else a[1]


# an answer that holds a number or a list
def told(a):
    if a[0] != "held":
        return refusal(a), []
    return 0, patterns(a[1] if isinstance(a[1], tuple) else [a[1]])


def run(c, model, chain):
    """Each call of a chain: its name, its number, and what differs or None."""
    m = model(c)
    for k, call in enumerate(chain):
        if call.what in (11, 12):
            m.changed(call)
            continue
        name = NAMES[call.what] + (" with chain" if call.what in (6, 9) and call.flag == 1 else "")
        said, words = m.worked(call)
        wanted = list(call.answers[:len(words)])
        if said != call.number:
            yield name, call.number, f"call {k}: {name} gives {said}, and the file {call.number}"
        elif words != wanted:
            yield name, call.number, f"call {k}: {name} gives {words}, and the file {wanted}"
        else:
            yield name, call.number, None


# the answer of a two-ended operation; none if the float operation's number is another but for 8, or its value lies outside
def around(single, ends):
    between = ends[0] != "held" or ends[1][0] <= single[1] <= ends[1][1]
    return told(ends) if refusal(single) == refusal(ends) % 8 and between else (None, [])
