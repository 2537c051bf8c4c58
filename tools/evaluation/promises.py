"""What is promised of the elementary functions, at vectors: the bracket of series/specs/Exact holds its own middle, which is what Python's `decimal` works to many digits, and holds nothing a little beside it; the answer is within its distance."""
import math
from decimal import Decimal, localcontext
from fractions import Fraction

from . import chains

PORT = ["sqrt", "ln", "ln1p", "exp", "expm1", "tanh", "powf"]
BESIDE, CLOSE = Fraction(1, 2**60), Fraction(1, 2**100)


def frac(q):
    return ("frac", max(q.numerator, 0), max(-q.numerator, 0), q.denominator)


# a short fraction next to q, closer than a bracket is wide
def rounded(q, places):
    return Fraction(round(q * 2**places), 2**places)


def digits_for(*numbers):
    return 140 + 2 * max(abs(int(math.log10(abs(x)))) if x else 0 for x in numbers)


def decimal(q):
    return Decimal(q.numerator) / Decimal(q.denominator)


def ln(q, digits):
    with localcontext() as c:
        c.prec = digits
        return Fraction(decimal(q).ln())


def exp(q, digits):
    with localcontext() as c:
        c.prec = digits
        return Fraction(decimal(q).exp())


class Promises:
    def __init__(self, c):
        self.c = c
        self.near, self.within = c.get("series", "Distance", "near"), c.get("series", "Distance", "within")
        self.value = c.get("number", "Frac", "val_f")
        self.middle = self.worked("middle")
        self.ln2 = rounded(self.middle, 170)

    def worked(self, name, *arguments):
        f = self.c.get("series", "Exact", name)(*arguments)
        return Fraction(f[1] - f[2], f[3])

    # ln of y = 2^k w with 2/3 <= w < 4/3: what lies next to the bracket's middle, and the parts
    def of_ln(self, y):
        k, w = 0, y
        while w >= Fraction(4, 3):
            k, w = k + 1, w / 2
        while w < Fraction(2, 3):
            k, w = k - 1, w * 2
        z = (w - 1) / (w + 1)
        odds = self.worked("twice_odds", 24, frac(z))
        tail = 0 if z == 0 else 50 * (z.denominator.bit_length() - z.numerator.bit_length() + 1)
        return rounded(odds + k * self.middle, 170 + tail), {"neg": k < 0, "k": abs(k), "w": frac(w)}

    # exp of v = k M + t with -M/2 <= t < M/2, at a short fraction of the bracket of ln 2
    def of_exp(self, v):
        k = math.floor(v / self.middle + Fraction(1, 2))
        e = self.worked("exp_sum", frac(self.worked("rest", frac(v), k < 0, abs(k), frac(self.ln2))))
        return e * Fraction(2) ** k, {"neg": k < 0, "k": abs(k), "l": frac(self.ln2)}

    # of a function at its arguments: the record of its exact values with its arguments, the bracket's middle, the parts that go with a value, and the value by `decimal`
    def exact(self, which, x, y):
        digits, q = digits_for(x, y), Fraction(x)
        if which in ("ln", "ln1p"):
            of = q if which == "ln" else 1 + q
            v, parts = self.of_ln(of)
            return ("LnValue", "Ln1pValue")[which == "ln1p"], (frac(q),), v, lambda v: parts, ln(of, digits)
        if which == "powf":
            (l, of_ln), power = self.of_ln(q), Fraction(y)
            e, of_exp = self.of_exp(power * l)
            return "PowerValue", (frac(q), frac(power)), e, lambda v: {"l": frac(l), "is_ln": of_ln, "is_exp": of_exp}, exp(power * ln(q, digits), digits)
        e, parts = self.of_exp(2 * q if which == "tanh" else q)
        by = exp(2 * q if which == "tanh" else q, digits)
        if which == "exp":
            return "ExpValue", (frac(q),), e, lambda v: parts, by
        if which == "expm1":
            return "ExpM1Value", (frac(q),), e - 1, lambda v: {"e": frac(v + 1), "is_exp": parts}, by - 1
        return "TanhValue", (frac(q),), (e - 1) / (e + 1), lambda v: {"e": frac((1 + v) / (1 - v)), "is_exp": parts}, (by - 1) / (by + 1)

    # what of a record's statements fails; `Ln1pValue` is a name for one at other arguments
    def fails(self, record, arguments, v, parts):
        if record == "Ln1pValue":
            said = self.c.get("series", "Exact", record)(*arguments, frac(v))
            return self.c.failing(said.record, said.arguments, parts(v))
        return self.c.fails("series", "Exact", record, (*arguments, frac(v)), parts(v))

    def tried(self, which, x, y, answer):
        record, arguments, v, parts, by = self.exact(which, x, y)
        said = []
        if abs(v - by) > CLOSE * abs(by):
            said.append(f"the bracket's middle is {float(v)}, and the value {float(by)}")
        bad = self.fails(record, arguments, v, parts)
        if bad:
            said.append(f"{record} does not hold its middle: {bad}")
        if not self.fails(record, arguments, v + BESIDE * abs(v), parts):
            said.append(f"{record} holds what is beside the value")
        if not (self.near if which == "tanh" else self.within)(2**48, self.value(answer), frac(by)):
            said.append(f"{answer!r} is too far from {float(by)}")
        return said

    # the root is nearer than its neighbours, by the text of `Nearest`
    def root(self, x, r):
        midpoint, square, less = (self.c.get("root", "Root", "midpoint"), self.c.get("root", "Root", "square_f"), self.c.get("number", "Frac", "lt_f"))
        above, below = math.nextafter(r, math.inf), math.nextafter(r, 0.0)
        said = [] if less(self.value(x), square(midpoint(r, above))) else [f"{above!r} is as near"]
        return said + ([] if r == 0.0 or less(square(midpoint(below, r)), self.value(x)) else [f"{below!r} is as near"])


# of the accepted vectors each `every`-th of a function; numbers below 2^-100, which make the fractions too large, are left out
def run(c, records, every):
    p, seen = Promises(c), dict.fromkeys(PORT, 0)
    port, one = c.get("elementary", "Port", "port")(), c.get("elementary", "Promised", "one")()
    told = [port.ln(one), port.powf(one)(3.0), port.powf(3.0)(one), port.powf(3.0)(-0.0)]
    yield "promises", None if told == [("held", v) for v in (0.0, 1.0, 3.0, 1.0)] else f"ln 1 and the power's corners: {told}"
    for which, a, b, wanted in records:
        name, x, y, r = PORT[which], chains.number(a), chains.number(b), chains.number(wanted)
        if wanted == 2**64 - 1 or any(0 < abs(z) < 2**-100 for z in (x, y)) or (name != "sqrt" and x == 0.0):
            continue
        seen[name] += 1
        if seen[name] % every == 1:
            bad = p.root(x, r) if name == "sqrt" else p.tried(name, x, y, r)
            yield "promises", f"{name} of {x!r} {y!r}: {bad}" if bad else None
