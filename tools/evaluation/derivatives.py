"""Slip 14 beside Python's fractions: polynomials and quotients of them at some densities, by the text of `IsDerivative`; a component's slopes beside the differences of its values, at a fair choice of the constants and at one that is not."""
import math
from fractions import Fraction

from .library import same
from .promises import frac
from .sizes import SIDE

HERE = "chain_derivatives"


def read(f):
    return Fraction(f[1] - f[2], f[3])


def value(p, x):
    return sum((a * x**k for k, a in enumerate(p)), Fraction(0))


def slope(p, x):
    return sum((k * a * x ** (k - 1) for k, a in enumerate(p) if k), Fraction(0))


class Derivatives:
    def __init__(self, c, random, fair):
        self.c, self.random, self.choices = c, random, (fair, lambda constant: frac(Fraction(22, 7)))

    def get(self, module, name):
        return self.c.get(HERE, module, name)

    def some(self):
        return Fraction(self.random.next() % 41 - 20, 1 + self.random.next() % 5)

    # what of `IsDerivative` is false
    def fails(self, q, x, v, s):
        return self.c.fails(HERE, "Chain", "IsDerivative", (q, frac(x), frac(v), frac(Fraction(s))), {})

    def polynomials(self):
        of = self.get("Quotient", "fractions")()
        for k in range(100):
            p, q = (tuple(self.some() for _ in range(self.random.next() % 5)) for _ in range(2))
            x, a = self.some(), self.some()
            fp, fq = (tuple(map(frac, n)) for n in (p, q))
            for name, given, wanted in (
                ("sum", (fp, fq), value(p, x) + value(q, x)), ("negative", (fp,), -value(p, x)), ("scaled", (frac(a), fp), a * value(p, x)), ("product", (fp, fq), value(p, x) * value(q, x)),
                ("derivative", (fp,), slope(p, x)), ("counted", (k, fp), k * value(p, x) + x * slope(p, x)),
            ):
                got = self.get("Polynomial", name)(of, *given)
                said = value(tuple(map(read, got)), x), read(self.get("Polynomial", "evaluated")(of, got, frac(x)))
                yield None if said == (wanted, wanted) else f"{name} of {p}, {q}, {a}, {k} at {x}: {said}, and not {wanted}"

    def quotients(self):
        for k in range(100):
            choice = self.choices[k % 2]
            numbers = self.get("Quotient", "quotients")(choice)
            (p, q), (u, v) = ((tuple(self.some() for _ in range(1 + self.random.next() % 3)) for _ in range(2)) for _ in range(2))
            x, n = self.some(), self.random.next() % 5
            if 0 in (value(q, x), value(v, x), value(u, x)):
                continue
            first, second = (self.c.record(numerator=tuple(map(frac, a)), denominator=tuple(map(frac, b))) for a, b in ((p, q), (u, v)))
            (y, dy), (z, dz) = ((value(a, x) / value(b, x), (slope(a, x) * value(b, x) - value(a, x) * slope(b, x)) / value(b, x) ** 2) for a, b in ((p, q), (u, v)))
            for name, it, wanted in (
                ("itself", first, (y, dy)), ("sum", numbers.add(first)(second), (y + z, dy + dz)), ("difference", numbers.sub(first)(second), (y - z, dy - dz)),
                ("product", numbers.mul(first)(second), (y * z, dy * z + y * dz)), ("quotient", numbers.div(first)(second), (y / z, (dy * z - y * dz) / z**2)), ("negative", numbers.neg(first), (-y, -dy)),
                (f"power {n}", numbers.pow(second)(n), (z**n, n * z**n / z * dz)), (f"power -{n}", numbers.pow_down(second)(n), (1 / z**n, -n / z**n / z * dz)),
                ("number of the source", numbers.lit(0.75), (Fraction(3, 4), 0)), ("constant", numbers.constant(("pi",)), (read(choice(("pi",))), 0)), ("density", self.get("Quotient", "variable")(), (x, 1)), ("unused work", numbers.after(first)(second), (z, dz)),
            ):
                bad = self.fails(it, x, *wanted)
                yield bad and f"{name} of {p} over {q} and {u} over {v} at {x}: {bad}"
        nowhere = numbers.lit(math.inf)
        yield None if (nowhere.numerator, nowhere.denominator, numbers.val(nowhere)) == ((), (), 0.0) else "a number that is not finite has a value"

    def exact(self, x):
        return self.c.record(value=float(x), exact=("some", frac(x)))

    # the state of a component: k_hs as a quotient, and with slopes
    def fluids(self):
        dual, exacts = self.c.get("saftvrmie_dispersion", "Chain", "fluid_dual"), self.c.get("enclosure", "Exact", "exacts")
        for i in range(20):
            choice = self.choices[i % 2]
            x, ratio = abs(self.some()) + 1, abs(self.some()) / 64
            k, q = (w.k_hs for w in (dual(exacts(choice), self.exact(ratio * x), self.exact(x)), self.get("Chain", "fluid_quotient")(choice, frac(ratio))))
            bad = self.fails(q, x, *(read(n.exact[1]) for n in (k.re, k.eps)))
            yield bad and f"k_hs at density {x} and ratio {ratio}: {bad}"

    # a set of one component with the port's answers: each slope beside the difference of two values, the ratio being held; a refused power
    def components(self):
        for choice in self.choices:
            yield from self.component(choice)

    def component(self, choice):
        port = self.c.get("elementary", "Port", "port")()
        numbers = {"sigma": 3.5, "epsilon_k": 120.0, "lr": 12.0, "la": 6.0}
        fluid = self.c.record(count=1, m=(2.0,) * SIDE, sheets=tuple(v for v in (*numbers.values(), 4.0, 1.0) for _ in range(SIDE**2)), **{n: (v,) * SIDE for n, v in numbers.items()})
        p = self.get("Chain", "component")(fluid, 0)
        w = self.get("Chain", "properties_of")(choice, port, fluid, 150.0, (1.0,), (0.0078125,), (3.4375,))[1]
        x, z = (read(n.exact[1]) for n in (w.segment_density, w.zeta_x))
        yield None if x == Fraction(1, 64) else f"the segment density is {x}"
        h = x / 2**30
        low, at, high = (self.get("Chain", "sloped_orders")(choice, port, self.exact(z / x * y), self.exact(y), p, 3.4375)[1] for y in (x - h, x, x + h))
        for order in ("a1", "a2"):
            below, above, said = (read(part.exact[1]) for part in (getattr(low, order).re, getattr(high, order).re, getattr(at, order).eps))
            wanted = (above - below) / (2 * h)
            yield None if said and abs(said - wanted) < abs(wanted) / 2**50 else f"the slope of {order} is {float(said)}, and values differ by {float(wanted)} times the density"
        silent = self.c.record(powf=lambda x: lambda y: ("refused", 6), **{n: lambda x: ("refused", 6) for n in ("sqrt", "ln", "ln1p", "exp", "expm1", "tanh")})
        both = self.get("Chain", "sloped_orders")(choice, silent, self.exact(z), self.exact(x), p, 3.4375), self.get("Chain", "quotient_orders")(choice, silent, frac(z / x), p, 3.4375)
        yield None if both == (("refused", 6), ("refused", 6)) else f"a refused power: {both}"

    # numbers with histories: with answers that do not look at them they are the plain ones
    def histories(self):
        c, port, choice = self.c, self.c.get("elementary", "Port", "port")(), self.choices[0]
        exacts = c.get("enclosure", "Exact", "exacts")(choice)
        histories, asks, unlooking = (c.get("histories", "History", name) for name in ("histories", "asks", "unlooking"))
        traced, functions = histories(exacts), asks(exacts, unlooking(port))
        p, d = c.record(sigma=3.5, epsilon_k=120.0, lr=12.0, la=6.0, c=4.0, alpha=1.0), 3.4375
        plain = self.exact(Fraction(1, 4)), self.exact(Fraction(1, 64))
        noted = (c.record(history=("lit", n.value), number=n) for n in plain)
        by, alone = self.get("Chain", "sloped_by")(traced, functions, *noted, p, d)[1], self.get("Chain", "sloped_orders")(choice, port, *plain, p, d)[1]
        for order in ("a1", "a2"):
            got, wanted = self.get("Chain", "plain_dual")(getattr(by, order)), getattr(alone, order)
            yield None if same(got, wanted) else f"{order} with histories is another"
        exp, x = functions.exp(traced.lit(0.5)), c.get("number", "Functions", "calls")(exacts, port).exp(exacts.lit(0.5))
        yield None if same(exp[1].number, x[1]) else "a call with a history is answered otherwise"
        silent = c.record(one=lambda f: lambda h: lambda x: ("refused", 6), powf=lambda h: lambda k: lambda x: lambda y: ("refused", 6))
        said = self.get("Chain", "quotients_by")(traced, asks(exacts, silent), choice, lambda x: x.number, frac(Fraction(16)), p, d)
        yield None if said == ("refused", 6) else f"a refused power with histories: {said}"

    def run(self):
        for part in (self.polynomials, self.quotients, self.fluids, self.components, self.histories):
            for differs in part():
                yield part.__name__, differs or None
