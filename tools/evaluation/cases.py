"""What the definitions are evaluated on, and what each result is held to. A section yields a name and None, or what differs."""
import math
import os
import re
import struct
from decimal import Decimal, localcontext
from fractions import Fraction
from importlib.machinery import SourceFileLoader
from itertools import product

from . import chains, promises, specs
from .derivatives import Derivatives
from .library import same
from .scopes import Definition
from .sizes import LISTS, SHEET, SHEETS, SIDE

F64 = ("binary64",)
PORT = ["sqrt", "ln", "ln1p", "exp", "expm1", "tanh", "powf"]
EVERY = 3  # the sample: each third chain of a file, the first included
# the numbers that each operation gives in the files (docs/VECTORS.md), 0 for accepted
NUMBERS = {
    "quantum parameters": [0, 1, 2, 3, 4, 5, 6], "quantum table": [0, 1, 2, 6, 7], "quantum energies": [0, 1, 2, 6, 7], "VR Mie parameters": [0, 1, 2, 6],
    "VR Mie diameters": [0, 1, 2, 6, 7], "VR Mie dispersion": [0, 1, 2, 6, 7], "VR Mie dispersion with chain": [0, 1, 2, 6, 7],
    "quantum energies' ends": [0, 1, 2, 6, 7, 8], "quantum diameter's ends": [0, 1, 2, 6, 8], "quantum radii": [0, 1, 2, 6],
    "VR Mie dispersion's ends": [0, 1, 2, 6, 7, 8], "VR Mie dispersion's ends with chain": [0, 1, 2, 6, 7, 8], "VR Mie diameter's ends": [0, 1, 2, 6, 7, 8], "VR Mie radius": [0, 1, 2, 6],
}


def compared(name, got, wanted):
    return name, None if same(got, wanted) else f"{name}: {got!r}, and not {wanted!r}"


class Random:
    """A stream that depends on its seed alone."""

    def __init__(self, seed):
        self.state = seed

    def next(self):
        self.state = (self.state + 0x9e37_79b9_7f4a_7c15) % 2**64
        z = (self.state ^ self.state >> 30) * 0xbf58_476d_1ce4_e5b9 % 2**64
        z = (z ^ z >> 27) * 0x94d0_49bb_1331_11eb % 2**64
        return z ^ z >> 31

    def float(self):
        kind = self.next() % 8
        if kind == 0:
            return [0.0, -0.0, 5e-324, -5e-324, 2.2250738585072014e-308, math.inf, -math.inf, math.nan, 1.7976931348623157e308, -1.7976931348623157e308, 1.0, -1.0][self.next() % 12]
        if kind == 1:
            return chains.number(self.next())
        return (self.next() % 2**53 - 2**52) * 2.0 ** (self.next() % 120 - 110)


class Cases:
    def __init__(self, c, folder, texts, whole):
        self.c, self.folder, self.texts, self.whole = c, folder, texts, whole
        self.met = set()

    def path(self, *parts):
        return os.path.join(self.folder, *parts)

    # ---- decimals of the source: Python's reading of the same digits
    def decimals(self):
        decimal = self.c.get("number", "Arith", "decimal")
        found = set()
        for text in self.texts.values():
            found |= set(re.findall(r"\bdec(?:imal)? (true|false) (\d+) (\d+)", text))
        for s, digits, places in sorted(found):
            yield compared(f"decimal {s} {digits} {places}", decimal(s == "true", int(digits), int(places)), float(f"{'-' if s == 'true' else ''}{digits}e-{places}"))

    # ---- the elementary functions: the vectors' answers
    def records(self):
        with open(self.path("crates/elementary_main/data/vectors.bin"), "rb") as f:
            return list(struct.iter_unpack("<4Q", f.read()))

    # the numbers of their tables, which the vectors' last bits do not all show: as the comments beside them say, by `decimal`
    def tables(self):
        with localcontext() as c:
            c.prec = 60
            two = Decimal(2)
            ln2 = two.ln()
            wanted = {
                ("exponential", "Powers", "powers"): [two ** (63 + Decimal(j) / 128) for j in range(128)],
                ("exponential", "Powers", "terms"): [two ** (64 - 7 * (i - 1)) * ln2**i / math.factorial(i) for i in range(1, 6)],
                ("exponential", "ExpM1", "over_terms"): [(two**49 + Decimal(1) / 16) * k for k in (15120, 420, 1)],
                ("exponential", "ExpM1", "under_terms"): [(two**49 + Decimal(1) / 16) * k for k in (15120, 1680, 15)],
                ("binary_log", "Tables", "log_factors"): [two**18 / (129 + j) for j in range(128)],
                ("binary_log", "Tables", "logs"): [-(two**61) * (Decimal(2**18 // (129 + j)) / 2048).ln() / ln2 for j in range(128)],
                ("binary_log", "Tables", "odd_terms"): [two ** (63 - 6 * (i - 1)) / (i * ln2) for i in (1, 3, 5, 7)],
                ("binary_log", "Tables", "even_terms"): [two ** (63 - 6 * (i - 1)) / (i * ln2) for i in (2, 4, 6, 8)],
                ("logarithm", "Logarithm", "coefficients"): [two**63 / (2 * i + 1) for i in range(11)],
            }
            for place, numbers in wanted.items():
                for k, (got, number) in enumerate(zip(self.c.get(*place)(), numbers, strict=True)):
                    # a whole number may come out a last digit short
                    yield compared(f"{'.'.join(place)}, entry {k}", got, int(number + Decimal(10) ** -20))

    # their exact values and distances, as they are promised
    def promises(self):
        return promises.run(self.c, self.records(), 20 if self.whole else 200)

    def elementary(self):
        port = self.c.get("elementary", "Port", "port")()
        for which, x, y, wanted in self.records():
            answer = getattr(port, PORT[which])(chains.number(x))
            if which == 6:
                answer = answer(chains.number(y))
            expected = ("refused", 6) if wanted == 2**64 - 1 else ("held", chains.number(wanted))
            yield compared(f"{PORT[which]} of {x:x} {y:x}", answer, expected)

    # ---- neighbours and the outward rules: Python's neighbour, the least and the greatest of four corners
    def intervals(self):
        up, down = self.c.get("number", "Neighbour", "next_up"), self.c.get("number", "Neighbour", "next_down")
        rules = {name: self.c.get("interval", "Interval", name + "_i") for name in ("add", "sub", "mul", "div")}
        g = Random(0x55)
        for k in range(1000):
            a, b, x, y = (g.float() for _ in range(4))
            yield compared(f"the neighbour above {a!r}", up(a), neighbour(a, math.inf))
            yield compared(f"the neighbour below {a!r}", down(a), neighbour(a, -math.inf))
            first, second = self.interval(a, b), self.interval(x, y)
            for name, rule in rules.items():
                yield compared(f"{name} of {first} and {second}", rule(first, second), self.outward(name, first, second))

    def interval(self, a, b):
        low, high = (b, a) if b < a else (a, b)
        return self.c.record(lower=low, upper=high, sound=math.isfinite(low) and math.isfinite(high))

    def outward(self, name, x, y):
        corners = [worked(name, a, b) for a in (x.lower, x.upper) for b in (y.lower, y.upper)]
        least, greatest = (pick(pick(*corners[:2], way), pick(*corners[2:], way), way) for way in (-1, 1))
        low, high = neighbour(least, -math.inf), neighbour(greatest, math.inf)
        sound = x.sound and y.sound and math.isfinite(low) and math.isfinite(high)
        return self.c.record(lower=low, upper=high, sound=sound and (name != "div" or y.lower > 0 or y.upper < 0))

    # ---- rounded sums with what they leave, and the total of three contributions: Python's sum, and its error by fractions
    def sums(self):
        rounded, total = self.c.get("rounded_sum", "RoundedSum", "rounded_sum"), self.c.get("saftvrqmie_total", "Total", "contributions_total")
        g = Random(0x5)
        for k in range(1000):
            x, y, z = (g.float() for _ in range(3))
            yield compared(f"the rounded sum of {x!r} and {y!r}", rounded(x, y), self.summed(*chains.summed(x, y)))
            for wanted in (False, True):
                said, values = chains.totalled(("held", (x, y, z)), wanted)
                expected = (said, self.c.record(first=self.summed(*values[:2]), last=self.summed(*values[2:])) if said == "held" else values)
                contributions = self.c.record(hard_sphere=x, dispersion=y, non_additive=z)
                yield compared(f"the total of {x!r}, {y!r}, {z!r}, {wanted}", total(contributions, wanted), expected)

    def summed(self, s, left):
        return self.c.record(sum=s, remainder=left)

    # ---- the quantum chain with slopes: its values beside table and energies without them, its slopes beside difference quotients, and its refusals in their order
    def pressure(self):
        for orders, lists in (((1,), {"sigma": (3.0243,), "epsilon_k": (26.706,), "lr": (9.0,), "la": (6.0,), "mass": (3.3476e-27,)}), ((2, 0), {"sigma": (2.7443, 3.4), "epsilon_k": (5.4195, 120.0), "lr": (9.0, 12.0), "la": (6.0, 6.0), "mass": (6.6465e-27, 6.6335e-26)})):
            n, q = len(orders), chains.Quantum(self.c)
            q.parameters(self.c.record(count=n, fh=orders, m=(1.0,) * n, **{"k_ij": (0.0,) * n**2, "l_ij": (0.0,) * n**2}, **lists))
            x, rho = (0.875,) if n == 1 else (0.25, 0.625), (0.01,) if n == 1 else (0.002, 0.006)
            for slopes in ((1.0, (0.0,) * n, (0.0,) * n), (0.0, (0.0,) * n, (1.0, -0.5)[:n]), (-0.75, (0.125, -0.25)[:n], (0.001, 0.002)[:n])):
                yield from self.sloped(q, 40.0, x, rho, slopes)
        yield from self.slopes_refused(q, n)
        yield from self.mixed_numbers()

    # what the chain's runs above do not come to: whole powers −n, the value that a branch looks at, a function without a rule
    def mixed_numbers(self):
        down, value, rule = self.c.get("slopes", "Mixed", "down_m"), self.c.get("slopes", "Mixed", "value_of"), self.c.get("slopes", "Rules", "no_rule")
        d = self.c.record(re=2.0, eps=3.0)
        yield compared("2 to the power -3, plain", down(("plain", 2.0), 3), ("plain", 0.125))
        yield compared("2 to the power -3, with a slope", down(("sloped", d), 3), ("sloped", self.c.record(re=0.125, eps=-0.5625)))
        yield compared("the value of a plain number", value(("plain", 2.0)), 2.0)
        yield compared("the value of a number with a slope", value(("sloped", d)), 2.0)
        yield compared("a function without a rule", rule(self.c.get("elementary", "Port", "port")(), d), ("refused", 6))

    def sloped(self, q, t, x, rho, slopes):
        moved = lambda h: (t + h * slopes[0], *(tuple(a + h * b for a, b in zip(l, d)) for l, d in zip((x, rho), slopes[1:])))
        at = lambda h: self.unsloped(q, *moved(h))
        said, six = q.sloped(self.state(t, x, rho, *slopes), True, 6)
        yield compared(f"the values with slopes {slopes}", (said, six[::2]), ("held", at(0.0)))
        port, values = self.c.get("elementary", "Port", "port")(), self.c.get("slopes_values", "Energies", "duals_values")
        e = values(self.c.get("saftvrqmie_slopes", "Operation", "energies_slopes_by")(port, q.record(), self.state(t, x, rho, *slopes), True)[1])
        yield compared(f"the operation's values with slopes {slopes}", e, self.c.record(**dict(zip(("hard_sphere", "dispersion", "non_additive"), at(0.0)))))
        h = 1e-4 if slopes[0] else 1e-7
        for k, (up, down) in enumerate(zip(at(h), at(-h))):
            quotient, near = (up - down) / (2 * h), 1e-5 * max(abs(up) / h * 1e-9, abs((up - down) / (2 * h)), 1e-12)
            yield "pressure", None if abs(six[2 * k + 1] - quotient) <= near else f"slope {k} for {slopes}: {six[2 * k + 1]!r} beside {quotient!r}"

    def unsloped(self, q, t, x, rho):
        table = q.at("vrq_table", t, self.c.record(values=(0.5,) * chains.TABLE, numbers=(7,) * chains.COUNTS))[1].values
        return q.at("vrq_energies", t, x, rho, table, True, (0.5,) * 3)[1]

    def state(self, t, x, rho, dt, dx, drho):
        with_slopes = lambda l, d: self.c.record(values=l, slopes=d)
        return self.c.record(temperature=self.c.record(re=t, eps=dt), fractions=with_slopes(x, dx), densities=with_slopes(rho, drho))

    def slopes_refused(self, q, n):
        good = {"t": 40.0, "x": (0.5,) * n, "rho": (0.01,) * n, "dt": 1.0, "dx": (0.0,) * n, "drho": (1.0,) * n}
        state = lambda **changed: self.state(**{**good, **changed})
        bad = math.nan
        for said, changed in ((1, {"dx": (bad,), "t": 0.5}), (1, {"drho": (1.0,) * 3}), (2, {"t": 0.5, "dt": bad}), (2, {"rho": (1.5,) * n}), (7, {"dt": math.inf}), (7, {"dx": (0.0, bad)}), (7, {"drho": (-math.inf, 0.0)})):
            yield compared(f"a state changed in {changed}", q.sloped(state(**changed), True, 6), ("refused", said))
        yield compared("a list of 5 places", q.sloped(state(t=0.5), True, 5), ("refused", 1))
        q.orders = (3,) + q.orders[1:]
        yield compared("an order of 3", q.sloped(state(dt=bad), True, 6), ("refused", 4))
        q.orders, q.sheets = (0,) + q.orders[1:], (0.0,) + q.sheets[1:]
        yield compared("a set without a table", q.sloped(state(), True, 6), ("refused", 6))

    # ---- tanks in layers: Python's sum of the definitions' energies, layer by layer, and the outward rules over their ends
    def tanks(self):
        q = chains.Quantum(self.c)
        one = {"m": 1.0, "sigma": 3.0243, "epsilon_k": 26.706, "lr": 9.0, "la": 6.0, "mass": 3.3476e-27, "k_ij": 0.0, "l_ij": 0.0}
        q.parameters(self.c.record(count=1, fh=(1,), **{n: (x,) for n, x in one.items()}))
        layers = [(30.0, 0.01, 3e9), (33.0, 0.002, 1e30), (300.0, 1e-5, 5e-324)]
        for k in (1, 2, 3):
            for wanted in (False, True):
                tank = self.tank(layers[:k])
                expected, ends = self.piled(q, layers[:k], wanted)
                yield compared(f"a tank of {k} layers, {wanted}", q.tank("vrq_tank", tank, wanted, 3), ("held", expected))
                yield compared(f"the ends of {k} layers, {wanted}", q.tank("vrq_tank_ends", tank, wanted, 6), ("held", ends))
        for said, tank in self.odd_tanks(layers[0]):
            for name, out in (("vrq_tank", 3), ("vrq_tank_ends", 6)):
                yield compared(f"{name} of {tank}", q.tank(name, tank, True, out), ("refused", said))
            yield compared("a list of 5 places", q.tank("vrq_tank", tank, True, 5), ("refused", 14 if said == 14 else 1))
        fails = self.enclosed_tank(q, layers[:1])
        yield "tanks", f"the exact run of a tank: {fails}" if fails else None
        q.sheets = (0.0,) + q.sheets[1:]
        for said, volumes in ((6, (1.0, 0.0)), (2, (0.0, 1.0))):
            yield compared("two layers without a table", q.tank("vrq_tank", self.tank([(*layers[0][:2], v) for v in volumes]), True, 3), ("refused", said))

    def tank(self, layers):
        t, rho, v = zip(*layers) if layers else ((), (), ())
        return self.c.record(layers=len(t), temperatures=t, fractions=(1.0,) * len(t), densities=rho, volumes=v)

    # tanks and the number that refuses them: 14 before 1, then 2
    def odd_tanks(self, layer):
        t, rho, v = layer
        yield 14, self.tank([])
        yield 14, self.c.record(layers=33, temperatures=(), fractions=(), densities=(), volumes=())
        yield 1, self.c.record(layers=2, temperatures=(t, t), fractions=(1.0,) * 2, densities=(rho,), volumes=(v, v))
        for volume in (0.0, -0.0, -1.0, math.nextafter(1e30, math.inf), math.inf, math.nan):
            yield 2, self.tank([(t, rho, volume)])
        yield 2, self.tank([(0.5, rho, v)])
        yield 2, self.tank([(t, 1.5, v)])

    def piled(self, q, layers, wanted):
        port = self.c.get("elementary", "Port", "port")()
        parts = ("hard_sphere", "dispersion", "non_additive")
        point = lambda x: self.interval(x, x)
        sums, ends = [0.0] * 3, [point(0.0)] * 3
        for t, rho, v in layers:
            table = q.at("vrq_table", t, self.c.record(values=(0.5,) * chains.TABLE, numbers=(7,) * chains.COUNTS))[1].values
            energies = q.at("vrq_energies", t, (1.0,), (rho,), table, wanted, (0.5,) * 3)[1]
            each = self.c.get("saftvrqmie_energies_ends", "Operation", "energies_ends")(port, q.record(), t, (1.0,), (rho,), table, wanted)[1]
            for k in range(3 if wanted else 2):
                sums[k] += energies[k] * v * t
                e = getattr(each, parts[k])
                scaled = self.outward("mul", self.outward("mul", self.interval(e.lower, e.upper), point(v)), point(t))
                ends[k] = self.outward("add", ends[k], scaled)
        return tuple(sums), tuple(x for e in ends for x in (e.lower, e.upper))

    # what is false of the fields of `EachEncloses`, of a tank's float operation, exact run and ends
    def enclosed_tank(self, q, layers):
        c, tank, s = self.c, self.tank(layers), q.record()
        port, calls = c.get("elementary", "Port", "port")(), c.get("number", "Functions", "calls")
        tables = lambda l: c.get("saftvrqmie_tank", "Tank", "tables_of")(s, tank, l)
        run = lambda a: lambda l: lambda table: c.get("saftvrqmie_energies", "Energies", "contributions_of")(a, calls(a, port), s, layers[l][0], (1.0,), (layers[l][1],), table, True)
        exacts = c.get("enclosure", "Exact", "exacts")(choices(c)[0])
        exact = c.get("saftvrqmie_tank", "Tank", "tank_run")(exacts, tank, tables, True, run(exacts))
        float_run = c.get("saftvrqmie_tank", "Tank", "tank")(s, tank, True)
        ends = c.get("saftvrqmie_tank_ends", "TankEnds", "tank_ends")(s, tank, True)
        if {exact[0], float_run[0], ends[0]} != {"held"}:
            return ["a run without a result"]
        fields = {f: (getattr(float_run[1], f), getattr(exact[1], f).exact) for f in ("hard_sphere", "dispersion", "non_additive")}
        given = {f: {"value": v, "fraction": x[1] if x[0] == "some" else None} for f, (v, x) in fields.items()}
        return c.fails("saftvrqmie_energies_ends", "Encloses", "EachEncloses", (ends[1], float_run, exact), given)

    # ---- the operations: chains of docs/VECTORS.md
    def run(self, path, model, every):
        for k, chain in enumerate(chains.chains(self.path(path))):
            if k % every:
                continue
            for name, number, differs in chains.run(self.c, model, chain):
                self.met.add((name, number))
                yield name, differs and f"{path}, chain {k}, {differs}"

    def quantum(self):
        return self.run("crates/vectors_main/data/quantum.bin", chains.Quantum, 1 if self.whole else EVERY)

    def mie(self):
        return self.run("crates/vectors_main/data/mie.bin", chains.Mie, 1 if self.whole else EVERY)

    def quantum_9_to_12(self):
        return self.run("crates/vectors_main/data/quantum_9_to_12.bin", chains.Quantum, 1 if self.whole else 4 * EVERY)

    def mie_9_to_12(self):
        return self.run("crates/vectors_main/data/mie_9_to_12.bin", chains.Mie, 1 if self.whole else 4 * EVERY)

    def quantum_ends(self):
        return self.run("tools/evaluation/data/quantum_ends.bin", chains.Quantum, 1)

    def mie_ends(self):
        return self.run("tools/evaluation/data/mie_ends.bin", chains.Mie, 1)

    # each number that an operation can give was met
    def refusals(self):
        for name, numbers in NUMBERS.items():
            for n in numbers:
                yield "refusals", None if (name, n) in self.met else f"{name}: no state gave {n}"

    # ---- the stages: parameters to energies in one, on the usual chains of one component at the file's start
    def stages(self):
        for path, model, what in (("crates/vectors_main/data/quantum.bin", chains.Quantum, 3), ("crates/vectors_main/data/mie.bin", chains.Mie, 6)):
            for k, chain in enumerate(chains.chains(self.path(path))[:6]):
                for call in chain:
                    if call.what == what:
                        said, words = model(self.c).stage(chain[0], call)
                        yield compared(f"{path}, chain {k}, stage", (said, tuple(words)), (call.number, tuple(call.answers[:len(words)])))

    # ---- Slip 7's constants: their ends beside the decimals of pi and of the rules, the series' bracket, and which choices are fair
    def constants(self):
        c, ends = self.c, {name: self.c.get("enclosure", "Constants", name) for name in ("below", "above")}
        low, high = (c.get("pi_as_pi", "Machin", name)(8) for name in ("pi_low", "pi_high"))
        yield "bracket of pi", None if fraction(low) < PI < fraction(high) < fraction(low) + Fraction(1, 10**22) else f"{float(fraction(low))} to {float(fraction(high))}"
        for p, bad in ((low, []), (high, []), (frac(PI), []), (frac(fraction(low) - Fraction(1, 10**30)), ["low"]), (frac(fraction(high) + Fraction(1, 10**30)), ["high"])):
            said = c.fails("pi_as_pi", "Statement", "InBracket", (8, p), {})
            yield "bracket of pi", None if said == bad else f"of {p} is false: {said}, and not {bad}"
        truly, nearest = choices(c)[2], c.get("number", "Arith", "nearest")
        for constant, exact in all_constants(c):
            x = nearest(constant)
            wanted = (x if Fraction(x) <= exact else math.nextafter(x, -math.inf), x if Fraction(x) >= exact else math.nextafter(x, math.inf))
            yield compared(f"the ends of {constant}", (ends["below"](constant), ends["above"](constant)), wanted)
            yield "constants", None if fraction(truly(constant)) == exact else f"{constant}: {truly(constant)}"
            yield compared(f"{constant} is a point", wanted[0] == wanted[1], exact == 0)
            for choice in choices(c):
                bad = c.fails("enclosure", "Ends", "Between", (wanted[0], choice(constant), wanted[1]), {})
                yield "fair choices", f"{constant}: {bad}" if bad else None

    # ---- the exact run: where there are ends, both runs lie within them, by the text of `Encloses`, whichever fair choice it takes for the constants
    def exact(self):
        for path, model in (("tools/evaluation/data/quantum_ends.bin", chains.Quantum), ("tools/evaluation/data/mie_ends.bin", chains.Mie)):
            for k, chain in enumerate(chains.chains(self.path(path))):
                m = model(self.c)
                for call in chain:
                    if call.what in (11, 12):
                        m.changed(call)
                    elif call.what in (7, 8, 9, 13) and m.count <= (2 if self.whole else 1) and call.number == 0:
                        for choice in choices(self.c) if self.whole else choices(self.c)[k % 3:k % 3 + 1]:
                            bad = Exact(self.c, m, call, choice).fails()
                            yield "exact run", f"{path}, chain {k}: {chains.NAMES[call.what]} do not enclose: {bad}" if bad else None
                    elif call.what in (1, 2, 4, 5):
                        m.worked(call)

    # ---- the rows of the 'Table to be proved': those about all lists, exponents or counts at one of them
    def table(self):
        c = self.c
        rows = c.statements("proved_table", "Table", "Table")
        for row in ("root", "root_zero", "whole_power", "ln_1p", "ends"):
            said = rows[row](*[None] * list(rows).index(row))
            yield "table to be proved", None if said is True else f"the row {row} is {said}"
        alike, quantum = c.get("proved_table", "Table", "alike"), c.get("saftvrqmie_parameters", "Parameters", "saft_vrq_mie_pars")
        for fh, m, number in (((0, 1), None, 0), ((1, 2), None, 5), ((1, 2, 3), None, 5), ((1, 3, 2), None, 4), ((0, 3), None, 4), ((3, 0), (1.0, 2.0), 3)):
            lists = alike(fh)
            lists.m = m or lists.m
            yield compared(f"orders {fh}, m {lists.m}", chains.refusal(quantum(lists)), number)
        mie, names = c.get("saftvrmie_parameters", "Parameters", "saft_vr_mie_pars"), ["m", "sigma", "epsilon_k", "lr", "la", "k_ij", "gamma_ij"]
        for count in (0, SIDE + 1):
            lists = alike((0,) * count)
            yield compared(f"count {count}", chains.refusal(quantum(lists)), 1)
            yield compared(f"VR Mie, count {count}", chains.refusal(mie(c.record(count=count, **{n: () for n in names}))), 1)
        power = c.get("power", "Power", "powf_of")
        yield compared("base 32", power(32.0, 2.0), ("held", 1024.0))
        yield compared("the base above 32", power(math.nextafter(32.0, 64.0), 2.0), ("refused", 6))

    # ---- Slip 3, at some of the exponents, pair values and lists that it is about
    def corners(self):
        c = self.c
        floats = c.get("number", "Arith", "floats")()
        powf = c.get("number", "Functions", "calls")(floats, c.get("elementary", "Port", "port")()).powf
        three, six, twelve, four = (c.get("power_corners", "Corners", name)() for name in ("three", "six", "twelve", "four"))
        yield compared("its numbers", (three, six, twelve, four), (3.0, 6.0, 12.0, 4.0))
        ilambda, zero = c.get("saftvrqmie_dispersion_terms", "Terms", "ilambda"), c.get("power_corners", "Corners", "zero_at")
        for x in (math.nextafter(3.0, 4.0), math.nextafter(3.0, 2.0), 0.0, -0.0, 6.0, 12.0, 195.0, -189.0):
            yield compared(f"ilambda of {x!r} at ratio 1", (ilambda(floats, x, powf(1.0)), zero(x)), (("held", -0.0 if x > 3 else 0.0), -0.0 if x > 3 else 0.0))
        for gamma, stays in ((0.0, True), (-0.0, True), (2.0**-54, True), (2.0**-53, False), (0.5, False)):
            yield compared(f"gamma_ij of {gamma!r}", c.get("power_corners", "Corners", "Leaves")(gamma), stays)
        lists = c.get("proved_table", "Table", "alike")((0, 1))
        shared = {name: getattr(lists, name) for name in ("count", "m", "sigma", "lr", "la")}
        mie = c.record(**shared, **{"epsilon_k": (30.0, 35.0), "k_ij": (0.0, 0.1, 0.1, 0.0), "gamma_ij": (0.0, -0.0, -0.0, 0.0)})
        for crate, name, given, places in (("saftvrqmie_parameters", "saft_vrq_mie_pars", lists, (3, 4, 2)), ("saftvrmie_parameters", "saft_vr_mie_pars", mie, (2, 3, 4))):
            sheets = c.get(crate, "Parameters", name)(given)[1].sheets
            for e in (0, 1, SIDE, SIDE + 1):
                yield compared(f"{crate}: lr, la and c at {e}", tuple(sheets[k * SIDE**2 + e] for k in places), (twelve, six, four))

    # ---- how the order lists fall: each list walked here too, as the words of document 01 have it
    def orders(self):
        names = {"order_counts": ("ticked", "below4", "same"), "domthelv": ("order_counts_out",)}
        ticked, below4, alike, counts = (self.c.get(crate, "Counts" if crate == "order_counts" else "Operations", name) for crate in names for name in names[crate])
        for n in range(1, 6 if self.whole else 5):
            lists = tuple(product(range(4), repeat=n))
            yield compared(f"the lists of {n} orders", tuple(sorted(ticked(n))), lists)
            yield compared(f"{n} orders below 4", tuple(map(below4, lists)) + (below4(lists[0] + (4,)),), (True,) * len(lists) + (False,))
            yield compared(f"{n} orders, each once", tuple(sum(alike(l, k) for k in ticked(n)) for l in lists[:64]), (1,) * len(lists[:64]))
            fell = [fallen(l) for l in lists]
            yield compared(f"how {n} orders fall", counts(n, (9, 9, 9)), ("held", tuple(map(fell.count, (0, 4, 5)))))
        for n, out in ((0, (9, 9, 9)), (SIDE + 1, (9, 9, 9)), (2, (9, 9)), (2, (9, 9, 9, 9))):
            yield compared(f"{n} orders, {len(out)} places", counts(n, out), ("refused", 1))

    # ---- fuel cards: the cases of tools/cards, whose writer and answers are its own
    def cards(self):
        whole = self.c.get("card_parameters", "Parameters", "card_parameters")
        forms = [self.c.get("card", "Card", name)() for name in ("older", "newer_form")]
        made = SourceFileLoader("cards", os.path.join(os.path.dirname(os.path.abspath(__file__)), "..", "cards")).load_module()
        moved = self.c.get("card_writer", "Writing", "card_moved")
        for name, task, card, wanted, room in made.cases():
            if task > 1:
                lent = self.c.record(card=(0xA5,) * room, length=9999)
                q = moved(forms[task - 2], forms[3 - task], tuple(card), lent)
                told = q[1] if q[0] == "held" else lent
                yield compared(name, f"{0 if q[0] == 'held' else q[1]} {told.length} {bytes(told.card).hex()}", wanted)
                continue
            lent = self.c.record(model=9, count=99, m=(0.0,) * SIDE, lists=(0.0,) * LISTS, sheets=(0.0,) * SHEETS, orders=(0,) * SHEET)
            q = whole(forms[task], tuple(card), lent)
            told = q[1] if q[0] == "held" else lent
            number = 0 if q[0] == "held" else q[1]
            yield compared(name, f"{number} {told.model} {told.count} " + " ".join(f"{made.pattern(x):016x}" for x in told.sheets[:2]), wanted)
        for name, model, lists, wanted, room in made.written():
            lent = self.c.record(card=(0xA5,) * room, length=9999)
            q = self.c.get("card_of_lists", "Cards", "vr_card" if model else "vrq_card")(self.c.record(**lists), lent)
            told = q[1] if q[0] == "held" else lent
            yield compared(name, f"{0 if q[0] == 'held' else q[1]} {told.length} {bytes(told.card).hex()}", wanted)
        verdict = self.c.get("mie_parameters", "Answer", "verdict")
        by, passed = (self.c.get("card_of_lists", "Cards", name) for name in ("passed_by", "passed"))
        for q, refusal in ((("held", 0), ("None",)), (("refused", 1), ("Some", ("Length",))), (("refused", 5), ("Some", ("MixedOrders",))), (("refused", 6), ("Some", ("Domain",)))):
            yield compared(f"what passes of {q}", by(refusal), verdict(passed(q)))
        spared = self.c.get("card", "Fields", "read_spared")
        for bits, wanted in (("01", (0, "1")), ("10110", (3, "0")), ("1000", 15), ("", 9), ("101", 9)):
            q = spared(3, tuple(b == "1" for b in bits))
            told = q[1] if q[0] == "refused" else (q[1].value, "".join("01"[b] for b in q[1].rest))
            yield compared(f"a spared field of three bits in {bits}", told, wanted)
        for k, lengths in enumerate(((11, 60, 864, 144), (12, 61, 864, 144), (12, 60, 863, 144), (12, 60, 864, 145))):
            lent = self.c.record(model=9, count=99, m=(0.0,) * lengths[0], lists=(0.0,) * lengths[1], sheets=(0.0,) * lengths[2], orders=(0,) * lengths[3])
            yield compared(f"lent list {k} of another length", tuple(whole(form, (), lent) for form in forms), (("refused", 1),) * 2)

    # ---- slopes: the rules on fractions, at floats that are short, beside the derivative of a power, a product and a quotient
    def slopes(self):
        c = self.c
        a = c.get("enclosure", "Exact", "exacts")(choices(c)[0])
        exactly, g = c.get("enclosure", "Exact", "exactly"), Random(0x56)
        rule = {name: c.get("dual", "Dual", name) for name in ("add_d", "sub_d", "neg_d", "mul_d", "div_d", "pow_d", "down_d", "after_d", "plain_d")}

        def dual(*x):
            return c.record(re=exactly(x[0]), eps=exactly(x[1]))
        for k in range(50):
            x, dx, y, dy = (1 + g.next() % 1000 / 64 for _ in range(4))
            n = g.next() % 5
            fx, fdx, fy, fdy = map(Fraction, (x, dx, y, dy))
            wanted = {
                "add_d": (fx + fy, fdx + fdy), "sub_d": (fx - fy, fdx - fdy), "mul_d": (fx * fy, fdx * fy + fx * fdy),
                "div_d": (fx / fy, (fdx * fy - fx * fdy) / fy**2), "after_d": (fy, fdy),
            }
            got = {name: rule[name](a, dual(x, dx), dual(y, dy)) for name in wanted}
            wanted |= {"neg_d": (-fx, -fdx), "pow_d": (fx**n, n * fx**n / fx * fdx), "down_d": (1 / fx**n, -n / fx**n / fx * fdx), "plain_d": (fx, Fraction(0))}
            got |= {"neg_d": rule["neg_d"](a, dual(x, dx)), "pow_d": rule["pow_d"](a, dual(x, dx), n), "down_d": rule["down_d"](a, dual(x, dx), n), "plain_d": rule["plain_d"](a, exactly(x))}
            for name, d in got.items():
                said = tuple(Fraction(q.exact[1][1] - q.exact[1][2], q.exact[1][3]) for q in (d.re, d.eps))
                yield "slopes", None if said == wanted[name] else f"{name} of {x}, {dx} and {y}, {dy}: {said}, and not {wanted[name]}"

    # ---- Slip 14: polynomials, quotients of them, and a component's slopes
    def derivatives(self):
        return Derivatives(self.c, Random(0x14), choices(self.c)[2]).run()

    # ---- that nothing was left out: what the boundary, demand 3, the table, Slips 3, 7 and 14 and the promises use was evaluated, but for statements about all values
    # ---- the desk: queries of one and two components among each other, what each call tells, and the door, beside the direct calls' definitions
    def desk(self):
        c = self.c
        begun, submitted, served, directly = (c.get("desk", "Desk", name) for name in ("begun", "submitted", "served_once", "directly"))
        long, short = 23632, 2369

        def query(n, **other):
            sheets = [0.0] * SHEETS
            for k, x in enumerate((3.0, 30.0, 4.0, 12.0, 6.0, 3.3e-27)):
                for e in (SIDE * i + j for i in range(n) for j in range(n)):
                    sheets[SHEET * k + e] = x
            given = {"orders": (1,) * SHEET, "temperature": 30.0, "fractions": (1.0 / n,) * n, "densities": (0.01,) * n} | other
            lists = c.record(count=n, m=(1.0,) * SIDE, sheets=tuple(sheets), orders=given.pop("orders"))
            return c.record(lists=lists, wanted=True, **given)
        desk = begun(c.record(floats=(7.0,) * long, bytes=(9,) * short))[1]
        asked, told = [query(1), query(2), query(1)], []
        for k, q in enumerate(asked):
            answer = submitted(desk, q)
            desk = answer[1].desk
            yield compared(f"the place of query {k}", answer[1].place, k)
        for _ in range(7):
            answer = served(desk)[1]
            desk = answer.desk
            told.append(answer.told)
        turns = [("finished", 0, asked[0]), ("worked",), ("finished", 2, asked[2]), ("worked",), ("worked",), ("finished", 1, asked[1]), ("idle",)]
        yield compared("what the calls tell", repr(told), repr([t[:2] + (directly(t[2]),) if len(t) > 2 else t for t in turns]))
        yield from self.desk_calls(desk, submitted, directly, query)
        for _ in range(16):
            desk = submitted(desk, asked[0])[1].desk
        refused = {"a seventeenth query": (asked[0], 17), "a cold one": (query(1, temperature=0.5), 2), "another length": (query(1, fractions=(0.5, 0.5), temperature=0.5), 1), "an order of 3": (query(1, orders=(3,) * SHEET, temperature=0.5), 4)}
        for name, (q, number) in refused.items():
            yield compared(name, submitted(desk, q), ("refused", number))
        yield compared("a desk of another length", served(c.record(floats=(7.0,) * (long - 1), bytes=(9,) * short)), ("refused", 1))

    # what a call at the boundary leaves in the places that it is lent; `desk` is idle
    def desk_calls(self, desk, submitted, directly, query):
        c, call = self.c, self.c.get("desk_calls", "Calls", "served_call")
        slip = c.record(outcome=9, place=99, number=9, energies=(1.0, 2.0, 3.0))
        shown = lambda s: (s.outcome, s.place, s.number, tuple(s.energies))
        yield compared("an idle call", shown(call(c.record(desk=desk, slip=slip))[1].slip), (0, 99, 9, (1.0, 2.0, 3.0)))
        asked = [query(2, densities=(0.0, 0.0)), query(1)]
        for q in asked:
            desk = submitted(desk, q)[1].desk
        (_, e), lines = directly(asked[1]), []
        for _ in range(5):
            lent = call(c.record(desk=desk, slip=slip))[1]
            desk, slip = lent.desk, lent.slip
            lines.append(shown(slip))
        e = tuple(getattr(e, f) for f in ("hard_sphere", "dispersion", "non_additive"))
        # place 1 was served last, so that place 0 is next
        yield compared("what is told in the lent places", repr(lines), repr([(1, 99, 9, (1.0, 2.0, 3.0)), (2, 1, 0, e), (1, 1, 0, e), (1, 1, 0, e), (2, 0, 7, e)]))
        yield compared("energies of 2 places", call(c.record(desk=desk, slip=c.record(outcome=9, place=99, number=9, energies=(1.0, 2.0)))), ("refused", 1))

    # ---- that nothing was left out: what the boundary, demand 3, the table, Slip 3 and the promises use was evaluated, but for statements about all values
    def believed(self):
        c = self.c
        files = [c.file(*f) for f in (("domthelv", "Operations"), ("domthelv", "Total"), ("domthelv", "Tank"), ("slopes_calls", "Calls"), ("slopes_promises", "Promises"), ("demand_three", "Demand"), ("proved_table", "Table"), ("power_corners", "Corners"), ("pi_as_pi", "Statement"), ("chain_derivatives", "Chain"), ("set_lists", "Written"), ("card_parameters", "Parameters"), ("card_writer", "Writing"), ("card_of_lists", "Cards"), ("desk_calls", "Calls"), ("elementary", "Promised"), ("elementary", "Port"))]
        for d in sorted((d for d in c.used_by(files) if isinstance(d, Definition)), key=lambda d: d.python):
            name = f"{d.file.name}.{d.name}"
            if not (d.is_type and c.states_of_all(d)):
                yield "believed", None if name in c.reached else f"{name} is not evaluated"

    # ---- the quadrature rules: a rule of 10 nodes sums x^k as far as k = 19, the one of 21 as far as 31
    def quadrature(self):
        c, decimal = self.c, self.c.get("number", "Arith", "decimal")
        for crate, module, nodes, degree in (("saftvrmie_diameter", "Diameter", "positions", 19), ("saftvrqmie_searches", "Diameter", "abscissas", 31)):
            x, w = ([Fraction(decimal(e.minus, e.digits, e.places)) for e in c.get(crate, module, name)()] for name in (nodes, "weights"))
            yield compared(f"{crate}: as many weights as nodes", len(x), len(w))
            for k in range(degree + 1):
                error = abs(sum(b * a**k for a, b in zip(x, w)) - Fraction(2 * (k % 2 == 0), k + 1))
                yield "quadrature", f"{crate}: the sum of x^{k} is {float(error)} away" if error > Fraction(1, 10**15) else None


# pi to 40 digits, cut off
PI = Fraction("3.141592653589793238462643383279502884197")


def frac(q):
    return ("frac", max(q.numerator, 0), max(-q.numerator, 0), q.denominator)


def fraction(q):
    return Fraction(q[1] - q[2], q[3])


def all_constants(c):
    """Slip 7's constants, each with its exact value; pi's as far as 40 digits have it."""
    yield from ((("pi",), PI), (("frac_pi_6",), PI / 6), (("tau",), 2 * PI))
    for crate, names in (("saftvrqmie_searches", ("abscissas", "weights")), ("saftvrmie_diameter", ("positions", "weights"))):
        for e in (e for name in names for e in c.get(crate, "Diameter", name)()):
            yield ("node", e.minus, e.digits, e.places), Fraction((-1 if e.minus else 1) * e.digits, 10**e.places)


def choices(c):
    """Fair choices: every lower end, every upper end, the constants themselves."""
    value, below, above = c.get("number", "Frac", "val_f"), c.get("enclosure", "Constants", "below"), c.get("enclosure", "Constants", "above")
    truly = c.get("pi_as_pi", "Statement", "truly")
    return [lambda x: value(below(x)), lambda x: value(above(x)), lambda x: truly(frac(PI), x)]


def fallen(orders):
    """The number that the first pair met, row by row, gives; 0 if none does."""
    for a, b in product(orders, repeat=2):
        if max(a, b) > 2:
            return 4
        if {a, b} == {1, 2}:
            return 5
    return 0


def neighbour(x, towards):
    if not math.isfinite(x):
        return x
    y = math.nextafter(x, towards)
    return 0.0 if y == 0.0 else y


def pick(a, b, way):
    return b if (b < a if way < 0 else a < b) else a


def worked(name, a, b):
    if name != "div":
        return {"add": a + b, "sub": a - b, "mul": a * b}[name]
    if b != 0.0:
        return a / b
    if a == 0.0 or a != a:
        return math.nan
    return math.copysign(math.inf, math.copysign(1.0, a) * math.copysign(1.0, b))


class Exact:
    """The runs of one two-ended call: the float operation, the enclosures, the fractions with a choice of the constants, and the ends."""

    def __init__(self, c, m, call, choice):
        self.c, self.call = c, call
        port, calls = c.get("elementary", "Port", "port")(), c.get("number", "Functions", "calls")
        runs = [c.get("enclosure", "Enclosure", "enclosures")(), c.get("enclosure", "Exact", "exacts")(choice)]
        s = m.record()
        if call.what in (8, 13):
            crate = "saftvrmie" if call.what == 13 else "saftvrqmie"
            handed = (s, *call.lengths[:2], chains.number(call.value), *chains.floats(call.listed))
            self.ends, self.float = c.get(crate + "_diameter_ends", "Operations", "diameter_ends")(port, *handed), c.get(crate, "Pairs", "diameter_ij")()
            self.run, self.exact = (c.get(crate, "Pairs", "diameter_run")(a, calls(a, port), *handed) for a in runs)
        else:
            lent = m.diameters[:call.lengths[2]] if call.what == 9 else m.table[:chains.lent(call.lengths[2], chains.TABLE)]
            handed = (s, chains.number(call.value), *map(chains.floats, call.cut(2)), lent, call.flag == 1)
            crate, ends, run = ("saftvrmie_energies", "dispersion_ends", "energy_run") if call.what == 9 else ("saftvrqmie_energies", "energies_ends", "contributions_of")
            self.ends = c.get(crate + "_ends", "Operation", ends)(port, *handed)
            self.float = c.get(crate, "Energies", "energy" if call.what == 9 else "energies")()
            self.run, self.exact = (c.get(crate, "Energies", run)(a, calls(a, port), *handed) for a in runs)
        for x in handed:
            self.float = self.float(x)

    # what is false: a run without a result, ends that are not those of the enclosures, and fields of `Encloses`
    def fails(self):
        c, three = self.c, self.call.what == 7
        if {self.float[0], self.run[0], self.exact[0], self.ends[0]} != {"held"}:
            return ["a run without a result"]
        crate, module, sound, ends = ("saftvrqmie_energies_ends", "Operation", "all_sound", "each_ends") if three else ("demand_three", "Demand", "is_sound", None)
        expected = c.get(crate, module, ends)(self.run[1]) if three else c.get("enclosure", "Ends", "ends_in")(self.run[1])
        if not c.get(crate, module, sound)(self.run[1]) or not same(self.ends[1], expected):
            return ["ends that are not the enclosures'"]
        if not three:
            return c.fails("enclosure", "Ends", "Encloses", (self.ends[1], self.float, self.exact), self.given(self.float[1], self.exact[1]))
        given = {f: self.given(getattr(self.float[1], f), getattr(self.exact[1], f)) for f in ("hard_sphere", "dispersion", "non_additive")}
        return c.fails("saftvrqmie_energies_ends", "Encloses", "EachEncloses", (self.ends[1], self.float, self.exact), given)

    def given(self, value, exact):
        return {"value": value, "fraction": exact.exact[1] if exact.exact[0] == "some" else None}


SECTIONS = ["decimals", "tables", "elementary", "promises", "intervals", "table", "corners", "orders", "quadrature", "constants", "slopes", "mie_ends", "quantum_ends", "mie", "quantum", "mie_9_to_12", "quantum_9_to_12", "refusals", "stages", "exact", "sums", "pressure", "tanks", "derivatives", "desk", "cards", "believed"]


def load(folder, texts, whole=False):
    return Cases(specs.load(texts, specs.declared_in(folder)), folder, texts, whole)
