"""Helmholtz energies of tank fluids after SAFT-VRQ Mie and SAFT-VR Mie: the C boundary of domthelv (include/domthelv.h, which has units, limits and refusals) by ctypes, in one file and with nothing beside it.

The library must be there as a shared object: DOMTHELV_SO names it, or it stands beside this file or in ../lib. It is made of the static one by

    python3 domthelv.py --build libdomthelv.a libdomthelv.so        # calls cc -shared

A refused call raises Refused, whose number is the refusal's. Lists are any sequences of numbers; each is copied into memory of its own length, so that a wrong length, an index outside or a number out of range is a refusal and never a read outside.

    fluid = QuantumSet(m=[1], sigma=[3.0243], epsilon_k=[26.706], lr=[9], la=[6], mass=[3.3474472e-27], order=[1], k_ij=[0], l_ij=[0])
    table = fluid.table(25.0)
    fluid.energies(table, 25.0, fractions=[1], densities=[0.019]).dispersion
    table.hs_diameter(0, 0)
"""
import ctypes
import operator
import os
import subprocess
import sys
from collections import namedtuple

SIDE = 12
NEWER_CARD = 1557
SHEET, SHEETS, TABLE, COUNTS, LISTS = SIDE * SIDE, 6 * SIDE * SIDE, 4 * SIDE * SIDE, 3 * SIDE * SIDE, 5 * SIDE
DESK_PLACES = 16
DESK_FLOATS, DESK_BYTES = DESK_PLACES * (SHEETS + TABLE + 3 * SIDE + 1), DESK_PLACES * (SHEET + 4) + 1

TEXTS = {
    1: "a count, an index or a list's length is outside",
    2: "a number is outside its limit",
    3: "an m of the quantum model is not 1",
    4: "an order is above 2",
    5: "orders 1 and 2 meet in a pair",
    6: "an elementary function's argument is outside its domain",
    7: "a result is not finite",
    8: "two ends cannot be given",
    9: "a card is too short for the field in hand",
    10: "a card's model is not known, or its count is outside",
    11: "a filling bit of a card is 1, or bytes are left over",
    12: "a lent list is shorter than the card that it is to hold",
    14: "a tank's layer count is outside",
    15: "a newer card stores a pair's +0",
    16: "more components than an older card holds",
    17: "all places of a desk are occupied",
}


class Refused(Exception):
    """A call was refused; nothing was changed. `number` says why."""

    def __init__(self, number):
        super().__init__(f"refused ({number}): {TEXTS.get(number, 'a number that is no refusal')}")
        self.number = number


Ends = namedtuple("Ends", "low high")
Energies = namedtuple("Energies", "hard_sphere dispersion non_additive")
Sloped = namedtuple("Sloped", "value slope")
RoundedSum = namedtuple("RoundedSum", "sum remainder")
Total = namedtuple("Total", "first last")
Search = namedtuple("Search", "radius potential count")
Searches = namedtuple("Searches", "sigma zero depth")
OrderCounts = namedtuple("OrderCounts", "passing order mixed_orders")
Served = namedtuple("Served", "outcome place number energies")

# ---- the functions: what each takes, by a letter: f float, z whole number, b bool, i i32; F, B, U lists of floats, bytes and
# whole numbers, each with its length; o one float, y one byte, n one whole number to be written. All give a number but powi.

_TAKES = {
    "sqrt": "fo", "ln": "fo", "ln_1p": "fo", "exp": "fo", "exp_m1": "fo", "tanh": "fo", "powf": "ffo", "powi": "fi",
    "vrq_record_m": "f", "vrq_parameters": "zFFFFFFBFFFFB", "order_counts": "zU", "vrq_table": "zFFBfFB", "vrq_radii": "zFFBzzfFB",
    "vrq_energies": "zFFBfFFFbF", "vrq_total": "zFFBfFFFbF", "vrq_energies_ends": "zFFBfFFFbF", "vrq_diameter": "zFFBzzfffo",
    "vrq_diameter_ends": "zFFBzzfffF", "vrq_stage": "zFFFFFFBFFfFFbF", "vr_parameters": "zFFFFFFFFF", "vr_diameters": "zFFfF",
    "vr_dispersion": "zFFfFFFbo", "vr_dispersion_ends": "zFFfFFFbF", "vr_radius": "zFFzzfo", "vr_diameter": "zFFzzffo",
    "vr_diameter_ends": "zFFzzffF", "vr_stage": "zFFFFFFFfFFbo", "vrq_tank": "zFFBzFFFFbF", "vrq_tank_ends": "zFFBzFFFFbF",
    "vrq_energies_slopes": "zFFBffFFFFbF",
    "card_parameters": "BynFFFB", "newer_card_parameters": "BynFFFB", "vrq_card": "zFFFFFFBFFBn", "vr_card": "zFFFFFFFBn",
    "card_to_newer": "BBn", "card_to_older": "BBn",
    "desk_begin": "FB", "desk_submit": "FBzFFBfFFbn", "desk_serve": "FBynyF",
}
_D, _Z, _P = ctypes.c_double, ctypes.c_size_t, ctypes.POINTER
_TYPES = {
    "f": [_D], "z": [_Z], "b": [ctypes.c_bool], "i": [ctypes.c_int32], "o": [_P(_D)], "F": [_P(_D), _Z], "B": [_P(ctypes.c_uint8), _Z],
    "U": [_P(ctypes.c_uint64), _Z], "y": [_P(ctypes.c_uint8)], "n": [_P(_Z)],
}
_loaded = {}


def build(archive, shared):
    """Makes the shared object of the static library."""
    subprocess.run([os.environ.get("CC", "cc"), "-shared", "-o", shared, "-Wl,--whole-archive", archive, "-Wl,--no-whole-archive"], check=True)


def _path():
    here = os.path.dirname(os.path.abspath(__file__))
    named = os.environ.get("DOMTHELV_SO")
    for path in [named] if named else [os.path.join(here, "libdomthelv.so"), os.path.join(here, "../lib/libdomthelv.so")]:
        if os.path.exists(path):
            return path
    raise OSError(f"no libdomthelv.so: make it by 'python3 {__file__} --build libdomthelv.a libdomthelv.so', or name it in DOMTHELV_SO")


def _function(name):
    if not _loaded:
        library = ctypes.CDLL(_path())
        for each, takes in _TAKES.items():
            f = getattr(library, "domthelv_" + each)
            f.argtypes = [t for letter in takes for t in _TYPES[letter]]
            f.restype = _D if each == "powi" else ctypes.c_uint8
            _loaded[each] = f
    return _loaded[name]


# ---- what is handed over: a number that its type cannot hold becomes one that is refused, not one that is another


def _whole(n):
    n = operator.index(n)
    return n if 0 <= n < 2**64 else 2**64 - 1


def _floats(values):
    l = [float(x) for x in values]
    return (_D * len(l))(*l)


def _bytes(values):
    l = [operator.index(x) for x in values]
    return (ctypes.c_uint8 * len(l))(*[x if 0 <= x <= 255 else 255 for x in l])


def _call(name, *handed):
    """A call: lists are ctypes arrays, which know their lengths."""
    words = []
    for x in handed:
        words += [x, len(x)] if isinstance(x, ctypes.Array) else [x]
    number = _function(name)(*words)
    if number:
        raise Refused(number)


def _one(name, *handed):
    out = _D()
    _call(name, *handed, ctypes.byref(out))
    return out.value


def _some(n, name, *handed):
    out = (_D * n)()
    _call(name, *handed, out)
    return list(out)


# ---- elementary functions


def sqrt(x):
    return _one("sqrt", float(x))


def ln(x):
    return _one("ln", float(x))


def ln_1p(x):
    return _one("ln_1p", float(x))


def exp(x):
    return _one("exp", float(x))


def exp_m1(x):
    return _one("exp_m1", float(x))


def tanh(x):
    return _one("tanh", float(x))


def powf(base, exponent):
    return _one("powf", float(base), float(exponent))


def powi(x, n):
    n = operator.index(n)
    if not -(2**31) <= n < 2**31:
        raise OverflowError("a whole power's exponent has 32 bits")
    return _function("powi")(float(x), n)


# ---- quantum model (SAFT-VRQ Mie)


def record_m(m):
    """Raises Refused(3) where a record's m is not 1."""
    _call("vrq_record_m", float(m))


def order_counts(count):
    out = (ctypes.c_uint64 * 3)()
    _call("order_counts", _whole(count), out)
    return OrderCounts(*out)


def _pair(count, i, j):
    """The place of a pair in a sheet."""
    i, j = _whole(i), _whole(j)
    if not (i < count and j < count):
        raise Refused(1)
    return SIDE * i + j


def _named(owner, names, of):
    """Accessors of a class, one for each sheet, by name."""
    for sheet, name in enumerate(names):
        def entry(self, i, j, sheet=sheet):
            return getattr(self, of)[SHEET * sheet + _pair(self.count, i, j)]
        entry.__name__ = name
        setattr(owner, name, entry)


class Table:
    """A temperature table: sigma_eff(i, j), hs_diameter(i, j), epsilon_k_eff(i, j), quantum_d(i, j), and the evaluations of the searches, sigma_count, zero_count and depth_count (i, j)."""

    def __init__(self, count):
        self.count, self._values, self._counts = count, (_D * TABLE)(), (ctypes.c_uint8 * COUNTS)()


_named(Table, ["sigma_eff", "hs_diameter", "epsilon_k_eff", "quantum_d"], "_values")
_named(Table, ["sigma_count", "zero_count", "depth_count"], "_counts")


class QuantumSet:
    """A quantum set, of lists of its components; sigma_ij(i, j), epsilon_k_ij, c_ij, lambda_r_ij, lambda_a_ij, mass_ij and order (i, j)."""

    def __init__(self, m, sigma, epsilon_k, lr, la, mass, order, k_ij, l_ij):
        lists = _quantum_lists(m, sigma, epsilon_k, lr, la, mass, order, k_ij, l_ij)
        self.count, self._m, self._sheets, self._orders = len(lists[0]), (_D * SIDE)(), (_D * SHEETS)(), (ctypes.c_uint8 * SHEET)()
        _call("vrq_parameters", self.count, *lists, self._m, self._sheets, self._orders)

    def _set(self):
        return self.count, self._m, self._sheets, self._orders

    def table(self, temperature):
        t = Table(self.count)
        _call("vrq_table", *self._set(), float(temperature), t._values, t._counts)
        return t

    def _of(self, n, name, table, temperature, fractions, densities, non_additive):
        if not isinstance(table, Table):
            raise TypeError("a Table is wanted")
        # a table of another count is lent as a list of no elements
        values = table._values if table.count == self.count else (_D * 0)()
        return _some(n, name, *self._set(), float(temperature), _floats(fractions), _floats(densities), values, bool(non_additive))

    def energies(self, table, temperature, fractions, densities, non_additive=False):
        return Energies(*self._of(3, "vrq_energies", table, temperature, fractions, densities, non_additive))

    def total(self, table, temperature, fractions, densities, non_additive=False):
        a, b, c, d = self._of(4, "vrq_total", table, temperature, fractions, densities, non_additive)
        return Total(RoundedSum(a, b), RoundedSum(c, d))

    def energies_ends(self, table, temperature, fractions, densities, non_additive=False):
        e = self._of(6, "vrq_energies_ends", table, temperature, fractions, densities, non_additive)
        return Energies(*(Ends(*e[k:k + 2]) for k in (0, 2, 4)))

    def energies_slopes(self, temperature, fractions, densities, temperature_slope, fraction_slopes, density_slopes, non_additive=False):
        """Energies with slopes, by a table of the call's own; the slope of each number of the state is supplied."""
        lists = (_floats(l) for l in (fractions, fraction_slopes, densities, density_slopes))
        e = _some(6, "vrq_energies_slopes", *self._set(), float(temperature), float(temperature_slope), *lists, bool(non_additive))
        return Energies(*(Sloped(*e[k:k + 2]) for k in (0, 2, 4)))

    def _tank(self, n, name, temperatures, fractions, densities, volumes, non_additive):
        t = _floats(temperatures)
        return _some(n, name, *self._set(), len(t), t, _floats(fractions), _floats(densities), _floats(volumes), bool(non_additive))

    def tank(self, temperatures, fractions, densities, volumes, non_additive=False):
        """Energies of a tank in layers from the bottom up, in kelvin; fractions and densities layer by layer in one list."""
        return Energies(*self._tank(3, "vrq_tank", temperatures, fractions, densities, volumes, non_additive))

    def tank_ends(self, temperatures, fractions, densities, volumes, non_additive=False):
        e = self._tank(6, "vrq_tank_ends", temperatures, fractions, densities, volumes, non_additive)
        return Energies(*(Ends(*e[k:k + 2]) for k in (0, 2, 4)))

    def radii(self, i, j, temperature):
        out, counts = (_D * 6)(), (ctypes.c_uint8 * 3)()
        _call("vrq_radii", *self._set(), _whole(i), _whole(j), float(temperature), out, counts)
        return Searches(*(Search(out[2 * k], out[2 * k + 1], counts[k]) for k in range(3)))

    def diameter(self, i, j, temperature, sigma_eff, r0):
        return _one("vrq_diameter", *self._set(), _whole(i), _whole(j), float(temperature), float(sigma_eff), float(r0))

    def diameter_ends(self, i, j, temperature, sigma_eff, r0):
        return Ends(*_some(2, "vrq_diameter_ends", *self._set(), _whole(i), _whole(j), float(temperature), float(sigma_eff), float(r0)))


_named(QuantumSet, ["sigma_ij", "epsilon_k_ij", "c_ij", "lambda_r_ij", "lambda_a_ij", "mass_ij"], "_sheets")
_named(QuantumSet, ["order"], "_orders")


def _quantum_lists(m, sigma, epsilon_k, lr, la, mass, order, k_ij, l_ij):
    return [*map(_floats, (m, sigma, epsilon_k, lr, la, mass)), _bytes(order), _floats(k_ij), _floats(l_ij)]


def quantum_stage(temperature, fractions, densities, non_additive=False, **components):
    """From components (m, sigma, .. as a QuantumSet takes them) to energies, with a table of its own."""
    lists = _quantum_lists(**components)
    return Energies(*_some(3, "vrq_stage", len(lists[0]), *lists, float(temperature), _floats(fractions), _floats(densities), bool(non_additive)))


# ---- SAFT-VR Mie


class MieSet:
    """A set of SAFT-VR Mie, of lists of its components; m(i), sigma(i), epsilon_k(i), lr(i), la(i), and sigma_ij(i, j), epsilon_k_ij, lr_ij, la_ij, c_ij, alpha_ij."""

    def __init__(self, m, sigma, epsilon_k, lr, la, k_ij, gamma_ij):
        lists = _mie_lists(m, sigma, epsilon_k, lr, la, k_ij, gamma_ij)
        self.count, self._lists, self._sheets = len(lists[0]), (_D * LISTS)(), (_D * SHEETS)()
        _call("vr_parameters", self.count, *lists, self._lists, self._sheets)

    def _set(self):
        return self.count, self._lists, self._sheets

    def diameters(self, temperature):
        out = (_D * self.count)()
        _call("vr_diameters", *self._set(), float(temperature), out)
        return list(out)

    def dispersion(self, diameters, temperature, fractions, densities, chain=False):
        return _one("vr_dispersion", *self._set(), float(temperature), _floats(fractions), _floats(densities), _floats(diameters), bool(chain))

    def dispersion_ends(self, diameters, temperature, fractions, densities, chain=False):
        state = float(temperature), _floats(fractions), _floats(densities), _floats(diameters), bool(chain)
        return Ends(*_some(2, "vr_dispersion_ends", *self._set(), *state))

    def radius(self, i, j, temperature):
        return _one("vr_radius", *self._set(), _whole(i), _whole(j), float(temperature))

    def diameter(self, i, j, temperature, r0):
        return _one("vr_diameter", *self._set(), _whole(i), _whole(j), float(temperature), float(r0))

    def diameter_ends(self, i, j, temperature, r0):
        return Ends(*_some(2, "vr_diameter_ends", *self._set(), _whole(i), _whole(j), float(temperature), float(r0)))


_named(MieSet, ["sigma_ij", "epsilon_k_ij", "lr_ij", "la_ij", "c_ij", "alpha_ij"], "_sheets")
for _k, _name in enumerate(["m", "sigma", "epsilon_k", "lr", "la"]):
    setattr(MieSet, _name, lambda self, i, k=_k: self._lists[SIDE * k + _pair(self.count, 0, i)])


def _mie_lists(m, sigma, epsilon_k, lr, la, k_ij, gamma_ij):
    return [*map(_floats, (m, sigma, epsilon_k, lr, la, k_ij, gamma_ij))]


def mie_stage(temperature, fractions, densities, chain=False, **components):
    """From components (m, sigma, .. as a MieSet takes them) to the dispersion, with the chain where it is wanted."""
    lists = _mie_lists(**components)
    return _one("vr_stage", len(lists[0]), *lists, float(temperature), _floats(fractions), _floats(densities), bool(chain))


# ---- fuel cards


def _card(card):
    """A card's bytes: bytes, or any sequence of numbers from 0 to 255."""
    l = bytes(operator.index(x) for x in card)
    return (ctypes.c_uint8 * len(l))(*l)


def _card_set(name, card):
    model, count = ctypes.c_uint8(), _Z()
    m, lists, sheets, orders = (_D * SIDE)(), (_D * LISTS)(), (_D * SHEETS)(), (ctypes.c_uint8 * SHEET)()
    _call(name, _card(card), ctypes.byref(model), ctypes.byref(count), m, lists, sheets, orders)
    if model.value == 0:
        s = QuantumSet.__new__(QuantumSet)
        s.count, s._m, s._sheets, s._orders = count.value, m, sheets, orders
    else:
        s = MieSet.__new__(MieSet)
        s.count, s._lists, s._sheets = count.value, lists, sheets
    return s


def _written(name, *handed):
    out, length = (ctypes.c_uint8 * NEWER_CARD)(), _Z()
    _call(name, *handed, out, ctypes.byref(length))
    return bytes(out[:length.value])


def quantum_card(**components):
    """The card of some components (m, sigma, .. as a QuantumSet takes them), at most eight: its bytes."""
    lists = _quantum_lists(**components)
    return _written("vrq_card", len(lists[0]), *lists)


def mie_card(**components):
    """The same of SAFT-VR Mie."""
    lists = _mie_lists(**components)
    return _written("vr_card", len(lists[0]), *lists)


def card_set(card):
    """The set of a card, of up to eight components: a QuantumSet or a MieSet."""
    return _card_set("card_parameters", card)


def newer_card_set(card):
    """The same of a newer card, of up to SIDE components."""
    return _card_set("newer_card_parameters", card)


def card_to_newer(card):
    """A card moved to the newer form: bytes that read as lists of the same bits."""
    return _written("card_to_newer", _card(card))


def card_to_older(card):
    """A newer card moved back, where the older form can hold it."""
    return _written("card_to_older", _card(card))


# ---- the desk


class Desk:
    """One desk for quantum queries of all pages; it begins with no query."""

    def __init__(self):
        self._floats, self._bytes = (_D * DESK_FLOATS)(), (ctypes.c_uint8 * DESK_BYTES)()
        self.begin()

    def begin(self):
        """Begins anew: all queries are dropped."""
        _call("desk_begin", self._floats, self._bytes)

    def submit(self, fluid, temperature, fractions, densities, non_additive=False):
        """A query of a QuantumSet takes the lowest free place, which is given."""
        if not isinstance(fluid, QuantumSet):
            raise TypeError("a QuantumSet is wanted")
        place = _Z()
        _call("desk_submit", self._floats, self._bytes, *fluid._set(), float(temperature), _floats(fractions), _floats(densities), bool(non_additive), ctypes.byref(place))
        return place.value

    def serve(self):
        """One unit for the query in the next occupied place above the one served last. outcome: 'idle', where no query was waiting, 'worked' or 'finished', which has a place and a number, 0 with energies, 6 or 7 without."""
        outcome, place, number, out = ctypes.c_uint8(), _Z(), ctypes.c_uint8(), (_D * 3)()
        _call("desk_serve", self._floats, self._bytes, ctypes.byref(outcome), ctypes.byref(place), ctypes.byref(number), out)
        if outcome.value < 2:
            return Served(("idle", "worked")[outcome.value], None, None, None)
        return Served("finished", place.value, number.value, None if number.value else Energies(*out))


if __name__ == "__main__":
    if len(sys.argv) != 4 or sys.argv[1] != "--build":
        sys.exit(__doc__)
    build(sys.argv[2], sys.argv[3])
