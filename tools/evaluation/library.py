"""The library's names that specs/ uses, in Python, from the library's own statements. A natural number and an integer are an int, a Bool a bool, a list and a pair a tuple, a Float a float (every NaN is one), a value of a data type a tuple of its constructor's name and arguments."""
import functools
import math
import struct


class Refused(Exception):
    """An evaluation met what the library leaves open, or what is no f64."""


# ---- natural numbers
def minus(a, b):
    return a - b if a > b else 0


def quotient(a, b):
    return a // b if b else 0


def remainder(a, b):
    return a % b if b else a


# ---- lists
def get_or(l, n, d):
    return l[n] if n < len(l) else d


def set_at(l, n, b):
    return l[:n] + (b,) + l[n + 1:] if n < len(l) else l


# ---- counts of bits
def leading_zeros(k, n):
    return max(0, k - n.bit_length())


def from_le_bytes(width, xs):
    return int.from_bytes(bytes(xs[:width]), "little")


# ---- floats, binary64 alone
TOP, HID, ONES, LOW = 2**63, 2**52, 2047, 1074


def only64(f):
    if f != ("binary64",):
        raise Refused(f"a format that is not binary64: {f}")


def of_bits(f, b):
    only64(f)
    x = struct.unpack("<d", struct.pack("<Q", (TOP if b >= TOP else 0) + b % TOP))[0]
    return math.nan if x != x else x


def to_bits(f, x):
    only64(f)
    return ONES * HID + HID // 2 if x != x else struct.unpack("<Q", struct.pack("<d", x))[0]


# num / den to the nearest, ties to even, worked on whole numbers as the library's text does
@functools.lru_cache(maxsize=1 << 16)
def round64(f, s, num, den):
    only64(f)
    if den <= 0:
        raise Refused("a fraction over 0 is rounded")
    n = num << LOW
    k = max(0, (n // den).bit_length() - 53)
    u = den << k
    q, rest = divmod(n, u)
    q += 1 if 2 * rest > u else q % 2 if 2 * rest == u else 0
    if q << k >= 2 ** (LOW + 1024):
        return -math.inf if s else math.inf
    x = math.ldexp(q, k - LOW)
    return -x if s else x


def of_int(f, z):
    return round64(f, z < 0, abs(z), 1)


def add(f, x, y):
    only64(f)
    return x + y


def sub(f, x, y):
    only64(f)
    return x - y


def mul(f, x, y):
    only64(f)
    return x * y


def div(f, x, y):
    only64(f)
    if y == 0.0:
        if x == 0.0 or x != x:
            return math.nan
        return math.inf if (x < 0) == (math.copysign(1.0, y) < 0) else -math.inf
    return x / y


def fits(f, x):
    only64(f)
    if not isinstance(x, float):
        raise Refused(f"no f64: {x!r}")
    return True


# a finite float as its sign, an odd m or 0, and the exponent
def parts(x):
    s = math.copysign(1.0, x) < 0
    if x == 0.0:
        return s, 0, 0
    n, d = abs(x).as_integer_ratio()
    low = (n & -n).bit_length() - 1
    return s, n >> low, low - (d.bit_length() - 1)


def fin(s, m, e):
    x = math.ldexp(m, e) if m < 2**53 else None
    if x is None or parts(x)[1:] != ((m, e) if m % 2 else (0, 0)) or (m == 0) != (x == 0.0):
        raise Refused(f"fin {s} {m} {e} is no f64 that is written in the one way")
    return -x if s else x


def inf(s):
    return -math.inf if s else math.inf


def up(e):
    return 1 << e if e >= 0 else 1


def down(e):
    return 1 if e >= 0 else 1 << -e


# ---- equality of two values: floats by their bits, all NaNs being one
def same(a, b):
    if isinstance(a, float):
        return isinstance(b, float) and to_bits(("binary64",), a) == to_bits(("binary64",), b)
    if isinstance(a, tuple):
        return isinstance(b, tuple) and len(a) == len(b) and all(map(same, a, b))
    if isinstance(a, Record):
        return isinstance(b, Record) and a.__slots__ == b.__slots__ and all(same(getattr(a, f), getattr(b, f)) for f in a.__slots__)
    if isinstance(a, (bool, int, str)):
        return type(a) is type(b) and a == b
    raise Refused(f"no equality of {a!r}")


class Record:
    __slots__ = ()

    def __repr__(self):
        return "{" + ", ".join(f"{f} = {getattr(self, f)!r}" for f in self.__slots__) + "}"


# ---- statements: what cannot be evaluated is a Stated
class Stated:
    """A type or a statement about all values, as a value; with its arguments, where it is a record's."""

    def __init__(self, name, record=None, arguments=()):
        self.name, self.record, self.arguments = name, record, arguments

    def __call__(self, x):
        return Stated(self.name, self.record, self.arguments + (x,))

    def __repr__(self):
        return f"<{self.name}>"


def both(a, b):
    if isinstance(a, bool) and isinstance(b, bool):
        return a and b
    return Stated("×")


LANGUAGE, PRELUDE, FLOAT, IEEE, OPTION = "", "Rattle.std.specs.Prelude", "Rattle.std.specs.Float", "Rattle.std.specs.Float.Ieee", "Rattle.std.proofs.Math.Option"
# module, and in it name: how many arguments, the Python text with them, or the function where it is not called on all of them
NATIVE = {
    LANGUAGE: {"tt": (0, "('tt',)"), "◌,◌": (2, "({0}, {1})")},  # what no `use` brings
    PRELUDE: {
        "zero": (0, "0"), "suc": (1, "({0} + 1)"), "◌+◌": (2, "({0} + {1})"), "◌-◌": (2, "minus({0}, {1})"), "◌*◌": (2, "({0} * {1})"),
        "◌/◌": (2, "quotient({0}, {1})"), "◌%◌": (2, "remainder({0}, {1})"), "◌^◌": (2, "({0} ** {1})"), "max": (2, "max({0}, {1})"), "min": (2, "min({0}, {1})"),
        "◌≤◌": (2, "({0} <= {1})"), "◌<◌": (2, "({0} < {1})"),
        "true": (0, "True"), "false": (0, "False"), "cond": (3, "({1} if {0} else {2})"), "not": (1, "(not {0})"),
        "◌&&◌": (2, "({0} and {1})"), "◌||◌": (2, "({0} or {1})"), "T": (1, "{0}"),
        "eqb": (2, "({0} == {1})"), "leb": (2, "({0} <= {1})"), "ltb": (2, "({0} < {1})"),
        "◌==◌": (2, "({0} == {1})"), "nat_eq": (2, "({0} == {1})"), "nat_le": (2, "({0} <= {1})"), "nat_lt": (2, "({0} < {1})"),
        "[]": (0, "()"), "◌∷◌": (2, "(({0},) + {1})"), "◌++◌": (2, "({0} + {1})"), "map": (2, "tuple(map({0}, {1}))"),
        "length": (1, "len({0})"), "get_or": (3, "get_or({0}, {1}, {2})"), "set": (3, "set_at({0}, {1}, {2})"),
        "slice_index_or": (3, "get_or({0}, {1}, {2})"), "slice_set": (3, "set_at({0}, {1}, {2})"),
        "replicate": (2, "(({1},) * {0})"), "take": (2, "{1}[:{0}]"), "drop": (2, "{1}[{0}:]"),
        "Ok": (1, "('Ok', {0})"), "Err": (1, "('Err', {0})"), "Some": (1, "('Some', {0})"), "None": (0, "('None',)"),
        "pos": (1, "{0}"), "negsuc": (1, "(-1 - {0})"), "◌≡◌": (2, "same({0}, {1})"),
        "from_bits": (2, "of_bits({0}, {1})"), "to_bits": (2, "to_bits({0}, {1})"), "is_nan": (1, "({0} != {0})"),
    },
    "Rattle.std.specs.Bool": {"beq": (2, "({0} is {1})")},
    # of a proof: in a condition of a helper of interval, no definition that an operation gives
    "Rattle.number.proofs.Order": {"over": (1, "({0} == {0} and (isfinite({0}) or {0} > 0))"), "under": (1, "({0} == {0} and (isfinite({0}) or {0} < 0))")},
    "Rattle.std.specs.Int": {"w64": (0, "8"), "from_le_bytes": (2, "from_le_bytes({0}, {1})")},
    "Rattle.std.specs.Int.Count": {"count_leading_zeros": (2, "leading_zeros({0}, {1})")},
    OPTION: {"none": (0, "('none',)"), "some": (1, "('some', {0})")},
    FLOAT: {"binary64": (0, "BINARY64"), "nan": (0, "NAN"), "inf": (1, "inf({0})"), "fin": (3, "fin({0}, {1}, {2})")},
    IEEE: {
        "add": (3, "add({0}, {1}, {2})"), "sub": (3, "sub({0}, {1}, {2})"), "mul": (3, "mul({0}, {1}, {2})"), "div": (3, "div({0}, {1}, {2})"),
        "neg": (1, "(-{0})"), "lt": (2, "({0} < {1})"), "le": (2, "({0} <= {1})"), "eq": (2, "({0} == {1})"), "is_nan": (1, "({0} != {0})"),
        "of_bits": (2, "of_bits({0}, {1})"), "to_bits": (2, "to_bits({0}, {1})"), "of_int": (2, "of_int({0}, {1})"),
        "round": (4, "round64({0}, {1}, {2}, {3})"), "fits": (2, "fits({0}, {1})"), "size": (1, "{0}.bit_length()"), "up": (1, "up({0})"), "down": (1, "down({0})"),
    },
    f"{IEEE}.Scale": {"finite": (1, "isfinite({0})")},
}
TYPES = {PRELUDE: {"ℕ", "Bool", "List", "ℤ", "Float", "Result", "Option"}, OPTION: {"Option"}}
FIXITY = {
    (PRELUDE, "◌+◌"): ("infixl", 65), (PRELUDE, "◌-◌"): ("infixl", 65), (PRELUDE, "◌*◌"): ("infixl", 70),
    (PRELUDE, "◌/◌"): ("infixl", 70), (PRELUDE, "◌%◌"): ("infixl", 70), (PRELUDE, "◌^◌"): ("infixr", 75),
    (PRELUDE, "◌≤◌"): ("infix", 50), (PRELUDE, "◌<◌"): ("infix", 50), (PRELUDE, "◌==◌"): ("infix", 40), (PRELUDE, "◌&&◌"): ("infixl", 35),
    (PRELUDE, "◌||◌"): ("infixl", 30), (PRELUDE, "◌∷◌"): ("infixr", 67), (PRELUDE, "◌++◌"): ("infixl", 65), (PRELUDE, "◌≡◌"): ("infix", 4),
}
# a constructor in a pattern: the test of a value, and its arguments
PATTERN = {
    f"{LANGUAGE}.tt": ("{0} == ('tt',)", []), f"{LANGUAGE}.◌,◌": ("len({0}) == 2", ["{0}[0]", "{0}[1]"]),
    f"{PRELUDE}.Ok": ("{0}[0] == 'Ok'", ["{0}[1]"]), f"{PRELUDE}.Err": ("{0}[0] == 'Err'", ["{0}[1]"]),
    f"{PRELUDE}.Some": ("{0}[0] == 'Some'", ["{0}[1]"]), f"{PRELUDE}.None": ("{0}[0] == 'None'", []),
    f"{PRELUDE}.zero": ("{0} == 0", []), f"{PRELUDE}.suc": ("{0} > 0", ["{0} - 1"]),
    f"{PRELUDE}.true": ("{0} is True", []), f"{PRELUDE}.false": ("{0} is False", []),
    f"{PRELUDE}.[]": ("len({0}) == 0", []), f"{PRELUDE}.◌∷◌": ("len({0}) > 0", ["{0}[0]", "{0}[1:]"]),
    f"{PRELUDE}.pos": ("{0} >= 0", ["{0}"]), f"{PRELUDE}.negsuc": ("{0} < 0", ["-1 - {0}"]),
    f"{FLOAT}.nan": ("{0} != {0}", []), f"{FLOAT}.inf": ("isinf({0})", ["{0} < 0"]),
    f"{FLOAT}.fin": ("isfinite({0})", ["parts({0})[0]", "parts({0})[1]", "parts({0})[2]"]),
    f"{OPTION}.none": ("{0}[0] == 'none'", []), f"{OPTION}.some": ("{0}[0] == 'some'", ["{0}[1]"]),
}
NAMES = {
    "minus": minus, "quotient": quotient, "remainder": remainder, "get_or": get_or, "set_at": set_at, "leading_zeros": leading_zeros, "from_le_bytes": from_le_bytes,
    "of_bits": of_bits, "to_bits": to_bits, "round64": round64, "of_int": of_int, "add": add, "sub": sub, "mul": mul, "div": div, "fits": fits,
    "parts": parts, "fin": fin, "inf": inf, "up": up, "down": down, "same": same, "both": both, "isfinite": math.isfinite, "isinf": math.isinf,
    "NAN": math.nan, "BINARY64": ("binary64",), "Stated": Stated, "Refused": Refused, "cache": functools.cache,
}
