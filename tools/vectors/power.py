#!/usr/bin/env python3
# Vectors of `powf`: the corners (exponents 0 and 1, base 1), bases next to 1, both ends of both domains, 32^192 and 32^-192, tiny exponents, the first
# numbers outside, what is not finite, and random arguments from a fixed seed. The answers come from the definitions of binary_log/specs, exponential/specs
# and power/specs, written here in Python's whole numbers, the tables worked by mpmath; each is compared with mpmath at 400 bits, and the run stops at a
# distance above 2^-50.
import math, random, struct, mpmath as mp

mp.mp.prec = 400
OUTSIDE = 2**64 - 1
ONE = 0x3FF0000000000000


def pattern(x):
    return struct.unpack("<Q", struct.pack("<d", x))[0]


def value(b):
    return struct.unpack("<d", struct.pack("<Q", b))[0]


def floor(x):
    return int(mp.floor(x))


LN2 = mp.log(2)
FACTORS = [2**18 // (129 + j) for j in range(128)]
LOGS = [floor(-mp.log(mp.mpf(c) / 2048) / LN2 * 2**61) for c in FACTORS]
LOGS[127] = 2**61
ODD = [floor(mp.mpf(2) ** (63 - 6 * (i - 1)) / (i * LN2)) for i in (1, 3, 5, 7)]
EVEN = [floor(mp.mpf(2) ** (63 - 6 * (i - 1)) / (i * LN2)) for i in (2, 4, 6, 8)]
POWERS = [2**63] + [floor(mp.mpf(2) ** (63 + mp.mpf(j) / 128)) for j in range(1, 128)]
TERMS = [floor(mp.mpf(2) ** (64 - 7 * (i - 1)) * LN2**i / math.factorial(i)) for i in range(1, 6)]


def horner(cs, q):
    h = 0
    for c in reversed(cs):
        h = c + (h * q >> 64)
    return h


def log_base(b):
    field, m = b >> 52, (b & (2**52 - 1)) + 2**52
    j = (m >> 45) - 128
    d = (2**63 - FACTORS[j] * m) * 128
    q = d * d >> 64
    log = LOGS[j] - ((d * (horner(ODD, q) + (horner(EVEN, q) * d >> 64)) >> 64) >> 8)
    if field >= 1023:
        return (field - 1023) * 2**61 + log, 0
    return (1023 - field) * 2**61 - log, 1


def exponent(b):
    return ((b & (2**52 - 1)) + 2**52) * 2048 >> (1030 - (b >> 52) % 2048), b >> 63


def raised(w):
    power, low = POWERS[(w >> 46) % 128], w % 2**46 * 2**18
    x = power + ((power * (low * horner(TERMS, low) >> 64) >> 64) >> 7)
    return ((w >> 53) - 1) * 2**52 + (x // 1024 + 1) // 2


def powf(bx, by):
    x, y = value(bx), value(by)
    if not (1 / 32 <= x <= 32) or not (-192 <= y <= 192):
        return OUTSIDE
    if by == ONE:
        return bx
    (l, s), (e, t) = log_base(bx), exponent(by)
    v = min(e * l >> 64, 1022 * 2**53)
    return raised(1023 * 2**53 + v if s == t else 1023 * 2**53 - v)


def distance(bx, by, answer):
    exact = mp.mpf(value(bx)) ** mp.mpf(value(by))
    return abs(mp.mpf(value(answer)) - exact) / exact


def near(b, reach):
    return range(b - reach, b + reach + 1)


def arguments():
    ends = [pattern(v) for v in (1 / 32, 32.0)]
    tops = [pattern(v) for v in (192.0, -192.0)]
    odd = [0, 1, 2**63, 2**63 + 1, 2**52, 0x7FEFFFFFFFFFFFFF, 0x7FF0000000000000, 0xFFF0000000000000, 0x7FF8000000000000]
    bases = [b for e in ends for b in near(e, 3)] + list(near(ONE, 6)) + [pattern(v) for v in (2.0, 0.5, 4 / 3, 2 / 3, 1.5, math.sqrt(2), math.pi)]
    exponents = [b for e in tops for b in near(e, 3)] + list(near(ONE, 3)) + [pattern(v) for v in (0.5, -1.0, 2.0, 6.0, 12.0, 1 / 16, 2.0**-53, 2.0**-56, 2.0**-57, -(2.0**-70))]
    for x in bases + odd:
        for y in exponents + odd:
            yield x, y
    draw = random.Random(20)
    for k in range(6000):
        x = 2.0 ** draw.uniform(-5, 5) if k % 3 else 1 + draw.uniform(-1, 1) * 2.0 ** -draw.uniform(0, 50)
        y = draw.uniform(-192, 192) if k % 2 else draw.uniform(-1, 1) * 2.0 ** -draw.uniform(0, 70)
        yield pattern(min(max(x, 1 / 32), 32.0)), pattern(y)


def records():
    worst = mp.mpf(0)
    for x, y in arguments():
        answer = powf(x, y)
        if answer != OUTSIDE:
            worst = max(worst, distance(x, y, answer))
            assert worst < mp.mpf(2) ** -50, (hex(x), hex(y))
        yield 6, x, y, answer


if __name__ == "__main__":
    import sys
    count = 0
    with open(sys.argv[1], "wb") as out:
        for record in records():
            out.write(struct.pack("<4Q", *record))
            count += 1
    print(count, "records")
