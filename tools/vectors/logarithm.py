#!/usr/bin/env python3
# Vectors of `ln` and `ln_1p`: named arguments (ends of the domains, close to 1 and to 0 on both sides, the places where the method changes, what is
# refused) and random ones from a fixed seed. The answers come from the definition of logarithm/specs/Logarithm.antt, written here in Python's whole
# numbers; each is compared with mpmath at 400 bits, and the run stops at a distance above 2^-48.
import math, random, struct, mpmath as mp
mp.mp.prec = 400
def bits(x): return struct.unpack('<Q', struct.pack('<d', x))[0]
def value(b): return struct.unpack('<d', struct.pack('<Q', b))[0]
COEFFICIENTS = [(1 << 63) // (2 * i + 1) for i in range(11)]
def horner(q):
    h = 0
    for c in reversed(COEFFICIENTS): h = c + (h * q >> 64)
    return h
def zeros(y): return 64 - y.bit_length()
def quotient(n, d):
    upper = d >> 32
    digit = n // (upper + 1)
    left = ((n - digit * upper) << 32) - digit * (d & 0xffffffff)
    return (digit << 32) + left // (upper + 1)
def packed(s, y, e):
    l = zeros(y)
    return (s << 63) + ((e - l) << 52) + (((y << l) // 1024 + 1) // 2)
def core(n, d, sh):
    z = quotient(n, d)
    return z * horner((z >> sh) ** 2 >> 64) >> 64
def multiple(k): return k * 12486629536330718 + (k * 7525737178955839 >> 54)
def far(g, k, s, r, sh):
    c = r >> (sh + 8)
    return packed(g, multiple(k) + c if s == g else multiple(k) - c, 1031)
def join(k, s, r, sh):
    if k == 1023: return 0 if r == 0 else packed(s, r, 1023 - sh)
    return far(1, 1023 - k, s, r, sh) if k < 1023 else far(0, k - 1023, s, r, sh)
def signed(k, s, n, d):
    sh = zeros(n) - 3
    return join(k, s, core(n << sh, d, sh), sh)
def reduced(k, m):
    if m < 12297829382473034411: return signed(k, 0, m // 2 - (1 << 62), m // 2 + (1 << 62))
    return signed(k + 1, 1, (1 << 62) - m // 4, m // 4 + (1 << 62))
def ln(b):
    x = value(b)
    if not (2.0 ** -1022 <= x <= value(0x7fefffffffffffff)): return None
    return reduced((b >> 52) % 2048, (b % 2 ** 52 + 2 ** 52) * 2048)
def ln_1p(b):
    v = value(b)
    if not (-1.0 < v <= 2.0 ** 20): return None
    s, f, m = b >> 63, (b >> 52) % 2048, b % 2 ** 52 + 2 ** 52
    if f < 969: return b
    if f < 1021:
        sh = 1021 - f
        q = m * 256 >> sh
        return join(1023, s, core(m * 256, (1 << 63) - q if s else (1 << 63) + q, sh), sh)
    y = (1 << 1075 - f) - m if s else (1 << 1075 - f) + m
    return reduced(f + 11 - zeros(y), y << zeros(y))
def exact(which, b):
    x = mp.mpf(value(b))
    return mp.log(x) if which == 0 else mp.log1p(x)
def steps(x, n): return [value(bits(x) + k) for k in range(-n, n + 1)]
EPS = 2.0 ** -52
named = [
    steps(1.0, 8) + steps(4 / 3, 3) + steps(2 / 3, 3) + steps(2.0, 2) + steps(0.5, 2) + [1 + 2.0 ** -k for k in range(1, 52)] + [1 - 2.0 ** -k for k in range(1, 53)]
    + [2.0 ** -1022, value(0x0010000000000001), value(0x7fefffffffffffff), 2.0 ** 1023, math.e, 10.0, 1e-300, 1e300, math.ulp(1.0)]
    + [0.0, -0.0, value(1), value(0x000fffffffffffff), -2.0 ** -1022, -1.0, math.inf, -math.inf, math.nan],
    [0.0, -0.0, value(1), -value(1), value(0x000fffffffffffff), -value(0x000fffffffffffff), 2.0 ** -1022, -2.0 ** -1022]
    + [s * y for s in (1, -1) for k in (54, 53, 2) for y in steps(2.0 ** -k, 3)] + [s * 2.0 ** -k for s in (1, -1) for k in range(1, 80)]
    + [-1 + 2.0 ** -k for k in range(1, 54)] + steps(1.0, 2) + steps(1 / 3, 2) + [-1 / 3, 2.0 ** 20, value(bits(2.0 ** 20) - 1), 2.0 ** 19, 1000.0]
    + [-1.0, value(bits(-1.0) + 1), value(bits(2.0 ** 20) + 1), -2.0, 1e300, math.inf, -math.inf, math.nan]]
random.seed(20)
named[0] += [value(random.randrange(1 << 52, 2047 << 52)) for _ in range(1000)] + [math.exp(random.uniform(-2, 2)) for _ in range(1000)]
named[1] += [random.choice((1, -1)) * value(random.randrange(900 << 52, 1023 << 52)) for _ in range(1000)] + [2.0 ** 20 * random.random() ** 4 for _ in range(1000)]
def records():
    for which, arguments in enumerate(named):
        for x in arguments:
            b = bits(x)
            r = (ln, ln_1p)[which](b)
            if r is not None:
                e = exact(which, b)
                distance = abs(mp.mpf(value(r)) - e) / abs(e) if e else abs(mp.mpf(value(r)))
                assert distance <= mp.mpf(2) ** -48, (which, x, distance)
            yield which + 1, b, 0, 2 ** 64 - 1 if r is None else r
