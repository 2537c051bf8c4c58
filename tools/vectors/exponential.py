#!/usr/bin/env python3
# Vectors of `exp`, `exp_m1` and `tanh`: ends of the domains, tiny arguments, the places where the method changes, whole parts 0 and ±1, seams at half
# whole parts, and random ones from a fixed seed. The answers come from the definitions of exponential/specs, written here in Python's whole numbers;
# each is compared with mpmath at 200 bits, and the run stops at a distance above 2^-48.
import math
import random
import re
import struct

import mpmath as mp

mp.mp.prec = 200
POWERS = [int(x) for x in re.search(r"powers = (.*) ∷ \[\]", open("crates/exponential/specs/Powers.antt").read()).group(1).split(" ∷ ")]
CORE = [12786308645202655659, 34620288231216698, 62492070775105, 84601958330, 91627513]
OVER = [8511803295730238385, 236438980436951066, 562949953421312]
UNDER = [8511803295730238385, 945755921747804265, 8444249301319680]
ONES = 2**52 - 1
REFUSED = 2**64 - 1


def bits(x):
    return struct.unpack("<Q", struct.pack("<d", x))[0]


def value(b):
    return struct.unpack("<d", struct.pack("<Q", b))[0]


def horner(coefficients, q):
    h = 0
    for c in reversed(coefficients):
        h = c + (h * q >> 64)
    return h


def significand(w):
    p, d = POWERS[w >> 46 & 127], (w & 2**46 - 1) << 18
    return p + (p * (d * horner(CORE, d) >> 64) >> 71)


def exponent(b):
    m, f = (b & ONES) + 2**52 << 11, b >> 52 & 2047
    v = (m >> 1032 - f) * 13306513097844322491 >> 64
    return 1023 * 2**53 - v if b >> 63 else 1023 * 2**53 + v


def pack(s, y, e):
    l = 64 - y.bit_length()
    return s * 2**63 + (e - l) * 2**52 + ((y << l >> 10) + 1) // 2


def exp(b):
    w = exponent(b)
    return ((w >> 53) - 1) * 2**52 + ((significand(w) >> 10) + 1) // 2


def exp_m1(b):
    f = b >> 52 & 2047
    if f < 969:
        return b
    if f < 1021:
        s = (b & ONES) + 2**52 << 11 >> 1022 - f
        q = s * s >> 64
        a = horner(OVER, q)
        h = (s * a >> 64) // 2
        d = horner(UNDER, q) + (h if b >> 63 else -h)
        return bits(value(b) * float(a // 2048) / float(d // 2048))
    w = exponent(b)
    y = significand(w)
    if b >> 63:
        return pack(1, 2**63 - (y >> 1023 - (w >> 53)), 1022)
    return pack(0, y - (2**63 >> (w >> 53) - 1023), (w >> 53) - 1)


def tanh(b):
    if b >> 52 & 2047 < 1006:
        return b
    w = exponent(b + 2**52)
    k = (w >> 53) - 1023
    e = float((significand(w) >> max(0, -k)) // 4096)
    one = float((2**63 >> max(0, k)) // 4096)
    return bits((e - one) / (e + one))


def arguments():
    pick = random.Random(7)
    ln2 = math.log(2)
    named = [0.0, 5e-324, 2.0**-1022, 1e-300, 2.0**-54, 2.0**-55, 2.0**-17, 2.0**-18, 0.25, 0.5, 1.0, ln2, ln2 / 2, 3 * ln2 / 2, 350.0, 700.0, 1e308, math.inf]
    chosen = {bits(s * x) + d for x in named for s in (1, -1) for d in (-2, -1, 0, 1, 2)}
    chosen |= {bits((k + h) * ln2) + d for k in range(-1009, 1010, 97) for h in (-0.5, 0, 0.5) for d in (-1, 0, 1)}
    chosen |= {bits((k + pick.uniform(-0.5, 0.5)) * ln2) for k in (-1, 0, 1) for _ in range(40)}
    chosen |= {pick.getrandbits(1) << 63 | pick.randrange(940, 1034) << 52 | pick.getrandbits(52) for _ in range(300)}
    return sorted(b for b in chosen if 0 <= b < 2**64)


def records():
    functions = ((3, exp, mp.exp, 700), (4, exp_m1, mp.expm1, 700), (5, tanh, mp.tanh, 350))
    for b in arguments():
        x = value(b)
        for which, function, reference, limit in functions:
            if not -limit <= x <= limit:
                yield which, b, 0, REFUSED
                continue
            r, e = function(b), reference(mp.mpf(x))
            distance = abs(mp.mpf(value(r)) - e)
            assert distance <= mp.mpf(2) ** -48 * (1 if which == 5 else abs(e)), (which, x, distance)
            yield which, b, 0, r
