#!/usr/bin/env python3
# Vectors of the root: Python's `math.sqrt` is the C library's, which is correctly rounded. See docs/VECTORS.md.
import math
import random
import struct

LARGEST = 0x7FEFFFFFFFFFFFFF
INFINITY = 0x7FF0000000000000
SIGN = 0x8000000000000000
NAN = 0x7FF8000000000000
OUTSIDE = 2**64 - 1


def value(bits):
    return struct.unpack("<d", struct.pack("<Q", bits))[0]


def pattern(x):
    return struct.unpack("<Q", struct.pack("<d", x))[0]


def root(bits):
    x = value(bits)
    if math.isnan(x) or math.isinf(x) or x < 0.0:
        return OUTSIDE
    return pattern(math.sqrt(x))


def around(bits, reach):
    return [b for b in range(bits - reach, bits + reach + 1) if 0 < b <= LARGEST]


def arguments():
    pick = random.Random(20)
    # either zero, the ends of the subnormals and of the floats, and what is outside
    ends = [0, 1, 2, 3, 0xFFFFFFFFFFFFF, 0x10000000000000, 0x10000000000001, LARGEST - 1, LARGEST]
    yield from ends
    yield from (b + SIGN for b in ends)
    yield from (INFINITY, INFINITY + SIGN, INFINITY + 1, NAN, NAN + SIGN, 2 * SIGN - 1)
    # each power of two
    for e in range(-1074, 1024):
        yield pattern(math.ldexp(1.0, e))
    # squares and their neighbours, at many exponents
    for _ in range(400):
        n = pick.randrange(1, 1 << 26)
        yield from around(pattern(math.ldexp(float(n * n), 2 * pick.randrange(-500, 480))), 1)
    # neighbours of the squares of midpoints: the arguments whose roots are hardest to round
    for _ in range(400):
        m = 2 * pick.randrange(1 << 52, 1 << 53) + 1
        yield from around(pattern(math.ldexp(float(m * m), 2 * pick.randrange(-560, 450))), 1)
    # on both sides of each edge of the first guess's table
    for j in range(64, 256):
        yield from around(pattern(j / 64.0), 1)
    # subnormals, and any positive float
    yield from (pick.randrange(1, 1 << pick.randrange(1, 53)) for _ in range(600))
    yield from (pick.randrange(1, INFINITY) for _ in range(1500))



def records():
    for bits in arguments():
        yield 0, bits, 0, root(bits)
