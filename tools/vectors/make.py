#!/usr/bin/env python3
"""Writes crates/elementary_main/data/vectors.bin: records of four words, least significant byte first: which function, two arguments' bits, and the
answer's bits, or all ones for a refusal. The seeds are fixed, so that it writes the same file each time. See docs/VECTORS.md."""
import struct

import exponential
import logarithm
import power
import root

with open("crates/elementary_main/data/vectors.bin", "wb") as out:
    for source in (root, logarithm, exponential, power):
        for record in source.records():
            out.write(struct.pack("<4Q", *record))
