"""Document 01's sizes: the side as crates/sizes has it, and the lengths that hang on it."""
import os
import re

SOURCE = os.path.join(os.path.dirname(os.path.abspath(__file__)), "../../crates/sizes/src/lib.rt")
with open(SOURCE) as f:
    SIDE = int(re.search(r"^pub const SIDE: usize = (\d+);$", f.read(), re.M).group(1))

SHEET = SIDE * SIDE
SHEETS = 6 * SHEET
TABLE = 4 * SHEET
COUNTS = 3 * SHEET
LISTS = 5 * SIDE
