#!/usr/bin/env python3
"""write.py: writes the streams of this folder anew, from the description of the format alone (tests/streams.py)."""
import os
import sys

HERE = os.path.dirname(os.path.abspath(__file__))
sys.path.insert(0, os.path.join(HERE, "..", "tests"))
sys.dont_write_bytecode = True
import streams

# Days since 1970, a sensor and what it read in thousandths of a degree; a batch for each of three days.
COLUMNS = [("day", "int32", False), ("sensor", "uint16", False), ("millidegrees", "int32", True)]
READINGS = [[[20000 + day] * 8, [101, 102, 103, 104, 205, 206, 207, 208],
             [day * 250 + step * 1375 - 4000 for step in range(8)]] for day in range(3)]

with open(os.path.join(HERE, "readings.arrows"), "wb") as out:
    out.write(streams.stream(COLUMNS, READINGS))
