#!/usr/bin/env python3
"""Lines for the program `coefficients`: an adapter's name and a pole g in decimal, parted by blanks, become name, tab and
the 16 hex digits of the nearest double. What follows a `#` is left out.

    python3 samples/poles.py <samples/butterworth.txt | samples/coefficients
"""
import struct
import sys

for line in sys.stdin:
    fields = line.split("#")[0].split()
    if fields:
        name, g = fields
        print(f"{name}\t{struct.pack('>d', float(g)).hex()}")
