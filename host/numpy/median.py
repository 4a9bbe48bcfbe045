#!/usr/bin/python3
"""Reads pictures and writes the median colour of each one's border, by numpy.

A picture is one line: rows, columns, and 3 * rows * columns numbers, row by row, as
the 64-bit patterns of float64 in hexadecimal. The answer is one line of three such
patterns. The border is taken as pixelforge takes it, repeats included. Run by
tests/reference.rs.
"""

import sys

import numpy as np

for line in sys.stdin:
    h, w, *words = line.split()
    bits = np.array([int(word, 16) for word in words], dtype=np.uint64)
    rgb = bits.view(np.float64).reshape(int(h), int(w), 3)
    border = np.concatenate([rgb[0], rgb[-1], rgb[1:-1, 0], rgb[1:-1, -1]])
    median = np.median(border, axis=0)
    print(*(format(int(b), "x") for b in median.view(np.uint64)))
