#!/usr/bin/python3
"""Compares the library with SciPy itself.

    apt-get install python3-scipy        # Debian
    /usr/bin/python3 host/scipy/compare.py [ARCHIVE]

Makes a shared object of ARCHIVE (by default target/staticlib/libstand.a) with `cc`,
calls it, and compares every value of

    nearest  distance_transform_edt(1 - mask, return_indices=True)
    labels   label(mask), with their number
    squares  binary_dilation(mask, structure=ones((3, 3)), iterations=k)

on all masks with h × w ≤ 12, on random masks of sides to 64 and on large ones. Says
what it compared; exit status 1 on the first difference.
"""

import ctypes
import itertools
import pathlib
import subprocess
import sys
import tempfile

import numpy as np
import scipy
from scipy import ndimage

ROOT = pathlib.Path(__file__).resolve().parents[2]
SQUARE = np.ones((3, 3))


class Labels(ctypes.Structure):
    _fields_ = [("refusal", ctypes.c_uint32), ("parts", ctypes.c_uint32)]


def library(archive, folder):
    """The library as a shared object."""
    shared = pathlib.Path(folder) / "libstand.so"
    whole = ["-Wl,--whole-archive", str(archive), "-Wl,--no-whole-archive"]
    subprocess.run(["cc", "-shared", "-o", str(shared), *whole], check=True)
    lib = ctypes.CDLL(str(shared))
    lib.stand_labels.restype = Labels
    return lib


def lent(array):
    """A buffer as the C interface takes it: its start and its length."""
    return array.ctypes.data_as(ctypes.c_void_p), ctypes.c_size_t(array.size)


class Comparison:
    def __init__(self, lib):
        self.lib = lib
        self.masks = 0
        self.values = 0

    def same(self, what, mask, ours, theirs):
        self.values += ours.size
        if not np.array_equal(ours, theirs):
            print(f"{what} differs on a mask of {mask.shape}:\n{mask}")
            sys.exit(1)

    def nearest(self, mask, sides, room):
        work = np.zeros(room, np.uint32)
        rows, columns = np.zeros(mask.shape, np.int32), np.zeros(mask.shape, np.int32)
        planes = *lent(rows), *lent(columns)
        refusal = self.lib.stand_nearest(*lent(mask), *sides, *lent(work), *planes)
        assert refusal == 0
        _, (y, x) = ndimage.distance_transform_edt(mask == 0, return_indices=True)
        self.same("rows of nearest", mask, rows, y)
        self.same("columns of nearest", mask, columns, x)

    def labels(self, mask, sides, room):
        parents, plane = np.zeros(room, np.uint32), np.zeros(mask.shape, np.uint32)
        answer = self.lib.stand_labels(*lent(mask), *sides, *lent(parents), *lent(plane))
        theirs, parts = ndimage.label(mask)
        assert answer.refusal == 0
        self.same("labels", mask, plane, theirs)
        self.same("the number of parts", mask, np.array(answer.parts), np.array(parts))

    def squares(self, mask, sides, room, k):
        work, out = np.zeros(room, np.uint8), np.zeros(mask.shape, np.uint8)
        times = ctypes.c_uint64(k)
        assert self.lib.stand_squares(*lent(mask), *sides, times, *lent(work), *lent(out)) == 0
        theirs = ndimage.binary_dilation(mask, structure=SQUARE, iterations=k)
        self.same(f"squares, k {k}", mask, out, theirs)

    def mask(self, mask, iterations):
        mask = np.ascontiguousarray(mask, np.uint8)
        h, w = mask.shape
        sides = ctypes.c_size_t(h), ctypes.c_size_t(w)
        room = 2 * h * w + 2 * (h + w) + 16
        self.nearest(mask, sides, room)
        self.labels(mask, sides, room)
        for k in iterations:
            self.squares(mask, sides, room, k)
        self.masks += 1


def small():
    """All masks with h × w ≤ 12."""
    for h, w in itertools.product(range(1, 13), repeat=2):
        if h * w <= 12:
            for bits in itertools.product((0, 1), repeat=h * w):
                yield np.array(bits, np.uint8).reshape(h, w)


def main():
    random = np.random.default_rng(1)
    archive = sys.argv[1] if len(sys.argv) > 1 else ROOT / "target/staticlib/libstand.a"
    with tempfile.TemporaryDirectory() as folder:
        comparison = Comparison(library(archive, folder))
        for mask in small():
            comparison.mask(mask, (0, 1, 2))
        for _ in range(3000):
            h, w = random.integers(1, 65, 2)
            share = random.choice([0.0, 0.01, 0.1, 0.5, 0.9, 0.99, 1.0])
            comparison.mask(random.random((h, w)) < share, (0, 1, int(random.integers(2, 70))))
        for side in (512, 1024, 2048):
            for share in (0.0005, 0.03, 0.5, 0.97, 1.0):
                comparison.mask(random.random((side, side)) < share, (1, 4))
    print(f"SciPy {scipy.__version__}, numpy {np.__version__}: {comparison.masks} masks,", end=" ")
    print(f"{comparison.values} values, no difference")


main()
