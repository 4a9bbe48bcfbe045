#!/usr/bin/python3
"""Writes the list of SciPy's answers that is replayed where SciPy is not at hand.

    apt-get install python3-scipy        # Debian
    /usr/bin/python3 host/scipy/record.py [FOLDER]

FOLDER (by default crates/replay_scipy of the repository) gets `stdin` and `stdout` in
the format that host/src/bin/record.rs describes. The calls are

    N  distance_transform_edt(1 - mask, return_indices=True)
    L  label(mask)
    S  binary_dilation(mask, structure=ones((3, 3)), iterations=k)

SciPy takes iterations to 2^31 and raises OverflowError above (seen in 1.10.1), so
the list goes no further. Nothing else is left out.
"""

import pathlib
import platform
import random
import sys

import numpy as np
import scipy
from scipy import ndimage

MOST_PIXELS = 1024
MOST_BYTES = 400_000
MOST_ITERATIONS = 2**31
SQUARE = np.ones((3, 3))


class List:
    """The two texts, case by case."""

    def __init__(self):
        self.stdin = []
        self.stdout = []
        self.cases = {"L": 0, "S": 0, "N": 0}

    def head(self, op, mask, k):
        h, w = mask.shape
        assert h * w <= MOST_PIXELS
        self.cases[op] += 1
        line = f"{op} {h} {w} {k}"
        self.stdin.append(line)
        self.stdin += ["".join(str(int(m)) for m in row) for row in mask]
        self.stdout.append(line)

    def labels(self, mask):
        self.head("L", mask, 0)
        labels, n = ndimage.label(mask)
        self.stdout.append(str(n))
        self.stdout += [" ".join(str(int(v)) for v in row) for row in labels]

    def squares(self, mask, k):
        self.head("S", mask, k)
        out = ndimage.binary_dilation(mask, structure=SQUARE, iterations=k)
        self.stdout += ["".join(str(int(v)) for v in row) for row in out]

    def nearest(self, mask):
        self.head("N", mask, 0)
        _, (rows, cols) = ndimage.distance_transform_edt(1 - mask, return_indices=True)
        for line in zip(rows, cols):
            self.stdout.append(" ".join(f"{int(r)},{int(c)}" for r, c in zip(*line)))

    def all(self, mask, k):
        self.labels(mask)
        self.squares(mask, k)
        self.nearest(mask)


def drawn(text):
    """A mask drawn in lines of digits."""
    return np.array([[int(d) for d in row] for row in text.split("/")], dtype=np.uint8)


def document(out):
    """The proved cases (R73 to R76)."""
    for text in ("101", "1/0/1", "01/10", "00/00"):
        out.nearest(drawn(text))
    for text in ("10/01", "101/111"):
        out.labels(drawn(text))
    for text, k in (("10000", 1), ("10000", 0), ("00000", 1), ("00000", 0)):
        out.squares(drawn(text), k)


def ties(out):
    """On-pixels in mirrored places, so that many are equally near."""
    rng = random.Random(3)
    for _ in range(16):
        h, w = rng.randint(1, 7), rng.randint(1, 7)
        part = np.array([[int(rng.random() < 0.15) for _ in range(w)] for _ in range(h)])
        part[rng.randrange(h), rng.randrange(w)] = 1
        wide = np.hstack([part, part[:, ::-1]]) if rng.random() < 0.5 else part
        high = np.vstack([wide, wide[::-1]]) if rng.random() < 0.7 else wide
        out.nearest(high.astype(np.uint8))
    board = np.indices((7, 10)).sum(axis=0) % 2
    out.nearest(board.astype(np.uint8))
    out.nearest((1 - board).astype(np.uint8))
    y, x = np.indices((15, 15)) - 7
    for square in (1, 5, 25, 49):
        out.nearest((y * y + x * x == square).astype(np.uint8))


def spiral(h, w):
    """One line of one pixel's width that turns inwards with a gap of one pixel."""
    mask = np.zeros((h, w), dtype=np.uint8)

    def on(y, x):
        return 0 <= y < h and 0 <= x < w and mask[y, x] == 1

    y = x = turns = 0
    dy, dx = 0, 1
    mask[0, 0] = 1
    while turns < 2:
        ny, nx = y + dy, x + dx
        inside = 0 <= ny < h and 0 <= nx < w
        if inside and not on(ny, nx) and not on(ny + dy, nx + dx):
            y, x, turns = ny, nx, 0
            mask[y, x] = 1
        else:
            dy, dx, turns = dx, -dy, turns + 1
    return mask


def iterations(h, w):
    """Fixed ones and those about the larger side."""
    larger = max(h, w)
    return [0, 1, 2, 4, 63, 4096, MOST_ITERATIONS, larger - 1, larger, larger + 1]


def built(out):
    """Empty, full, one pixel, lines, spirals, ellipses."""
    for shape in ((1, 1), (6, 4), (1, 12), (12, 1)):
        one = np.zeros(shape, dtype=np.uint8)
        one[-1, 0] = 1
        for mask in (np.zeros(shape, dtype=np.uint8), np.ones(shape, dtype=np.uint8), one):
            out.all(mask, 1)
    for shape in ((13, 13), (18, 21), (32, 32)):
        out.labels(spiral(*shape))
        out.labels(1 - spiral(*shape))
    out.nearest(1 - spiral(13, 13))
    out.squares(spiral(13, 13), 1)
    y, x = np.indices((28, 31))
    ellipse = ((y - 12) ** 2 * 3 + (x - 15) ** 2 * 2 < 330).astype(np.uint8)
    ellipse[9:12, 14:20] = 0
    ellipse[26, :] = 1
    out.all(ellipse, 2)
    out.all(1 - ellipse, 3)
    two = np.zeros((19, 23), dtype=np.uint8)
    two[2, 21] = two[17, 4] = 1
    for k in iterations(*two.shape):
        out.squares(two, k)


def scattered(out):
    rng = random.Random(8)
    densities = (0.005, 0.02, 0.06, 0.15, 0.3, 0.5, 0.59, 0.7, 0.9)

    def mask(h, w, density):
        rows = [[int(rng.random() < density) for _ in range(w)] for _ in range(h)]
        return np.array(rows, dtype=np.uint8)

    for turn in range(36):
        if turn % 6 == 0:
            h, w = 1, rng.randint(2, 60)
        elif turn % 6 == 1:
            h, w = rng.randint(2, 60), 1
        else:
            h, w = rng.randint(2, 22), rng.randint(2, 22)
        out.all(mask(h, w, densities[turn % 9]), iterations(h, w)[turn % 10])
    for h, w, density in ((32, 32, 0.03), (32, 32, 0.5), (1, 1024, 0.02), (1024, 1, 0.02)):
        out.all(mask(h, w, density), 2)


def main():
    here = pathlib.Path(__file__).resolve().parent
    default = here.parents[1] / "crates" / "replay_scipy"
    folder = pathlib.Path(sys.argv[1]) if len(sys.argv) > 1 else default
    out = List()
    document(out)
    ties(out)
    built(out)
    scattered(out)
    stdin = "\n".join(out.stdin) + "\n"
    stdout = "\n".join(out.stdout) + "\n"
    assert len(stdin) + len(stdout) < MOST_BYTES, (len(stdin), len(stdout))
    version = (
        f"# The answers in stdout are those of SciPy {scipy.__version__}, numpy {np.__version__},\n"
        f"# Python {platform.python_version()}, asked by host/scipy/record.py:\n"
        f"# {out.cases['L']} cases of label, {out.cases['S']} of binary_dilation, "
        f"{out.cases['N']} of distance_transform_edt.\n"
    )
    folder.mkdir(parents=True, exist_ok=True)
    (folder / "stdin").write_text(stdin)
    (folder / "stdout").write_text(stdout)
    print(version + f"# {len(stdin)} and {len(stdout)} bytes in {folder}")


if __name__ == "__main__":
    main()
