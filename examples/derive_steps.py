"""The steps of docs/OUTLINE.md, from a picture and its settings to the outline, for derive.py."""

import re
from bisect import bisect

# How many places there are around each pixel in every direction: dy² + dx² of at most 36 leads no farther.
MARGIN = 6


class Picture:
    """A picture, and sets of its pixels.

    The pixels have their places in one long line, row after row. Beside each row are 6 places that belong to no pixel, and 6 rows
    of such places are above and below the picture. So a place and the 6 in each direction of it are always there.

    A set of pixels is one whole number, written in binary: a digit for each place, the first place first, and 1 on the pixels of
    the set. So `a & b` is what both sets hold, `a | b` what either holds, `a & ~b` what a holds and b does not; `a >> n` is the
    set moved n places on, and `a << n` the set moved n places back.
    """

    def __init__(self, h, w, depth, samples):
        self.h, self.w = h, w
        self.line = w + MARGIN
        channels = [self.laid_out(samples[c::depth]) for c in range(depth)]
        opaque = self.laid_out(b"\xff" * (h * w))
        self.colours = channels[:3] if depth >= 3 else channels[:1] * 3
        self.alpha = channels[-1] if depth in (2, 4) else opaque
        self.all = int(opaque.translate(b"0" * 255 + b"1"), 2)

    def laid_out(self, plane):
        """A byte for each pixel as a byte for each place."""
        rows = (plane[i : i + self.w] + bytes(MARGIN) for i in range(0, len(plane), self.w))
        outside = bytes(MARGIN * self.line)
        return outside + b"".join(rows) + outside

    def place(self, y, x):
        return (y + MARGIN) * self.line + x

    def rows(self, line):
        """The rows of the picture, out of something that has one element for each place."""
        starts = (self.place(y, 0) for y in range(self.h))
        return [line[start : start + self.w] for start in starts]

    def chosen(self, plane, wanted):
        """The set of the pixels whose byte in the plane is wanted."""
        return int(plane.translate(bytes(b"01"[wanted(v)] for v in range(256))), 2) & self.all

    def digits(self, pixels):
        """A set as a text of its digits."""
        return f"{pixels:0{len(self.alpha)}b}"

    def gathered(self, spans):
        """The set of the pixels in these spans of places."""
        digits = bytearray(b"0" * len(self.alpha))
        for start, end in spans:
            digits[start:end] = b"1" * (end - start)
        return int(digits, 2)

    def within(self, pixels, k):
        """The pixels that are at most k rows and at most k columns away from one of these."""
        wide = pixels
        for n in range(1, k + 1):
            wide |= pixels << n | pixels >> n
        high = wide
        for n in range(self.line, k * self.line + 1, self.line):
            high |= wide << n | wide >> n
        return high & self.all


def outline(picture, threshold, key, passes, tolerance, crop, given=None):
    """Mask, weights, keyed flag and crop box, or None where no alpha reaches the threshold.

    The card's colour is given in six hexadecimal digits, or is not. The mask is a set; the weights are bytes for each row, v for
    the weight v / 255.
    """
    mask = picture.chosen(picture.alpha, lambda v: v >= threshold)
    if not mask:
        return None
    background = None
    if mask == picture.all and key:
        background = background_of(picture, tolerance, passes, given)
    if background is not None:
        mask &= ~background
    return mask, weights_of(picture, mask), background is not None, crop_of(picture, mask, crop)


def background_of(picture, tolerance, passes, given):
    """Steps 2 to 6: the grown ground, or None where no ground is found."""
    border = border_list(picture)
    colour = reference(picture, border, given)
    # How far byte v of each channel is from the reference.
    distances = [[abs(v / 255 - channel) for v in range(256)] for channel in colour]
    close = close_pixels(picture, distances, tolerance)
    background = ground(picture, close, border)
    digits = picture.digits(close)
    count = sum(digits[i] == "1" for i in border)
    if 10 * count < 9 * len(border) or background == picture.all:
        return None
    for _ in range(passes):
        new = joining(picture, background, distances)
        if not new:
            break
        background |= new
    return background


def border_list(picture):
    """Step 2: row 0, row h - 1, then column 0 and column w - 1 of the rows between, as places."""
    h, w, place = picture.h, picture.w, picture.place
    rows = [place(y, x) for y in (0, h - 1) for x in range(w)]
    return rows + [place(y, x) for x in (0, w - 1) for y in range(1, h - 1)]


def reference(picture, border, given):
    """Step 3: the colour that is given or, without one, of each channel half the sum of the two middle values."""
    if given is not None:
        return [v / 255 for v in bytes.fromhex(given)]
    middle = len(border) // 2
    channels = (sorted(plane[i] for i in border) for plane in picture.colours)
    return [(values[middle - 1] / 255 + values[middle] / 255) / 2 for values in channels]


def close_pixels(picture, distances, tolerance):
    """Step 4: the pixels of which no channel is farther from the reference than the tolerance."""
    close = picture.all
    for plane, distance in zip(picture.colours, distances):
        close &= picture.chosen(plane, lambda v: distance[v] <= tolerance)
    return close


def ground(picture, close, border):
    """Step 5: the close pixels that steps over close pixels join to a close border pixel.

    It goes by runs, which are close pixels side by side. A step up or down leads from one run to another where the first, moved by
    a row, overlaps the other.
    """
    digits = picture.digits(close)
    runs = [run.span() for run in re.finditer("1+", digits)]
    ends = [end for _, end in runs]
    found = {bisect(ends, i) for i in border if digits[i] == "1"}
    waiting = list(found)
    while waiting:
        start, end = runs[waiting.pop()]
        for row in -picture.line, picture.line:
            n = bisect(ends, start + row)
            while n < len(runs) and runs[n][0] < end + row:
                if n not in found:
                    found.add(n)
                    waiting.append(n)
                n += 1
    return picture.gathered(runs[n] for n in found)


def joining(picture, background, distances):
    """Step 6, one pass: the edge pixels that are more than half backdrop."""

    def difference(i):
        return max(distance[plane[i]] for distance, plane in zip(distances, picture.colours))

    around = picture.within(background, 1)
    edge = around & ~background
    shallow = picture.all & ~around
    deep = picture.all & ~picture.within(background, 4)
    if not shallow:
        return 0
    shallow, deep = Nearest(picture, shallow), Nearest(picture, deep)
    new = []
    for found in re.finditer("1", picture.digits(edge)):
        i = found.start()
        body = deep.near(i) or shallow.near(i) or shallow.far(i)
        full, mixed = difference(body), difference(i)
        if full > 1e-6 and 2 * mixed < full:
            new.append(found.span())
    return picture.gathered(new)


class Nearest:
    """The pixels of a set that are nearest to others: the least dy² + dx², among equals the least column, then the least row."""

    def __init__(self, picture, pixels):
        self.picture, self.digits = picture, picture.digits(pixels)
        steps = range(-MARGIN, MARGIN + 1)
        ways = sorted((dy * dy + dx * dx, dx, dy) for dy in steps for dx in steps)
        self.ways = [dy * picture.line + dx for square, dx, dy in ways if square <= 36]
        self.rows, self.stretches = None, {}

    def near(self, i):
        """The place of the nearest pixel to place i, or None where dy² + dx² is above 36."""
        return next((i + way for way in self.ways if self.digits[i + way] == "1"), None)

    def far(self, i):
        """The place of the nearest pixel to place i, at any distance."""
        y, x = i // self.picture.line - MARGIN, i % self.picture.line
        if self.rows is None:
            self.rows = nearest_in_columns(self.picture.rows(self.digits))
        if y not in self.stretches:
            # Pixels are asked for row by row, so one row is kept.
            self.stretches = {y: stretches_of(self.rows[y], y)}
        starts, columns = self.stretches[y]
        column = columns[bisect(starts, x) - 1]
        return self.picture.place(self.rows[y][column], column)


def nearest_in_columns(digits):
    """For each row a list: for each column the row of the column's nearest pixel, of two the upper."""
    h, w = len(digits), len(digits[0])
    nowhere = 10**6
    rows, above, below = [], [-nowhere] * w, [nowhere] * w
    for y in range(h):
        above = [y if digit == "1" else a for digit, a in zip(digits[y], above)]
        rows.append(above)
    for y in reversed(range(h)):
        below = [y if digit == "1" else b for digit, b in zip(digits[y], below)]
        rows[y] = [a if y - a <= b - y else b for a, b in zip(rows[y], below)]
    return rows


def stretches_of(rows, y):
    """Row y in stretches from left to right: where each starts, and the column that has the nearest pixel to all of the stretch.

    Column x has its own nearest pixel in row rows[x]. Where two columns are equally near, the left one is taken.
    """
    starts, columns, heights = [], [], []
    for x, row in enumerate(rows):
        start, height = 0, x * x + (row - y) ** 2
        while starts:
            # From here on column x is nearer than the column of the last stretch.
            start = (height - heights[-1]) // (2 * (x - columns[-1])) + 1
            if start > starts[-1]:
                break
            start = 0
            for each in starts, columns, heights:
                each.pop()
        if start < len(rows):
            starts.append(start)
            columns.append(x)
            heights.append(height)
    return starts, columns


def weights_of(picture, mask):
    """Step 8: for each row a byte v for each pixel's weight v / 255."""
    rows = zip(picture.rows(picture.digits(mask)), picture.rows(picture.alpha))
    return [bytes(max(v, 1) if on == "1" else 0 for on, v in zip(*row)) for row in rows]


def crop_of(picture, mask, asked):
    """Step 9: first row, row after the last, first column, column after the last."""
    h, w = picture.h, picture.w
    if not asked or mask == picture.all:
        return 0, h, 0, w
    rows = picture.rows(picture.digits(mask))
    ys = [y for y in range(h) if "1" in rows[y]]
    left = min(rows[y].find("1") for y in ys)
    right = max(rows[y].rfind("1") for y in ys)
    return max(0, ys[0] - 1), min(h, ys[-1] + 2), max(0, left - 1), min(w, right + 2)
