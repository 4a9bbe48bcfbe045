"""Derives a filed outline from the picture and the record, by the steps of docs/OUTLINE.md and nothing else.

    python3 examples/derive.py badge.record.txt badge.ppm

reads the settings and the picture, works out mask, weights, keyed flag and crop box, and says of each whether it is as filed.
Then it opens the files of the mask and the weights beside the record, and says of each whether it is as derived, byte for byte,
and as filed, by its sum. Without a picture it takes badge.picture.ppm or badge.picture.pam beside the record.

It ends with 0 when all is as filed, with 1 when something is not, and with 2 when a file is missing or is not what it should be.

It shares no code with the program, and needs nothing but Python 3.7 or later and two files beside it: derive_read.py, which reads
record and picture, and derive_steps.py, which takes the steps. It is good for every picture that the program cuts. Measured with
Python 3.11 and one pass of growth:

    300 by 300 pixels       0.1 s    20 MB
    1000 by 1000            0.3 s    45 MB
    4000 by 3000              2 s   330 MB    clean card
    4000 by 3000             15 s   450 MB    every fortieth pixel of the card a speck
    4000 by 3000             60 s   600 MB    every fourth pixel of any colour
"""

import hashlib
import os
import struct
import sys
from contextlib import contextmanager

from derive_read import Wrong, read_picture, read_record
from derive_steps import Picture, outline

RECORD = ".record.txt"
# The ends of the other files' names, and the record's lines that have their sums.
MASK, WEIGHTS, SEEN = ".mask.pbm", ".weights.f64", ".weights.pgm"
SUMS = {MASK: "mask_sha256", WEIGHTS: "weights_sha256", SEEN: "weights_pgm_sha256"}
# The eight bytes of each weight v / 255, lowest first.
BINARY64 = [struct.pack("<d", v / 255) for v in range(256)]


def derive(record, picture):
    """What the record should say, by its keys, and what the files beside it should hold, by the ends of their names."""
    derived = outline(
        picture,
        threshold=int(record["alpha_threshold"]),
        key=record["key_bg"] == "yes",
        passes=max(0, int(record["key_bg_fringe"])),
        tolerance=float(record["key_bg_tolerance"]),
        crop=record["crop_to_alpha"] == "yes",
        given=record.get("card_colour"),
    )
    if derived is None:
        raise Wrong("no pixel's alpha reaches the threshold, and such a picture is never cut; give the picture that was cut")
    mask, weights, keyed, crop = derived
    sides = b"%d %d\n" % (picture.w, picture.h)
    files = {
        MASK: b"P4\n" + sides + b"".join(packed(row) for row in picture.rows(picture.digits(mask))),
        WEIGHTS: b"".join(b"".join([BINARY64[v] for v in row]) for row in weights),
        SEEN: b"P5\n" + sides + b"255\n" + b"".join(weights),
    }
    lines = {
        "rows": str(picture.h),
        "columns": str(picture.w),
        "keyed": "yes" if keyed else "no",
        "crop": " ".join(map(str, crop)),
    }
    lines.update((SUMS[end], sum_of(held)) for end, held in files.items())
    return lines, files


def packed(digits):
    """A row of the mask's file: eight digits a byte, and zeros after the last digit."""
    return (int(digits, 2) << -len(digits) % 8).to_bytes((len(digits) + 7) // 8, "big")


def sum_of(data):
    return hashlib.sha256(data).hexdigest()


class Report:
    """What was compared, line by line, and the status to end with."""

    def __init__(self, name, record):
        self.name, self.record = name, record
        self.lines, self.status = [], 0

    def say(self, what, answer, status):
        self.lines.append(f"{printable(what)}: {answer}")
        self.status = max(self.status, status)

    def line(self, key, value):
        """Compares a line of the record with what was derived for it."""
        if key in self.record:
            same = self.record[key] == value
            self.say(key, "as filed" if same else f"NOT as filed; it comes to {value}", 0 if same else 1)

    def files(self, derived):
        """Compares the files beside the record. Of the two files of the weights one is enough."""
        there = {end for end in derived if os.path.lexists(self.name + end)}
        for end, held in derived.items():
            if end in there:
                self.file(end, held)
            elif end != MASK and there & {WEIGHTS, SEEN}:
                self.say(self.name + end, "not there; one file of the weights is enough", 0)
            else:
                self.say(self.name + end, "NOT there; lay it beside the record", 2)

    def file(self, end, held):
        """Compares a file with what was derived for it, and with its sum in the record."""
        path = self.name + end
        try:
            data = read(path)
        except Wrong as why:
            return self.say(path, why, 2)
        said = "as derived" if data == held else "NOT as derived"
        if SUMS[end] not in self.record:
            said += "; the record has no sum of it"
        else:
            said += ", as filed" if self.record[SUMS[end]] == sum_of(data) else ", NOT as filed"
        self.say(path, said, 1 if "NOT" in said else 0)


def printable(path):
    """A name without what a terminal might not show as a letter."""
    return "".join(letter if letter.isprintable() else "?" for letter in path)


def read(path):
    try:
        with open(path, "rb") as file:
            return file.read()
    except OSError as why:
        raise Wrong(f"it could not be read: {why.strerror}") from None


@contextmanager
def about(path):
    """Puts a file's name before the sentence that says what is wrong with it."""
    try:
        yield
    except Wrong as why:
        raise Wrong(f"{printable(path)}: {why}") from None


def decoded(name):
    """The picture beside the record, which is there where the photograph was decoded before it was cut; else None."""
    paths = (f"{name}.picture.{end}" for end in ("ppm", "pam"))
    return next(filter(os.path.exists, paths), None)


def compare(record_path, picture_path=None):
    """Derives the outline and compares it with what is filed."""
    with about(record_path):
        if not record_path.endswith(RECORD):
            raise Wrong(f"the name of a record ends in {RECORD}; give the record first and then the picture")
        record = read_record(read(record_path))
        name = record_path[: -len(RECORD)]
        path = picture_path or decoded(name)
        if path is None:
            raise Wrong("beside it is no picture that ends in .picture.ppm or .picture.pam; give the picture that was cut")
    with about(path):
        data = read(path)
        own = sum_of(data)
        if own == record.get("original_sha256"):
            cut = printable(decoded(name) or f"{name}.picture.ppm")
            raise Wrong(f"it is the original, which was decoded before it was cut; give {cut}, the picture that was cut")
        lines, files = derive(record, Picture(*read_picture(data)))
    report = Report(name, record)
    report.line("picture_sha256", own)
    if "original_sha256" in record:
        report.say("original_sha256", "not compared; it is the sum of the photograph that was decoded", 0)
    for key, value in lines.items():
        report.line(key, value)
    report.files(files)
    return report


def main(words):
    if words in (["--help"], ["-h"]):
        print(__doc__, end="")
        return 0
    try:
        if len(words) not in (1, 2):
            raise Wrong("give a record, and the picture that was cut; --help says more")
        report = compare(*words)
    except Wrong as why:
        print(f"derive: {why}", file=sys.stderr)
        return 2
    sys.stdout.reconfigure(errors="backslashreplace")
    print("\n".join(report.lines))
    return report.status


if __name__ == "__main__":
    sys.exit(main(sys.argv[1:]))
