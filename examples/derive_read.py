"""Reads a record, and a picture's file, for derive.py."""

import math
import re
import struct


class Wrong(Exception):
    """A sentence that says why there is nothing to derive."""


def shown(text):
    """A text as it is shown in a sentence, at most 60 letters of it."""
    return '"' + text[:60].encode("unicode_escape").decode() + '"'


# The record: docs/PROGRAM.md has its form.

WHOLE = "0|-?[1-9][0-9]{0,18}"
SIDE = "[1-9][0-9]{0,3}"
YES_OR_NO = "yes|no"
COLOUR = "[0-9a-f]{6}"
SUM = "[0-9a-f]{64}"

# The keys of the lines in their order, each with the form of its value.
LINES = {
    "rows": SIDE,
    "columns": SIDE,
    "alpha_threshold": WHOLE,
    "key_bg": YES_OR_NO,
    "key_bg_fringe": WHOLE,
    "key_bg_tolerance": r"-?[0-9]+(\.[0-9]+)?",
    "key_bg_tolerance_bits": "[0-9a-f]{16}",
    "crop_to_alpha": YES_OR_NO,
    "card_colour": COLOUR,
    "keyed": YES_OR_NO,
    "crop": " ".join(["(0|[1-9][0-9]{0,3})"] * 4),
    "picture_sha256": SUM,
    "original_sha256": SUM,
    "mask_sha256": SUM,
    "weights_sha256": SUM,
    "weights_pgm_sha256": SUM,
}
# The first line of each form, and the keys that it does not have. In the second some are there only where they are needed.
FORMS = {"stand record 1": ["card_colour", "original_sha256", "weights_pgm_sha256"], "stand record 2": []}
WHERE_NEEDED = ["card_colour", "original_sha256"]
AS_FILED = "give the record as it was filed"
LATER = "take the script of a later version"


def read_record(data):
    """The values of a record's lines by their keys."""
    first, *lines = data.decode("latin-1").split("\n")
    if first.rstrip("\r") not in FORMS:
        raise Wrong(f'its first line is {shown(first)}, and not "stand record 1" or "stand record 2"; {AS_FILED}, or {LATER}')
    if b"\r" in data:
        raise Wrong(f"its lines end in CR LF, where a record is plain ASCII with newlines alone; {AS_FILED}")
    if not data.endswith(b"\n"):
        raise Wrong(f"it does not end with a newline, so it was cut short; {AS_FILED}")
    record = {}
    for key in LINES:
        left_out = key in WHERE_NEEDED and not lines[0].startswith(key)
        if key not in FORMS[first] and not left_out:
            record[key] = value_of(lines.pop(0), key)
    if lines != [""]:
        raise Wrong(f"it goes on after its last line; {AS_FILED}")
    tolerance = float(record["key_bg_tolerance"])
    if struct.pack(">d", tolerance).hex() != record["key_bg_tolerance_bits"] or not math.isfinite(tolerance):
        raise Wrong(f"its key_bg_tolerance and its key_bg_tolerance_bits are not one finite number; {AS_FILED}")
    return record


def value_of(line, key):
    """The value of the line, which must have this key. After the last newline the line is empty, which is refused."""
    own, _, value = line.partition(": ")
    if own == key and re.fullmatch(LINES[key], value):
        return value
    if value and own not in LINES and re.fullmatch("[a-z0-9_]+", own):
        raise Wrong(f"it has the line {shown(line)}, which this script does not know, so it cannot derive this record; {LATER}")
    raise Wrong(f"it has {shown(line)} where its {key} line belongs; {AS_FILED}")


# The picture's file: PPM, PGM or PAM, with MAXVAL 255.

# A number in digits, with blanks and comments before it and one blank or comment after it.
NUMBER = re.compile(rb"(?:\s|#[^\n]*\n)*([0-9]+)(?:\s|#[^\n]*(?:\n|\Z)|\Z)")
MOST_HEADER = 65536
CHANNELS = {"GRAYSCALE": 1, "GRAYSCALE_ALPHA": 2, "RGB": 3, "RGB_ALPHA": 4}
AGAIN = "copy or convert the picture again"
THE_CUT = "give the picture that was cut"


def read_picture(data):
    """Rows, columns, numbers a pixel, and these numbers as bytes."""
    kind = data[:2]
    if kind == b"P7":
        w, h, depth, most, start = pam_header(data)
    elif kind in (b"P2", b"P3", b"P5", b"P6"):
        w, h, most, start = pnm_header(data)
        depth = 3 if kind in (b"P3", b"P6") else 1
    else:
        raise Wrong(f"it is no picture in PPM, PGM or PAM form; {THE_CUT}, such as NAME.picture.ppm")
    if not (1 <= h <= 4096 and 1 <= w <= 4096):
        raise Wrong(f"a side is 0 or more than 4096, and such a picture is never cut; this one has {h} rows and {w} columns")
    if most != 255:
        raise Wrong(f"its MAXVAL is {most} and not 255, and such a picture is never cut; {THE_CUT}")
    samples = numbers_in_digits(data[start:]) if kind in (b"P2", b"P3") else data[start:]
    wanted = h * w * depth
    if len(samples) < wanted:
        raise Wrong(f"it ends early, after {len(samples)} of the {wanted} numbers of its pixels; {AGAIN}")
    if len(samples) > wanted:
        raise Wrong("it goes on after the picture; give a file of one picture")
    return h, w, depth, samples


def whole(digits):
    """A number in digits; one of more than 9 digits counts as 10^9."""
    digits = digits.lstrip("0")
    return int(digits or "0") if len(digits) <= 9 else 10**9


def pnm_header(data):
    """Columns, rows and MAXVAL of a PPM or PGM, and where its header ends."""
    numbers, at = [], 2
    while len(numbers) < 3:
        number = NUMBER.match(data, at, MOST_HEADER)
        if not number:
            raise Wrong(f"its header does not have the three numbers of a PPM or PGM; {AGAIN}")
        numbers.append(whole(number[1].decode()))
        at = number.end()
    return (*numbers, at)


def pam_header(data):
    """Columns, rows, depth and MAXVAL of a PAM, and where its header ends."""
    found, kinds, at = {}, [], 2
    for line in data[2:MOST_HEADER].decode("latin-1").split("\n")[:-1]:
        word, value = (re.split("[ \t\f\r]+", line.strip(" \t\f\r"), maxsplit=1) + [""])[:2]
        if at == 2 and word:
            raise Wrong(f"its first line is not P7 alone; {AGAIN}")
        at += len(line) + 1
        if word == "ENDHDR":
            break
        if word == "TUPLTYPE":
            kinds.append(value)
        elif word in ("WIDTH", "HEIGHT", "DEPTH", "MAXVAL"):
            if word in found or not re.fullmatch("[0-9]+", value):
                raise Wrong(f"its header has two {word} lines, or one without a number; {AGAIN}")
            found[word] = whole(value)
        elif word and not word.startswith("#"):
            raise Wrong(f"its header has a line {shown(word)}, which is none of a PAM's; {AGAIN}")
    else:
        raise Wrong(f"it ends within its header; {AGAIN}")
    if len(found) < 4:
        raise Wrong(f"its header lacks a WIDTH, HEIGHT, DEPTH or MAXVAL line; {AGAIN}")
    kind, depth = " ".join(kinds), found["DEPTH"]
    if CHANNELS.get(kind) != depth:
        raise Wrong(f"its TUPLTYPE is {shown(kind)} with DEPTH {depth}, and such a picture is never cut; {THE_CUT}")
    return found["WIDTH"], found["HEIGHT"], depth, found["MAXVAL"], at


def numbers_in_digits(text):
    """The numbers of a P2 or a P3 as bytes."""
    text = re.sub(rb"#[^\n]*", b"", text)
    strange = re.search(rb"[^0-9\s]", text)
    if strange:
        letter = strange[0].decode("latin-1")
        raise Wrong(f"it has {shown(letter)} where a number belongs; {AGAIN}")
    samples = bytearray()
    try:
        # Part by part, each to the end of a number, since all numbers at once would take much memory.
        for part in re.finditer(rb"(?s).{1,100000}[0-9]*", text):
            samples += bytes(map(int, part[0].split()))
    except ValueError:
        raise Wrong(f"it has a number above its MAXVAL 255, or one of thousands of digits; {AGAIN}") from None
    return bytes(samples)
