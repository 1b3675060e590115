#!/usr/bin/env python3
"""Makes a peak list of a file of lines, for timing: an m/z and an intensity before each line.

    python3 tools/rows_of_corpus.py LINES > LIST

LINES is a file of annotation lines, such as tools/bench takes. Row n has line n; an empty line gives a row without a third column. Both numbers
are found from n alone, so that the same file gives the same list: an m/z from 100 to 2,000 with three to five decimals, and an intensity of two
to eight digits, every other one with a decimal. The list is no spectrum: its rows stand in the order of the lines. Every row ends with a line
feed.
"""
import sys


def columns(n):
    """The m/z and the intensity of row n."""
    mixed = (n * 2654435761 + 12345) % 2**32
    places = 3 + mixed % 3
    mz = (100 << 20) + mixed * 1900 // 2**12
    intensity = 10 + (mixed >> 4) % 10 ** (2 + (mixed >> 11) % 7)
    return decimal(mz * 10**places >> 20, places), decimal(intensity, mixed >> 9 & 1)


def decimal(value, places):
    return b"%d" % value if places == 0 else b"%d.%0*d" % (value // 10**places, places, value % 10**places)


def row(n, line):
    return b"\t".join([*columns(n), line] if line else columns(n))


def as_rows(lines):
    """The bytes of a peak list of as many rows. The last line may lack its line feed."""
    return b"".join(row(n, line) + b"\n" for n, line in enumerate(lines.removesuffix(b"\n").split(b"\n"))) if lines else b""


def main(words):
    if len(words) != 1 or words[0].startswith("-"):
        sys.exit(__doc__)
    with open(words[0], "rb") as f:
        sys.stdout.buffer.write(as_rows(f.read()))
    return 0


if __name__ == "__main__":
    sys.exit(main(sys.argv[1:]))
