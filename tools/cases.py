#!/usr/bin/env python3
"""The cases of the programs that read lines: their inputs, and what the rules say of them in words. There are two editions of lines, and cases
for each: `reads`, `relabel` and `try_read_sized` for the first, `try_second_reads` and `try_second_relabel` for the second.

    python3 tools/cases.py                  writes the stored inputs of the five programs, crates/NAME/stdin, and crates/NAME/args of the last two
    python3 tools/cases.py --check          holds the stored outputs to what is stated here; prints differences
    python3 tools/cases.py --with FOLDER    makes the stored outputs by the programs `cross` and `relabel` in FOLDER, then checks

`cross` reads lines from standard input and prints `NUMBER PLACE LENGTH HEX` for each, HEX being `-` where there is no table; with `--out N`
it does so with an output of N bytes. `relabel` prints the preferred spelling of each, or `!NUMBER PLACE`. Both are of an implementation
other than this repository's, so that two agree on the stored outputs, and are told which requests have landed (`LANDED`), and the edition of
lines. A line has any bytes but the line feed. Each case is a line with its answer, where document 01, a request of document 02 that has landed,
or a reading in docs/DECISIONS.md states it (`no` a refusal, `yes` a table, `best` also the preferred spelling), or without one (`ask`). What
`relabel` is to print follows from what `reads` does: the refusal, or the spelling of the table by tools/decode.py.

Only in the second edition may an internal ion have letters behind its `m`, as in `mxa3:6` (M-113). Cases with letters (`lettered`) are stated of both
editions: of the first a stray byte at the first letter (`apart`), and for lines that the letters have no part in one answer (`alike`). The first
edition is asked for all the other cases too, the second for a good part of them. A line of which both are asked is held to what the request says of
first-edition reading: if the second edition finds a shape, the first finds 2 at the first letter, and without letters the same answer.
"""
import itertools
import os
import subprocess
import sys

sys.dont_write_bytecode = True
import decode

# The flags of the other implementation for the requests that have landed here and change answers.
LANDED = ("--m100", "--m102", "--m112", "--m113=first")
# The same for lines of the second edition.
LANDED_SECOND = (*LANDED[:-1], "--m113=second")

ROOT = os.path.join(os.path.dirname(os.path.abspath(__file__)), "..", "crates")
ROOM, MAX_LINE = 21372, 4096
# Bytes of a header, and of an annotation's record in the edition that lines are read to.
HEADER, RECORD = 28, 38
CAPITALS = b"ABCDEFGHIJKLMNOPQRSTUVWXYZ"
# The letters of an internal ion, in the order of their numbers from 1 on; but `yb` is held as 0.
LETTERS = "xa xb xc ya yb yc za zb zc".split()
# What document 01 gives the relabel program; its input begins so.
SHOWN = (b"y5-NH3-H2O/0.20ppm", b"y1^1")


class Asked:
    """What the readers of one edition of lines are asked, and what is stated of it."""

    def __init__(self, reads, relabel, flags):
        self.reads, self.relabel, self.flags = reads, relabel, flags  # the programs, and what the other implementation is told
        self.lines = []    # in order
        self.stated = {}   # line: (number, place)
        self.sizes = {}    # line: bytes of its table
        self.equal = []    # lines that read to one table
        self.unequal = []  # lines that read to two
        self.spelled = {}  # line: its preferred spelling
        self.texts = {}    # line: the bytes of its text section
        self.units = {}    # line: its units, (nucleons, atomic number, count)
        self.residue_counts = {}  # line: for each annotation how many residues its sequence has, 0 without one
        self.letters = {}  # line: for each annotation its field 3


class Editions:
    """What is asked of the first and of the second edition of lines. What a part asks and states goes to the one that is chosen."""

    def __init__(self, first, second):
        self.first, self.second, self.chosen = first, second, first

    def of(self, edition, part, *words):
        before, self.chosen = self.chosen, edition
        part(*words)
        self.chosen = before

    def each(self):
        return self.first, self.second


asked = Editions(Asked("reads", "relabel", LANDED), Asked("try_second_reads", "try_second_relabel", LANDED_SECOND))


def raw(line):
    return line if isinstance(line, bytes) else line.encode("ascii")


def ask(line):
    line = raw(line)
    assert b"\n" not in line
    asked.chosen.lines.append(line)
    return line


def state(line, number, place):
    """A line may come up more than once, with one answer."""
    assert asked.chosen.stated.setdefault(line, (number, place)) == (number, place), line
    return line


def no(line, number, place):
    state(ask(line), number, place)


def yes(line, size=None):
    line = state(ask(line), 0, 0)
    if size is not None:
        asked.chosen.sizes[line] = size


def same(first, *others):
    """All read, to the table of the first."""
    for line in (first, *others):
        yes(line)
    asked.chosen.equal.append([raw(line) for line in (first, *others)])


def differ(a, b):
    yes(a)
    yes(b)
    asked.chosen.unequal.append((raw(a), raw(b)))


def best(spelling, *others):
    """All read to one table, whose preferred spelling is the first."""
    same(spelling, *others)
    asked.chosen.spelled.update((raw(line), raw(spelling)) for line in (spelling, *others))


def respelled(line, spelling):
    """Read, to the table of another line, which is its preferred spelling."""
    best(spelling, line)


def text(line, expected):
    yes(line)
    asked.chosen.texts[raw(line)] = raw(expected)


def kept(line, expected):
    """Read, to a table with this text, and given back as it stands."""
    text(line, expected)
    asked.chosen.spelled[raw(line)] = raw(line)


def made_of(line, *expected):
    yes(line)
    asked.chosen.units[raw(line)] = list(expected)


def held(line, *expected):
    """Read, to a table whose annotations have so many residues, and given back as it stands."""
    yes(line)
    asked.chosen.residue_counts[raw(line)] = list(expected)
    asked.chosen.spelled[raw(line)] = raw(line)


def cut(line, *expected):
    """Read, to a table whose annotations have these numbers in field 3, and given back as it stands, but without the letters `yb`."""
    yes(line)
    asked.chosen.letters[raw(line)] = list(expected)
    asked.chosen.spelled[raw(line)] = raw(line).replace(b"myb", b"m")


def apart(head, rest, answer, *words):
    """A line with letters, the first of them behind `head`: there the first edition has a stray byte. What the second says is stated by `answer`."""
    asked.of(asked.first, no, head + rest, 2, len(head))
    asked.of(asked.second, answer, head + rest, *words)


def alike(answer, *words):
    """What both editions say of a line."""
    for edition in asked.each():
        asked.of(edition, answer, *words)


def name_end(text, at):
    """Where the name whose bracket stands at a place ends, behind its closing bracket; none where nothing stands inside, or it is not closed."""
    depth = 0
    for i in range(at, len(text)):
        depth += (text[i] == 91) - (text[i] == 93)
        if depth == 0:
            return i + 1 if i > at + 1 else None
    return None


def residues(text):
    """How many residues a text has that is a sequence (document 02, M-105), none where it is no sequence: perhaps a name and `-`, one or more
    residues A to Z, each with any number of names, perhaps `-` and a name."""
    at = count = 0
    if text[:1] == b"[":
        at = name_end(text, 0)
        if at is None or text[at:at + 1] != b"-":
            return None
        at += 1
    while at < len(text) and text[at] in CAPITALS:
        count, at = count + 1, at + 1
        while text[at:at + 1] == b"[":
            at = name_end(text, at)
            if at is None:
                return None
    if count == 0 or text[at:] and not (text[at:at + 2] == b"-[" and name_end(text, at + 1) == len(text)):
        return None
    return count


def joined(n, annotation):
    return ",".join([annotation] * n)


def rotations(head, parts, tail=""):
    """The parts in every order, or in some where they are many."""
    orders = itertools.permutations(parts) if len(parts) < 5 else [parts[i:] + parts[:i] for i in range(len(parts))]
    return [head + "".join(order) + tail for order in orders]


def examples():
    """Lines that document 01 names, in its order."""
    yes("", 28)
    yes("y1", 66)
    same("y5-H2O-NH3", "y5-NH3-H2O")
    same("y2+i", "y2+1i")
    no("y2+1H", 2, 4)
    yes("IC[M+H]", HEADER + RECORD + 6 + 6)
    text("IC[M2]", "M2")
    no("y7-H2O+i^2[M+NH4]", 2, 10)
    yes("y7-H2O+i[M+NH4]^2")
    no("y1,", 3, 3)
    no("y1, y2", 2, 3)
    yes("y1,y2", HEADER + 2 * RECORD)
    no("y1^1", 3, 4)
    yes("y1^12")
    yes("y1*0.7,b2*0.2,z3*0.1")
    no("y1*0.7,b2*0.301", 7, 7)
    yes("y65535")
    no("y65536", 4, 1)
    no("y2+i+H", 2, 4)
    no("y1/+0.2", 2, 3)
    for line in ("y1/-0.0", "m1:3", "s{CN=C=O}"):
        no(line, 6, 0)
    made_of("y5-H2[18O1][M+Na]", (0, 1, 2), (18, 8, 1), (0, 11, 1))
    same("y5-H2O-NH3/0.20ppm", "y5-NH3-H2O/0.20ppm")
    differ("y5-H2O-H2O", "y5-2H2O")
    differ("y1/0.70", "y1/0.7")
    differ("y1*0.70", "y1*0.7")
    differ("y1-CHO", "y1-HCO")
    differ("y1+i13C+i15N", "y1+i15N+i13C")
    differ("y1,b2", "b2,y1")
    text("_{a,b/c},y1", "a,b/c")


def readings():
    """Lines that the readings name, in their order."""
    no("_{" + "x" * 4094, 3, 4096)
    no("y99999999999", 4, 1)
    no("y1^1/0.1", 2, 4)
    no("y1-1", 3, 4)
    yes("y1-10H")
    yes("y1-1i")
    no("y1-1[a]", 2, 4)
    no("y1^0", 2, 3)
    no("00@p", 2, 1)
    yes("0@p")
    no("IC[M+x]", 2, 5)
    no("IC[M-x]", 2, 5)
    text("IC[M]", "M")
    no("IC[M+H]-H2O", 2, 7)
    no("IC[M+H][M+H]", 2, 7)
    text("IC[M2][M+H]", "M2")
    text("r[2H1]", "2H1")
    text("r[M+H]", "M+H")
    text("IC[+58.005]", "+58.005")
    made_of("y1-[2H1]", (2, 1, 1))
    text("y1-[M+H]", "M+H")
    no("y1-[2-x]", 2, 5)
    no("y1+i13C+i,p", 2, 9)
    yes("y1+i13C+i13C,p")
    no("y1+iAu", 2, 5)
    for empty, place in (("_{}", 2), ("s{}", 2), ("f{}", 2), ("y1{}", 3), ("m2:3{}", 5), ("r[]", 2), ("IC[]", 3), ("y1-[]", 4), ("y1[]", 3), ("y1[M]", 4)):
        no(empty, 2, place)
    no("y1*100000000000", 6, 0)
    no("y1/-0.0000000000", 4, 4)
    no("y1/-0.000000000", 6, 0)
    no("y1/-0.0ppm", 6, 0)
    yes("y1/-0.000000001ppm")
    yes("y1/0")
    yes("y1/0.0ppm")
    yes("y1*0")
    no("," .join(["p"] * 16 + ["65536@p"]), 5, 32)
    no(",".join(["p"] * 16 + ["&65536@p"]), 5, 32)
    no(",".join(["p"] * 16 + ["y65536"]), 5, 32)
    no(",".join(["p"] * 15 + ["65536@p"]), 4, 30)
    no(",".join(["p"] * 15 + ["65536@p", "p"]), 4, 30)
    no("y1\r", 2, 2)
    text("y1-[Hex]-[HexNAc]", "HexNAcHex")
    text("y1-[Hexose]-[Hex]-[HexNAc]", "HexNAcHexHexose")
    made_of("y1-C2-C[13C1]", (0, 6, 1), (13, 6, 1), (0, 6, 2))
    made_of("y1-H2O-H2[18O1]", (0, 1, 2), (18, 8, 1), (0, 1, 2), (0, 8, 1))
    same("y1-10H+H", "y1+H-10H")
    same("y1-2H-10H", "y1-10H-2H")


def specification():
    """The examples of mzPAF 1.0, in its order, and those that are refused."""
    for line in (
        "y1/-1.4ppm y1/-0.0002 ? ?^3 ?+2i^4 ?17 ?17+i/1.45ppm ?17-H2O/-0.87ppm c12-H^2 z12+H^2 0@b2{LL} 0@y1{K} 0@b2{LC[Carbamidomethyl]} "
        "0@b1{[Acetyl]-M} 0@y4{M[Oxidation]ACK}-CH4OS[M+H+Na]^2 m3:6 b3-C2H3NO b3-[Carbamidomethyl] m3:6-CO m3:6-CO-H2O^2 m3:4/1.1ppm,m4:5/1.1ppm "
        "m3:5 IY IH IL-CH2 IC[Carbamidomethyl] IY[Phospho] IC[+58.005] p^4 p+H^3 p^3 p+2H^2 p^2 p+H^2 p+3H p+2H p+H p r[TMT127N] r[iTRAQ114] "
        "r[TMT6plex] r[Hex] r[Adenine] f{C16H22O} f{C16H22O}+i^3 f{C15[13C1]H22O}^3 s{CN=C=O}[M+H]/-0.55ppm "
        "s{COc(c1)cccc1C#N}[M+H+Na]^2/1.29ppm y2+CO-H2O y2-H2O-NH3 p-[Hex] p-[TMT6plex]-2H2O-HPO3 p-2[iTRAQ115] p-[iTRAQ116]-CO-H2O-HPO3 y2-[2H1]-NH3 "
        "y5-H2[18O1][M+Na] y2+i13C y2+3i15N y2+2i13C+i15N y2+iA y2+2iA y5-H2O[M+H+Na]^2 y6[M+[2H2]]^2 y5[M+[15N1]H4] &1@y7/-0.002 &y7/-0.001 "
        "y7/0.000*0.95 b6-H2O/-0.005,&y7/0.003 y12-H2O^2/7.4ppm*0.70 m5:8-H2O/14.4ppm p/-1.7ppm"
    ).split(" "):
        yes(line)
    text("_{Urocanic Acid}", "Urocanic Acid")
    no("m1:3", 6, 0)
    no("m3:4/1.1ppm, m4:5/1.1ppm", 2, 12)
    no("p^1", 3, 3)
    no("y2+iN", 2, 4)
    no("1@y7-H2O+i^2[M+NH4]/-0.2ppm*0.5", 2, 12)


def lengths():
    """The line's own bound; what stands in a longer line plays no part."""
    full = ["_{" + "x" * 252 + "}"] * 15 + ["_{" + "x" * 253 + "}"]
    yes(",".join(full), HEADER + 16 * RECORD + 4033)
    no(",".join(full[:-1] + ["_{" + "x" * 254 + "}"]), 1, 4096)
    no("_{" + "x" * 4093 + "}", 5, 257)
    no("_{" + "x" * 4093 + "\x7f", 2, 4095)
    no("\x7f" + "x" * 4095, 2, 0)
    for length in (4097, 5000, 8192, 8193, 65536, 140000):
        no("x" * length, 1, 4096)
    no("y1" * 2049, 1, 4096)
    yes("y1")


def counted():
    """So many of each, and one more."""
    yes(joined(16, "p"), HEADER + 16 * RECORD)
    no(joined(17, "p"), 5, 32)
    no(joined(16, "p") + ",&p", 5, 32)
    no(joined(40, "y1"), 5, 48)
    for sign in "+-":
        yes("y1" + (sign + "H") * 8)
        no("y1" + (sign + "H") * 9, 5, 18)
        no("y1" + (sign + "2[Hex]") * 9, 5, 2 + 8 * 7)
        yes("y1" + (sign + "i13C") * 4)
        no("y1" + (sign + "i13C") * 5, 5, 22)
        yes("y1[M" + (sign + "H") * 4 + "]")
        no("y1[M" + (sign + "H") * 5 + "]", 5, 12)
        no("y1[M" + (sign + "e") * 5 + "]", 5, 12)
    for unit in ("H", "He2", "[13C1]"):
        n = len(unit)
        yes("f{" + unit * 12 + "}")
        no("f{" + unit * 13 + "}", 5, 2 + 12 * n)
        yes("y1-" + unit * 12)
        no("y1-" + unit * 13, 5, 3 + 12 * n)
        yes("y1[M+" + unit * 12 + "]")
        no("y1[M+" + unit * 13 + "]", 5, 5 + 12 * n)
    yes("f{" + "H" * 12 + "}" + ("-" + "H" * 12) * 8 + "[M" + ("+" + "H" * 12) * 4 + "]", HEADER + RECORD + 8 * 6 + 4 * 6 + 13 * 12 * 6)
    no("y1" + ("-" + "H" * 12) * 7 + "-" + "H" * 13, 5, 2 + 7 * 13 + 1 + 12)
    for head, tail in (("_{", "}"), ("s{", "}[M+H]"), ("y1{", "}"), ("m2:3{", "}"), ("IC[", "]"), ("r[", "]"), ("y1-[", "]"), ("y1+2[", "]")):
        byte = "A" if head in ("y1{", "m2:3{") else "x"
        text(head + byte * 255 + tail, byte * 255)
        no(head + byte * 256 + tail, 5, len(head) + 255)
        no(head + "x" * 256 + tail, 5, len(head) + 255)
        if byte == "A":
            no(head + "x" * 255 + tail, 11, 0)
    yes(joined(15, "y1"))


def numbered():
    """Numbers at their bound and past it."""
    for head, most, tail in (
        ("", 65535, "@p"), ("&", 65535, "@y1"), ("y", 65535, ""), ("da", 65535, ""), ("m2:", 65535, ""), ("?", 65535, ""),
        ("f{H", 999, "}"), ("f{CHe", 999, "O}"), ("f{[13C", 999, "]}"), ("f{[", 999, "C1]}"),
        ("y1-", 999, "H"), ("y1+", 999, "[Hex]"), ("y1-H", 999, ""), ("y1-[", 999, "C1]"), ("y1-[13C", 999, "]"), ("y1-H-H-C2O", 999, ""),
        ("y1+", 999, "i"), ("y1-", 999, "iA"), ("y1+", 999, "i13C"), ("y1+i", 999, "C"), ("y1+i13C-i", 999, "N"), ("y1+i13C-", 999, "i15N"),
        ("y1[M+", 999, "H]"), ("y1[M-", 999, "e]"), ("y1[M+H", 999, "]"), ("y1[M+[", 999, "C1]]"), ("y1[M+[13C", 999, "]]"), ("y1[M+Na-", 999, "e]"),
        ("y1^", 255, ""), ("p[M+H]^", 255, "/0.1"),
    ):
        yes(head + str(most) + tail)
        for past in (most + 1, most * 10, 1000000, 4294967296 + 7, 18446744073709551616 + 2, 10**40 + 3):
            no(head + str(past) + tail, 4, len(head))
    yes("m65535:65535")
    no("m65536:65537", 4, 1)
    no("m65536:2", 4, 1)
    no("m1:65536", 4, 3)
    for head, tail in (("y1/", ""), ("y1/-", "ppm"), ("y1/", "ppm*0.5")):
        for fits in ("0.123456789", "1.000000000", "123.123456789", "123456789012", "12345678901.2", "999999999999", "0.100000000", "999.999999999"):
            yes(head + fits + tail)
        for past in ("0.1234567890", "1.0000000000", "1234.123456789", "1234567890123", "12345678901.23", "9" * 30, "0." + "0" * 30 + "1", "0.1" + "0" * 9):
            no(head + past + tail, 4, len(head))
    for fits in ("0.123456789", "1.000000000", "0.000000000", "1", "0", "0.000000001", "1.0"):
        yes("y1*" + fits)
    for past in ("0.1234567890", "1.0000000000", "1234567890123", "0.00000000001", "1234.123456789"):
        no("y1*" + past, 4, 3)
    for over in ("1.000000001", "1.1", "2", "10", "999999999999", "123.123456789", "18446744073", "18446744073.1", "100000000000"):
        no("y1*" + over, 6, 0)


def together():
    """Several breaches in one line."""
    no("y65536" + "-H" * 9, 4, 1)
    no("y1" + "-H" * 9 + "^256", 5, 18)
    no("y1-1000H" + "-H" * 8, 4, 3)
    no("y1" + "-H" * 8 + "-1000H", 5, 18)
    no("y1" + "-H" * 7 + "-1000H-H", 4, 17)
    no("_{" + "x" * 256 + "},y65536", 5, 257)
    no("y65536,_{" + "x" * 256 + "}", 4, 1)
    no("y1^256,f{" + "H" * 13 + "}", 4, 3)
    no("f{" + "H" * 13 + "},y1^256", 5, 14)
    no("f{H1000" + "H" * 12 + "}", 4, 3)
    no("f{" + "H" * 12 + "H1000}", 5, 14)
    no("f{" + "H" * 11 + "H1000H}", 4, 14)
    no("f{" + "H" * 12 + "[1000C1000]}", 5, 14)
    no("f{[1000C1000]}", 4, 3)
    no("y1+1000i1000C", 4, 3)
    no("y1" + "+i13C" * 4 + "+1000i1000C", 5, 22)
    no("y1[M+H+H+H+H+1000H]", 5, 12)
    no("y1[M+1000H+H+H+H+H]", 4, 5)
    no("y1-[" + "x" * 256 + "]^256", 5, 4 + 255)
    no("65536@y65536^256", 4, 0)
    no("y1/0.1234567890*0.1234567890", 4, 3)
    no("y1*0.1234567890,b65536", 4, 3)
    no("y1,b65536,y1*0.1234567890", 4, 4)
    no(joined(16, "y1") + ",y65536", 5, 48)
    no(joined(15, "y1") + ",y65536,y1", 4, 46)
    # 2 and 3 before 4 and 5
    no("y65536#", 2, 6)
    no("y65536,", 3, 7)
    no("m1:3#", 2, 4)
    no(joined(17, "p") + ",", 3, 34)
    no(joined(17, "p") + "^1", 3, 35)
    # 4 and 5 before 6
    no("m1:3,y65536", 4, 6)
    no("m1:65536", 4, 3)
    no("m3:2^256", 4, 5)
    no("s{" + "x" * 256 + "}", 5, 257)
    no("y1/-0.0*2" + ",p" * 16, 5, 40)
    no("y1*2,b1^256", 4, 8)
    # 6 before 7, wherever they stand
    no("m1:3*0.7,y1*0.7", 6, 0)
    no("y1*0.7,m1:3*0.7", 6, 7)
    no("y1*0.7,b1*0.7,m1:3", 6, 14)
    no("y1*0.7,b1*0.7,s{C}", 6, 14)
    no("y1*0.7,b1*0.7,z1/-0", 6, 14)
    no("y1*0.7,b1*1.7", 6, 7)
    no("y1*0.7,b1*0.7", 7, 7)
    no("y1,m1:3,m3:2,y1/-0", 6, 3)
    no("y1/-0.0,m1:3", 6, 0)
    no("p,&2@s{C}*0.1,m1:3", 6, 2)
    # each rule alone, and its nearest kept neighbour
    for broken in ("m1:1", "m1:3", "m3:2", "m2:1", "m65535:2", "m1:3{AB}", "m1:65535", "&m1:3", "0@m3:2", "m2:65535{AB}"):
        no(broken, 6, 0)
    for kept in ("m2:2", "m2:3", "m65535:65535", "m65534:65535{AB}", "m10:11"):
        yes(kept)
    for zero in ("0", "0.0", "0.00", "0.000000000"):
        for unit in ("", "ppm"):
            no("y1/-" + zero + unit, 6, 0)
            yes("y1/" + zero + unit)
    no("s{C}-H2O", 6, 0)
    no("s{C}^2/0.1*0.2", 6, 0)
    yes("s{C}[M+H]")
    yes("s{C}-H2O[M+H]^2")


def sums():
    """Confidences over the line."""
    yes(joined(10, "y1*0.1"))
    no(joined(11, "y1*0.1"), 7, 70)
    no(joined(10, "y1*0.1") + ",y1,y1*0.000000001", 7, 73)
    yes(joined(10, "y1*0.1") + ",y1*0,y1*0.000000000")
    yes("y1*0.999999999,b1*0.000000001")
    no("y1*0.999999999,b1*0.000000002", 7, 15)
    yes("y1*0.5,b1*0.5")
    yes("y1*0.5,b1*0.500000000")
    no("y1*0.5,b1*0.500000001", 7, 7)
    yes("y1*0.333333333,b1*0.333333333,z1*0.333333334")
    no("y1*0.333333333,b1*0.333333334,z1*0.333333334", 7, 30)
    yes("y1*1,b1*0")
    yes("y1*0,b1*1.0,z1")
    no("y1*1,b1*0.000000001", 7, 5)
    no("y1*1,b1*0,&0@z1*0.1,p*1", 7, 10)
    no("y1*1,b1*1", 7, 5)
    no("y1*0.7,b1,p*0.2,b2*0.1,b3*0.1,b4*0.9", 7, 23)
    yes(joined(16, "y1*0.0625"))
    no(joined(15, "y1*0.0625") + ",y1*0.062500001", 7, 150)


def points():
    """Confidences that begin with the point. Document 02, M-102."""
    same("y1*0.5", "y1*.5")
    same("y1*0.0", "y1*.0")
    same("y1*0.000000000", "y1*.000000000")
    same("y1*0.123456789", "y1*.123456789")
    same("&1@y1-H2O-NH3+i[M+H+Na]^2/-0.5ppm*0.25", "&1@y1-NH3-H2O+1i[M+Na+1H]^2/-0.5ppm*.25")
    same("f{C1H}*0.1,p*0.2", "f{CH1}*.1,p*0.2", "f{CH}*0.1,p*.2", "f{CH}*.1,p*.2")
    same("_{*.5}*0.5", "_{*.5}*.5")
    same("y1*0.5,b2*0.5", "y1*.5,b2*.5", "y1*0.5,b2*.5", "y1*.5,b2*0.5")
    differ("y1*.5", "y1*.50")
    differ("y1*.5", "y1*.05")
    differ("y1*.0", "y1*0")
    no("y1*.", 3, 4)
    no("y1*.,p", 2, 4)
    no("y1*..5", 2, 4)
    no("y1*.5.5", 2, 5)
    no("y1*.-5", 2, 4)
    no("y1*-.5", 2, 3)
    no("y1*.5ppm", 2, 5)
    no("y1*.5/0.1", 2, 5)
    no("y1*.5*.5", 2, 5)
    no("y1*00.5", 2, 4)
    no("y1*0.", 3, 5)
    no("y1.5", 2, 2)
    no("y1*1.", 3, 5)
    no("y1/.5", 2, 3)
    no("y1/-.5", 2, 4)
    no("y1/.5ppm*.5", 2, 3)
    no("y1/0.5*.", 3, 8)
    no("y1*.1234567890", 4, 4)
    no("y1*.0000000000", 4, 4)
    no("y1*." + "1" * 60, 4, 4)
    no("y65536*.1234567890", 4, 1)
    no("y1*.1234567890,y65536", 4, 4)
    no("y1*.5,b2*.501", 7, 6)
    no("y1*.999999999,b2*.000000002", 7, 14)
    yes("y1*.999999999,b2*.000000001")
    no("y1*1,b2*.000000001", 7, 5)
    no("m1:3*.5", 6, 0)
    yes(joined(16, "y1*.0625"))
    no(joined(17, "y1*.0"), 5, 96)
    # the preferred spelling of the first has 4,096 bytes, that of the second one more, that of the third 16 more
    for size, zeros in ((4095, 1), (4096, 1), (4096, 16)):
        yes(filled(size, zeros))
    no(filled(4097, 16), 1, 4096)


def nested():
    """Names with brackets inside. Document 02, M-100. The head of each kind of name: reference, modification, loss."""
    heads = ("r[", "IC[", "y1-[", "&3@y1+2[")
    for name in ("Hex[a[b]]c", "a[b]", "a[]", "a[][]", "a[[]]", "a[b][c]", "a[b]c[d]e", "Cation:Ca[II]", "a[M+H]", "M[+]", "M[+H]", "M2[-]", "H[2H1]", "H[13C]",
                 "a[,]", "a[b,c/d]", "a[{]", "a[}]", "a[{x}]{", "a[+1-2*.5/0.1^2&@?]", "a[ ]", "a [b] ", "a[b[c[d[e[f]]]]]"):
        for head in heads:
            kept(head + name + "]", name)
    for name in ("[]", "[][]", "[[]]", "[a]", "[a]b", "[[[]]]", "[M+]", "[M+]H", "[M-H]", "[2H1]", "[,]", "[ ]"):
        for head in heads[:2]:
            kept(head + name + "]", name)
        # the name of a loss begins with a letter
        for head in heads[2:]:
            no(head + name + "]", 2, len(head))
    for byte in (bytes([b]) for b in range(256) if b != 10 and bytes([b]) not in b"[]"):
        if 32 <= byte[0] <= 126:
            kept(b"r[a[" + byte + b"]]", b"a[" + byte + b"]")
        else:
            no(b"r[a[" + byte + b"]]", 2, 4)
    for byte in ("\0", "\t", "\r", "\x1f", "\x7f", b"\x80", b"\xff"):
        for head in heads:
            no(raw(head + "a[b") + raw(byte) + b"]]", 2, len(head) + 3)
    unpaired(heads)
    immonium_names()
    several_names()
    orders_of_names()
    long_names(heads)
    deep_names(heads)
    # each beginning of a name is 3, and a line is no line before it is closed
    for head in heads:
        whole = head + "Hex[a[b]]c[[]d[e]]]"
        for n in range(len(head), len(whole)):
            no(whole[:n], 3, n)
        yes(whole)
    long = "&12@r[Hex[a[b]]c]-[Hexa]-2[Hex[1[2]]x]+[a[]]+[2H2]+2i13C[M+[2H2]-e]^23/-0.20ppm*.50,IC[[M+]2],IC[M[-]]-[x[y]][M+H],_{a[b},r[c]"
    for n in range(len(long)):
        ask(long[:n])
    best(long.replace("-[Hexa]-2[Hex[1[2]]x]+[a[]]+[2H2]", "+[2H2]-2[Hex[1[2]]x]-[Hexa]+[a[]]").replace(".50", "0.50"), long)


def unpaired(heads):
    """More that close than are open is 2, at the first too many; fewer is 3, at the end, whatever stands there."""
    no("r[a[b]", 3, 6)
    no("r[a]]", 2, 4)
    no("y1-[[a]]", 2, 4)
    no("r[]", 2, 2)
    no("r[]]", 2, 2)
    no("r[[", 3, 3)
    no("r[[]", 3, 4)
    no("r[[[]]]]", 2, 7)
    no("r[a]b]", 2, 4)
    no("r[a][b]", 2, 5)
    no("r[a]][", 2, 4)
    no("r]a[", 2, 1)
    for head in heads:
        n = len(head)
        no(head + "]", 2, n)
        no(head + "]a[]", 2, n)
        for short in ("a[", "a[b", "a[[", "a[[]", "a[b]", "a[b[c]", "a[b],y1", "a[b][M+H]", "a[b-[c]", "a[^2/0.1*.5", "a[{x}"):
            no(head + short, 3, n + len(short))
        for closed in ("a]", "a[]]", "a[b]]", "a[b[c]]]", "a[b][c]d]", "a[[][]]]"):
            no(head + closed + "]", 2, n + len(closed))
            no(head + closed + "][", 2, n + len(closed))
    # wherever no bracket is open
    for before in ("", "&", "0@", "y", "y1", "y1{a}", "m2:3", "m2:3{a}", "I", "IC", "IC[a]", "p", "r", "r[a[b]]", "_{a}", "f{", "f{C", "f{[13C1]",
                   "f{C}", "s{C}", "?", "y1-", "y1-2", "y1-H", "y1-[13C1]", "y1-[a[b]]", "y1+", "y1+i", "y1+i13", "y1+i13C", "y1[M", "y1[M+",
                   "y1[M+H]", "y1[M+[13C1]]", "y1^", "y1^2", "y1/", "y1/0.1", "y1/0.1ppm", "y1*", "y1*.", "y1*0.5", "y1,"):
        no(before + "]", 2, len(before))


def immonium_names():
    """A modification may hold `M+` and `M-` anywhere but in front; behind `IC[M+` stands an adduct item."""
    kept("IC[[M+]]", "[M+]")
    kept("IC[M[+]]", "M[+]")
    kept("IC[M[+]][M+H]", "M[+]")
    kept("IC[M[+H]]", "M[+H]")
    best("IC[M[+H]][M+H+Na]", "IC[M[+H]][M+Na+1H]")
    kept("IC[[M+H]][M+H]", "[M+H]")
    kept("IC[[]][M+H]", "[]")
    kept("IC[M[M+H]][M+H]", "M[M+H]")
    kept("IC[m+[x]]", "m+[x]")
    made_of("IC[M+[2H1]]", (2, 1, 1))
    made_of("IC[M+H[2H1]]", (0, 1, 1), (2, 1, 1))
    no("IC[M+[x]]", 2, 6)
    no("IC[M-[x]]", 2, 6)
    no("IC[M+[]]", 2, 6)
    no("IC[M+H[x]]", 2, 7)
    no("IC[M-2[2H1]x]", 2, 11)
    no("IC[M+[2H1]][a]", 2, 11)
    no("IC[M+H][a[b]]", 2, 7)
    no("IC[a[b]][c]", 2, 9)
    no("IC[M[+", 3, 6)
    no("IC[M[+]", 3, 7)
    no("IC[M[+]]]", 2, 8)
    # a loss may: the rule is for modifications alone
    kept("y1-[M+[x]]", "M+[x]")
    kept("r[M+[x]]", "M+[x]")
    no("p[M+[a]]", 2, 5)
    no("p[[M+H]]", 2, 2)


def several_names():
    """Each name counts its own brackets, and texts in braces none."""
    text("r[a[b]],r[c]", "a[b]" "c")
    text("r[[]]-[x]", "[]" "x")
    text("r[a[b]]-[c[d[e]]]-[f],IC[[g]h]-[i[]]", "a[b]" "c[d[e]]" "f" "[g]h" "i[]")
    text("_{a[b},r[c]", "a[b" "c")
    text("_{a]b},r[c[d]]", "a]b" "c[d]")
    text("r[a{b],_{c]}", "a{b" "c]")
    text("y1{A[b]C}-[a[b]],s{C[O-]}-[a[b]][M+H]", "A[b]C" "a[b]" "C[O-]" "a[b]")
    text("r[a[b]][M+[2H1]],r[c]", "a[b]" "c")
    text("y1-[a[M+H]][M+H]", "a[M+H]")
    made_of("y1-[H[2H1]]-H[2H1]", (0, 1, 1), (2, 1, 1))
    yes(joined(16, "r[a[b]]"), HEADER + 16 * RECORD + 16 * 4)
    no(joined(17, "r[a[b]]"), 5, 16 * 8)
    no("r[a[b]],r[c]]", 2, 12)
    no("r[a[b]],r[c[d]", 3, 14)
    no("r[a[b],r[c]", 3, 11)
    no("r[a[b]]-[c]]", 2, 11)
    no("r[a[b]]-[]", 2, 9)
    no("r[[[]]],r[]", 2, 10)
    no("_{a[},r[b]]", 2, 10)
    no("y1-[a[b]]-[c[d]", 3, 15)
    no("y1-[a[b]]-[[d]]", 2, 11)
    no("y1-[a[b]][M+H]]", 2, 14)
    # limits and rules go on behind them
    no("r[a[b]]^256", 4, 8)
    no("r[a[b]],m1:3", 6, 8)
    no("r[a[b]]/-0.0", 6, 0)
    no("r[a[b]]*.7,IC[[M+]]*.31", 7, 11)
    no("y1" + "-[a[b]]" * 9, 5, 2 + 8 * 7)
    yes("y1" + "-[a[b]]" * 8, HEADER + RECORD + 8 * 6 + 8 * 4)


def orders_of_names():
    """`[` ranks below every byte inside names too, and `]` where its byte does."""
    best("y1-[Hex[x]]-[Hexa]", "y1-[Hexa]-[Hex[x]]")
    text("y1-[Hexa]-[Hex[x]]", "Hex[x]" "Hexa")
    best("y1-[2H1]-[H[a]]", "y1-[H[a]]-[2H1]")
    best("y1-[H[2H1]]-H[2H1]-H2", "y1-H2-H[2H1]-[H[2H1]]", "y1-H[2H1]-[H[2H1]]-H2")
    best("y1-[Hex[x]]-[Hex]", "y1-[Hex]-[Hex[x]]")
    best("y1-[Hex[[]]]-[Hex[]]", "y1-[Hex[]]-[Hex[[]]]")
    best("y1-[a[b][c]]-[a[b]B]-[a[b]]-[a[b]c]", "y1-[a[b]c]-[a[b]]-[a[b]B]-[a[b][c]]")
    best("y1-[a[[]]]-[a[ ]]-[a[~]]", "y1-[a[~]]-[a[ ]]-[a[[]]]")
    best("y1-[a[b]]-2[a[b]]-10[a[b]]+[a[b]]+3[a[b]]", "y1+3[a[b]]+[a[b]]-10[a[b]]-2[a[b]]-[a[b]]")
    for parts in (["-[Hex[x]]", "-[HexNAc]", "-[Hex]", "-[Hexa]"], ["-[a[]]", "-[a[][]]", "-[a[]a]", "-[a[]A]"], ["-[a[b]c]", "-[a[b]]", "-[a[bc]]", "-[a[B]]"],
                  ["-[M[+H]]", "-[M+H]", "-[13C1]", "-C[13C1]"], ["-[x[]]", "+[x[]]", "-2[x[]]", "-[x]"]):
        same(*rotations("y9", parts))
    eight = ["-[a[b]]", "-[a]", "-[a[[b]]]", "+[a[]]", "-[ab]", "-2[a[b]]", "-[13C1]", "-C"]
    best("y9-[13C1]-[a[[b]]]+[a[]]-[a[b]]-2[a[b]]-[a]-[ab]-C", *rotations("y9", eight))


def long_names(heads):
    """255 bytes, brackets among them, and one more."""
    for head in heads:
        for fits in ("x" + "[]" * 127, "x[" + "y" * 252 + "]", "x" + "[" * 127 + "]" * 127, "x" * 253 + "[]", "x[" * 84 + "y" * 3 + "]" * 84):
            assert len(fits) == 255
            text(head + fits + "]", fits)
            no(head + fits + "z]", 5, len(head) + 255)
        for past in ("x" + "[]" * 128, "x" * 250 + "[" + "y" * 20 + "]", "x" * 254 + "[]", "x" + "[" * 200 + "]" * 200, "x[" + "y" * 253 + "]"):
            no(head + past + "]", 5, len(head) + 255)
    for head in heads[:2]:
        for fits in ("[]" * 127 + "x", "[" * 127 + "x" + "]" * 127, "[" * 100 + "]" * 100 + "[]" * 27 + "x"):
            assert len(fits) == 255
            text(head + fits + "]", fits)
        for past in ("[]" * 128, "[" * 128 + "]" * 128, "[]" * 127 + "xy"):
            assert len(past) == 256
            no(head + past + "]", 5, len(head) + 255)
    whole = "r[" + "[]" * 127 + "x]"
    yes(joined(15, whole), HEADER + 15 * (RECORD + 255))
    no("r[" + "[]" * 128 + "]^256", 5, 257)
    no("y65536,r[" + "[]" * 128 + "]", 4, 1)
    no("y1-[x" + "[]" * 128 + "],r[" + "[]" * 128 + "]", 5, 4 + 255)
    # 4,096 bytes of names, and one more
    full = ["r[" + "[]" * 126 + "]"] * 15
    yes(",".join(full + ["r[" + "[]" * 126 + "x]"]), HEADER + 16 * RECORD + 4033)
    no(",".join(full + ["r[" + "[]" * 127 + "]"]), 1, 4096)


def deep_names(heads):
    """Brackets of any depth: the shape has no bound but the line's."""
    no("r[" + "[" * 2000, 3, 2002)
    no("r[" + "[" * 4094, 3, 4096)
    no("r[" + "[" * 4095, 1, 4096)
    no("r[" + "[" * 4096, 1, 4096)
    no("r[" + "[" * 2000 + "]" * 2000 + "]", 5, 257)
    no("r[" + "[" * 2046 + "]" * 2046 + "]", 5, 257)
    no("r[" + "[" * 2046 + "]" * 2046 + "]]", 2, 4095)
    no("r[" + "[" * 2047 + "]" * 2047, 3, 4096)
    no("r[" + "[]" * 2046 + "]", 5, 257)
    no("r[" + "[]" * 2047, 3, 4096)
    no("r[" + "[" * 2000 + "]" * 2000, 3, 4002)
    no("r[" + "[" * 2000 + "]" * 1999 + "]],y1", 5, 257)
    no("r[" + "[" * 2000 + "\x7f", 2, 2002)
    for depth in (127, 128, 255, 256, 257, 512, 2040):
        for head in heads:
            begun = head + "x" + "[" * depth
            no(begun + "]", 3, len(begun) + 1)
            no(begun + "]" * depth, 3, len(begun) + depth)
            no(begun + "]" * (depth + 2), 2, len(begun) + depth + 1)
            if depth > 127:
                no(begun + "]" * (depth + 1), 5, len(head) + 255)
            else:
                text(begun + "]" * (depth + 1), "x" + "[" * depth + "]" * depth)


def sequences():
    """Sequences in the braces of series and internal ions. Document 02, M-105."""
    held("y3{PEP}", 3)
    yes("y3{PEP}", HEADER + RECORD + 3)
    no("y4{PEP}", 6, 0)
    held("y2{[Ac]-M[[X]]K-[am]}", 2)
    no("y2{M[K]}", 6, 0)
    for foreign in ("[A]-[B]-M", "M[]", "M]", "[O]M", "M-"):
        no("y1{" + foreign + "}", 11, 0)
    no("m1:1,y1{x}", 11, 5)
    no("y1{x},y70000", 4, 7)
    no("y1{" + "A" * 256 + "}", 5, 258)
    no("m3:6{PEP}", 6, 0)
    no("m6:3{P}", 6, 0)
    held("m3:5{PEP}", 3)
    held("y1", 0)
    held("p,y5{PEPTIDE},y5,m3:4{AB},IC[PEP],r[PEP],_{PEP},f{P},s{PEP}[M+H],?", 0, 7, 0, 2, 0, 0, 0, 0, 0, 0)
    forms()
    foreign_forms()
    enough()
    long_sequences()
    beside_other_faults()
    # each text of up to four of these bytes
    for n in range(1, 5):
        for made in itertools.product("Ax[]-", repeat=n):
            short = "".join(made)
            count = residues(short.encode())
            if count is None:
                no("y1{" + short + "}", 11, 0)
            else:
                held("y1{" + short + "}", count)


def forms():
    """Sound sequences, and what their names may hold."""
    for letter in "ABCDEFGHIJKLMNOPQRSTUVWXYZ":
        held("y1{" + letter + "}", 1)
    for sound, count in (
        ("PEPTIDE", 7), ("LL", 2), ("LC[Carbamidomethyl]", 2), ("[Acetyl]-M", 1), ("M[Oxidation]ACK", 4), ("K-[Amidated]", 1), ("[a]-K-[b]", 1),
        ("[iTRAQ4plex]-EM[Oxidation]EVNES[Phospho]PEK-[Methyl]", 10), ("M[a][b]", 1), ("M[a][b][c]K[d][e]", 2), ("M[[]]", 1), ("M[[][]]", 1), ("M[[[x]]]", 1),
        ("M[a[b]c]", 1), ("[[]]-M-[[]]", 1), ("[a[b]]-M[c[d]]-[e[f]]", 1), ("M[-]", 1), ("M[--]K", 2), ("M[a-b]K", 2), ("[a-]-M", 1), ("[-]-M-[-]", 1),
        ("M[A]", 1), ("[ABC]-M", 1), ("M-[ABC]", 1), ("M[K[L]]N", 2), ("M[M+]", 1), ("M[M-H]", 1), ("M[+79.966]", 1), ("M[-18]", 1), ("M[2H1]", 1), ("[2H1]-M", 1),
        ("M[ ]", 1), ("M[,]", 1), ("M[/]", 1), ("M[*0.5]", 1), ("M[y1,y2]", 1), ("M[U:Oxidation|x#1]", 1), ("M[(a)<b>]", 1), ("M[^2&@?~!]", 1), ("AAAAAAAAAA", 10), ("ZJBXOU", 6),
    ):
        assert residues(sound.encode()) == count
        for head, tail in (("y1{", "}"), ("m2:2{", "}"), ("&0@wb1{", "}-H2O+i[M+Na]^2/-0.5ppm*0.5")):
            held(head + sound + tail, count)
    for byte in (b for b in range(32, 127) if b not in b"[]{}"):
        held("y1{M[" + chr(byte) + "]K}", 2)
    held("y1{K},m2:2{K[a,b]},y2{AB},b1{[x]-K}", 1, 1, 2, 1)
    no("y1{K},m2:2{K[a],b}", 11, 6)
    # a brace ends a text, in a name too
    no("y1{K[a}],b1{L]}", 2, 7)
    no("y1{M[{]}", 2, 5)
    no("y1{M[}]}", 2, 6)
    no("y1{M", 3, 4)
    no("y1{M[a", 3, 6)
    no("y1{}", 2, 3)
    no("y1{M\x7f}", 2, 4)
    no("y1{M[\t]}", 2, 5)


def foreign_forms():
    """Each way in which a text is no sequence: 11 at the first byte of its annotation."""
    for text in (
        "x", "xA", "Ax", "PEp", "pep", "PeP", "a", "P E P", " PEP", "PEP ", "P,E", "PEP/2", "PEP/TIDE", "1", "PEP1", "P1E", "PEP.", ".PEP", "K.PEP.R", "PEP*", "PEP?", "_PEP", "PEP^2",
        "PEP(+80)TIDE", "PEP(Oxidation)", "(PE)P", "(?PE)P", "<15N>PEP", "<[a]@M>PEP", "PEP+PEP", "PEP//PEP", "PEP\\PEP", "PEP,PEP", "PEP:TIDE", "PEP#1", "P@E", "p[a]", "x[a]",
        "-", "-M", "M-", "M--", "--M", "M-K", "A-B-C", "M-x", "M-[a]-", "M-[a]x", "M-[a]K", "M-[a][b]", "M-[a]-[b]", "M-[a]-K", "M--[a]", "M-[]", "M-[a", "M-a]", "M-[a]]", "M-[[a]",
        "[a]", "[a]-", "[a]-[b]", "[a]--M", "[a]M", "[O]M", "[a][b]-M", "[a]-[b]-M", "[A]-[B]-M", "[]-M", "[]M", "[", "]", "[]", "[a]-x", "[a]x-M", "[a-M", "a]-M", "[[a]-M", "[a]]-M", "-[a]-M", "?[a]-M",
        "[a]?M", "[a]^2-M", "M[]", "M[", "M]", "M[a", "Ma]", "M[a]]", "M[[a]", "M[a][", "M[a]]K", "M[a][]", "M[][a]", "M][", "M[a]x", "M[a]1", "M[a] ", "M[[]", "M[]]", "M[a]]b[", "A]B[C",
    ):
        assert residues(text.encode()) is None, text
        no("y1{" + text + "}", 11, 0)
        no("m2:2{" + text + "}", 11, 0)
        no("p,&3@b1{" + text + "}-H2O,y1", 11, 2)
        # the texts of other ions are not looked at
        kept("_{" + text + "}", text)
        kept("s{" + text + "}[M+H]", text)
    for byte in (b for b in range(32, 127) if b not in b"[]{}" and not 65 <= b <= 90):
        no("y1{" + chr(byte) + "}", 11, 0)
        no("y1{M" + chr(byte) + "K}", 11, 0)
    for series in "a b c d v w x y z da db wa wb".split():
        no(series + "1{k}", 11, 0)
        held(series + "1{K}", 1)


def enough():
    """As many residues as the position asks for, and one fewer: 6. More are fine."""
    for count in (1, 2, 3, 9, 10, 99, 100, 200, 254):
        sequence = "A" * count
        for head in ("y%d{", "&1@wb%d{"):
            held(head % count + sequence + "}", count)
            no(head % (count + 1) + sequence + "}", 6, 0)
        held("y1{" + sequence + "}", count)
        no("y65535{" + sequence + "}", 6, 0)
        # internal: end minus start plus 1
        for start in (2, 3, 700, 65535 - count):
            held("m%d:%d{" % (start, start + count - 1) + sequence + "}", count)
            no("m%d:%d{" % (start, start + count) + sequence + "}", 6, 0)
        held("m2:2{" + sequence + "}", count)
        held("m65535:65535{" + sequence + "}", count)
    # of a start past its end nothing is taken away, and 6 it is in any case; so it is from 1 on
    for ends in ("m3:2", "m65535:1", "m65535:2", "m2:1", "m300:1", "m1:1", "m1:3", "m1:2"):
        for sequence in ("A", "AAA", "A" * 255):
            no(ends + "{" + sequence + "}", 6, 0)
    # what stands in names is not counted
    for sequence, count in (("M[KKK]", 1), ("[KKK]-M", 1), ("M-[KKK]", 1), ("[AA]-M[BB][CC]K[D[E]F]-[GG]", 2)):
        held("y%d{" % count + sequence + "}", count)
        no("y%d{" % (count + 1) + sequence + "}", 6, 0)
        no("m2:%d{" % (count + 2) + sequence + "}", 6, 0)
    held("y2{AB},y1{A},m2:4{ABC}", 2, 1, 3)
    no("y2{AB},y1{A},m2:4{AB}", 6, 13)
    no("y2{AB},y2{A},m2:4{AB}", 6, 7)
    no("p,y4{PEP}", 6, 2)
    # a position alone, a text that is no sequence's, and 0 without one
    held("y65535", 0)
    held("m2:65535", 0)
    held("_{A}", 0)


def long_sequences():
    """255 bytes and one more; the limit goes before the form."""
    for sequence, count in (("A" * 255, 255), ("AB" * 127 + "C", 255), ("M[" + "x" * 252 + "]", 1), ("[" + "x" * 251 + "]-M", 1), ("M-[" + "x" * 251 + "]", 1),
                            ("M" + "[a]" * 84 + "KL", 3), ("M" + "[" * 126 + "xy" + "]" * 126, 1), ("M" + "[" * 127 + "x" + "]" * 126, None), ("A" * 254 + "x", None)):
        assert len(sequence) == 255 and residues(sequence.encode()) == count, (len(sequence), sequence)
        if count is None:
            no("y1{" + sequence + "}", 11, 0)
        else:
            held("y1{" + sequence + "}", count)
            held("y%d{" % count + sequence + "}", count)
            no("y%d{" % (count + 1) + sequence + "}", 6, 0)
        no("y1{" + sequence + "A}", 5, 258)
        no("m2:2{" + sequence + "A}", 5, 260)
    no("y255{" + "a" * 256 + "}", 5, 260)
    no("y256{" + "A" * 255 + "}", 6, 0)
    no("y256{" + "A" * 256 + "}", 5, 260)
    held("y255{" + "A" * 255 + "}," + "m2:256{" + "B" * 255 + "}", 255, 255)
    # 4,096 bytes of sequences, and one more
    full = ["y1{" + "A" * 251 + "}"] * 15
    held(",".join(full + ["y1{" + "A" * 252 + "}"]), *[251] * 15, 252)
    no(",".join(full + ["y1{" + "A" * 253 + "}"]), 1, 4096)
    no(",".join(full + ["y1{" + "a" * 252 + "}"]), 11, 15 * 256)
    no(",".join(full + ["y253{" + "A" * 250 + "}"]), 6, 15 * 256)


def beside_other_faults():
    """11 goes behind 4 and 5 and before 6 and 7, wherever they stand in the line; 2, 3 and 1 go before all."""
    no("y1{x}", 11, 0)
    no("p,y1{x}", 11, 2)
    no("y1{x},y1{x}", 11, 0)
    no("y1{K},y1{x},y1{x}", 11, 6)
    no("y2{K},y1{x}", 11, 6)
    no("y1{x},y2{K}", 11, 0)
    no("y2{x}", 11, 0)
    no("m1:3{x}", 11, 0)
    no("m3:2{x}", 11, 0)
    no("y1{x}/-0.0", 11, 0)
    no("s{C},y1{x}", 11, 5)
    no("y1{x},s{C}", 11, 0)
    no("m1:1,m2:2{x}", 11, 5)
    no("y1/-0.0,p*2,y1{x}", 11, 12)
    no("p*0.7,p*0.7,y1{x}", 11, 12)
    no("y1{x}*0.7,p*0.7", 11, 0)
    no("y1{x}*2", 11, 0)
    no("y1{K}*0.7,p*0.7", 7, 10)
    no("y2{K}*0.7,p*0.7", 6, 0)
    no("p*0.7,y2{K}*0.7", 6, 6)
    no("p*0.7,p*0.7,y2{K}", 6, 12)
    no("y2{K},m1:1", 6, 0)
    no("m1:1,y2{K}", 6, 0)
    for past, place in (("y65536", 1), ("y1^256", 3), ("p-1000H", 2), ("y1/0.1234567890", 3), ("f{" + "H" * 13 + "}", 14), ("_{" + "x" * 256 + "}", 257), ("y65536{K}", 1)):
        number = 5 if place in (14, 257) else 4
        no("y1{x}," + past, number, 6 + place)
        no(past + ",y1{x}", number, place)
        no("y2{K}," + past, number, 6 + place)
    no("y65536{x}", 4, 1)
    no("m2:65536{x}", 4, 3)
    no("y1{x}^256", 4, 6)
    no("y1{x}" + "-H" * 9, 5, 5 + 16)
    no("y1{" + "x" * 256 + "},y1{x}", 5, 258)
    no("y1{x},y1{" + "A" * 256 + "}", 5, 6 + 258)
    no(joined(16, "y1{x}") + ",p", 5, 96)
    no(joined(16, "y1{x}"), 11, 0)
    no(joined(15, "y1{K}") + ",y1{x}", 11, 90)
    held(joined(16, "y1{K}"), *[1] * 16)
    no(joined(15, "y1{K}") + ",y2{K}", 6, 90)
    no("y1{x} ", 2, 5)
    no("y1{x},", 3, 6)
    no("y1{x}^1", 3, 7)
    no("y1{x}{x}", 2, 5)
    no("y1{x}" + "y" * 4092, 1, 4096)
    # one table, several spellings
    best("y1{PE[a]P}-H2O-NH3", "y1{PE[a]P}-NH3-H2O", "y1{PE[a]P}-H2O1-NH3")
    best("m2:3{AB}*0.5", "m2:3{AB}*.5")
    differ("y1{A}", "y1{B}")
    differ("y1{A}", "y1")
    differ("y1{A}", "y1{A[a]}")
    differ("y1{A}", "y1{AA}")
    differ("m2:2{A}", "m2:3{AA}")


def lettered():
    """Internal ions with letters. Document 02, M-113."""
    named_by_design()
    nine()
    half_letters()
    no_letters()
    letters_and_limits()
    letters_and_rules()
    letters_and_lengths()
    letters_freely()
    bytes_at_letters()


def named_by_design():
    """Lines that the request and the notes on it name."""
    apart("m", "xa3:6", cut, 1)
    apart("m", "yb3:6", cut, 0)
    apart("m", "xa3:6,,", no, 2, 7)
    apart("m70000:3,m", "xa3:6", no, 4, 1)
    apart("m", "yb3:6,p", cut, 0, 0)
    alike(cut, "m3:6", 0)
    alike(best, "m3:6,p")


def nine():
    """Each two letters, with what may stand before and behind them. The annotations before have a number in field 3 too, if they are a series."""
    heads = (("", ()), ("&", ()), ("1@", ()), ("&65535@", ()), ("p,", (0,)), ("p,&0@", (0,)), ("y7-H2O^2/0.1,m3:6,", (8, 0)), ("_{mxa3:6},", (0,)),
             ("_{,mxa3:6},", (0,)), ("r[mxa3:6,mxa],", (0,)), ("r[a[,mxa3:6]],", (0,)), ("r[{mxa3:6],", (0,)), ("_{[,mxa3:6},", (0,)), ("wa1{A[,mxa3:6]},", (12,)),
             ("p-[a,mxa3:6],", (0,)))
    tails = ("{PEPT}", "{[a]-PE[,mxa3:6]PT-[b]}", "-H2O", "+[Hex]-2H2O", "+i", "-2iA", "+2i13C-i15N", "[M+H]", "[M+Na-2e]", "^2", "^255", "/0.1", "/-0.20ppm",
             "*0.5", "*1", "{PEPTIDE}+[Hex]-2H2O+2i13C-i15N[M+Na-2e]^3/-0.20ppm*0.50")
    for number, letters in enumerate(LETTERS, 1):
        code = 0 if letters == "yb" else number
        for head, before in heads:
            apart(head + "m", letters + "3:6", cut, *before, code)
            apart(head + "m", letters + "3:6,m4:5,b2", cut, *before, code, 0, 2)
        for tail in tails:
            apart("m", letters + "3:6" + tail, cut, code)
        for ends in ("2:2", "2:65535", "65535:65535", "10:12"):
            apart("m", letters + ends, cut, code)
        apart("m", letters + "3:6", yes, HEADER + RECORD)
        apart("m", letters + "3:6{PEPT}", yes, HEADER + RECORD + 4)
        asked.of(asked.second, counted_letters, letters)
    # the place is that of the first of several
    for head, rest, *codes in (("m", "xa3:6,mzc3:6", 1, 9), ("m", "zc3:6,mxa3:6", 9, 1), ("m3:6,m", "ya3:6,mxb2:2", 0, 4, 2), ("m", "yb3:6,myb3:6", 0, 0),
                               ("m", "yb3:6,myc3:6", 0, 6), ("m", "yc3:6,myb3:6", 6, 0), ("m3:6,m4:7,m", "zb3:6,p,mza9:9", 0, 0, 8, 0, 7)):
        apart(head, rest, cut, *codes)
    apart("m", ",".join(["xa3:6"] + ["m" + letters + "3:6" for letters in LETTERS]), cut, 1, 1, 2, 3, 4, 0, 6, 7, 8, 9)
    alike(cut, "m3:6,m4:7", 0, 0)


def counted_letters(letters):
    """Letters are no part of the sequence that is counted."""
    line = "m" + letters + "3:6{P[K]EPT}"
    yes(line)
    asked.chosen.residue_counts[raw(line)] = [4]


def half_letters():
    """One letter, or two and something else: unfinished or stray in the second edition."""
    for rest, number, place in (
        ("x", 3, 2), ("y", 3, 2), ("z", 3, 2), ("xa", 3, 3), ("yb", 3, 3), ("zc", 3, 3), ("xa3", 3, 4), ("xa3:", 3, 5), ("xa31", 3, 5), ("xa3:6{", 3, 7),
        ("xa3:6{PEPT", 3, 11), ("xa3:6-", 3, 7), ("xa3:6[", 3, 7), ("xa3:6^", 3, 7), ("xa3:6^1", 3, 8), ("xa3:6/", 3, 7), ("xa3:6*", 3, 7), ("xa3:6*.", 3, 8),
        ("xa3:6,", 3, 7), ("xa3:6,m", 3, 8), ("xa3:6,mx", 3, 9), ("xa3:6,mxa", 3, 10), ("x3:6", 2, 2), ("y3:6", 2, 2), ("z3:6", 2, 2), ("xx3:6", 2, 2),
        ("xy3:6", 2, 2), ("yy3:6", 2, 2), ("zx3:6", 2, 2), ("xd3:6", 2, 2), ("xA3:6", 2, 2), ("yB3:6", 2, 2), ("x:6", 2, 2), ("x,", 2, 2), ("x,mxa3:6", 2, 2),
        ("x a3:6", 2, 2), ("x\t", 2, 2), ("xab3:6", 2, 3), ("xaa3:6", 2, 3), ("xaxa3:6", 2, 3), ("xayb3:6", 2, 3), ("ybyb3:6", 2, 3), ("xax3:6", 2, 3),
        ("xaA3:6", 2, 3), ("xa 3:6", 2, 3), ("xa:6", 2, 3), ("xa,", 2, 3), ("xa-3:6", 2, 3), ("xa{A}", 2, 3), ("xa[a]", 2, 3), ("xa@3:6", 2, 3), ("xa03:6", 2, 3),
        ("xa0:6", 2, 3), ("yb0:6", 2, 3), ("xa3x:6", 2, 4), ("xa3a:6", 2, 4), ("xa3xa:6", 2, 4), ("xa3,", 2, 4), ("xa3;6", 2, 4), ("xa3:0", 2, 5), ("xa3:06", 2, 5),
        ("xa3:xa6", 2, 5), ("xa3:,", 2, 5), ("xa3:6xa", 2, 6), ("xa3:6:7", 2, 6), ("xa3:6 ", 2, 6), ("xa3:6\r", 2, 6), ("xa3:6;", 2, 6), ("xa3:6{}", 2, 7),
        ("xa3:6, p", 2, 7), ("xa3:6,xa3:6", 2, 8), ("xa3:6,mxX3:6", 2, 9), ("xa3:6,m3:6,ma3:6", 2, 13), ("yb3:6,mb3:6", 2, 8),
        # the order of what stands behind
        ("xa3:6^2-H2O", 2, 8), ("xa3:6[M+H]-H2O", 2, 11), ("xa3:6*0.1/0.2", 2, 10), ("xa3:6-H2O{PEPT}", 2, 10), ("xa3:6+i+H2O", 2, 8), ("xa3:6{PEPT}{A}", 2, 12),
    ):
        apart("m", rest, no, number, place)
    long = "&12@mxa3:6{[a]-PEPT-[c]}-2H2O+[Hex]+2i13C-i15N[M+Na-e]^23/-0.20ppm*0.50,1@mzc2:3,m4:5,myb3:6"
    for n in range(len(long)):
        alike(ask, long[:n])
    apart(long[:5], long[5:], respelled, long.replace("-2H2O+[Hex]", "+[Hex]-2H2O").replace("myb", "m"))
    asked.of(asked.second, no, long[:5], 3, 5)
    asked.of(asked.second, no, long[:6], 3, 6)


def no_letters():
    """Lines to which the second edition has nothing to add: what looks like letters stands elsewhere, or behind what is stray in both."""
    for line, number, place in (
        ("m", 3, 1), ("m3", 3, 2), ("m3:", 3, 3), ("p,m", 3, 3), ("ma3:6", 2, 1), ("mb3:6", 2, 1), ("mc3:6", 2, 1), ("mab3:6", 2, 1), ("max3:6", 2, 1),
        ("mby3:6", 2, 1), ("mXa3:6", 2, 1), ("mXA3:6", 2, 1), ("mYb3:6", 2, 1), ("md3:6", 2, 1), ("mw3:6", 2, 1), ("mda3:6", 2, 1), ("mwa3:6", 2, 1),
        ("mm3:6", 2, 1), ("m,", 2, 1), ("m xa3:6", 2, 1), ("m&xa3:6", 2, 1), ("m1@xa3:6", 2, 2), ("m3xa:6", 2, 2), ("m3:xa6", 2, 3), ("m3:6xa", 2, 4),
        ("m3:6,a3:6", 2, 7), ("Mxa3:6", 2, 0), ("xa3:6", 2, 1), ("yb3:6", 2, 1), ("zc3:6", 2, 1), ("xma3:6", 2, 1), ("pxa", 2, 1), ("pmxa3:6", 2, 1),
        ("yxa3", 2, 1), ("y1mxa3:6", 2, 2), ("Ixa", 2, 1), ("?xa", 2, 1), ("rxa", 2, 1), ("m03:6", 2, 1), ("m0:6", 2, 1), (" mxa3:6", 2, 0), (",mxa3:6", 2, 0),
        ("y1 ,mxa3:6", 2, 2), ("y1 mxa3:6", 2, 2), ("y1,,mxa3:6", 2, 3), ("y1, mxa3:6", 2, 3), ("y1^1,mxa3:6", 2, 4), ("y1;mxa3:6", 2, 2), ("&&mxa3:6", 2, 1),
        ("00@mxa3:6", 2, 1), ("@mxa3:6", 2, 0), ("1@&mxa3:6", 2, 2), ("ma3:6,mxa3:6", 2, 1), ("_{}mxa3:6", 2, 2), ("r[]mxa3:6", 2, 2), ("_{,mxa3:6", 3, 9),
        ("r[,mxa3:6", 3, 9), ("r[a[],mxa3:6", 3, 12), ("y1{mxa3:6}", 11, 0), ("m3:6{xa}", 11, 0), ("m3:6{mxa3:6}", 11, 0), ("m1:3", 6, 0), ("m6:3", 6, 0),
        ("m3:6{PEP}", 6, 0), ("m70000:3", 4, 1),
    ):
        alike(no, line, number, place)
    for head, name, tail in (("_{", "mxa3:6", "}"), ("_{", "p,mxa3:6", "}"), ("_{", "p],mxa3:6", "}"), ("r[", "mxa3:6", "]"), ("r[", "p,mxa3:6", "]"),
                             ("r[", "a[],mxa3:6", "]"), ("r[", "},mxa3:6", "]"), ("IC[", "mxa3:6", "]"), ("IC[", "M,mxa3:6", "]"), ("s{", ",mxa3:6", "}[M+H]"),
                             ("y1-[", "mxa3:6", "]"), ("m3:6-2[", "a,mxa3:6", "]"), ("y1{", "A[,mxa3:6]", "}"), ("m3:3{", "M[myb3:6]", "}")):
        alike(kept, head + name + tail, name)


def letters_and_limits():
    """4 and 5 in lines with letters: before them, in their annotation and behind it."""
    for head, rest, number, place in (
        ("y65536,m", "xa3:6", 4, 1), ("y1^256,m", "xa3:6", 4, 3), ("65536@m", "xa3:6", 4, 0), ("&65536@m", "yb3:6", 4, 1), ("p,m3:65536,m", "xa3:6", 4, 5),
        ("f{" + "H" * 13 + "},m", "xa3:6", 5, 14), ("_{" + "x" * 256 + "},m", "xa3:6", 5, 257), ("m", "xa65536:65537", 4, 3), ("m", "xa70000:3", 4, 3),
        ("m", "xa3:65536", 4, 5), ("m", "yb3:65536", 4, 5), ("m", "xa70000:70000", 4, 3), ("m", "xa99999999999999999999:3", 4, 3), ("m", "xa1:65536", 4, 5),
        ("m", "xa3:6^256", 4, 7), ("m", "xa3:6-1000H", 4, 7), ("m", "xa3:6/0.1234567890", 4, 7), ("m", "xa3:6*0.1234567890", 4, 7),
        ("m", "xa3:6*.1234567890", 4, 8), ("m", "xa3:6" + "-H" * 9, 5, 6 + 16), ("m", "xa3:6" + "+i13C" * 5, 5, 6 + 20),
        ("m", "xa3:6[M" + "+H" * 5 + "]", 5, 6 + 2 + 8), ("m", "xa3:6,y65536", 4, 8), ("m", "xa3:6,mxa65536:3", 4, 10),
        ("m", "xa3:6,_{" + "x" * 256 + "}", 5, 7 + 257), ("m", "xa2:3{" + "A" * 256 + "}", 5, 7 + 255), ("m", "yb2:3{" + "x" * 256 + "}", 5, 7 + 255),
        (joined(16, "p") + ",m", "xa3:6", 5, 32), (joined(16, "p") + ",&m", "xa3:6", 5, 32), (joined(15, "p") + ",m", "xa3:6,p", 5, 30 + 7),
        ("m", "xa3:6" + ",mxa3:6" * 16, 5, 16 * 7), ("m", "yb3:6" + ",myb3:6" * 16, 5, 16 * 7),
    ):
        apart(head, rest, no, number, place)
    apart("m", "xa3:6" + ",mxa3:6" * 15, cut, *[1] * 16)
    apart("m", "xa3:6" + ",mxa3:6" * 15, yes, HEADER + 16 * RECORD)
    apart("m", "yb3:6" + ",myb3:6" * 15, cut, *[0] * 16)
    apart(joined(15, "p") + ",m", "zc3:6", cut, *[0] * 15, 9)
    apart("m", "xa2:256{" + "A" * 255 + "}", cut, 1)
    # a stray byte and an unfinished line go before
    apart("y65536,m", "xa3:6#", no, 2, 13)
    apart("y65536,m", "xa3:6,", no, 3, 14)


def letters_and_rules():
    """11, 6 and 7 in lines with letters: letters change no rule."""
    for head, rest, number, place in (
        ("m", "xa1:3", 6, 0), ("m", "xa1:1", 6, 0), ("m", "xa6:3", 6, 0), ("m", "xa3:2", 6, 0), ("m", "xa2:1", 6, 0), ("m", "yb1:3", 6, 0), ("m", "yb6:3", 6, 0),
        ("m", "zc65535:2", 6, 0), ("&m", "xa1:3", 6, 0), ("0@m", "xa6:3", 6, 0), ("p,m", "xa1:3", 6, 2), ("m", "xa3:6,mxa1:3", 6, 7), ("m", "xa3:6,m1:3", 6, 7),
        ("m1:3,m", "xa3:6", 6, 0), ("m", "xa3:6/-0.0", 6, 0), ("m", "xa3:6/-0ppm", 6, 0), ("m", "xa3:6*2", 6, 0), ("s{C},m", "xa3:6", 6, 0),
        ("m", "xa3:6,s{C}", 6, 7), ("m", "xa3:6{PEP}", 6, 0), ("m", "xa3:6{M[KKK]}", 6, 0), ("m", "yb3:6{PEP}", 6, 0), ("m", "xa6:3{P}", 6, 0),
        ("p,m", "xa3:6{PEP}", 6, 2), ("m", "xa3:6,y4{PEP}", 6, 7), ("m", "xa3:6{x}", 11, 0), ("m", "yb3:6{x}", 11, 0), ("m", "xa1:1{x}", 11, 0),
        ("m", "xa3:6{PEPt}", 11, 0), ("m", "xa3:6{M[]}", 11, 0), ("p,m", "xa3:6{x}", 11, 2), ("m", "xa1:1,y1{x}", 11, 7), ("y1{x},m", "xa3:6", 11, 0),
        ("m", "xa3:6{x},y70000", 4, 11), ("y1{x},m", "xa70000:3", 4, 9), ("m", "xa3:6,y1{x},m1:1", 11, 7), ("m", "xa3:6*0.7,mza3:6*0.301", 7, 11),
        ("m", "yb3:6*.7,m3:6*.301", 7, 10), ("y1*0.7,m", "xa3:6*0.301", 7, 7), ("y1*0.7,b1*0.7,m", "xa1:3", 6, 14), ("m", "xa3:6*1,mxb3:6*0.000000001", 7, 9),
    ):
        apart(head, rest, no, number, place)
    for head, rest, *codes in (("m", "xa3:6*0.7,mza3:6*0.3", 1, 7), ("m", "yb3:6*0.5,m3:6*0.5", 0, 0), ("m", "xa3:6{PEPT}", 1), ("m", "xa3:6{PEPTIDE}", 1),
                               ("m", "xa3:6{[KK]-PE[K]PT}", 1), ("m", "xa2:2{K},m2:2{K}", 1, 0), ("m", "xa3:6/0.0", 1)):
        apart(head, rest, cut, *codes)


def letters_and_lengths():
    """4,096 bytes and more. In the first edition a line of more is 1 too, letters or not."""
    for head, before, codes in (("mxa3:6", "m", (1,)), ("myb3:6", "m", (0,)), ("p,mzc3:6{PEPT}", "p,m", (0, 9)), ("mya3:6,myb3:6", "m", (4, 0))):
        line = reached(head, MAX_LINE)
        apart(before, line[len(before):], cut, *codes, 0, 0)
        alike(no, reached(head, MAX_LINE + 1), 1, MAX_LINE)
        alike(no, reached(head, MAX_LINE + 2), 1, MAX_LINE)
        apart(before, line[len(before):-1] + "\x7f", no, 2, MAX_LINE - 1)
        apart(before, line[len(before):-1], no, 3, MAX_LINE - 1)
        alike(no, line + "#", 1, MAX_LINE)
    alike(yes, reached("m3:6", MAX_LINE))
    # letters at the end of the longest lines
    for end, number in (("x", 3), ("xa", 3), ("xx", 2), ("xa3:6#", 2)):
        front = reached("p", MAX_LINE - 2 - len(end)) + ",m"
        apart(front, end, no, number, MAX_LINE - (number == 2))
        alike(no, "p" + front + end, 1, MAX_LINE)
    alike(no, reached("p", MAX_LINE - 2) + ",m", 3, MAX_LINE)
    front = reached("p", MAX_LINE - 7) + ",m"
    apart(front, "xa3:6", cut, 0, 0, 0, 1)
    alike(no, "p" + front + "xa3:6", 1, MAX_LINE)
    # the preferred spelling is shorter by two bytes for each `yb`, and longer by one for each point: it has 4,095, 4,096 and 4,097 bytes
    for points in (1, 2, 3):
        line = reached("myb3:6*.0" + ",p*.0" * (points - 1), MAX_LINE)
        apart("m", line[1:], *((yes,) if points == 3 else (respelled, line.replace("myb", "m").replace("*.", "*0."))))
    for line in ("m" + "x" * 4096, "mxa3:6" + "x" * 4091, "mxa3:6," * 600, "mxa" + "3" * 70000):
        alike(no, line, 1, MAX_LINE)


def letters_freely():
    """`yb` may be written or not, as counts of 1; any other letters are another table."""
    second = asked.second
    for made in (
        ("m3:6", "myb3:6"), ("&1@m3:6", "&1@myb3:6"), ("m3:6{PEPT}", "myb3:6{PEPT}"), ("m2:2,m3:3", "myb2:2,m3:3", "m2:2,myb3:3", "myb2:2,myb3:3"),
        ("m3:6-H2O-NH3", "myb3:6-H2O-NH3", "m3:6-NH3-H2O", "myb3:6-NH3-H2O", "myb3:6-NH3-H2O1"), ("m3:6*0.5", "myb3:6*0.5", "m3:6*.5", "myb3:6*.5"),
        ("m3:6+i[M+H+Na]^2/0.1ppm", "myb3:6+1i[M+Na+H]^2/0.1ppm", "m3:6+1i[M+1H+Na]^2/0.1ppm"), ("mxa3:6-H2O-NH3", "mxa3:6-NH3-H2O"), ("mzc3:6*0.5", "mzc3:6*.5"),
        ("mxa3:6,m3:6,mzc3:6", "mxa3:6,myb3:6,mzc3:6"), ("mxa3:6-H2O-NH3,m3:6", "mxa3:6-NH3-H2O,m3:6", "mxa3:6-NH3-H2O,myb3:6", "mxa3:6-H2O-NH3,myb3:6"),
        ("_{myb3:6},m3:6", "_{myb3:6},myb3:6"),
    ):
        asked.of(second, best, *made)
        for line in made:
            at = first_letter(raw(line))
            asked.of(asked.first, *((yes, line) if at is None else (no, line, 2, at)))
    for i, one in enumerate(LETTERS):
        for other in LETTERS[i + 1:]:
            asked.of(second, differ, "m" + one + "3:6", "m" + other + "3:6")
        if one != "yb":
            asked.of(second, differ, "m3:6", "m" + one + "3:6")
            asked.of(second, differ, "p,m3:6{PEPT}-H2O", "p,m" + one + "3:6{PEPT}-H2O")
    asked.of(second, differ, "mxa3:6,mxb3:6", "mxb3:6,mxa3:6")
    asked.of(second, differ, "mxa3:6", "mxa3:7")
    asked.of(second, differ, "mxa3:6", "mxa2:6")


def bytes_at_letters():
    """Every byte but the line feed behind `m`, and in the second edition behind one letter, two, and a digit."""
    for byte in (bytes([b]) for b in range(256) if b != 10):
        begins = byte.isdigit() and byte != b"0"
        if byte in (b"x", b"y", b"z"):
            apart("m", byte.decode(), no, 3, 2)
        else:
            alike(no, b"m" + byte, 3 if begins else 2, 2 if begins else 1)
        for first in (b"mx", b"my", b"mz"):
            asked.of(asked.second, no, first + byte, *((3, 3) if byte in (b"a", b"b", b"c") else (2, 2)))
        for letters in (b"xa", b"yb"):
            asked.of(asked.second, no, b"m" + letters + byte, *((3, 4) if begins else (2, 3)))
            asked.of(asked.second, ask, b"m" + letters + b"3" + byte)
            asked.of(asked.second, ask, b"m" + letters + b"3:6" + byte)


def reached(head, size):
    """A line of so many bytes that is read if its head is: the head, and two precursors with eight losses each, in preferred order."""
    left = size - len(head) - len(",p,p") - 16 * len("-[]")
    parts = []
    for i in range(16):
        n = left // (16 - i)
        parts.append("-[" + "x" * n + "]")
        left -= n
    line = head + ",p" + "".join(parts[:8]) + ",p" + "".join(parts[8:])
    assert len(line) == size and max(len(part) for part in parts) <= 258, (len(line), size)
    return line


def filled(size, zeros):
    """A line of so many bytes that is read: 16 annotations, of which so many have a confidence without its 0, and the others none."""
    parts = ["_{%s}" + ("*.0" if i < zeros else "") for i in range(16)]
    left = size - sum(len(p) - 2 for p in parts) - 15
    texts = []
    for i in range(16):
        n = left // (16 - i)
        texts.append("x" * n)
        left -= n
    assert max(len(t) for t in texts) <= 255
    line = ",".join(p % t for p, t in zip(parts, texts))
    assert len(line) == size
    return line


def spellings():
    """Lines that spell one table, and their nearest neighbours that do not."""
    same("y1-H2O", "y1-H2O1")
    same("f{CHO}", "f{C1H1O1}", "f{CH1O}", "f{C1HO1}")
    same("f{CHe}", "f{C1He1}")
    same("y1+i", "y1+1i")
    same("y1+iA", "y1+1iA")
    same("y1+i13C-i15N", "y1+1i13C-1i15N", "y1+1i13C-i15N")
    same("y1[M+H]", "y1[M+1H]", "y1[M+H1]", "y1[M+1H1]")
    same("y1[M-e]", "y1[M-1e]")
    same("y1[M+[13C1]]", "y1[M+1[13C1]]")
    same("y1[M+H+Na]", "y1[M+Na+H]", "y1[M+1Na1+1H]")
    no("f{[13C]}", 2, 6)
    no("y1-1H2O", 2, 4)
    no("y1-1[Hex]", 2, 4)
    no("f{C01}", 2, 3)
    no("f{C0}", 2, 3)
    no("y1+0i", 2, 3)
    no("y01", 2, 1)
    no("y0", 2, 1)
    no("y1/00", 2, 4)
    no("y1/.5", 2, 3)
    no("y1/0.2pm", 2, 7)
    no("y1*-0.2", 2, 3)
    no("y1*0.2ppm", 2, 6)
    differ("y1-H2O", "y1+H2O")
    differ("y1-H2O", "y1-2H2O")
    differ("y1-H2O", "y1-[H2O]")
    differ("y1+i", "y1-i")
    differ("y1+i", "y1+iA")
    differ("y1+2i", "y1+3i")
    differ("y1[M+H]", "y1[M-H]")
    differ("y1[M+H+H]", "y1[M+2H]")
    differ("y1", "&y1")
    differ("y1", "0@y1")
    differ("0@y1", "1@y1")
    differ("y1/0.1", "y1/-0.1")
    differ("y1/0.1", "y1/0.1ppm")
    differ("y1", "y1^2")
    differ("y1", "y1/0")
    differ("y1", "y1*0")
    differ("y1*1", "y1*1.0")
    differ("y1/0", "y1/0.0")
    differ("?", "?1")
    differ("IC", "IC[C]")
    differ("f{CH}", "f{HC}")
    differ("f{CH2}", "f{C[2H1]}")
    differ("IC[M+H]", "IC[M2]")
    differ("_{a}", "_{A}")


def orders():
    """Losses and adduct items in many orders. `[` ranks below every byte, at every index; a prefix before the longer."""
    for parts in (
        ["-H2O", "-NH3", "+CO"],
        ["-H2O", "+H2O", "-2H2O"],
        ["-2H2O", "-10H2O", "+H2O", "+3H2O"],
        ["-[Hex]", "-[HexNAc]", "-H2O", "-[13C1]"],
        ["-[Hex]", "-Hf", "-H", "-He"],
        ["-C[13C1]", "-C2", "-C", "-CH4"],
        ["-H2[18O1]", "-H2O", "-H2", "-H"],
        ["-H", "-H", "-H", "+H"],
        ["-[a]", "-[ab]", "-[A]", "-[Z~]"],
        ["-[x-y]", "-[x y]", "-[x/y]", "-[x,y]"],
        ["-[13C1]", "-[12C1]", "-[2H1]", "-[13C2]"],
        ["-[13C1]H", "-[13C1][13C1]", "-[13C1]", "-[13C10]"],
        ["-C1H1", "-CH", "+C1H", "-2CH1"],
        ["-H10", "-H2", "-H1", "-H12"],
    ):
        same(*rotations("y9", parts))
    for parts in (
        ["+H", "+Na", "-H2O"],
        ["+e", "-e", "-2e", "+H"],
        ["+NH4", "+Na", "+N", "+2N"],
        ["+[13C1]", "+C[13C1]", "+C2", "+C"],
        ["+H", "+H", "-H", "+2H"],
        ["-10H", "+H", "-2H", "-H"],
    ):
        same(*rotations("p[M", parts, "]"))
    eight = ["-H2O", "-NH3", "+[Hex]", "-[HexNAc]", "+CO", "-2H2O", "+[13C1]", "-C[13C1]"]
    same(*rotations("y12", eight))
    same(*rotations("y12", eight[::-1]))
    same("y12" + "".join(eight) + "[M+Na+H]", "y12" + "".join(eight[::-1]) + "[M+H+Na]")
    text("y1-[b]-H2O-[a]+[c]", "abc")
    text("y1-[ab]-[a]-[abc]", "a" "ab" "abc")
    text("y1-[a]+[A]-H", "Aa")
    text("r[x]-[b]-[a],_{y}+[d]+[c]", "xab" "ycd")
    made_of("y1-O-N-C", (0, 6, 1), (0, 7, 1), (0, 8, 1))
    made_of("y1-He-H-H2", (0, 1, 1), (0, 1, 2), (0, 2, 1))
    made_of("y1-H-[13C1]-C[13C1]-C2", (13, 6, 1), (0, 6, 1), (13, 6, 1), (0, 6, 2), (0, 1, 1))
    made_of("y1-H10-H2", (0, 1, 10), (0, 1, 2))
    made_of("y1-[13C1]H-[13C1][13C1]", (13, 6, 1), (13, 6, 1), (13, 6, 1), (0, 1, 1))
    made_of("f{O}-N-H[M+Na-e+C]", (0, 8, 1), (0, 1, 1), (0, 7, 1), (0, 6, 1), (0, 11, 1))
    made_of("p[M+Na+H],y1-O-H", (0, 1, 1), (0, 11, 1), (0, 1, 1), (0, 8, 1))


def kinds():
    """Every kind and series, with everything an annotation may have."""
    ions = [s + "7" for s in "a b c d v w x y z da db wa wb".split()]
    ions += ["y7{PEPT[/,]IDE}", "m2:5", "m3:5{EPT}", "IC", "IZ[Oxidation]", "p", "r[TMT127N]", "_{Urocanic Acid}", "f{C16H22O}", "f{C15[13C1]H22}", "?", "?17"]
    for ion in ions:
        for head in ("", "&", "3@", "&0@"):
            yes(head + ion)
        yes("&65535@" + ion + "-2H2O+[Hex]+2i13C-i15N[M+Na-2e]^3/-0.20ppm*0.50")
        yes(ion + "+i")
        yes(ion + "-iA[M+H]")
        yes(ion + "^2/1.5,p")
    no("y7{PEP/TI,DE}", 11, 0)
    no("m3:7{EPT}", 6, 0)
    yes("s{CN=C=O}[M+H]/-0.55ppm")
    yes("&1@s{C(=O)[O-]}-H2O[M+NH4]^2")
    for letter in "ABCDEFGHIJKLMNOPQRSTUVWXYZ":
        yes("I" + letter, 66)
    for element, number in (("H", 1), ("He", 2), ("C", 6), ("Fe", 26), ("U", 92), ("Lr", 103), ("Cn", 112), ("Nh", 113), ("Og", 118)):
        made_of("f{" + element + "2}", (0, number, 2))
    for none in ("J", "Hx", "D", "M", "Aa", "Q"):
        ask("f{" + none + "2}")
    yes(joined(4, "b2-H2O/3.2ppm*0.2"))


def unfinished():
    """Lines that begin a shape and are none: 3 at their length."""
    for line in (
        "& &1 &1@ 1 0 12 1@ y da w wa m m2 m2: I r r[ r[a _ _{ _{a f f{ f{C f{C1 f{[ f{[1 f{[13 f{[13C f{[13C1 f{[13C1] s s{ s{a y1{ y1{a m2:3{ m2:3{a "
        "IC[ IC[a IC[M IC[M+ IC[M+H y1- y1+ y1-2 y1-[ y1-[a y1-[13 y1-[13C1 y1-[M y1-[M+H y1+i1 y1+i13 y1+2i13 y1[ y1[M y1[M+ y1[M+2 y1[M+H y1[M+2H "
        "y1[M+[13C1] y1^ y1^1 y1/ y1/- y1/0. y1/-0. y1/0.2p y1/0.2pp y1* y1*0. y1, y1,& y1,b y1-1 y1+1 y1+i13C+ y1+i13C+i y1+i13C+2i"
    ).split(" "):
        no(line, 3, len(line))
    long = "&12@y7{[a]-PEPTID[b]E-[c]}-2H2O+[Hex]+2i13C-i15N[M+Na-e]^23/-0.20ppm*0.50,IC[M+H]"
    for n in range(len(long)):
        ask(long[:n])
    yes(long)
    no(long.replace("[a]-PEPTID[b]E-[c]", "ab"), 11, 0)


def strays():
    """Every byte but the line feed, where it is stray, and in a text, a name and behind an ion."""
    for b in range(256):
        if b == 10:
            continue
        one = bytes([b])
        no((b"y" if 65 <= b <= 90 else b"I") + one, 2, 1)
        printable = 32 <= b <= 126
        if printable and one not in b"{}":
            text(b"_{a" + one + b"}", b"a" + one)
        elif one != b"}":
            no(b"_{a" + one + b"}", 2, 3)
        if printable and one not in b"[]":
            text(b"r[a" + one + b"]", b"a" + one)
        elif one == b"[":
            no(b"r[a[]", 3, 5)
        elif one != b"]":
            no(b"r[a" + one + b"]", 2, 3)
        ask(one)
        ask(b"y1" + one)
        ask(b"y1-" + one)
    for line, place in (("y1 ", 2), (" y1", 0), ("y1,,y2", 3), (",", 0), ("y1;y2", 2), ("Y1", 0), ("y-1", 1), ("e1", 0), ("y1-h2O", 3), ("y1-[2a]", 5),
                        ("y1[M+]", 5), ("y1[m+H]", 3), ("y1[M+H", None), ("y1^2^3", 4), ("y1^2-H2O", 4), ("y1*0.1/0.2", 6), ("y1/0.1/0.2", 6), ("y1-i-i", 4), ("@y1", 0),
                        ("1@2@y1", 2), ("&&y1", 1), ("m2:3:4", 4), ("r(a)", 1), ("_[a]", 1), ("f{C}{H}", 4), ("p1", 1), ("?0", 1), ("Ic", 1)):
        if place is None:
            no(line, 3, len(line))
        else:
            no(line, 2, place)


def rooms():
    """Lines of several kinds, and the bytes of their tables: the header, and 38, 6, 8, 6, 6 and 1 for what the six sections count."""
    counted_lines = [
        ("", (0, 0, 0, 0, 0, 0)),
        ("y1", (1, 0, 0, 0, 0, 0)),
        ("y1,b2", (2, 0, 0, 0, 0, 0)),
        ("_{x}", (1, 0, 0, 0, 0, 1)),
        ("y5-H2O-NH3", (1, 2, 0, 0, 4, 0)),
        ("y2+i", (1, 0, 1, 0, 0, 0)),
        ("IC[M+H]", (1, 0, 0, 1, 1, 0)),
        ("y1[M-e]", (1, 0, 0, 1, 0, 0)),
        ("f{C16H22O}", (1, 0, 0, 0, 3, 0)),
        ("&1@y7{PEPTIDE}-H2O+[Hex]+2i13C-i15N[M+Na-2e]^3/-0.20ppm*0.50", (1, 2, 2, 2, 3, 10)),
        ("_{" + "x" * 255 + "}," + "r[" + "y" * 255 + "]", (2, 0, 0, 0, 0, 510)),
        ("r[[]]", (1, 0, 0, 0, 0, 2)),
        ("y3{PEP}", (1, 0, 0, 0, 0, 3)),
        ("m3:5{[Ac]-PE[[x]]P-[am]},y1{K}", (2, 0, 0, 0, 0, 19)),
        ("y255{" + "A" * 255 + "}", (1, 0, 0, 0, 0, 255)),
        ("IC[M[+]]-[Hexa]-[Hex[x]][M+H]", (1, 2, 0, 1, 1, 14)),
        ("r[" + "[]" * 127 + "x]", (1, 0, 0, 0, 0, 255)),
        ("f{" + "H" * 12 + "}" + ("-" + "H" * 12) * 8 + "[M" + ("+" + "H" * 12) * 4 + "]", (1, 8, 0, 4, 156, 0)),
        (joined(16, "p"), (16, 0, 0, 0, 0, 0)),
        (joined(16, "f{" + "H" * 12 + "}" + ("-" + "H" * 12) * 8 + "[M" + ("+" + "H" * 12) * 4 + "]"), (16, 128, 0, 64, 2496, 0)),
    ]
    made = []
    for line, counts in counted_lines:
        size = HEADER + sum(n * width for n, width in zip(counts, (RECORD, 6, 8, 6, 6, 1)))
        for room in dict.fromkeys((size, size - 1, size + 1, size - 2 * counts[0], 0, 27, ROOM)):
            made.append((room, raw(line), (0, 0, size) if size <= room else (8, size, 0)))
    # refusals by other numbers go before 8
    for line, number, place in (("y1^1", 3, 4), ("y1 ", 2, 2), ("y65536", 4, 1), (joined(17, "p"), 5, 32), ("m1:3", 6, 0), ("y1*0.7,b2*0.7", 7, 7),
                                ("x" * 4097, 1, 4096), ("r[a[b]", 3, 6), ("r[a]]", 2, 4), ("r[" + "[]" * 128 + "]", 5, 257), ("m1:1,y1{x}", 11, 5),
                                ("p,y4{PEP}", 6, 2), ("mxa3:6", 2, 1), ("p,myb3:6", 2, 3), (reached("mxa3:6", 4096), 2, 1), (reached("mxa3:6", 4097), 1, 4096)):
        for room in (0, 1, 28, ROOM):
            made.append((room, raw(line), (number, place, 0)))
    return made


def first_letter(line):
    """Where the first letter of an internal ion stands in a line of second-edition shape; none without one. Texts and names are passed over: a text
    ends at its brace, a name where its brackets pair up."""
    at, begins = 0, True
    while at < len(line):
        byte = line[at:at + 1]
        if begins and byte == b"m" and line[at + 1:at + 2] in (b"x", b"y", b"z"):
            return at + 1
        # an annotation begins at its ion, behind `&` and the analyte
        begins = byte in (b",", b"&", b"@") or begins and byte.isdigit()
        at = line.index(b"}", at) if byte == b"{" else name_end(line, at) - 1 if byte == b"[" else at
        at += 1
    return None


def checked_editions(first, second):
    """Differences between the stored answers of both editions and what the request says of the first (M-113): a line of second-edition shape is 2 at
    its first letter, and without letters answered the same. What is 1 has no shape that is asked for, and is 1 in both."""
    for line in first.keys() & second.keys():
        number = int(second[line].split(b" ")[0])
        at = first_letter(line) if number not in (1, 2, 3) else None
        due = b"2 %d 0 -" % at if at is not None else second[line] if number not in (2, 3) else first[line]
        if first[line] != due or (number == 1) != first[line].startswith(b"1 "):
            yield line, due, first[line]


def checked_reads(of, answers):
    """Differences between the stored answers and what is stated of them."""
    found = {}
    for line, answer in zip(of.lines, answers):
        number, place, length, digits = answer.split(b" ")
        table = b"" if digits == b"-" else bytes.fromhex(digits.decode())
        got = (int(number), int(place), int(length), table)
        if found.setdefault(line, got) != got:
            yield line, found[line], answer
        if len(table) != int(length) or (int(number) != 0 and table) or (int(number) == 0 and not table):
            yield line, "a table and a length that agree", answer
    for line, (number, place) in of.stated.items():
        if found[line][:2] != (number, place):
            yield line, (number, place), found[line][:3]
    for line, size in of.sizes.items():
        if found[line][2] != size:
            yield line, "%d bytes" % size, found[line][:3]
    for group in of.equal:
        for line in group[1:]:
            if found[line][3] != found[group[0]][3]:
                yield line, b"the table of " + group[0], found[line][3].hex()
    for a, b in of.unequal:
        if found[a][3] == found[b][3]:
            yield a, b"another table than " + b, found[a][3].hex()
    for line, expected in of.texts.items():
        count, offset = pair(found[line][3], 24)
        if found[line][3][offset:offset + count] != expected:
            yield line, expected, found[line][3].hex()
    for line, expected in of.residue_counts.items():
        if [pair(record, 36, 1)[0] for record in records_of(found[line][3])] != expected:
            yield line, expected, found[line][3].hex()
    for line, expected in of.letters.items():
        if [record[3] for record in records_of(found[line][3])] != expected:
            yield line, expected, found[line][3].hex()
    for line, expected in of.units.items():
        table = found[line][3]
        count, offset = pair(table, 20)
        got = [tuple(pair(table, offset + 6 * i, 3)) for i in range(count)]
        if got != expected:
            yield line, expected, got


def checked_spellings(of, read, answers):
    """Differences between the stored answers of `relabel` and what follows from those of `reads`, and from the stated spellings."""
    for line, told, answer in zip(of.lines, read, answers[len(SHOWN):]):
        number, place, _, digits = told.split(b" ")
        table = bytes.fromhex(digits.decode()) if number == b"0" else b""
        due = decode.shown(decode.decoded(table), table, True).encode() if table else b"!" + number + b" " + place
        if len(due) > MAX_LINE:
            due = b"!1 %d" % MAX_LINE
        if answer != due or of.spelled.get(line, due) != due:
            yield line, of.spelled.get(line, due), answer


def pair(table, at, n=2):
    """n numbers of two bytes each."""
    return [int.from_bytes(table[at + 2 * i:at + 2 * i + 2], "little") for i in range(n)]


def records_of(table):
    """The records of the annotations."""
    return [table[HEADER + RECORD * i:HEADER + RECORD * (i + 1)] for i in range(pair(table, 4)[0])]


def stored(name, kind):
    with open(os.path.join(ROOT, name, kind), "rb") as f:
        return f.read()


def store(name, kind, data):
    os.makedirs(os.path.join(ROOT, name), exist_ok=True)
    with open(os.path.join(ROOT, name, kind), "wb") as f:
        f.write(data)


def store_second(name, data):
    """The input of a program for lines of the second edition, and the word that asks for it."""
    store(name, "stdin", data)
    store(name, "args", b"--second\n")


def answers_of(name, many):
    """The stored answers of a program."""
    answers = stored(name, "stdout").split(b"\n")[:-1]
    assert len(answers) == many, (name, len(answers), many)
    return answers


def checked_lines(of):
    """Differences in the stored answers for one edition of lines."""
    answers = answers_of(of.reads, len(of.lines))
    return [*checked_reads(of, answers), *checked_spellings(of, answers, answers_of(of.relabel, len(SHOWN) + len(of.lines)))]


def checked_rooms(made):
    for (room, line, expected), answer in zip(made, answers_of("try_read_sized", len(made))):
        got = tuple(int(n) for n in answer.split(b" ")[:3])
        if got != expected:
            yield b"%d " % room + line, expected, got


def check(made):
    said = [dict(zip(of.lines, answers_of(of.reads, len(of.lines)))) for of in asked.each()]
    wrong = [*checked_lines(asked.first), *checked_lines(asked.second), *checked_editions(*said), *checked_rooms(made)]
    for line, expected, got in wrong:
        print("line %r: stated %.200r, stored %.200r" % (line[:80], expected, got))
    for of in asked.each():
        print("%s: %d lines, %d of them with a stated answer" % (of.reads, len(of.lines), len(of.stated)))
    print("%d lines of both; %d rooms; %d differences" % (len(said[0].keys() & said[1].keys()), len(made), len(wrong)))
    return not wrong


def answers_by(folder, name, given, *words, flags=LANDED):
    """What a program of the other implementation prints."""
    return subprocess.run([os.path.join(folder, name), *flags, *words], input=given, stdout=subprocess.PIPE, check=True).stdout


def store_inputs(made):
    """The last line of some lacks its line feed, as it may."""
    for of, put in zip(asked.each(), (lambda name, data: store(name, "stdin", data), store_second)):
        put(of.reads, b"\n".join(of.lines))
        put(of.relabel, b"\n".join([*SHOWN, *of.lines]))
    store("try_read_sized", "stdin", b"".join(b"%d " % room + line + b"\n" for room, line, _ in made))


def store_outputs(folder, made):
    for of in asked.each():
        store(of.reads, "stdout", answers_by(folder, "cross", stored(of.reads, "stdin"), flags=of.flags))
        store(of.relabel, "stdout", answers_by(folder, "relabel", stored(of.relabel, "stdin"), flags=of.flags))
    store("try_read_sized", "stdout", b"".join(answers_by(folder, "cross", line + b"\n", "--out", str(room)) for room, line, _ in made))


def main(words):
    for part in (examples, readings, specification, lengths, counted, numbered, together, sums, points, nested, sequences, spellings, orders, kinds,
                 unfinished, strays):
        part()
    # lines without letters, which the second edition answers as the first
    for part in (examples, readings, specification, lengths, counted, together, sums, points, beside_other_faults, spellings, kinds, unfinished):
        asked.of(asked.second, part)
    lettered()
    made = rooms()
    if words[:1] == ["--check"]:
        return 0 if check(made) else 1
    store_inputs(made)
    if words[:1] == ["--with"]:
        store_outputs(words[1], made)
        return 0 if check(made) else 1
    return 0


if __name__ == "__main__":
    sys.exit(main(sys.argv[1:]))
