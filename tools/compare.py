#!/usr/bin/env python3
"""Compares two readers on damaged lines.

    python3 tools/compare.py OURS OTHER [--lines N] [--seed S] [--good FILE] [--show K]

OURS and OTHER are programs that read lines from standard input and print one answer a line: "tools/run reads" and another reader, or "tools/run
relabel" and another relabel program. Each is a path, or words between quotes: "tools/run reads --second" reads lines of the second edition, and the
other has to be told the same.
N (100,000 unless said) lines are made from good ones by damage: bytes and whole parts deleted, inserted, swapped, repeated; numbers moved to their
bounds; parts repeated past their limits; long lines. Some names have brackets inside, of a depth up to 6; brackets are put in, dropped, turned and
moved, at times some thousands of them. The braces of series and internal ions mostly hold a sequence with residues enough, and at times one too few,
one with a byte changed, or another text. Some lines have internal ions with letters, as in `mxa3:6`, at times one letter, two in another order,
doubled, capital or foreign ones; in the first edition such a line is refused at the first letter, so most lines have none. FILE holds the good lines,
one a line; without it the inputs of the programs `reads` and `try_second_reads` and lines made here serve. The same S makes the same lines. Prints
each difference (K of them, 20 unless said) and how often each number was answered; the exit status is 1 where the answers differ.
"""
import argparse
import collections
import os
import random
import re
import shlex
import subprocess
import sys

# The stored inputs that serve as good lines, of both editions.
STORED = [os.path.join(os.path.dirname(os.path.abspath(__file__)), "..", "crates", name, "stdin") for name in ("reads", "try_second_reads")]
SERIES = "a b c d v w x y z da db wa wb".split()
SYMBOLS = "H C N O S P Na K He Cl Fe Se Li Og U Cn Hf".split()
NAMES = ["Hex", "HexNAc", "Hexose", "M", "M2", "a", "TMT127N", "Phospho", "x,y/z", "Z~", "He"]
TEXTS = ["PEPTIDE", "a,b/c", "CN=C=O", "C(=O)[O-]", "x", "Urocanic Acid", "[M+H]", "y1*0.5"]
EDGES = [0, 1, 2, 3, 9, 10, 11, 99, 254, 255, 256, 998, 999, 1000, 1001, 65534, 65535, 65536, 65537, 99999, 1000000, 2**32, 2**64, 10**12]
DECIMALS = ["0", "0.0", "0.1", "0.05", "0.01", "0.02", "0.5", "0.25", "1", "1.0", "1.000000001", "0.999999999", "0.000000001", "0.1234567890", "123456789012", "1234567890123",
            "123.123456789", "1234.123456789", "0.70", "2", "99.5", "0.333333333", "0.000000000"]
# What stands before the first bracket inside a name that need not begin with a letter; between brackets, or beside them.
BEFORE = ["", "", "M", "x", "2"]
INSIDE = ["", "", "", "a", "x", "Hex", "M+", "M-H", "2H1", "13C", ",", "/0.5", "{", "}", "+i", "*.5", " ", "^2", "II"]
LETTERS = [first + second for first in "xyz" for second in "abc"]
RESIDUES = "ACDEFGHIKLMNPQRSTVWYXBZJOU"
ALPHABET = b"yb12350m:I[]{}()+-^/*,.@&?_fsrpM HCNOeiAaxzc\x00\x7f\xff\r~"


def nested(chance, depth):
    """A name, or a part of one, with brackets inside that pair up, at most so deep."""
    made = chance.choice(INSIDE)
    for _ in range(chance.choice([1, 1, 1, 2, 3])):
        inner = nested(chance, depth - 1) if depth > 1 and chance.random() < 0.5 else chance.choice(INSIDE)
        made += "[" + inner + "]" + chance.choice(INSIDE)
    return made


def sequence(chance, name):
    """A sequence of the plain form, and how many residues it has; `name` makes a name."""
    count = chance.choice([1, 1, 2, 2, 3, 4, 5, 7, 9, 12, 30]) if chance.random() < 0.97 else chance.choice([100, 200, 254, 255, 256])
    made = "[" + name() + "]-" if chance.random() < 0.2 else ""
    for _ in range(count):
        made += chance.choice(RESIDUES)
        while chance.random() < (0.2 if count < 20 else 0.005):
            made += "[" + name() + "]"
    return made + ("-[" + name() + "]" if chance.random() < 0.2 else ""), count


def sequence_changed(chance, text):
    """A byte of a sequence dropped, put in, turned into another, or swapped with its neighbour."""
    at, byte = chance.randint(0, len(text)), chance.choice("AKx[]--[]a1 ")
    return chance.choice([text[:at] + text[at + 1:], text[:at] + byte + text[at:], text[:at] + byte + text[at + 1:], text[:at] + text[at + 1:at + 2] + text[at:at + 1] + text[at + 2:]])


def letters_changed(chance, letters):
    """Letters of an internal ion, one of them dropped, both swapped, one or both doubled, capital, or foreign."""
    first, second = letters
    return chance.choice([first, second, second + first, first * 2, second * 2, letters * 2, letters + second, letters.upper(), first.upper() + second,
                          first + second.upper(), chance.choice("adwmb") + second, first + chance.choice("dxz1: "), letters + chance.choice(" :,0")])


def brackets_changed(chance, text):
    """Bytes with a bracket more or fewer, turned, or in another place; or with so many that they are deep."""
    places = [i for i, b in enumerate(text) if b in b"[]"]
    at = chance.choice(places) if places and chance.random() < 0.7 else chance.randint(0, len(text))
    how = chance.randrange(7)
    if how == 0:
        return text[:at] + chance.choice([b"[", b"]", b"[]", b"][", b"[[]", b"[]]"]) + text[at:]
    if how == 1:
        return text[:at] + text[at + 1:]
    if how == 2:
        return text[:at] + (b"[" if text[at:at + 1] == b"]" else b"]") + text[at + 1:]
    if how == 3:
        rest, to = text[:at] + text[at + 1:], chance.randint(max(0, at - 5), at + 5)
        return rest[:to] + text[at:at + 1] + rest[to:]
    if how == 4:
        return text[:at] + b"[" + text[at:at + 3] + b"]" + text[at + 3:]
    if how == 5:
        end = chance.choice(places) if places else at
        return text[:min(at, end)] + text[max(at, end):]
    n = chance.choice([2, 5, 100, 126, 127, 128, 255, 256, 1000, 2040, 4090]) + chance.randint(-2, 2)
    return text[:at] + b"[" * n + b"]" * (n + chance.choice([0, 0, 0, -1, 1, -n])) + text[at:]


class Maker:
    def __init__(self, seed, good):
        self.random = random.Random(seed)
        self.good = good
        self.lettered = False  # whether the line has letters

    def name(self, first=NAMES):
        """A name, at times with brackets inside; of a loss it mostly begins with a letter."""
        chance = self.random.random()
        return self.random.choice(NAMES) if chance < 0.6 else self.random.choice(first) + nested(self.random, self.random.choice([1, 1, 2, 3, 6]))

    def pointed(self, decimal):
        """A confidence, at times without the 0 before its point."""
        return decimal[1:] if decimal.startswith("0.") and self.random.random() < 0.3 else decimal

    def number(self, low=1, high=30):
        if self.random.random() < 0.01:
            return str(self.random.choice(EDGES[low:] if low < 3 else EDGES))
        return str(self.random.randint(low, high))

    def formula(self):
        n = self.random.choice([1, 1, 2, 3, 12, 13]) if self.random.random() < 0.2 else self.random.randint(1, 4)
        return "".join(self.unit() for _ in range(n))

    def unit(self):
        symbol = self.random.choice(SYMBOLS)
        if self.random.random() < 0.15:
            return "[" + self.number() + symbol + self.number() + "]"
        return symbol + (self.number(1, 20) if self.random.random() < 0.5 else "")

    def count(self):
        return self.number(2, 12) if self.random.random() < 0.25 else ""

    def loss(self):
        what = "[" + self.name() + "]" if self.random.random() < 0.3 else self.formula()
        return self.random.choice("+-") + self.count() + what

    def isotope(self, kind):
        n = self.random.choice("+-") + self.count() + "i"
        return n if kind == 0 else n + "A" if kind == 1 else n + self.number(1, 40) + self.random.choice(SYMBOLS)

    def isotopes(self):
        kind = self.random.randrange(3)
        return "".join(self.isotope(kind) for _ in range(self.random.choice([1, 1, 2, 3, 4, 4, 5]) if kind == 2 else 1))

    def item(self):
        return self.random.choice("+-") + self.count() + ("e" if self.random.random() < 0.2 else self.formula())

    def braces(self):
        """What stands in the braces of a series or an internal ion, braces included, and how many residues the ion is to cover, one more than there
        are now and then."""
        made, count = sequence(self.random, lambda: self.name(BEFORE).replace("{", "").replace("}", "") or "a")
        chance = self.random.random()
        if chance < 0.08:
            made = sequence_changed(self.random, made)
        elif chance < 0.12:
            made = self.random.choice(TEXTS)
        many = self.random.randint(1, count) if self.random.random() < 0.6 else count
        return "{" + made + "}", count + 1 if self.random.random() < 0.06 else many

    def letters(self):
        """What stands behind the `m` of an internal ion."""
        if not self.lettered or self.random.random() < 0.35:
            return ""
        made = self.random.choice(LETTERS)
        return letters_changed(self.random, made) if self.random.random() < 0.08 else made

    def ion(self):
        # with letters there are more internal ions
        kind = 1 if self.lettered and self.random.random() < 0.3 else self.random.randrange(9)
        text = self.random.choice(TEXTS)
        if kind == 0:
            braces, many = self.braces() if self.random.random() < 0.4 else ("", self.number())
            return self.random.choice(SERIES) + str(many) + braces
        if kind == 1:
            start = self.random.choice([1, 2, 2, 3, 4, 5, 6, 7, 8, 9, 9])
            if self.random.random() < 0.4:
                braces, many = self.braces()
                start = start if self.random.random() < 0.95 else self.random.choice([65535 - many, 65536 - many, 65535])
                return "m%s%d:%d" % (self.letters(), start, start + many - 1) + braces
            return "m%s%s:%s" % (self.letters(), start, self.number(start, 30))
        if kind == 2:
            return "I" + self.random.choice("ACDKMRZ") + ("[" + self.name(BEFORE) + "]" if self.random.random() < 0.5 else "")
        if kind == 6:
            return "f{" + self.formula() + "}"
        if kind == 8:
            return "?" + self.count()
        return ["", "", "", "p", "r[" + self.name(BEFORE) + "]", "_{" + text + "}", "", "s{" + text + "}"][kind]

    def annotation(self):
        chance = self.random.random
        parts = ["&" if chance() < 0.1 else "", self.number(0, 9) + "@" if chance() < 0.15 else "", self.ion()]
        if chance() < 0.4:
            parts += [self.loss() for _ in range(self.random.choice([1, 1, 1, 2, 2, 3, 4, 5, 8, 8, 9]))]
        if chance() < 0.2:
            parts.append(self.isotopes())
        # SMILES has to have an adduct, and mostly gets one
        if chance() < (0.95 if parts[2].startswith("s") else 0.2):
            parts.append("[M" + "".join(self.item() for _ in range(self.random.choice([1, 1, 1, 2, 2, 3, 4, 4, 5]))) + "]")
        if chance() < 0.2:
            parts.append("^" + self.number(2, 9))
        if chance() < 0.3:
            parts.append("/" + ("-" if chance() < 0.3 else "") + self.random.choice(DECIMALS) + ("ppm" if chance() < 0.5 else ""))
        if chance() < 0.2:
            parts.append("*" + self.pointed(self.random.choice(DECIMALS)))
        return "".join(parts)

    def fresh(self):
        self.lettered = self.random.random() < 0.3
        n = self.random.choice([1, 1, 1, 1, 1, 1, 2, 2, 2, 3, 5, 10, 16, 17])
        if self.random.random() < 0.15:
            return self.shares(n)
        return ",".join(self.annotation() for _ in range(n)).encode()

    def shares(self, n):
        """n annotations whose confidences sum to 1, or to a billionth less or more."""
        places = self.random.choice([1, 2, 3, 9])
        cuts = sorted(self.random.randint(0, 10**places) for _ in range(n - 1))
        parts = [b - a for a, b in zip([0] + cuts, cuts + [10**places])]
        last = parts[-1] * 10 ** (9 - places) + self.random.choice([0, 0, -1, 1, 2])
        texts = ["%d.%0*d" % (part // 10**places, places, part % 10**places) for part in parts[:-1]]
        texts.append("%d.%09d" % (max(last, 0) // 10**9, max(last, 0) % 10**9))
        return ",".join(self.ion().replace("s{", "_{") + "*" + self.pointed(text) for text in texts).encode()

    def piece(self, line):
        """A stretch of a line, from one byte to all of it, often cut where parts begin."""
        marks = [i for i, b in enumerate(line) if b in b"+-[{^/*,&@"] + [0, len(line)]
        if self.random.random() < 0.6:
            a, b = self.random.choice(marks), self.random.choice(marks)
        else:
            a = self.random.randint(0, len(line))
            b = a + self.random.choice([1, 1, 2, 5, 20])
        return min(a, b), min(max(a, b), len(line))

    def text_changed(self, line):
        """What stands in some braces changed as a sequence."""
        places = [i for i, b in enumerate(line) if b == 123]
        if not places:
            return line
        at = self.random.choice(places) + 1
        end = line.find(b"}", at)
        end = end if end >= 0 else len(line)
        return line[:at] + sequence_changed(self.random, line[at:end].decode("latin-1")).encode("latin-1") + line[end:]

    def letters_moved(self, line):
        """Letters behind some `m` put in, changed or dropped."""
        places = [i + 1 for i, b in enumerate(line) if b == 109]
        if not places:
            return line
        at = self.random.choice(places)
        end = at + (2 if line[at:at + 2].decode("latin-1") in LETTERS else 0)
        made = self.random.choice(["", self.random.choice(LETTERS), letters_changed(self.random, self.random.choice(LETTERS))])
        return line[:at] + made.encode() + line[end:]

    def damaged(self, line):
        a, b = self.piece(line)
        how = self.random.randrange(14)
        if how == 13:
            return self.letters_moved(line)
        if how == 12:
            return self.text_changed(line)
        if how > 9:
            return brackets_changed(self.random, line)
        if how == 0:
            return line[:a] + line[b:]
        if how == 1:
            return line[:b] + line[a:b] + line[b:]
        if how == 2:
            return line[:b] + line[a:b] * self.random.choice([1, 3, 4, 7, 8, 9, 12, 13, 16]) + line[b:]
        if how == 3:
            c, d = self.piece(self.random.choice(self.good))
            other = self.random.choice(self.good)
            return line[:a] + other[c:d] + line[b:]
        if how == 4:
            return line[:a] + bytes([self.random.choice(ALPHABET)]) + line[a:]
        if how == 5:
            return line[:a] + bytes([self.random.choice(ALPHABET)]) + line[a + 1:]
        if how == 6:
            return line[:a] + line[a + 1:a + 2] + line[a:a + 1] + line[a + 2:]
        if how == 7:
            return line[:b]
        if how == 8:
            return line[:a] + str(self.random.choice(EDGES)).encode() + line[b if b - a < 8 else a:]
        run = self.random.choice([250, 254, 255, 256, 257, 300, 1000, 4080, 4090]) + self.random.randint(-2, 2)
        return line[:a] + bytes([self.random.choice(b"xA1H ")]) * run + line[a:]

    def line(self):
        made = self.random.choice(self.good) if self.random.random() < 0.3 else self.fresh()
        for _ in range(self.random.choice([0, 0, 0, 0, 1, 1, 1, 1, 2, 3])):
            made = self.damaged(made)
        if self.random.random() < 0.01:
            made = (made + b",") * self.random.randint(2, 60) + made
        if self.random.random() < 0.002:
            made = made + b"x" * (self.random.choice([4095, 4096, 4097, 9000, 70000]) - len(made))
        return made.replace(b"\n", b" ")


def good_lines(paths, longest):
    """The lines of files, but for those that are very long."""
    found = []
    for path in paths:
        with open(path, "rb") as f:
            found += [line for line in f.read().split(b"\n") if len(line) < longest]
    return found


def answers(program, given):
    return subprocess.run(shlex.split(program), input=given, stdout=subprocess.PIPE, check=True).stdout.split(b"\n")[:-1]


def answered(answer):
    """The number of an answer; a spelling, which no number and blank begin, is none."""
    number = re.match(rb"!?[0-9]+ ", answer)
    return number.group()[:-1].decode() if number else "spelled"


def main():
    parser = argparse.ArgumentParser(description=__doc__.split("\n")[0])
    parser.add_argument("ours", help='as "tools/run reads", or "tools/run reads --second" for lines of the second edition')
    parser.add_argument("other", help="the other program, with its words, for lines of the same edition")
    parser.add_argument("--lines", type=int, default=100000)
    parser.add_argument("--seed", type=int, default=1)
    parser.add_argument("--show", type=int, default=20)
    parser.add_argument("--good", metavar="FILE")
    given = parser.parse_args()
    maker = Maker(given.seed, good_lines([given.good] if given.good else STORED, 5000))
    numbers = collections.Counter()
    differences = 0
    # by stretches of lines, so that neither the lines nor the answers of a long run are held at once
    for start in range(0, given.lines, 20000):
        lines = [maker.line() for _ in range(min(20000, given.lines - start))]
        # now and then without a last line feed; an empty last line would then be none
        ends = b"" if lines[-1] and start % 40000 else b"\n"
        data = b"\n".join(lines) + ends
        ours, other = answers(given.ours, data), answers(given.other, data)
        if not len(ours) == len(other) == len(lines):
            print("%d lines, %d answers of ours, %d of the other" % (len(lines), len(ours), len(other)))
            differences += 1
        for line, a, b in zip(lines, ours, other):
            numbers[answered(b)] += 1
            if a != b:
                differences += 1
                if differences <= given.show:
                    print("line  %r\nours  %s\nother %s" % (line[:300], a[:200].decode(), b[:200].decode()))
    print("%d lines, %d differences; answers by number: %s" % (given.lines, differences, " ".join("%s:%d" % pair for pair in sorted(numbers.items()))))
    return 1 if differences else 0


if __name__ == "__main__":
    sys.exit(main())
