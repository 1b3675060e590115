#!/usr/bin/env python3
"""Compares two writers, or two programs that convert, on damaged tables.

    python3 tools/compare_tables.py OURS OTHER.. [--tables N] [--seed S] [--show K] [--room R] [--first]

OURS is "tools/run writes", a path or words between quotes; OTHER is another writer, with its words behind it: both read stored tables in hexadecimal
digits from standard input, one a line, and print one answer a line. "tools/run writes --second" writes lines of the second edition, and the other has
to be told the same. N (20,000 unless said) tables are made: from fields, with each field at or past its bound now and then, or from the stored
outputs of the programs `reads` and `try_second_reads`, of edition 2 or 1; then bytes, words and whole records are changed, swapped, repeated and cut,
with the header set right again or not, the edition is changed, with the records or without them, and counts of residues are; some have long texts,
for lines around their bound, some names have brackets inside, which mostly pair up, and the texts of series and internal ions are mostly sequences
with residues enough. Some tables have internal ions with letters by their field 3, which at times is past its bounds. The same S makes the same
tables.
With --first, for "tools/run converts" and another program that converts tables of edition 1, most tables are of that edition, more of their lines are
long, more texts are no sequences, and few internal ions have letters, since edition 1 has none. With R, OURS is "tools/run try_write_sized", given an
output of R bytes for each, and OTHER's words have to say the same.
Prints each difference (K of them, 20 unless said) and how often each number was answered; the exit status is 1 where the answers differ.
"""
import argparse
import collections
import random
import shlex
import subprocess
import sys

sys.dont_write_bytecode = True
from compare import brackets_changed, nested, sequence, sequence_changed
from table_cases import WIDTH, annotation, first_edition, framed, little, number, table, tables_read

COUNTS = [1, 1, 1, 1, 2, 2, 3, 9, 10, 99, 999]
EDGES = [0, 1, 2, 12, 13, 118, 119, 255, 256, 998, 999, 1000, 65535]
NAMES = [b"Hex", b"HexNAc", b"Hexose", b"M", b"M2", b"a", b"Z~", b"He", b"C", b"x,y/z"]
LETTERS = [1, 2, 3, 4, 6, 7, 8, 9]
ODD = [b"M+H", b"2H1", b"[", b"a]", b"{", b"a}", b"\x1f", b"\x7f", b"", b"x" * 255, b"x" * 256]


class Maker:
    def __init__(self, seed, good, first=False):
        self.random = random.Random(seed)
        self.good = good
        self.first = first
        self.long = False
        self.lettered = False

    def rarely(self, usual, odd, chance=0.004):
        return self.random.choice(odd) if self.random.random() < chance else usual

    def count(self):
        return self.rarely(self.random.choice(COUNTS), EDGES)

    def unit(self):
        nucleons = self.random.choice([0, 0, 0, 0, 2, 13, 15, 999])
        return (self.rarely(nucleons, EDGES), self.rarely(self.random.choice([1, 1, 2, 6, 6, 7, 8, 11, 16, 72, 118]), EDGES), self.count())

    def units(self):
        return [self.unit() for _ in range(self.rarely(self.random.choice([1, 1, 1, 2, 2, 3]), [0, 12, 13], 0.02))]

    def sign(self):
        return self.rarely(self.random.randrange(2), [2, 255])

    def name(self):
        if self.long:
            return b"x" * self.random.randint(150, 255)
        return self.rarely(self.random.choice(NAMES), ODD, 0.02)

    def bracketed(self):
        """A name for brackets, at times with brackets inside."""
        made = self.name()
        if self.random.random() < 0.35 and not self.long:
            made += nested(self.random, self.random.choice([1, 1, 2, 3, 6])).encode()
            made = brackets_changed(self.random, made) if self.random.random() < 0.05 else made
        return made

    def loss(self):
        if self.random.random() < (0.9 if self.long else 0.3):
            return (self.sign(), 1, self.count(), self.bracketed())
        return (self.sign(), self.rarely(0, [2]), self.count(), self.units())

    def item(self):
        if self.random.random() < 0.3:
            return (self.sign(), 2, self.count(), self.rarely([], [self.units()]))
        return (self.sign(), self.rarely(0, [1, 3]), self.count(), self.units())

    def isotopes(self):
        kind = self.random.randrange(3)
        many = self.random.choice([1, 1, 2, 4, 4, 5]) if kind == 2 else self.rarely(1, [2])
        return [(self.sign(), self.rarely(kind, [0, 1, 2, 3]), self.count(), *((self.rarely(13, EDGES), self.rarely(6, EDGES)) if kind == 2 else (self.rarely(0, [13]), self.rarely(0, [6])))) for _ in range(many)]

    def order(self, items):
        """Mostly in the preferred order, by the text of each; now and then as they came."""
        if self.random.random() < 0.05:
            return items
        return sorted(items, key=lambda i: (self.text(i), i[0], i[2]))

    def text(self, item):
        sign, kind, count, what = item
        if isinstance(what, bytes):
            text = b"[" + what + b"]"
        elif not what:
            text = b"e"
        else:
            text = b"".join(self.unit_text(*u) for u in what)
        return bytes(1 if b == 91 else b + 1 if b < 255 else b for b in text)

    def unit_text(self, nucleons, atomic, count):
        symbol = {1: b"H", 2: b"He", 6: b"C", 7: b"N", 8: b"O", 11: b"Na", 16: b"S", 72: b"Hf", 118: b"Og"}.get(atomic, b"X")
        if nucleons:
            return b"[%d%s%d]" % (nucleons, symbol, count)
        return symbol + (b"%d" % count if count > 1 else b"")

    def sequenced(self, fields):
        """A text that is mostly a sequence, a position that it mostly has residues enough for, and now and then another count of them."""
        made, count = sequence(self.random, lambda: self.random.choice(NAMES).decode() if self.random.random() < 0.7 else self.random.choice(["", "a"]) + nested(self.random, 3).replace("{", "").replace("}", ""))
        if self.random.random() < (0.12 if self.first else 0.06):
            made = sequence_changed(self.random, made)
        many = self.rarely(self.random.randint(1, count), [count, count + 1, 65535], 0.2)
        fields = dict(position=many) if fields["kind"] == 1 else dict(end=min(fields["position"] + many - 1, 65535))
        made = made.encode()
        if self.random.random() < 0.03:
            made = self.name()
        if self.random.random() < 0.03:
            fields.update(residues=self.random.choice([0, 1, max(count - 1, 0), count, count + 1, count + 256, 65535]))
        return dict(text=made, **fields)

    def letters(self):
        """Field 3 of an internal ion: of some tables it is set, and now and then past its bounds."""
        return self.rarely(self.random.choice([0, self.random.choice(LETTERS)]) if self.lettered else 0, [1, 5, 5, 9, 10, 128, 255], 0.02)

    def ion(self):
        chance = self.random.random
        kind = self.random.choice([1, 1, 1, 2, 3, 4, 5, 6, 7, 8, 9, *([2] * 6 if self.lettered else [])])
        fields = dict(kind=kind)
        if kind == 1:
            fields.update(series=self.rarely(self.random.randint(1, 13), [0, 14, 65]), position=self.rarely(self.random.randint(1, 30), [0, 65535]))
        if kind == 2:
            start = self.rarely(self.random.randint(2, 9), [0, 1])
            fields.update(position=start, end=self.rarely(self.random.randint(start, 30), [0, 65535]), series=self.letters())
        if kind in (1, 2) and chance() < 0.5:
            fields.update(self.sequenced(fields))
            return fields
        if kind == 3:
            fields.update(series=self.rarely(self.random.randint(65, 90), [64, 91, 97, 0]))
        if kind == 9 and chance() < 0.5:
            fields.update(position=self.random.choice([1, 17, 65535]))
        if kind in (5, 6, 8) or (kind == 3 and chance() < 0.3):
            fields.update(text=self.bracketed() if kind in (3, 5) else self.name())
        if kind == 7:
            fields.update(units=self.units())
        return fields

    def fresh_annotation(self):
        chance = self.random.random
        fields = self.ion()
        if self.long or chance() < 0.4:
            many = self.random.choice([2, 4, 8, 8, 8] if self.long else [1, 1, 2, 2, 3, 4, 8])
            fields.update(losses=self.order([self.loss() for _ in range(many if self.long or chance() < 0.98 else 9)]))
        if chance() < 0.2:
            fields.update(isotopes=self.isotopes())
        if chance() < (0.95 if fields["kind"] == 8 else 0.25):
            fields.update(items=self.order([self.item() for _ in range(self.random.choice([1, 1, 2, 2, 3, 4]) if chance() < 0.98 else 5)]))
        if chance() < 0.2:
            fields.update(charge=self.rarely(self.random.choice([1, 2, 3, 9, 255]), [0], 0.02))
        if chance() < 0.3:
            fields.update(deviation=self.rarely(self.random.randint(1, 2), [3]), decimals=self.rarely(self.random.randrange(10), [10, 255]),
                          off=self.random.choice([0, 1, -1, 20, -20, 12345, 10**12 - 1, 1 - 10**12]) if chance() < 0.97 else self.random.choice([10**12, -10**12, 2**63 - 1, -2**63]))
        if chance() < 0.2:
            fields.update(sure=self.rarely(1, [2]), sure_decimals=self.rarely(self.random.randrange(2, 10), [0, 1, 10], 0.1),
                          confidence=self.rarely(self.random.choice([0, 1, 5, 10]), [100, 10**9, 10**9 + 1], 0.1))
        if chance() < 0.1:
            fields.update(has_analyte=1, analyte=self.random.choice([0, 1, 65535]))
        if chance() < 0.1:
            fields.update(also=1)
        return annotation(**fields)

    def fresh(self):
        self.long = self.random.random() < (0.1 if self.first else 0.03)
        self.lettered = self.random.random() < (0.03 if self.first else 0.4)
        edition = self.random.choice([1, 1, 1, 1, 2] if self.first else [2, 2, 1])
        if self.long:
            return table(*[self.fresh_annotation() for _ in range(self.random.choice([2, 3, 4, 5, 6, 7, 8]))], edition=edition)
        n = self.random.choice([0, 1, 1, 1, 1, 1, 1, 1, 2, 2, 3, 5, 16]) if self.random.random() < 0.995 else 17
        return table(*[self.fresh_annotation() for _ in range(n)], edition=edition)

    def widths(self, made):
        """Of the records of each section; by the edition where there is one."""
        return (WIDTH.get(number(made, 0), 38), 6, 8, 6, 6, 1)

    def sections(self, made):
        pairs = [(number(made, 4 + 4 * i), number(made, 6 + 4 * i)) for i in range(6)]
        return [made[at:at + n * width] for (n, at), width in zip(pairs, self.widths(made))]

    def letters_changed(self, made):
        """Field 3 of a record, mostly of an internal ion, set, changed or cleared."""
        width = self.widths(made)[0]
        places = [at for at in range(28, min(28 + width * number(made, 4), len(made) - 4), width) if made[at] == 2 or self.random.random() < 0.1]
        if not places:
            return made
        at = self.random.choice(places) + 3
        return made[:at] + bytes([self.random.choice([0, 5, 10, 255, *LETTERS])]) + made[at + 1:]

    def edition_changed(self, made):
        """The number of the header alone, or the records with it; or a count of residues."""
        edition = number(made, 0)
        if self.random.random() < 0.4 and edition == 2 and number(made, 4):
            at = 28 + 38 * self.random.randrange(min(number(made, 4), 16)) + 36
            count = number(made, at)
            return made[:at] + little(self.random.choice([0, 1, count + 1, count - 1, count + 256, 255, 65535]), 2) + made[at + 2:]
        if self.random.random() < 0.4:
            return little(self.random.choice([0, 1, 1, 2, 2, 3, 257, 258, 513, 65535]), 2) + made[2:]
        sections = self.sections(made)
        old, new = WIDTH.get(edition, 38), self.random.choice([36, 38])
        sections[0] = b"".join((sections[0][i:i + old] + b"\0\0")[:new] for i in range(0, len(sections[0]), old))
        if 28 + sum(len(s) for s in sections) > 65535:
            return made
        return framed([number(made, 4 + 4 * i) for i in range(6)], sections, self.random.choice([1, 2]) if self.random.random() < 0.2 else 1 + (new == 38))

    def records_changed(self, made):
        """A record is repeated, dropped or swapped with its neighbour; the header is set right again, mostly."""
        sections = self.sections(made)
        k = self.random.choice([k for k in range(6) if sections[k]] or [0])
        width = self.widths(made)[k]
        parts = [sections[k][i:i + width] for i in range(0, len(sections[k]), width)]
        if parts:
            i = self.random.randrange(len(parts))
            how = self.random.randrange(3)
            parts = parts[:i] + ([parts[i]] * 2 if how == 0 else []) + (parts[i:i + 2][::-1] if how == 2 else []) + parts[i + (2 if how == 2 else 1):]
        sections[k] = b"".join(parts)
        counts = [len(s) // w for s, w in zip(sections, self.widths(made))]
        if self.random.random() < 0.1:
            counts[self.random.randrange(6)] += self.random.choice([1, -1])
        if max(counts) > 65535 or min(counts) < 0 or 28 + sum(len(s) for s in sections) > 65535:
            return made
        return framed(counts, sections, number(made, 0))

    def text_changed(self, made):
        """A bracket of the text turned, or swapped with another byte of it."""
        at = number(made, 26)
        places = [i for i in range(at, len(made)) if made[i] in b"[]"]
        if not places:
            return made
        i, k = self.random.choice(places), self.random.randrange(at, len(made))
        if self.random.random() < 0.5:
            return made[:i] + self.random.choice([b"[", b"]", b"x"]) + made[i + 1:]
        changed = bytearray(made)
        changed[i], changed[k] = changed[k], changed[i]
        return bytes(changed)

    def damaged(self, made):
        how = self.random.randrange(13)
        if how == 12 and len(made) >= 28:
            return self.letters_changed(made)
        if how == 11 and len(made) >= 28:
            return self.edition_changed(made)
        if how == 10:
            return self.text_changed(made)
        if how < 4 or len(made) < 28:
            at = self.random.randrange(len(made) + 1)
            return made[:at] + bytes([self.random.choice([0, 1, 2, 255, self.random.randrange(256)])]) + made[at + 1:]
        if how == 4:
            at = self.random.randrange(28, len(made) + 1)
            b = made[at] if at < len(made) else 0
            return made[:at] + bytes([(b + self.random.choice([1, 255])) % 256]) + made[at + 1:]
        if how == 5:
            at = self.random.randrange(0, len(made), 2)
            return made[:at] + little(self.random.choice(EDGES), 2) + made[at + 2:]
        if how == 6 and self.random.random() < 0.3:
            return made[:self.random.randrange(len(made) + 1)]
        if how == 7 and self.random.random() < 0.3:
            return made + bytes(self.random.choice([1, 2, 6, 8, 36, 38, 1000]))
        return self.records_changed(made)

    def good_table(self):
        """One of those that `reads` or its fellow for the second edition gave, or the edition 1 table of its fields, which is none if it has letters."""
        made = self.random.choice(self.good)
        return made if self.random.random() < (0.1 if self.first else 0.6) else first_edition(made)

    def table(self):
        made = self.good_table() if self.random.random() < 0.3 else self.fresh()
        for _ in range(self.random.choice([0, 0, 0, 1, 1, 1, 2])):
            made = self.damaged(made)
        return made


def good_tables(first=False):
    """The tables of the stored outputs; edition 1 has none with letters."""
    return tables_read(["reads"] if first else ["reads", "try_second_reads"])


def answers(words, given):
    return subprocess.run(words, input=given, stdout=subprocess.PIPE, check=True).stdout.split(b"\n")[:-1]


def main():
    parser = argparse.ArgumentParser(description=__doc__.split("\n")[0])
    parser.add_argument("ours", help='as "tools/run writes", or "tools/run writes --second" for lines of the second edition')
    parser.add_argument("other", nargs="+", help="the other program, with its words, for lines of the same edition")
    parser.add_argument("--tables", type=int, default=20000)
    parser.add_argument("--seed", type=int, default=1)
    parser.add_argument("--show", type=int, default=20)
    parser.add_argument("--room", type=int)
    parser.add_argument("--first", action="store_true")
    # the other program's words may begin with dashes too
    given, others = parser.parse_known_args()
    given.other += others
    maker = Maker(given.seed, good_tables(given.first), given.first)
    numbers = collections.Counter()
    differences = 0
    # by stretches, so that neither the tables nor the answers of a long run are held at once
    for start in range(0, given.tables, 5000):
        tables = [maker.table().hex().encode() for _ in range(min(5000, given.tables - start))]
        front = b"" if given.room is None else b"%d " % given.room
        ours, other = answers(shlex.split(given.ours), b"".join(front + line + b"\n" for line in tables)), answers(given.other, b"".join(line + b"\n" for line in tables))
        if not len(ours) == len(other) == len(tables):
            print("%d tables, %d answers of ours, %d of the other" % (len(tables), len(ours), len(other)))
            differences += 1
        for line, a, b in zip(tables, ours, other):
            numbers[b.split(b" ")[0].decode()] += 1
            if a != b:
                differences += 1
                if differences <= given.show:
                    print("table %s\nours  %s\nother %s" % (line[:2000].decode(), a[:300].decode(), b[:300].decode()))
    print("%d tables, %d differences; answers by number: %s" % (given.tables, differences, " ".join("%s:%d" % pair for pair in sorted(numbers.items()))))
    return 1 if differences else 0


if __name__ == "__main__":
    sys.exit(main())
