#!/usr/bin/env python3
"""Compares two programs on damaged rows of peak lists, or on damaged stored rows.

    python3 tools/compare_rows.py OURS OTHER [--rows N] [--seed S] [--good FILE] [--show K]
    python3 tools/compare_rows.py --stored OURS OTHER [--rows N] [--seed S] [--show K]

OURS and OTHER are programs that print one answer a line, each a path, or words between quotes. They read rows from standard input:
"tools/run row_reads" and another reader of rows, or "tools/run peaks" and another program that relabels rows. With --stored they read
stored rows in hexadecimal digits, one a line: "tools/run row_writes" and another writer of rows. With the word `--second` behind it, as in
"tools/run peaks --second", ours takes lines of the second edition, and the other has to be told the same.
N (100,000 unless said, 20,000 with --stored) rows are made: two decimals, some of them at or past their bounds, and a line behind them. The line is
one of FILE, one of those that tools/compare.py makes, good or damaged, or there is none; without FILE the inputs of the programs `reads` and
`try_second_reads` serve. Some lines have internal ions with letters, as in `mxa3:6`. Then, in any column, bytes are changed, put in and dropped, tabs
moved, doubled and dropped, columns swapped and repeated, rows cut, rows and lines made as long as they may be or longer, and confidences begun with
their point. Stored rows are such decimals and a table of edition 2 or 1, one of the stored outputs of these programs or of those that
tools/compare_tables.py makes; then bytes of the front are changed, and rows are cut, shifted and made longer.
The same S makes the same rows. Prints each difference (K of them, 20 unless said) and how often each number was answered; the exit status is
1 where the answers differ.
"""
import argparse
import collections
import random
import re
import shlex
import subprocess
import sys

sys.dont_write_bytecode = True
import compare
import compare_tables
from row_cases import FRONT, MAX_LINE, MAX_ROW, stored_row
from table_cases import texts

# Decimals at their bounds and past them, and columns that are none.
EDGES = ("0", "0.0", "0.000000000", "1.000000000", "0.123456789", "123456789012", "999999999999", "12345678901.2", "999.999999999",
         "1234567890123", "1000000000000", "0.1234567890", "0.0000000000", "1234.123456789", "12345678901.23", "18446744073709551616",
         "18446744073709551617")
BAD = ("", ".5", ".", "1.", "01", "00.5", "-1", "+1", "1e5", "1,5", "1.5.2", " 1", "1 ", "1\r", "x", "1ppm", "9" * 40, "0." + "0" * 30, "y1", "m/z")
ALPHABET = b"\t\t\t0123456789..-+e ,yp^*/[[]]\r\x00\x7f\xff"
VALUES = (0, 1, 10**9, 2**32, 10**12 - 1, 10**12, 10**12 + 1, 2**40, 2**63, 2**64 - 1)


class RowMaker:
    """Rows, good and damaged, without line feeds."""

    def __init__(self, seed, good):
        self.random = random.Random(seed)
        self.lines = compare.Maker(seed, good)
        self.good = good

    def decimal(self):
        """Mostly an unsigned decimal within its bounds."""
        chance = self.random.random()
        if chance < 0.08:
            return self.random.choice(BAD if chance < 0.03 else EDGES).encode()
        places = self.random.choice([0, 0, 1, 2, 3, 4, 4, 5, 6, 9])
        value = self.random.randrange(10 ** self.random.randint(1, 12))
        return b"%d" % value if places == 0 else b"%d.%0*d" % (value // 10**places, places, value % 10**places)

    def third(self):
        """The columns behind the second: one with a line, mostly readable; or an empty one; or none."""
        chance = self.random.random()
        if chance < 0.12:
            return [] if chance < 0.07 else [b""]
        return [self.random.choice(self.good) if chance < 0.6 else self.lines.line()]

    def place(self, row):
        """A place in a row: each column is as likely, however long."""
        ends = [i for i, b in enumerate(row) if b == 9] + [len(row)]
        k = self.random.randrange(min(len(ends), 4))
        return self.random.randint(ends[k - 1] + 1 if k else 0, ends[k])

    def tab(self, row):
        """The place of a tab, or the end of a row without one."""
        return self.random.choice([i for i, b in enumerate(row) if b == 9] or [len(row)])

    def tabs_changed(self, row):
        at, to = self.tab(row), self.place(row)
        how = self.random.randrange(5)
        if how == 0:
            rest = row[:at] + row[at + 1:]
            return rest[:to] + b"\t" + rest[to:]
        if how == 1:
            return row[:at] + b"\t" * self.random.choice([2, 2, 2, 3, 5]) + row[at + 1:]
        if how == 2:
            return row[:at] + row[at + 1:]
        if how == 3:
            return row[:at] + self.random.choice([b" ", b",", b"  ", b";", b" \t", b"\t "]) + row[at + 1:]
        return row[:to] + b"\t" + row[to:]

    def bytes_changed(self, row):
        at, how = self.place(row), self.random.randrange(4)
        if how == 0:
            return row[:at] + row[at + self.random.choice([1, 1, 1, 2, 5]):]
        byte = bytes([self.random.choice(ALPHABET)]) if self.random.random() < 0.8 else bytes([self.random.randrange(256)])
        if how == 1:
            return row[:at] + byte + row[at:]
        if how == 2:
            return row[:at] + row[at:at + 1] * self.random.choice([2, 3, 9, 12, 13]) + row[at + 1:]
        return row[:at] + byte + row[at + 1:]

    def columns_changed(self, row):
        columns = row.split(b"\t")
        i, k = self.random.randrange(len(columns)), self.random.randrange(len(columns))
        how = self.random.randrange(4)
        if how == 0:
            columns[i], columns[k] = columns[k], columns[i]
        elif how == 1:
            columns.insert(k, columns[i])
        elif how == 2:
            columns[i] = b""
        else:
            del columns[i]
        return b"\t".join(columns)

    def stretched(self, row):
        """A run of one byte that makes the row, or its line, as long as it may be, or some bytes longer or shorter."""
        front = sum(len(column) + 1 for column in row.split(b"\t", 2)[:2])
        length = self.random.choice([MAX_ROW, MAX_ROW, MAX_LINE + front, MAX_LINE + front, MAX_LINE, 9000]) + self.random.randint(-2, 2)
        at, byte = self.place(row), bytes([self.random.choice(b"x1H ,.\t")])
        return row[:at] + byte * (length - len(row)) + row[at:]

    def damaged(self, row):
        chance = self.random.random()
        if chance < 0.3:
            return self.tabs_changed(row)
        if chance < 0.7:
            return self.bytes_changed(row)
        if chance < 0.8:
            return self.columns_changed(row)
        if chance < 0.85:
            return self.stretched(row)
        at = self.place(row)
        return row[:at] if chance < 0.95 else row[at:]

    def row(self):
        made = b"\t".join([self.decimal(), self.decimal()] + self.third())
        for _ in range(self.random.choice([0, 0, 0, 0, 0, 1, 1, 1, 2, 3])):
            made = self.damaged(made)
        if self.random.random() < 0.05:
            made = made.replace(b"*0.", b"*.")
        return made.replace(b"\n", b" ")


class StoredMaker:
    """Stored rows, good and damaged, in hexadecimal digits."""

    def __init__(self, seed, good):
        self.random = random.Random(seed)
        self.tables = compare_tables.Maker(seed, good)
        self.good = good

    def decimal(self):
        """A value and its decimals, mostly within their bounds."""
        value = self.random.choice(VALUES) if self.random.random() < 0.06 else self.random.randrange(10 ** self.random.randint(1, 12))
        return value, self.random.choice([9, 10, 11, 255]) if self.random.random() < 0.06 else self.random.randrange(10)

    def table(self):
        """Good, or good or damaged; or of a line around its bound."""
        chance = self.random.random()
        if chance < 0.02:
            return texts(*[252] * 15, self.random.randint(250, 256), edition=self.random.choice([1, 2]))
        return self.tables.good_table() if chance < 0.6 else self.tables.table()

    def damaged(self, row):
        how = self.random.randrange(8)
        at = self.random.randrange(FRONT)
        if how < 3:
            return row[:at] + bytes([self.random.choice([0, 1, 9, 10, 255, self.random.randrange(256)])]) + row[at + 1:]
        if how == 3:
            at = self.random.choice([16, 17, 18, 19])
            return row[:at] + bytes([self.random.choice([0, 1, 9, 10, 255])]) + row[at + 1:]
        if how == 4:
            return row[:at] + row[at + 1:]
        if how == 5:
            return row[:at] + bytes([self.random.choice([0, 1])]) + row[at:]
        if how == 6:
            return row[:self.random.choice([at, len(row) - 1, self.random.randrange(len(row) + 1)])]
        return row + bytes(self.random.choice([1, 2, 20, 36, 38]))

    def row(self):
        made = stored_row(self.decimal(), self.decimal(), self.table(), self.random.choice([1, 256, 65535]) if self.random.random() < 0.02 else 0)
        for _ in range(self.random.choice([0, 0, 0, 1, 2])):
            made = self.damaged(made)
        return made.hex().encode()


def answers(program, data):
    return subprocess.run(shlex.split(program), input=data, stdout=subprocess.PIPE, check=True).stdout.split(b"\n")[:-1]


def answered(answer):
    """The number of an answer; a row in preferred spelling, which no number and blank begin, is none."""
    number = re.match(rb"!?[0-9]+ ", answer)
    return number.group()[:-1].decode() if number else "spelled"


def compared(ours, other, maker, count):
    """Row, our answer and the other's, by stretches, so that neither the rows nor the answers of a long run are held at once."""
    for start in range(0, count, 20000):
        rows = [maker.row() for _ in range(min(20000, count - start))]
        # now and then without a last line feed; an empty last row would then be none
        data = b"\n".join(rows) + (b"" if rows[-1] and start % 40000 else b"\n")
        first, second = answers(ours, data), answers(other, data)
        if not len(first) == len(second) == len(rows):
            yield b"%d rows" % len(rows), b"%d answers" % len(first), b"%d answers of the other" % len(second)
        yield from zip(rows, first, second)


def main():
    parser = argparse.ArgumentParser(description=__doc__.split("\n")[0])
    parser.add_argument("ours", help='as "tools/run peaks", or "tools/run peaks --second" for lines of the second edition')
    parser.add_argument("other", help="the other program, with its words, for lines of the same edition")
    parser.add_argument("--stored", action="store_true")
    parser.add_argument("--rows", type=int)
    parser.add_argument("--seed", type=int, default=1)
    parser.add_argument("--show", type=int, default=20)
    parser.add_argument("--good", metavar="FILE")
    given = parser.parse_args()
    if given.stored:
        maker = StoredMaker(given.seed, compare_tables.good_tables())
    else:
        maker = RowMaker(given.seed, compare.good_lines([given.good] if given.good else compare.STORED, MAX_LINE + 101))
    count = given.rows if given.rows is not None else 20000 if given.stored else 100000
    numbers = collections.Counter()
    differences = 0
    for row, ours, other in compared(given.ours, given.other, maker, count):
        numbers[answered(other)] += 1
        if ours != other:
            differences += 1
            if differences <= given.show:
                print("row   %r\nours  %r\nother %r" % (row[:300], ours[:300], other[:300]))
    print("%d rows, %d differences; answers by number: %s" % (count, differences, " ".join("%s:%d" % pair for pair in sorted(numbers.items()))))
    return 1 if differences else 0


if __name__ == "__main__":
    sys.exit(main())
