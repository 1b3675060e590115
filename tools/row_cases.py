#!/usr/bin/env python3
"""The cases of the programs for rows of peak lists: rows, and what the rules say of them in words. `row_reads`, `row_writes`, `peaks`,
`try_read_row_sized` and `try_write_row_sized` have lines of the first edition in their rows, `try_second_peaks` those of the second.

    python3 tools/row_cases.py                  writes the stored inputs of the six programs, crates/NAME/stdin, and crates/try_second_peaks/args
    python3 tools/row_cases.py --check          holds the stored outputs to what is stated here; prints differences
    python3 tools/row_cases.py --with FOLDER    makes the stored outputs by the programs `cross` and `relabel` in FOLDER, then checks, and
                                                asks them too for whole lists
    python3 tools/row_cases.py --lists          gives whole lists, the empty one among them, to the first three programs, started by tools/run

`row_reads` takes a row a line and prints `NUMBER PLACE LENGTH HEX`, HEX being the stored row, `-` where there is none. `row_writes` takes
stored rows in hexadecimal digits and prints the same of the row's text; what is no pairs of digits is no stored row. `peaks` takes rows and
prints each in preferred spelling, or `!NUMBER PLACE`. FOLDER is that of an implementation other than this repository's, so that two agree on
the stored outputs: `cross --rows`, `cross --write-rows --hex` and `relabel --rows`. Lines that are no pairs of digits are not asked of it.

Each case has its whole answer, by requests M-101, M-112 and M-113 of document 02, their readings, and document 01: a refusal (`no`), or the two numbers
and the fields of each annotation (`yes`), from which the bytes are made as "The stored table" has them. Of the lines of tools/cases.py the number and
the place are stated there, for each edition of lines, and the table is in the stored output of `reads` or `try_second_reads`: in a row they are the same,
the place moved by the columns before the line. So tools/cases.py goes first. Outputs that are too short (8) are asked for by `try_read_row_sized` and
`try_write_row_sized`, whose lines begin with the length of the output and a blank.
"""
import os
import subprocess
import sys

sys.dont_write_bytecode = True
import cases
import table_cases
from cases import LANDED, LANDED_SECOND, MAX_LINE, ROOT, Editions, raw, store, store_second, stored
from table_cases import C, H, H2O, annotation, changed, cut, decimal, filling, first_edition, is_pairs, largest, little, number, other, rich, spelled, table, texts

MAX_ROW, FRONT = 4160, 20
ROOM = FRONT + cases.ROOM
FULL = ",".join(["_{" + "x" * 252 + "}"] * 15 + ["_{" + "x" * 253 + "}"])
# The shortest columns, some of middle length and the longest, each with the tab behind it, and the two numbers.
FRONTS = [("1\t1\t", (1, 0), (1, 0)), ("100.5\t7\t", (1005, 1), (7, 0)), ("677.2980\t0.25\t", (6772980, 4), (25, 2)),
          ("123.123456789\t12345678901.2\t", (123123456789, 9), (123456789012, 1))]

# The cases of lines with letters, of both editions.
LETTERED = (cases.named_by_design, cases.nine, cases.half_letters, cases.no_letters, cases.letters_and_limits, cases.letters_and_rules,
            cases.letters_and_lengths, cases.letters_freely)


class Asked:
    """What is asked of rows with lines of one edition, and what is stated of it."""

    def __init__(self, lines):
        self.lines = lines     # the cases of lines of this edition
        self.rows = []         # in order
        self.row_answers = {}  # row: number, place, stored row


asked = Editions(Asked(cases.asked.first), Asked(cases.asked.second))
stored_rows = []     # digits, in order
stored_answers = {}  # digits: number, place, row


# ---- a stored row, and a row

def stored_row(mz, intensity, rest, zero=0):
    """A number is its digits without the point, and how many of them stand behind the point."""
    return little(mz[0], 8) + little(intensity[0], 8) + bytes([mz[1], intensity[1]]) + little(zero, 2) + rest


def row_text(row):
    """A sound stored row in preferred spelling: the empty third column is never written."""
    columns = [decimal(number(row, 8 * i, 8), row[16 + i]) for i in range(2)]
    line = spelled(row[FRONT:])
    return "\t".join(columns).encode() + (b"\t" + line if line else b"")


def front_is_sound(row):
    """9 is for under 20 bytes, the u16 not zero, over 9 decimals, a value of 10^12 or more, or the rest no table: all but the last of these."""
    return len(row) >= FRONT and number(row, 18) == 0 and max(row[16:18]) <= 9 and max(number(row, 0, 8), number(row, 8, 8)) < 10**12


# ---- what is asked, with its answer. A row may come up more than once, with one answer.

def ask(row, *answer):
    row = raw(row)
    assert b"\n" not in row
    assert asked.chosen.row_answers.setdefault(row, answer) == answer, (row, answer)
    asked.chosen.rows.append(row)


def no(row, refusal, place):
    ask(row, refusal, place, b"")


def yes(row, mz, intensity, *annotations):
    ask(row, 0, 0, stored_row(mz, intensity, table(*annotations)))


def again(row):
    """A row that has its answer already."""
    ask(row, *asked.chosen.row_answers[raw(row)])


def ask_stored(digits, *answer):
    assert stored_answers.setdefault(digits, answer) == answer, (digits, answer)
    stored_rows.append(digits)


def unsound(row):
    ask_stored(row.hex().encode(), 9, 0, b"")


def too_long(row):
    ask_stored(row.hex().encode(), 1, MAX_LINE, b"")


def old(row):
    """A row whose table is a sound one of edition 1: document 02, M-112."""
    ask_stored(row.hex().encode(), 10, 0, b"")


def lettered(row):
    """A row whose table is a sound one of edition 2 with letters: document 02, M-113."""
    ask_stored(row.hex().encode(), 20, 0, b"")


def sound(row):
    ask_stored(row.hex().encode(), 0, 0, row_text(row))


# ---- rows

def of_specification():
    """The rows of 4.9 and 4.4.9 of mzPAF 1.0. The text that we have of 4.4.9 has blanks for tabs, and empty rows between."""
    y7 = dict(position=7, deviation=1, decimals=3)
    yes("677.298\t69\t&1@y7/-0.002", (677298, 3), (69, 0), annotation(also=1, has_analyte=1, analyte=1, off=-2, **y7))
    yes("677.299\t572\t&y7/-0.001", (677299, 3), (572, 0), annotation(also=1, off=-1, **y7))
    yes("677.300\t5681\ty7/0.000*0.95", (677300, 3), (5681, 0), annotation(off=0, sure=1, sure_decimals=2, confidence=95, **y7))
    yes("677.301\t1320\t&y7/0.001", (677301, 3), (1320, 0), annotation(also=1, off=1, **y7))
    yes("677.302\t240\t&y7/0.002", (677302, 3), (240, 0), annotation(also=1, off=2, **y7))
    b6 = annotation(series=2, position=6, losses=[(0, 0, 1, H2O)], deviation=1, decimals=3, off=-5)
    yes("677.303\t34\tb6-H2O/-0.005,&y7/0.003", (677303, 3), (34, 0), b6, annotation(also=1, off=3, **y7))
    for row, mz, intensity, formula, off in (
        ("165.0698\t104629.2\tf{C13H9}/-0.55ppm", 1650698, 1046292, (13, 9, 0, 0), -55),
        ("167.0730\t479334.8\tf{C12H9N}/0.06ppm", 1670730, 4793348, (12, 9, 1, 0), 6),
        ("179.0726\t82567.1\tf{C13H9N}/-2.01ppm", 1790726, 825671, (13, 9, 1, 0), -201),
        ("180.0808\t27526884.0\tf{C13H10N}/-0.11ppm", 1800808, 275268840, (13, 10, 1, 0), -11),
        ("181.0886\t783300.1\tf{C13H11N}/-0.09ppm", 1810886, 7833001, (13, 11, 1, 0), -9),
        ("182.0965\t6583053.0\tf{C13H12N}/0.26ppm", 1820965, 65830530, (13, 12, 1, 0), 26),
        ("192.0808\t189835.2\tf{C14H10N}/0.19ppm", 1920808, 1898352, (14, 10, 1, 0), 19),
        ("193.0887\t66613.2\tf{C14H11N}/0.45ppm", 1930887, 666132, (14, 11, 1, 0), 45),
        ("208.0757\t1080071.1\tf{C14H10NO}/0.03ppm", 2080757, 10800711, (14, 10, 1, 1), 3),
    ):
        units = [(0, atomic, n) for atomic, n in zip((6, 1, 7, 8), formula) if n]
        yes(row, (mz, 4), (intensity, 1), annotation(7, units=units, deviation=2, decimals=2, off=off))
        no(row.replace("\t", " "), 12, 0)
        no("", 12, 0)


def of_request():
    """Rows that the request and its readings name, and their neighbours."""
    no("", 12, 0)
    no("1", 13, 1)
    no("1\t", 13, 2)
    no("\t", 12, 0)
    no(".5\t1", 12, 0)
    no("1\t.5", 13, 2)
    no("01\t1", 12, 0)
    no("1\t01", 13, 2)
    no("x", 12, 0)
    one = (1, 0)
    yes("1\t1", one, one)
    yes("1\t1\t", one, one)
    yes("1\t1\ty1", one, one, annotation())
    yes("1\t2\ty1", one, (2, 0), annotation())
    yes("2\t1\ty1", (2, 0), one, annotation())
    in_order = annotation(losses=[(0, 0, 1, C), (0, 0, 1, [(0, 7, 1)])])
    yes("100.5\t7\ty1-N-C", (1005, 1), (7, 0), in_order)
    yes("100.5\t7\ty1-C-N", (1005, 1), (7, 0), in_order)
    yes("100.50\t7.0\ty1-N-C", (10050, 2), (70, 1), in_order)
    yes("1\t1\ty1,b2", one, one, annotation(), annotation(series=2, position=2))


def of_columns():
    """Columns that are a decimal of document 01 and columns that are none, each in both places: 12 and 13, never 4, at the column's first byte."""
    for text, value, places in (
        ("0", 0, 0), ("0.0", 0, 1), ("0.000000000", 0, 9), ("1", 1, 0), ("9", 9, 0), ("10", 10, 0), ("0.5", 5, 1), ("0.50", 50, 2), ("5.0", 50, 1),
        ("123456789012", 123456789012, 0), ("999999999999", 999999999999, 0), ("100000000000", 100000000000, 0), ("12345678901.2", 123456789012, 1),
        ("0.123456789", 123456789, 9), ("1.000000000", 1000000000, 9), ("999.999999999", 999999999999, 9), ("123.123456789", 123123456789, 9),
        ("0.000000001", 1, 9), ("4294967296", 4294967296, 0), ("4294967.295", 4294967295, 3),
    ):
        good_column(text, (value, places))
    for text in (
        ".5", ".", "1.", "0.", "01", "00", "00.5", "01.5", "-1", "-0", "-0.5", "+1", "1e5", "1E5", "1.5e3", "1,5", "1.5.2", "1..5", "1.-5", " 1",
        "1 ", "1 5", "1\r", "\r", "\0", "0x1", "NaN", "inf", "1ppm", "/1", "y1", "?", "'1'", "1_000", "\x7f", "1\x7f", "1\0", b"\xff", b"1\xb5",
        "1/", "1:", "1.a", "1.5a",
        "1234567890123", "1000000000000", "0000000000000", "9" * 20, "18446744073709551616", "18446744073709551617", "4294967297" * 2, "9" * 400,
        "0.1234567890", "0.0000000000", "1.0000000000", "0." + "0" * 30 + "1", "1234.123456789", "12345678901.23", "123456789012.0",
        "1234567890123.", "1234567890123.5",
    ):
        bad_column(raw(text))


def good_column(text, value):
    one = (1, 0)
    yes(text + "\t1", value, one)
    yes("1\t" + text, one, value)
    yes("1\t" + text + "\t", one, value)
    yes(text + "\t" + text + "\ty1", value, value, annotation())
    no(text, 13, len(text))
    no(text + "\t", 13, len(text) + 1)
    no(text + "\t\ty1", 13, len(text) + 1)
    no(text + "\tx", 13, len(text) + 1)
    no(text + "\t" + text + "\ty1^1", 3, 2 * len(text) + 2 + 4)


def bad_column(text):
    no(text, 12, 0)
    no(text + b"\t", 12, 0)
    no(text + b"\t1", 12, 0)
    no(text + b"\t1\ty1", 12, 0)
    no(text + b"\t1\ty1^1", 12, 0)
    no(text + b"\t" + text + b"\ty1", 12, 0)
    no(b"1\t" + text, 13, 2)
    no(b"1\t" + text + b"\t", 13, 2)
    no(b"100.5\t" + text + b"\ty1", 13, 6)
    no(b"100.5\t" + text + b"\ty1 ", 13, 6)


def of_tabs():
    """The third column is all the rest, so that a tab in it is a stray byte of the line."""
    one = (1, 0)
    for row, refusal, place in (
        ("1\t1\t\t", 2, 4), ("1\t1\ty1\t", 2, 6), ("1\t1\ty1\tb2", 2, 6), ("1\t1\t\ty1", 2, 4), ("1\t1\t\t\t", 2, 4), ("100.5\t7\ty1\t", 2, 10),
        ("\t\t", 12, 0), ("\t\t\t", 12, 0), ("\t1\t1", 12, 0), ("\t1", 12, 0), ("\t1\ty1", 12, 0), ("1\t\t", 13, 2), ("1\t\t\t", 13, 2),
        ("1\t\t1", 13, 2), ("1\t\t1\ty1", 13, 2), ("1\ty1", 13, 2), ("1\ty1\t1", 13, 2), ("y1\t1\t1", 12, 0), ("y1", 12, 0), ("1 1 y1", 12, 0),
        ("1 1\ty1", 12, 0), ("1\t1 y1", 13, 2), ("1,1,y1", 12, 0), ("1\t1\t y1", 2, 4), ("1\t1\ty1 ", 2, 6), ("1\t1\t ", 2, 4), ("1\t1\t\r", 2, 4),
        ("1\t1\ty1\r", 2, 6), ("1\t1\r", 13, 2), ("1\r\t1", 12, 0), ("\r", 12, 0), ("1\t1\t_{a\tb}", 2, 7), ("1\t1\tr[\t]", 2, 6),
        ("1\t1\ty1,\t", 2, 7), ("1\t1\t1\t1", 2, 5), ("m/z\tintensity\tannotation", 12, 0), ("# comment", 12, 0),
    ):
        no(row, refusal, place)
    yes("1\t1\t_{a b}", one, one, annotation(6, text=b"a b"))
    yes("1\t1\tp", one, one, annotation(4))
    yes("1\t1\t?", one, one, annotation(9))
    yes("1\t1\t?1", one, one, annotation(9, position=1))


def of_lines(*parts):
    """The line's own number, with the place counted from the row's start."""
    lines, tables = asked.chosen.lines, stored_tables(asked.chosen.lines.reads)
    for part in parts:
        before = len(lines.lines)
        cases.asked.of(lines, part)
        for line in dict.fromkeys(lines.lines[before:]):
            if line in lines.stated:
                in_a_row(line, *lines.stated[line], tables)
    each = (("y1 ", 2, 2), ("y1^1", 3, 4), ("y65536", 4, 1), ("y1" + "-H" * 9, 5, 18), ("y1,m1:3", 6, 3), ("y1,y2{K}", 6, 3), ("m1:1,y1{x}", 11, 5), ("y1*0.7,b2*0.301", 7, 7))
    for front, _, _ in FRONTS:
        for line, refusal, place in each:
            no(front + line, refusal, len(front) + place)


def stored_tables(name):
    """The tables of the lines of `reads`, or of its fellow for the second edition, by its stored output."""
    pairs = zip(stored(name, "stdin").split(b"\n"), stored(name, "stdout").split(b"\n"))
    return {line: bytes.fromhex(answer.split(b" ")[3].decode()) for line, answer in pairs if answer.startswith(b"0 ")}


def in_a_row(line, refusal, place, tables):
    """A line as a third column, behind columns of one length and then another."""
    front, mz, intensity = FRONTS[len(asked.chosen.rows) % len(FRONTS)]
    if refusal == 0:
        ask(front.encode() + line, 0, 0, stored_row(mz, intensity, tables[line]))
    elif len(front) + len(line) > MAX_ROW:
        no(front.encode() + line, 1, MAX_ROW)
    else:
        no(front.encode() + line, refusal, len(front) + place)


def of_lengths():
    """A row has at most 4,160 bytes, its line 4,096. Good columns and the tabs behind them have at most 28, so no row of more than 4,124 is read."""
    full = [annotation(6, text=b"x" * 252)] * 15 + [annotation(6, text=b"x" * 253)]
    for front, mz, intensity in (FRONTS[0], FRONTS[-1]):
        n = len(front)
        yes(front + FULL, mz, intensity, *full)
        no(front + FULL + "x", 1, MAX_LINE + n)
        no(front + "x" * (MAX_LINE + 1), 1, MAX_LINE + n)
        # the longest rows, and the first that are too long
        for line in ("x" * 5000, FULL + "," * 100, "\t" * 5000):
            no((front + line)[:MAX_ROW], 1, MAX_LINE + n)
            no((front + line)[:MAX_ROW + 1], 1, MAX_ROW)
        # within the line's bound its own refusals, at the last places that they may have
        no(front + "_{" + "x" * 4094, 3, MAX_LINE + n)
        no(front + "_{" + "x" * 4093 + "\t", 2, MAX_LINE - 1 + n)
        no(front + "_{" + "x" * 4093 + "}", 5, 257 + n)
        no(front + "\t" * MAX_LINE, 2, n)
        no(front + "\t" * (MAX_LINE + 1), 1, MAX_LINE + n)
    of_long_columns()
    for length in (4162, 5000, 8192, 8193, 140000):
        no("1\t1\t" + "x" * (length - 4), 1, MAX_ROW)
    no("1\t" * 2081, 1, MAX_ROW)
    yes("1\t1", (1, 0), (1, 0))


def of_long_columns():
    """Rows of 4,160 bytes and of one more, by a column that is none; 12 and 13 go before the line's 1."""
    for head, refusal, place in (("", 12, 0), ("1\t", 13, 2), ("100.5\t", 13, 6), ("0.", 12, 0), ("1\t0.", 13, 2)):
        for byte in "1x":
            row = head + byte * (MAX_ROW - len(head))
            no(row, refusal, place)
            no(row + byte, 1, MAX_ROW)
    no("\t" * MAX_ROW, 12, 0)
    no("\t" * (MAX_ROW + 1), 1, MAX_ROW)
    no("1" + "\t" * (MAX_ROW - 1), 13, 2)
    no("1" + "\t" * MAX_ROW, 1, MAX_ROW)
    for line in ("x" * (MAX_LINE + 1), FULL, FULL + "x"):
        no("x\t1\t" + line, 12, 0)
        no("\t\t" + line, 12, 0)
        no("1\tx\t" + line, 13, 2)
        no("1\t\t" + line, 13, 2)
    no("1" + "x" * 4153 + "\t1\ty1", 12, 0)
    no("1\t" + "1" * 4155 + "\ty1", 13, 2)


def of_neighbours():
    """Bad rows between good ones: each row is answered as it would be alone."""
    good = ("677.300\t5681\ty7/0.000*0.95", "1\t1", "100.5\t7\ty1-N-C", "123456789012\t123456789012\ty1")
    bad = (("", 12, 0), ("1", 13, 1), ("1\t", 13, 2), ("\t", 12, 0), ("x", 12, 0), ("1\t1\t\t", 2, 4), ("1\t1\ty1 ", 2, 6), ("1\t1\ty1^1", 3, 8),
           ("1\t1\ty65536", 4, 5), ("1\t1\ty1{x}", 11, 4), ("1\t1\tm1:3", 6, 4), ("1\t1\ty2{K}", 6, 4), ("1\t1\ty1*0.7,b2*0.301", 7, 11), ("1\t1\t" + "x" * (MAX_LINE + 1), 1, MAX_LINE + 4),
           ("x" * (MAX_ROW + 1), 1, MAX_ROW), ("01\t1", 12, 0), ("1\t0.1234567890", 13, 2))
    for i, (row, refusal, place) in enumerate(bad):
        again(good[i % len(good)])
        no(row, refusal, place)
        again(good[(i + 1) % len(good)])
        no(row, refusal, place)
        no(row, refusal, place)
    again(good[0])


def of_bytes():
    """Every byte but the line feed, in each column."""
    one, whole, begun = (1, 0), {b"p": 4, b"?": 9}, b"abcdvwxyzmIr_fs&0123456789"
    for byte in (bytes([b]) for b in range(256) if b != 10):
        if byte.isdigit():
            n = int(byte)
            yes(byte + b"\t1", (n, 0), one)
            yes(b"1" + byte + b"\t1", (10 + n, 0), one)
            yes(b"1\t" + byte, one, (n, 0))
            yes(b"1\t1" + byte, one, (10 + n, 0))
        else:
            no(byte + b"\t1", 12, 0)
            no(b"1" + byte + b"\t1", 13 if byte == b"\t" else 12, 2 if byte == b"\t" else 0)
            no(b"1\t" + byte, 13, 2)
            if byte != b"\t":
                no(b"1\t1" + byte, 13, 2)
        if byte in whole:
            yes(b"1\t1\t" + byte, one, one, annotation(whole[byte]))
        else:
            no(b"1\t1\t" + byte, 3 if byte in begun else 2, 5 if byte in begun else 4)


def of_points():
    """Confidences that begin with the point (M-102), which columns and deviations may not."""
    one = (1, 0)
    no("1\t1\ty1/.5", 2, 7)
    no(".5\t1\ty1*.5", 12, 0)
    no("1\t.5\ty1*.5", 13, 2)
    # 4,096 bytes, and 16 more in preferred spelling: such a row is read, and its writing is 1 at 4096, by the line alone
    texts_of = [b"x" * 249] * 15 + [b"x" * 250]
    line = b",".join(b"_{" + text + b"}*.0" for text in texts_of)
    assert len(line) == MAX_LINE
    yes("1\t1\ty1*.5", one, one, annotation(sure=1, sure_decimals=1, confidence=5))
    no("1\t1\ty1*.", 3, 8)
    no("1\t1\ty1*.1234567890", 4, 8)
    no("1\t1\ty1*.5,b2*.501", 7, 10)
    yes(b"1\t1\t" + line, one, one, *[annotation(6, text=text, sure=1, sure_decimals=1) for text in texts_of])


def of_names():
    """Names with brackets inside (M-100): places counted from the row's start, and brackets for each row by itself."""
    one = (1, 0)
    yes("1\t1\tr[a[b]]", one, one, annotation(5, text=b"a[b]"))
    yes("1\t1\tr[[]]", one, one, annotation(5, text=b"[]"))
    yes("1\t1\tIC[M[+]][M+H]", one, one, annotation(3, series=67, text=b"M[+]", items=[(1, 0, 1, H)]))
    in_order = annotation(losses=[(0, 1, 1, b"Hex[x]"), (0, 1, 1, b"Hexa")])
    for line in ("y1-[Hex[x]]-[Hexa]", "y1-[Hexa]-[Hex[x]]"):
        yes("100.5\t7\t" + line, (1005, 1), (7, 0), in_order)
    for front, mz, intensity in FRONTS:
        n = len(front)
        for line, refusal, place in (
            ("r[a[b]", 3, 6), ("r[a]]", 2, 4), ("y1-[[a]]", 2, 4), ("r[]", 2, 2), ("r[[[]]]]", 2, 7), ("IC[M+[x]]", 2, 6), ("r[a[\t]]", 2, 4),
            ("r[a[b]\t", 2, 6), ("r[a[b],y1", 3, 9), ("r[" + "[]" * 128 + "]", 5, 257), ("y1,r[a[b]]^256", 4, 11), ("r[" + "[" * 4094, 3, MAX_LINE),
            ("r[" + "[" * 4095, 1, MAX_LINE), ("r[" + "[" * 2046 + "]" * 2048, 2, MAX_LINE - 1), ("r[" + "[" * 2000 + "]" * 2001, 5, 257),
        ):
            no(front + line, refusal, n + place)
            again("1\t1\tr[a[b]]")
        yes(front + "r[c],r[" + "[]" * 127 + "x]", mz, intensity, annotation(5, text=b"c"), annotation(5, text=b"[]" * 127 + b"x"))


def of_sequences():
    """Sequences in the braces of series and internal ions (M-105): places counted from the row's start."""
    one, pep = (1, 0), dict(text=b"PEP")
    yes("1\t1\ty3{PEP}", one, one, annotation(position=3, **pep))
    yes("1\t1\tm3:5{PEP}", one, one, annotation(2, position=3, end=5, **pep))
    yes("1\t1\ty2{[Ac]-M[[X]]K-[am]}", one, one, annotation(position=2, text=b"[Ac]-M[[X]]K-[am]", residues=2))
    yes("1\t1\ty1{" + "A" * 255 + "}", one, one, annotation(text=b"A" * 255, residues=255))
    yes("100.5\t7\tp,y5{PEPTIDE}-N-C,_{x}", (1005, 1), (7, 0), annotation(4), annotation(position=5, text=b"PEPTIDE", losses=[(0, 0, 1, C), (0, 0, 1, [(0, 7, 1)])]), annotation(6, text=b"x"))
    for front, _, _ in FRONTS:
        n = len(front)
        for line, refusal, place in (
            ("y1{x}", 11, 0), ("p,y1{x}", 11, 2), ("m1:1,y1{x}", 11, 5), ("y2{K},y1{x}", 11, 6), ("y1{x},y2{K}", 11, 0), ("y1*0.7,b2*0.7,y1{x}", 11, 14), ("y4{PEP}", 6, 0), ("p,y4{PEP}", 6, 2),
            ("y2{M[K]}", 6, 0), ("m3:6{PEP}", 6, 0), ("m6:3{P}", 6, 0), ("y1{K}*0.7,p*0.7", 7, 10), ("y1{x},y70000", 4, 7), ("y1{x}^256", 4, 6), ("y1{" + "A" * 256 + "}", 5, 258),
            ("y1{x}" + ",p" * 16, 5, 36), ("y1{[A]-[B]-M}", 11, 0), ("y1{M[]}", 11, 0), ("y1{M]}", 11, 0), ("y1{[O]M}", 11, 0), ("y1{M-}", 11, 0), ("y1{M\t}", 2, 4), ("y1{x}\t", 2, 5), ("y1{x}^1", 3, 7),
            ("y1{x", 3, 4), ("y1{x}" + "x" * MAX_LINE, 1, MAX_LINE),
        ):
            no(front + line, refusal, n + place)
        again("1\t1\ty3{PEP}")
    # 12 and 13 go before the line's own
    no("x\t1\ty1{x}", 12, 0)
    no("1\tx\ty1{x}", 13, 2)


def apart(front, head, rest, refusal, place):
    """A row whose line has letters, the first of them behind `head`: there the first edition has a stray byte, and the second refuses it otherwise."""
    asked.of(asked.first, no, front + head + rest, 2, len(front + head))
    asked.of(asked.second, no, front + head + rest, refusal, len(front) + place)


def apart_read(front, head, rest, mz, intensity, *annotations):
    """The same, where the second edition reads it."""
    asked.of(asked.first, no, front + head + rest, 2, len(front + head))
    asked.of(asked.second, yes, front + head + rest, mz, intensity, *annotations)


def of_letters():
    """Internal ions with letters (M-113), of both editions: places counted from the row's start."""
    for front, mz, intensity in FRONTS:
        for code, letters in enumerate(cases.LETTERS, 1):
            apart_read(front, "m", letters + "3:6", mz, intensity, cut(0 if letters == "yb" else code))
        long = cut(1, also=1, has_analyte=1, analyte=1, text=b"PEPT", losses=[(0, 0, 1, H2O)])
        apart_read(front, "p,&1@m", "xa3:6{PEPT}-H2O,m3:6", mz, intensity, annotation(4), long, cut(0))
        for head, rest, refusal, place in (
            ("m", "x", 3, 2), ("m", "xa", 3, 3), ("m", "x3:6", 2, 2), ("m", "xx3:6", 2, 2), ("m", "xa3:6,,", 2, 7), ("m", "xa3:6\t", 2, 6), ("m", "x\ta3:6", 2, 2),
            ("m", "xa3:6,", 3, 7), ("m70000:3,m", "xa3:6", 4, 1), ("m", "xa70000:3", 4, 3), ("m", "xa3:6" + "-H" * 9, 5, 22), ("m", "xa1:3", 6, 0),
            ("p,m", "xa6:3", 6, 2), ("m", "xa3:6{PEP}", 6, 0), ("m", "xa3:6{x}", 11, 0), ("m", "xa3:6*0.7,myb3:6*0.301", 7, 11),
        ):
            apart(front, head, rest, refusal, place)
            for edition in asked.each():
                asked.of(edition, yes, front + "p", mz, intensity, annotation(4))
        apart_read(front, "m", cases.reached("mxa3:6", MAX_LINE)[1:], mz, intensity, cut(1), *filling(MAX_LINE - 6))
        for edition in asked.each():
            asked.of(edition, no, front + cases.reached("mxa3:6", MAX_LINE + 1), 1, MAX_LINE + len(front))
            asked.of(edition, no, front + "mxa3:6" + "x" * MAX_ROW, 1, MAX_ROW)
    # 12 and 13 go before the line's own
    for edition in asked.each():
        for row, refusal, place in (("x\t1\tmxa3:6", 12, 0), ("1\tx\tmxa3:6", 13, 2), ("mxa3:6", 12, 0), ("1\tmxa3:6", 13, 2), ("mxa3:6\t1\ty1", 12, 0)):
            asked.of(edition, no, row, refusal, place)
    # the empty third column, and rows without one
    for row in ("1\t1", "1\t1\t"):
        asked.of(asked.second, yes, row, (1, 0), (1, 0))


# ---- stored rows

def small():
    return stored_row((1005, 1), (7, 0), table(annotation()))


def large():
    return stored_row((123123456789, 9), (999999999999, 0), table(rich(), *other()))


def empty():
    return stored_row((0, 0), (0, 0), table())


def in_first_edition(row):
    """A stored row with the edition 1 table of the same fields."""
    return row[:FRONT] + first_edition(row[FRONT:])


def stored_numbers():
    """A value and its decimals at their bounds and past them, in both places."""
    one, line = (1, 0), table(annotation())
    for value in (0, 1, 9, 10, 999, 10**9, 2**32 - 1, 2**32, 2**39, 10**12 - 2, 10**12 - 1):
        for places in range(10):
            sound(stored_row((value, places), one, line))
            sound(stored_row(one, (value, places), line))
        sound(stored_row((value, 9), (value, 0), table()))
        for places in (10, 11, 12, 16, 128, 255):
            unsound(stored_row((value, places), one, line))
            unsound(stored_row(one, (value, places), line))
            unsound(stored_row((value, places), (value, places), table()))
    for value in (10**12, 10**12 + 1, 2**40, 2**48 + 1, 2**56 + 1, 2**63 - 1, 2**63, 2**63 + 1, 2**64 - 10**12, 2**64 - 1):
        for places in (0, 1, 9, 10, 255):
            unsound(stored_row((value, places), one, line))
            unsound(stored_row(one, (value, places), line))
        unsound(stored_row((value, 0), (value, 0), table()))
    for zero in (1, 2, 255, 256, 257, 32768, 65535):
        for row in (small(), large(), empty()):
            unsound(changed(row, 18, zero, 2))


def stored_fronts():
    """Each byte of the front changed."""
    for row in (small(), large(), empty()):
        sound(row)
        for at in range(FRONT):
            for value in dict.fromkeys((row[at] + 1, row[at] + 255, row[at] + 128, 0, 9, 10, 255)):
                made = changed(row, at, value)
                (sound if front_is_sound(made) else unsound)(made)


def stored_lengths():
    """Cut anywhere, and longer; the front or the table alone; both in other places."""
    for row in (small(), large(), empty()):
        front, rest = row[:FRONT], row[FRONT:]
        for n in range(len(row)):
            unsound(row[:n])
        for tail in (b"\0", b"\1", b"\n", b"\0" * FRONT, b"\0" * 36, b"\0" * 38, rest, row):
            unsound(row + tail)
            unsound(changed(row + tail, FRONT + 2, len(rest + tail), 2))
        unsound(changed(row, FRONT + 2, len(row), 2))
        for made in (rest, rest + front, front + front, front + row, row[1:], b"\0" + row, front[:18] + rest, front[:19] + rest):
            unsound(made)
    for n in (0, 1, 19, 20, 21, 47, 48, 84, 86, 70000):
        unsound(b"\0" * n)
    unsound(b"\xff" * 48)


def stored_tables_behind():
    """Tables and what is none, as tools/table_cases.py states of them: behind a sound front they are answered the same."""
    tables = table_cases.asked.first
    answers = {(0, 0): sound, (1, MAX_LINE): too_long, (9, 0): unsound, (10, 0): old, (20, 0): lettered}
    for part in (table_cases.fields, table_cases.kinds, table_cases.sums, table_cases.ordered, table_cases.nested, table_cases.editions, table_cases.counts,
                 table_cases.sequences, table_cases.cleavages_beside):
        before = len(tables.tables)
        part()
        for digits in dict.fromkeys(tables.tables[before:]):
            _, mz, intensity = FRONTS[len(stored_rows) % len(FRONTS)]
            row = stored_row(mz, intensity, bytes.fromhex(digits.decode()))
            answers[tables.stated[digits]](row)
    for row in (small(), large(), empty()):
        for at in range(0, 28, 2):
            for value in (0, 1, 27, 28, 29, 65535):
                # the empty table is one in both editions
                if value != number(row, FRONT + at) and not (row == empty() and at == 0 and value == 1):
                    unsound(changed(row, FRONT + at, value, 2))


def stored_editions():
    """Rows with tables of either edition, and with tables that name others. Those of edition 1 are 10, and 9 goes before it."""
    for row in (small(), large(), empty()):
        before = in_first_edition(row)
        sound(row)
        old(before)
        for n in range(FRONT, len(before)):
            unsound(before[:n])
        for tail in (b"\0", b"\0\0", b"\0" * 36, before[FRONT:], before):
            unsound(before + tail)
        for edition in (0, 3, 256, 257, 258, 513, 65535):
            unsound(changed(row, FRONT, edition, 2))
            unsound(changed(before, FRONT, edition, 2))
        for at, value in ((7, 1), (15, 1), (16, 10), (17, 10), (18, 1), (19, 1)):
            unsound(changed(before, at, value))
        if row != empty():
            unsound(changed(row, FRONT, 1, 2))
            unsound(changed(before, FRONT, 2, 2))
    for made in (annotation(text=b"x"), annotation(position=4, text=b"PEP"), annotation(2, position=1, end=1)):
        unsound(stored_row((1, 0), (1, 0), table(made, edition=1)))


def stored_letters():
    """Field 3 of internal ions (M-113): 20 behind 9 and 10, before 1, whatever the columns."""
    for i, code in enumerate((*range(11), 70, 255)):
        _, mz, intensity = FRONTS[i % len(FRONTS)]
        for made in ((cut(code),), (annotation(4), cut(code, text=b"PEPT"))):
            (sound if code == 0 else lettered if code < 10 and code != 5 else unsound)(stored_row(mz, intensity, table(*made)))
            (old if code == 0 else unsound)(stored_row(mz, intensity, table(*made, edition=1)))
    for row in (with_letters(), with_letters(*filling(MAX_LINE - 6)), with_letters(*filling(MAX_LINE - 5)), with_letters(largest(), largest())):
        lettered(row)
        for at, value in ((7, 1), (15, 1), (16, 10), (17, 10), (18, 1), (19, 1), (FRONT + 28 + 3, 5), (FRONT + 28 + 3, 10), (FRONT + 28 + 15, 1)):
            unsound(changed(row, at, value))
        unsound(row + b"\0")
        unsound(row[:-1])
        unsound(in_first_edition(row))
    too_long(changed(with_letters(*filling(MAX_LINE - 3)), FRONT + 28 + 3, 0))
    sound(changed(with_letters(*filling(MAX_LINE - 4)), FRONT + 28 + 3, 0))


def with_letters(*behind):
    """A stored row whose line begins with six bytes, two of them letters."""
    return stored_row((1005, 1), (7, 0), table(cut(1), *behind))


def stored_long():
    """Lines at their bound and past it: 1 at 4096 is by the line, whatever the columns; 9 goes before it, and 10."""
    for i, (_, mz, intensity) in enumerate(FRONTS):
        for last, answer in ((252, sound), (253, sound), (254, too_long), (255, too_long), (256, unsound)):
            edition = 2 - i % 2
            (old if edition == 1 and answer != unsound else answer)(stored_row(mz, intensity, texts(*[252] * 15, last, edition=edition)))
    over = stored_row((1, 0), (1, 0), texts(*[252] * 15, 254))
    for at, value in ((5, 1), (13, 1), (16, 10), (17, 10), (18, 1), (19, 1)):
        unsound(changed(over, at, value))
    unsound(over + b"\0")
    unsound(over[:-1])
    too_long(stored_row((1, 0), (1, 0), table(largest(), largest())))
    sound(stored_row((10**12 - 1, 9), (10**12 - 1, 9), table(largest())))
    # the largest stored row of all, and with one byte more
    most = stored_row((10**12 - 1, 9), (10**12 - 1, 9), table(*[largest()] * 16))
    assert len(most) == FRONT + 43628
    too_long(most)
    old(in_first_edition(most))
    unsound(most + b"\0")


def stored_digits():
    """Lines that are no pairs of digits, and capitals, which are digits."""
    digits = small().hex().encode()
    for line in (b"0", digits[:-1], digits + b"0", digits + b" ", b" " + digits, digits[:-1] + b"g", b"g" + digits[1:], digits + b"\r",
                 b"0x" + digits, b"zz", b"-", b"1\t1", digits[:40] + b" " + digits[40:], digits.replace(b"0", b"O", 1)):
        ask_stored(line, 9, 0, b"")
    ask_stored(large().hex().upper().encode(), 0, 0, row_text(large()))


# ---- whole lists, and outputs of many sizes

def whole_lists():
    """Lists and their rows. Rows end at line feeds, one missing after a last row being added first; the empty list has no rows."""
    good, bad, full = b"677.300\t5681\ty7/0.000*0.95", b"1\t1\ty1^1", raw("1\t1\t" + FULL)
    most, over, huge = b"x" * MAX_ROW, b"x" * (MAX_ROW + 1), raw("1\t1\t" + "x" * 139996)
    lone = (b"1\t1", b"1\t1\t", b"1\t1\r", b"1", b"1\t", b"\t", good, bad, full, full + b"x", most, over, huge)
    several = [[good, bad], [good, bad, good], [bad, b"", good], [b"", b"1\t1"], [good, huge, good], [full, full + b"x", good], [most, over, most]]
    ended_or_not = [(b"\n".join(parts) + end, parts) for parts in [[row] for row in lone] + several for end in (b"", b"\n")]
    # where the last row is empty its line feed is there
    return ended_or_not + [(b"".join(row + b"\n" for row in parts), parts) for parts in ([], [b""], [b"", b""], [b"1\t1", b""], [over, b""])]


def lists_of_stored_rows():
    first, second = small().hex().encode(), large().hex().encode()
    return [(b"", []), (b"\n", [b""]), (b"\n\n", [b"", b""]), (first, [first]), (first + b"\n", [first]), (first + b"\n" + second, [first, second]),
            (first + b"\n\n" + second + b"\n", [first, b"", second])]


def compare_lists(programs):
    """Differences between what is stated of whole lists and what the programs print, in as many runs."""
    lists, others = whole_lists(), lists_of_stored_rows()
    for name, given, answer in (("row_reads", lists, read_answer), ("peaks", lists, peak_answer), ("row_writes", others, write_answer)):
        for data, parts in given:
            found = printed_by(programs[name], data)
            due = b"".join(answer(part) + b"\n" for part in parts)
            if found != due:
                yield "%s, list %r" % (name, data[:60]), due, found


def sizes_around(need, *others):
    """Every size up to what is needed and a little more, where that is not much; else those near it, and others."""
    return range(need + 3) if need <= 100 else dict.fromkeys((0, 1, *others, need - 2, need - 1, need, need + 1, need + 2))


def read_rooms():
    """Outputs around the bytes that a row needs: 20 and its table's. Refusals by other numbers go before 8."""
    for row in (b"1\t1", b"1\t1\t", b"1\t1\ty1", b"100.5\t7\ty1-N-C", b"677.303\t34\tb6-H2O/-0.005,&y7/0.003", b"1\t1\tr[[]]", b"1\t1\ty3{PEP}", raw("1\t1\t" + FULL)):
        data = asked.first.row_answers[row][2]
        for room in sizes_around(len(data), 19, 20, 21, 47, 48, 49, len(data) - FRONT, ROOM):
            yield room, row, (0, 0, data) if len(data) <= room else (8, len(data), b"")
    over = (b"x" * (MAX_ROW + 1), raw("1\t1\t" + FULL + "x"))
    for row in (b"", b"1", b"1\t", b"x", b"1\t1\t\t", b"1\t1\ty1^1", b"1\t1\ty65536", b"1\t1\ty1*0.7,b2*0.301", b"1\t1\tr[a[b]", b"1\t1\ty1{x}", b"1\t1\ty4{PEP}",
                b"1\t1\tmxa3:6", *over):
        for room in (0, 1, 20, 48, ROOM):
            yield room, row, asked.first.row_answers[row]


def write_rooms():
    """Outputs around the length of a row. 9, 10, 20 and 1 go before 8."""
    full, most = texts(*[252] * 15, 253), (10**12 - 1, 9)
    at_bound = (stored_row((1, 0), (1, 0), full), stored_row(most, most, full))
    nested = stored_row((1, 0), (1, 0), table(annotation(3, series=67, text=b"[M+]", losses=[(0, 1, 1, b"a[b]")])))
    for row in (empty(), small(), large(), stored_row(most, most, table(annotation(4))), nested, *at_bound):
        text = row_text(row)
        for room in sizes_around(len(text), 3, 4, 27, 28, MAX_LINE, MAX_ROW):
            yield room, row.hex().encode(), (0, 0, text) if len(text) <= room else (8, len(text), b"")
    over = stored_row((1, 0), (1, 0), texts(*[252] * 15, 254))
    unpaired = stored_row((1, 0), (1, 0), table(annotation(5, text=b"a[b")))
    short = stored_row((1, 0), (1, 0), table(annotation(position=4, text=b"PEP"), edition=1))
    before = [(in_first_edition(row), 10, 0) for row in (empty(), small(), large(), over)]
    for row, refusal, place in ((b"", 9, 0), (small()[:-1], 9, 0), (changed(small(), 18, 1), 9, 0), (unpaired, 9, 0), (short, 9, 0), *before,
                                (with_letters(), 20, 0), (with_letters(largest(), largest()), 20, 0),
                                (changed(with_letters(), FRONT + 28 + 3, 5), 9, 0), (in_first_edition(with_letters()), 9, 0), (over, 1, MAX_LINE)):
        for room in (0, 1, 20, MAX_ROW):
            yield room, row.hex().encode(), (refusal, place, b"")


def asked_with_room(room, line):
    return b"%d %s" % (room, line)


def answers_in_rooms(command, rooms):
    """What `cross` prints for outputs of many sizes, in order, by a run for each size."""
    by_room, found = {}, {}
    for room, line, _ in rooms:
        by_room.setdefault(room, []).append(line)
    for room, lines in by_room.items():
        said = printed_by([*command, "--out", str(room)], b"".join(line + b"\n" for line in lines)).split(b"\n")[:-1]
        assert len(said) == len(lines), (room, len(said), len(lines))
        found.update({(room, line): answer for line, answer in zip(lines, said)})
    return [found[room, line] for room, line, _ in rooms]


# ---- answers

def printed(refusal, place, data):
    return b"%d %d %d %s" % (refusal, place, len(data), data.hex().encode() or b"-")


def read_answer(row):
    return printed(*asked.first.row_answers[row])


def write_answer(digits):
    return printed(*stored_answers[digits])


def peak_answer(row, of=asked.first):
    """The row read, and written: a line that is too long in preferred spelling is refused by the writer."""
    refusal, place, data = of.row_answers[row]
    if refusal:
        return b"!%d %d" % (refusal, place)
    return row_text(data) if len(spelled(data[FRONT:])) <= MAX_LINE else b"!1 %d" % MAX_LINE


def programs_of(folder):
    """The programs of another implementation that stand beside ours."""
    cross, relabel = os.path.join(folder, "cross"), os.path.join(folder, "relabel")
    return {"row_reads": [cross, "--rows", *LANDED], "row_writes": [cross, "--write-rows", "--hex", *LANDED], "peaks": [relabel, "--rows", *LANDED],
            "try_second_peaks": [relabel, "--rows", *LANDED_SECOND]}


def our_programs():
    return {name: [os.path.join(ROOT, "..", "tools", "run"), name] for name in ("row_reads", "row_writes", "peaks")}


def printed_by(command, data):
    return subprocess.run(command, input=data, stdout=subprocess.PIPE, check=True).stdout


def inputs():
    """What the programs are given. The last row of two of them lacks its line feed, as it may."""
    sized = {name: b"".join(asked_with_room(room, line) + b"\n" for room, line, _ in rooms) for name, rooms in sized_cases().items()}
    rows, second = asked.first.rows, asked.second.rows
    return {"row_reads": b"\n".join(rows), "row_writes": b"\n".join(stored_rows), "peaks": b"".join(row + b"\n" for row in rows),
            "try_second_peaks": b"".join(row + b"\n" for row in second), **sized}


def sized_cases():
    return {"try_read_row_sized": list(read_rooms()), "try_write_row_sized": list(write_rooms())}


def store_inputs():
    for name, data in inputs().items():
        if name == "try_second_peaks":
            store_second(name, data)
        else:
            store(name, "stdin", data)


def store_outputs(programs):
    for name in ("row_reads", "peaks", "try_second_peaks"):
        store(name, "stdout", printed_by(programs[name], stored(name, "stdin")))
    pairs = b"".join(line + b"\n" for line in stored_rows if is_pairs(line))
    answers = iter(printed_by(programs["row_writes"], pairs).splitlines(keepends=True))
    store("row_writes", "stdout", b"".join(next(answers) if is_pairs(line) else b"9 0 0 -\n" for line in stored_rows))
    for (name, rooms), command in zip(sized_cases().items(), (programs["row_reads"], programs["row_writes"])):
        store(name, "stdout", b"".join(answer + b"\n" for answer in answers_in_rooms(command, rooms)))


def stated():
    """For each program what it is asked, and the answers that are stated, in order."""
    rows, second = asked.first.rows, asked.second.rows
    found = {
        "row_reads": (rows, [read_answer(row) for row in rows]),
        "row_writes": (stored_rows, [write_answer(digits) for digits in stored_rows]),
        "peaks": (rows, [peak_answer(row) for row in rows]),
        "try_second_peaks": (second, [peak_answer(row, asked.second) for row in second]),
    }
    for name, rooms in sized_cases().items():
        found[name] = [asked_with_room(room, line) for room, line, _ in rooms], [printed(*answer) for _, _, answer in rooms]
    return found


def compare_stored():
    """Differences between what is stated and what is stored."""
    given = inputs()
    for name, (lines, due) in stated().items():
        if stored(name, "stdin") != given[name]:
            yield name, "the input that this script writes", "another"
        answers = stored(name, "stdout").split(b"\n")
        if len(answers) != len(lines) + 1 or answers[-1]:
            yield name, "%d answers" % len(lines), "%d" % (len(answers) - 1)
        for line, answer, got in zip(lines, due, answers):
            if got != answer:
                yield "%s, %r" % (name, line[:200]), answer, got


def report(differences, what):
    wrong = list(differences)
    for where, due, found in wrong:
        print("%s: stated %r, found %r" % (where, due[:200], found[:200]))
    print("%s; %d differences" % (what, len(wrong)))
    return not wrong


def check():
    for of, name in zip(asked.each(), ("row_reads and peaks", "try_second_peaks")):
        print("%s: %d rows, %d of them refused" % (name, len(of.rows), sum(of.row_answers[row][0] != 0 for row in of.rows)))
    written = sum(stored_answers[digits][0] == 0 for digits in stored_rows)
    sizes = sum(len(rooms) for rooms in sized_cases().values())
    what = "%d stored rows, %d of them written; %d with outputs around the size needed; each with a stated answer"
    return report(compare_stored(), what % (len(stored_rows), written, sizes))


def check_lists(programs):
    return report(compare_lists(programs), "%d lists for each of two programs, %d of stored rows" % (len(whole_lists()), len(lists_of_stored_rows())))


def main(words):
    for part in (of_specification, of_request, of_columns, of_tabs):
        part()
    of_lines(cases.examples, cases.readings, cases.specification, cases.counted, cases.together, cases.sums, cases.unfinished, *LETTERED)
    for part in (of_lengths, of_neighbours, of_bytes, of_points, of_names, of_sequences):
        part()
    # rows without letters, which the second edition answers as the first
    for part in (of_specification, of_request, of_points, of_names, of_sequences):
        asked.of(asked.second, part)
    asked.of(asked.second, of_lines, cases.examples, cases.readings, *LETTERED)
    of_letters()
    for part in (stored_fronts, stored_numbers, stored_lengths, stored_tables_behind, stored_editions, stored_letters, stored_long, stored_digits):
        part()
    # a last row that is empty would be none without its line feed
    again("1\t1")
    sound(small())
    if words == ["--check"]:
        return 0 if check() else 1
    if words == ["--lists"]:
        return 0 if check_lists(our_programs()) else 1
    if words and (len(words) != 2 or words[0] != "--with"):
        sys.exit(__doc__)
    store_inputs()
    if words:
        programs = programs_of(words[1])
        store_outputs(programs)
        return 0 if all([check(), check_lists(programs)]) else 1
    return 0


if __name__ == "__main__":
    sys.exit(main(sys.argv[1:]))
