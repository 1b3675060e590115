#!/usr/bin/env python3
"""The cases of the programs that write and convert stored tables: tables, and what the rules say of them in words. `writes` and `try_write_sized`
write lines of the first edition, `try_second_writes` those of the second, `converts` and `convert` turn tables of edition 1 into those of edition 2.

    python3 tools/table_cases.py                  writes the stored inputs of the five programs, crates/NAME/stdin, and crates/try_second_writes/args
    python3 tools/table_cases.py --check          holds the stored outputs to what is stated here; prints differences
    python3 tools/table_cases.py --with FOLDER    makes the stored outputs by the program `cross` in FOLDER, then checks

`cross`, with `--write --hex`, reads tables in hexadecimal digits from standard input, one a line, and prints `NUMBER PLACE LENGTH HEX`
for each, HEX being the line, `-` where it is none or empty; with `--out N` too it does so with an output of N bytes; with `--convert --hex`
HEX is the table of edition 2. It is a writer other than this repository's, so that two agree on the stored outputs. Lines that are no pairs of
digits are not asked of it: they are no table. Tables are made here from fields, by the section "The stored table" of document 01 and by request
M-105 of document 02, in edition 2 unless edition 1 is asked for; those of the programs `reads` and `try_second_reads` come from their stored outputs, so
tools/cases.py goes first. By request M-112 a sound table of edition 1 is 10 where it is to be written. By M-113 one of edition 2 is 20 where its line
is to be of the first edition and an internal ion has its field 3 set (`lettered`), and one of edition 1 with it set is no table. Where a table is
written, its line is held to the fields that its bytes have; where one is converted, the new table, and where its sequences break the rules, the
number and the place.
"""
import copy
import sys

sys.dont_write_bytecode = True
from cases import LANDED, LANDED_SECOND, LETTERS, MAX_LINE, Editions, answers_by, residues, store, store_second, stored

SERIES = "a b c d v w x y z da db wa wb".split()
SYMBOLS = (
    "H He Li Be B C N O F Ne Na Mg Al Si P S Cl Ar K Ca Sc Ti V Cr Mn Fe Co Ni Cu Zn Ga Ge As Se Br Kr Rb Sr Y Zr Nb Mo Tc Ru Rh Pd Ag Cd In Sn Sb Te I Xe "
    "Cs Ba La Ce Pr Nd Pm Sm Eu Gd Tb Dy Ho Er Tm Yb Lu Hf Ta W Re Os Ir Pt Au Hg Tl Pb Bi Po At Rn Fr Ra Ac Th Pa U Np Pu Am Cm Bk Cf Es Fm Md No Lr "
    "Rf Db Sg Bh Hs Mt Ds Rg Cn Nh Fl Mc Lv Ts Og"
).split()
# Bytes of an annotation's record, by edition.
WIDTH = {1: 36, 2: 38}
C, H, H2O, NA = [(0, 6, 1)], [(0, 1, 1)], [(0, 1, 2), (0, 8, 1)], [(0, 11, 1)]


def little(n, width):
    return (n % 256**width).to_bytes(width, "little")


def number(table, at, width=2):
    return int.from_bytes(table[at:at + width], "little")


# ---- an annotation's fields, and its bytes. A loss is (sign, kind, count, units or name), an isotope (sign, kind, n, nucleons, atomic
# number), an adduct item (sign, kind, count, units), a unit (nucleons, atomic number, count). The residues are those of the text, where it is
# a sequence and the kind has sequences, unless another count is given.

def annotation(kind=1, **fields):
    made = dict(kind=kind, also=0, has_analyte=0, series=8 if kind == 1 else 0, analyte=0, position=1 if kind == 1 else 0, end=0, charge=1, deviation=0, decimals=0,
                sure=0, sure_decimals=0, zero=0, off=0, confidence=0, text=b"", units=[], losses=[], isotopes=[], items=[], last=0, residues=None)
    assert set(fields) <= set(made), fields
    made.update(copy.deepcopy(fields))
    if made["residues"] is None:
        made["residues"] = residues(made["text"]) or 0 if made["kind"] in (1, 2) else 0
    return made


def record(a, edition=2):
    one = bytes([a["kind"], a["also"], a["has_analyte"], a["series"]])
    two = little(a["analyte"], 2) + little(a["position"], 2) + little(a["end"], 2)
    three = bytes([a["charge"], a["deviation"], a["decimals"], a["sure"], a["sure_decimals"], a["zero"]])
    four = little(a["off"], 8) + little(a["confidence"], 4) + little(len(a["text"]), 2) + little(len(a["units"]), 2)
    five = bytes([len(a["losses"]), len(a["isotopes"]), len(a["items"]), a["last"]])
    return one + two + three + four + five + (little(a["residues"], 2) if edition == 2 else b"")


def stored_unit(unit):
    return b"".join(little(n, 2) for n in unit)


def stored_item(sign, kind, count, what):
    return bytes([sign, kind]) + little(count, 2) + little(len(what), 2)


def framed(counts, sections, edition=2):
    """The header, and the sections behind it."""
    offsets = [28 + sum(len(s) for s in sections[:i]) for i in range(6)]
    head = little(edition, 2) + little(28 + sum(len(s) for s in sections), 2)
    return head + b"".join(little(n, 2) + little(o, 2) for n, o in zip(counts, offsets)) + b"".join(sections)


def table(*annotations, edition=2):
    losses = [loss for a in annotations for loss in a["losses"]]
    isotopes = [isotope for a in annotations for isotope in a["isotopes"]]
    items = [item for a in annotations for item in a["items"]]
    units, text = [], b""
    for a in annotations:
        units += a["units"] + [u for loss in a["losses"] if loss[1] != 1 for u in loss[3]] + [u for item in a["items"] for u in item[3]]
        text += a["text"] + b"".join(loss[3] for loss in a["losses"] if loss[1] == 1)
    return framed(
        (len(annotations), len(losses), len(isotopes), len(items), len(units), len(text)),
        [b"".join(record(a, edition) for a in annotations), b"".join(stored_item(*loss) for loss in losses),
         b"".join(bytes(i[:2]) + b"".join(little(n, 2) for n in i[2:]) for i in isotopes),
         b"".join(stored_item(*item) for item in items), b"".join(stored_unit(u) for u in units), text], edition)


def sections_of(table):
    """How many records each section of a sound table has, and their bytes."""
    pairs = [(number(table, 4 + 4 * i), number(table, 6 + 4 * i)) for i in range(6)]
    widths = (WIDTH[number(table, 0)], 6, 8, 6, 6, 1)
    return [n for n, _ in pairs], [table[at:at + n * width] for (n, at), width in zip(pairs, widths)]


def first_edition(table):
    """The edition 1 table of the same fields as one of edition 2."""
    counts, sections = sections_of(table)
    records = sections[0]
    return framed(counts, [b"".join(records[i:i + 36] for i in range(0, len(records), 38)), *sections[1:]], 1)


# ---- a sound table's line

def formula(table, at, n):
    units = [[number(table, at + 6 * i + 2 * k) for k in range(3)] for i in range(n)]
    return "".join("[%d%s%d]" % (a, SYMBOLS[z - 1], n) if a else SYMBOLS[z - 1] + (str(n) if n > 1 else "") for a, z, n in units)


def decimal(n, places):
    return str(n) if places == 0 else "%d.%0*d" % (n // 10**places, places, n % 10**places)


def counted(sign, n):
    return "-+"[sign] + (str(n) if n > 1 else "")


class Cursor:
    """Where the next record of each section stands."""
    def __init__(self, table):
        self.table = table
        self.at = [number(table, 6 + 4 * i) for i in range(6)]

    def take(self, section, size):
        self.at[section] += size
        return self.at[section] - size

    def formula(self, n):
        return formula(self.table, self.take(4, 6 * n), n)

    def text(self, n):
        at = self.take(5, n)
        return self.table[at:at + n].decode("ascii")


def spelled(table):
    c = Cursor(table)
    return ",".join(spelled_annotation(table, c) for _ in range(number(table, 4))).encode()


def spelled_annotation(table, c):
    at = c.take(0, WIDTH[number(table, 0)])
    r = table[at:at + 36]
    text, units = c.text(number(r, 28)), c.formula(number(r, 30))
    braced = "{" + text + "}" if text else ""
    named = "[" + text + "]" if text else ""
    position = str(number(r, 6))
    letters = LETTERS[r[3] - 1] if r[0] == 2 and r[3] else ""
    ion = ["", SERIES[r[3] - 1 if r[0] == 1 else 0] + position + braced, "m" + letters + position + ":" + str(number(r, 8)) + braced, "I" + chr(r[3]) + named, "p",
           "r" + named, "_" + braced, "f{" + units + "}", "s" + braced, "?" + (position if position != "0" else "")][r[0]]
    made = ("&" if r[1] else "") + (str(number(r, 4)) + "@" if r[2] else "") + ion
    for _ in range(r[32]):
        i = c.take(1, 6)
        made += counted(table[i], number(table, i + 2))
        made += "[" + c.text(number(table, i + 4)) + "]" if table[i + 1] == 1 else c.formula(number(table, i + 4))
    for _ in range(r[33]):
        i = c.take(2, 8)
        made += counted(table[i], number(table, i + 2)) + "i" + ["", "A", str(number(table, i + 4)) + SYMBOLS[number(table, i + 6) - 1]][table[i + 1]]
    items = ""
    for _ in range(r[34]):
        i = c.take(3, 6)
        items += counted(table[i], number(table, i + 2)) + ("e" if table[i + 1] == 2 else c.formula(number(table, i + 4)))
    made += "[M" + items + "]" if items else ""
    made += "^" + str(r[10]) if r[10] > 1 else ""
    off = int.from_bytes(r[16:24], "little", signed=True)
    made += "/" + ("-" if off < 0 else "") + decimal(abs(off), r[12]) + ["", "", "ppm"][r[11]] if r[11] else ""
    return made + ("*" + decimal(number(r, 24, 4), r[14]) if r[13] else "")


def records_of(table):
    """The records of the annotations of a sound table."""
    width = WIDTH[number(table, 0)]
    return [table[28 + width * i:28 + width * (i + 1)] for i in range(number(table, 4))]


def has_letters(table):
    """Whether an internal ion of a sound table has its field 3 set, so that its line has letters."""
    return any(record[0] == 2 and record[3] for record in records_of(table))


# ---- a table of edition 1, sound but for its sequences

def second_edition(table):
    """The edition 2 table of the same fields as one of edition 1."""
    counts, sections = sections_of(table)
    records = [record + little(residues(text) or 0 if record[0] in (1, 2) else 0, 2) for record, text, _ in texts_of(table)]
    return framed(counts, [b"".join(records), *sections[1:]], 2)


def texts_of(table):
    """The record of each annotation of an edition 1 table, the text of its ion, and its place in the preferred line."""
    c, place = Cursor(table), 0
    for _ in range(number(table, 4)):
        record, at = table[c.at[0]:c.at[0] + 36], c.at[5]
        yield record, table[at:at + number(record, 28)], place
        place += len(spelled_annotation(table, c)) + 1


def converted(table):
    """What converting answers: 11 at the first sequence of another form, else 6 at the first with too few residues, else the other table."""
    foreign, short = [], []
    for record, text, place in texts_of(table):
        if record[0] in (1, 2) and text:
            count = residues(text)
            needed = number(record, 6) if record[0] == 1 else number(record, 8) + 1 - number(record, 6)
            (foreign if count is None else short if count < needed else []).append(place)
    if foreign or short:
        return 11 if foreign else 6, (foreign or short)[0], b""
    return 0, 0, second_edition(table)


# ---- cases

class Asked:
    """What the writer of one edition of lines is asked, and what is stated of it."""

    def __init__(self, name, flags):
        self.name, self.flags = name, flags  # the program, and what the other implementation is told
        self.tables = []  # lines of digits, in order
        self.stated = {}  # line: (number, place)


asked = Editions(Asked("writes", LANDED), Asked("try_second_writes", LANDED_SECOND))
spare = []    # (room, table, stated)
turned = []   # lines of digits that are converted, in order
turns = {}    # line: (number, place)
briefly = []  # lines of digits for the program `convert`, each with its stated answer


def ask_digits(digits, *answer):
    asked.chosen.tables.append(digits)
    assert not answer or asked.chosen.stated.setdefault(digits, answer) == answer, (digits, answer)


def ask(data):
    ask_digits(data.hex().encode())


def state(data, *answer):
    ask_digits(data.hex().encode(), *answer)


def today(data, *answer):
    """The answer to a sound table: one of edition 1 is 10, before all but 9 (document 02, M-112)."""
    return (10, 0, 0)[:len(answer)] if number(data, 0) == 1 else answer


def no(data):
    state(data, 9, 0)


def yes(data):
    state(data, *today(data, 0, 0))


def over(data):
    """A table whose line is too long."""
    state(data, *today(data, 1, MAX_LINE))


def lettered(data, *answer):
    """A sound table of edition 2 whose line has letters: 20 where it is to be of the first edition, before all but 9 and 10 (document 02, M-113).
    Of the second edition it is written, or answered otherwise."""
    assert number(data, 0) == 2
    state(data, *((20, 0) if asked.chosen is asked.first else answer or (0, 0)))


def lettered_over(data):
    """The same, of a line that is too long."""
    lettered(data, 1, MAX_LINE)


def both(answer, *annotations):
    """The tables of both editions are sound, or neither is."""
    for edition in (2, 1):
        answer(table(*annotations, edition=edition))


def bad(**fields):
    both(no, annotation(**fields))


def good(**fields):
    both(yes, annotation(**fields))


def changed(data, at, value, width=1):
    return data[:at] + little(value, width) + data[at + width:]


def rich():
    return annotation(also=1, has_analyte=1, analyte=1, position=7, charge=3, deviation=2, decimals=2, off=-20, sure=1, sure_decimals=2, confidence=50, text=b"PEPTIDE",
                      losses=[(1, 1, 1, b"Hex"), (0, 0, 2, H2O)], isotopes=[(1, 2, 2, 13, 6), (0, 2, 1, 15, 7)], items=[(1, 0, 1, NA), (0, 2, 2, [])])


def other():
    return [annotation(2, position=4, end=5, text=b"AB", deviation=1, decimals=1, off=5, losses=[(0, 0, 1, C)]),
            annotation(7, units=[(0, 6, 2), (13, 6, 1)], isotopes=[(0, 1, 3, 0, 0)], items=[(1, 0, 1, H)], sure=1, sure_decimals=1, confidence=5)]


def tables_read(names, longest=None):
    """The tables of readable lines, of up to so many bytes if that is said, by the stored outputs of programs; each once."""
    found = {}
    for name in names:
        for line, answer in zip(stored(name, "stdin").split(b"\n"), stored(name, "stdout").split(b"\n")):
            if answer.startswith(b"0 ") and (longest is None or len(line) <= longest):
                found[bytes.fromhex(answer.split(b" ")[3].decode())] = True
    return list(found)


def of_lines(name="reads"):
    """The tables of short lines that a program reads, among them those of document 01, in both editions of tables."""
    for made in tables_read([name], 40):
        (lettered if has_letters(made) else yes)(made)
        (no if has_letters(made) else yes)(first_edition(made))


def bytes_changed():
    """Each byte of two tables with all sections, of both editions, changed: mostly no table, now and then another."""
    for edition in (2, 1):
        made = table(rich(), edition=edition)
        yes(made)
        for i, b in enumerate(made):
            for value in dict.fromkeys(((b + 1) % 256, (b + 255) % 256, 0, 255)):
                if value != b:
                    ask(changed(made, i, value))
        made = table(*other(), edition=edition)
        yes(made)
        for i, b in enumerate(made):
            ask(changed(made, i, (b + 1) % 256))
            ask(changed(made, i, (b + 128) % 256))


def cut_and_longer():
    """A table ends where its header says."""
    for edition in (2, 1):
        small, made = table(annotation(), edition=edition), table(rich(), edition=edition)
        for whole in (small, made, table(edition=edition)):
            for n in range(len(whole)):
                no(whole[:n])
            for tail in (b"\0", b"\1", b"\0\0", b"\0" * 36, b"\0" * 38, whole):
                no(whole + tail)
                no(changed(whole + tail, 2, len(whole + tail), 2))
        for at in range(4, 28, 2):
            for value in (0, 1, 27, 28, 63, 64, 65, 66, 67, 1000, 65535):
                if value != number(small, at):
                    no(changed(small, at, value, 2))
        # sections with bytes that no annotation counts
        for width, section in ((6, 1), (8, 2), (6, 3), (6, 4), (1, 5)):
            sections = [record(annotation(), edition)] + [b""] * 5
            sections[section] = (b"\0\0\1\0\1\0\1\0" if width == 8 else b"\0\0\1\0\1\0")[:width]
            no(framed([1] + [int(k == section) for k in range(1, 6)], sections, edition))
        # a section before its place, and a gap
        no(changed(made, 6, 27, 2))
        no(changed(made, 6, 29, 2))
    for n in (1, 27, 28, 29, 36, 38, 64, 66, 70000):
        no(b"\0" * n)
    no(b"\xff" * 28)


def editions():
    """Editions 1 and 2, and no other. The record's width goes by the number in the header."""
    tables = [(annotation(),), (rich(),), tuple(other()), (annotation(4),) * 16, (annotation(), rich(), *other()), (annotation(position=3, text=b"PEP"),)]
    for annotations in tables:
        first, second = table(*annotations, edition=1), table(*annotations)
        yes(first)
        yes(second)
        # the bytes of one marked as the other, and marked as what is no edition
        no(changed(first, 0, 2, 2))
        no(changed(second, 0, 1, 2))
        for made in (first, second):
            for edition in (0, 3, 4, 255, 256, 257, 258, 512, 513, 514, 32769, 65535):
                no(changed(made, 0, edition, 2))
        # the records of one under the header of the other, with its offsets
        counts, sections = sections_of(first)
        no(framed(counts, sections, 2))
        counts, sections = sections_of(second)
        no(framed(counts, sections, 1))
    for edition in (1, 2):
        yes(table(edition=edition))
    for edition in (0, 3, 256, 257, 513, 65535):
        no(changed(table(), 0, edition, 2))
    # records of both widths in one table
    one, three = annotation(), annotation(position=3, text=b"PEP")
    for annotations in ((one, one), (one, three), (three, one), (three, three), (one, one, one)):
        text = b"".join(a["text"] for a in annotations)
        for turn in (0, 1):
            records = b"".join(record(a, 1 + (i + turn) % 2) for i, a in enumerate(annotations))
            for edition in (1, 2):
                no(framed((len(annotations), 0, 0, 0, 0, len(text)), [records, b"", b"", b"", b"", text], edition))
    # as many records of the other width, or one fewer
    for annotations in ((annotation(4),) * 16, (annotation(9),) * 2):
        records = b"".join(record(a, 1) for a in annotations)
        for count in (len(annotations), len(annotations) - 1):
            no(framed((count, 0, 0, 0, 0, 0), [records, b"", b"", b"", b"", b""], 2))


def counts():
    """The count of residues, which the writer verifies."""
    for kind, more in ((1, dict(position=1)), (2, dict(position=2, end=2)), (3, dict(series=67)), (4, {}), (5, {}), (6, {}), (7, dict(units=C)), (8, dict(items=[(1, 0, 1, H)])), (9, {})):
        texts = {1: (b"", b"K", b"PEP", b"[a]-K[LL]M-[b]", b"A" * 255), 2: (b"", b"K", b"PEP", b"A" * 255), 3: (b"", b"PEP"), 5: (b"PEP",), 6: (b"PEP", b"A" * 255), 8: (b"PEP",)}.get(kind, (b"",))
        for text in texts:
            count = annotation(kind, text=text, **more)["residues"]
            yes(table(annotation(kind, text=text, **more)))
            for wrong in dict.fromkeys((0, 1, 2, 3, 4, count + 1, count - 1, len(text), 255, 256, count + 256, 256 * count, 65535)):
                if wrong != count:
                    no(table(annotation(kind, text=text, residues=wrong % 65536, **more)))
    no(table(annotation(position=3, text=b"PEP", residues=2)))
    # in one annotation of several
    for at in range(3):
        for wrong in (0, 2, 4, 259):
            made = [annotation(position=3, text=b"PEP") for _ in range(3)]
            made[at] = annotation(position=3, text=b"PEP", residues=wrong)
            no(table(*made))
    no(table(annotation(position=3, text=b"PEP", residues=1), annotation(text=b"K", residues=3)))
    # every small table with its count one more, and one less
    for digits in asked.chosen.tables[:400]:
        made = bytes.fromhex(digits.decode())
        if number(made, 0) == 2 and number(made, 4):
            count = number(made, 64)
            no(changed(made, 64, count + 1, 2))
            no(changed(made, 64, count - 1, 2))


def sequences():
    """Sequences in the braces of series and internal ions. Document 02, M-105. What breaks their rules is no table, of either edition."""
    internal = dict(kind=2, position=2, end=2)
    for text in (b"A", b"PEPTIDE", b"M[Oxidation]ACK", b"[Acetyl]-M", b"K-[am]", b"[a]-K-[b]", b"M[a][b]", b"M[[]]", b"M[a[b]c]", b"M[-]", b"M[K]", b"[KK]-M", b"M[M+]", b"M[,/*0.5]", b"A" * 255,
                 b"M[" + b"x" * 252 + b"]", b"[" + b"x" * 251 + b"]-M", b"M" + b"[" * 127 + b"]" * 127):
        answer = good if residues(text) else bad
        answer(text=text)
        answer(text=text, **internal)
        good(kind=6, text=text)
    foreign = (b"x", b"Ax", b"xA", b"a", b"PEp", b" A", b"A ", b"A,B", b"A/B", b"A1", b"P(a)", b"-", b"-A", b"A-", b"A-B", b"[a]", b"[a]-", b"[a]A", b"[]-A", b"A-[]", b"A[]", b"A[", b"A]", b"A[a", b"A[a]]", b"A[[a]",
               b"[A]-[B]-M", b"A-[a]-[b]", b"A-[a]B", b"[", b"]", b"[]", b"][", b"A[a]x", b"x" * 255, b"A" * 254 + b"x")
    for text in foreign:
        assert residues(text) is None
        for count in (0, 1, len(text)):
            no(table(annotation(text=text, residues=count)))
            no(table(annotation(text=text, residues=count, **internal)))
        bad(text=text)
        bad(text=text, **internal)
        good(kind=6, text=text)
        good(kind=8, text=text, items=[(1, 0, 1, H)])
    # as many as the position asks for, and one fewer
    for count in (1, 2, 3, 10, 100, 255):
        text = b"A" * count
        for position, answer in ((1, good), (count, good), (count + 1, bad), (65535, bad)):
            answer(position=position, text=text)
        for start, end, answer in ((2, 2, good), (2, count + 1, good), (2, count + 2, bad), (2, 65535, bad), (65536 - count, 65535, good), (65535 - count, 65535, bad), (65535, 65535, good), (3, 2, bad),
                                   (65535, 2, bad), (1, 1, bad), (1, count, bad)):
            answer(kind=2, position=start, end=end, text=text)
    for text, count in ((b"M[KKK]", 1), (b"[KK]-MN-[KK]", 2)):
        good(position=count, text=text)
        bad(position=count + 1, text=text)
    both(no, annotation(4), annotation(position=4, text=b"PEP"))
    both(no, annotation(text=b"x"), annotation(4))
    both(yes, annotation(position=3, text=b"PEP"), annotation(4), annotation(2, position=3, end=5, text=b"PEP"))
    # lines of 4,096 bytes, and longer ones, which are 1 unless they are no tables
    full = [annotation(text=b"A" * 251)] * 15
    for last, answer in ((b"A" * 252, yes), (b"A" * 253, over), (b"A" * 255, over), (b"A" * 256, no), (b"a" * 252, no), (b"a" * 253, no)):
        both(answer, *full, annotation(text=last))
    both(no, *full, annotation(text=b"A" * 252), annotation(4))
    both(no, *full, annotation(position=254, text=b"A" * 253))
    both(over, *full, annotation(position=253, text=b"A" * 253))


def ordered():
    """Losses and adduct items in their order, and out of it; what else keeps its order may stand in any."""
    losses = [(0, 0, 1, [(13, 6, 1)]), (0, 1, 1, b"HexNAc"), (0, 1, 1, b"Hex"), (0, 0, 1, C), (0, 0, 1, [(0, 6, 1), (13, 6, 1)]), (0, 0, 1, [(0, 6, 2)]), (0, 0, 2, H2O), (1, 0, 1, H2O)]
    good(losses=losses)
    for i in range(8):
        for k in range(i + 1, 8):
            swapped = list(losses)
            swapped[i], swapped[k] = swapped[k], swapped[i]
            bad(losses=swapped)
    for pair in ([(0, 0, 1, C), (0, 0, 1, H)], [(0, 0, 1, C), (1, 0, 1, C)], [(0, 0, 1, C), (0, 0, 2, C)], [(0, 0, 2, C), (1, 0, 1, C)], [(0, 0, 2, C), (0, 0, 10, C)],
                 [(0, 0, 1, [(0, 6, 10)]), (0, 0, 1, [(0, 6, 2)])], [(0, 0, 1, [(13, 6, 1)]), (0, 0, 1, C)], [(0, 0, 1, H), (0, 0, 1, [(0, 2, 1)])],
                 [(0, 0, 1, C), (0, 0, 1, [(0, 6, 1), (13, 6, 1)])], [(0, 0, 1, [(0, 6, 1), (13, 6, 1)]), (0, 0, 1, [(0, 6, 2)])]):
        good(losses=pair)
        bad(losses=pair[::-1])
        good(items=pair)
        bad(items=pair[::-1])
    for pair in ([(0, 1, 1, b"HexNAc"), (0, 1, 1, b"Hex")], [(0, 1, 1, b"a"), (0, 0, 1, C)], [(0, 0, 1, [(13, 6, 1)]), (0, 1, 1, b"C")]):
        good(losses=pair)
        bad(losses=pair[::-1])
    good(items=[(0, 0, 1, H), (1, 2, 1, [])])
    bad(items=[(1, 2, 1, []), (0, 0, 1, H)])
    for same in ((0, 0, 1, C), (1, 1, 3, b"Hex")):
        good(losses=[same] * 8)
    good(items=[(0, 2, 1, [])] * 4)
    for free in (dict(isotopes=[(1, 2, 1, 13, 6), (1, 2, 1, 15, 7)]), dict(isotopes=[(1, 2, 1, 15, 7), (1, 2, 1, 13, 6)]), dict(kind=7, units=C + H), dict(kind=7, units=H + C)):
        good(**free)
    both(yes, rich(), *other())
    both(yes, *other(), rich())


def fields():
    """Numbers at their bounds and past them."""
    for name, kind, values, more in (
        ("position", 1, (1, 2, 65535), {}), ("position", 9, (0, 1, 65535), {}), ("end", 2, (2, 3, 65535), dict(position=2)), ("analyte", 1, (0, 1, 65535), dict(has_analyte=1)),
        ("charge", 1, (1, 2, 255), {}), ("series", 1, range(1, 14), {}), ("series", 3, range(65, 91), {}), ("also", 1, (0, 1), {}),
        ("decimals", 1, range(10), dict(deviation=1)), ("decimals", 1, range(10), dict(deviation=2, off=-999999999999)),
        ("sure_decimals", 1, range(10), dict(sure=1, confidence=1)), ("off", 1, (0, 1, -1, 999999999999, -999999999999), dict(deviation=1)),
        ("confidence", 1, (0, 1, 999999999, 1000000000), dict(sure=1, sure_decimals=9)), ("confidence", 1, (0, 1), dict(sure=1)), ("confidence", 1, (0, 1, 10), dict(sure=1, sure_decimals=1)),
    ):
        for value in values:
            good(kind=kind, **{name: value}, **more)
    for name, kind, values, more in (
        ("position", 1, (0,), {}), ("position", 2, (0, 1, 6, 65535), dict(end=5)), ("end", 2, (0, 1), dict(position=2)), ("analyte", 1, (1, 65535), {}), ("has_analyte", 1, (2, 255), {}),
        ("charge", 1, (0,), {}), ("series", 1, (0, 14, 65, 255), {}), ("series", 3, (0, 64, 91, 97, 255), {}), ("also", 1, (2, 128), {}), ("zero", 1, (1, 255), {}), ("last", 1, (1, 255), {}),
        ("deviation", 1, (3, 255), {}), ("decimals", 1, (10, 255), dict(deviation=1, off=1)), ("decimals", 1, (1,), {}), ("off", 1, (1, -1), {}),
        ("off", 1, (10**12, -10**12, 2**63 - 1, -2**63, -2**63 + 1, 2**32 * 10**9), dict(deviation=2)), ("sure", 1, (2, 255), {}), ("sure_decimals", 1, (1,), {}),
        ("sure_decimals", 1, (10, 255), dict(sure=1, confidence=1)), ("confidence", 1, (1,), {}), ("confidence", 1, (1000000001, 2**32 - 1), dict(sure=1, sure_decimals=9)),
        ("confidence", 1, (2, 100), dict(sure=1)), ("confidence", 1, (11, 101), dict(sure=1, sure_decimals=1)), ("kind", 1, (0, 10, 255), {}),
    ):
        for value in values:
            bad(**{"kind": kind, name: value, **more})
    for first, kind, many in (("losses", 0, 8), ("items", 0, 4)):
        for unit in ((0, 1, 1), (0, 118, 999), (1, 1, 1), (999, 118, 999)):
            good(**{first: [(0, kind, 1, [unit])]})
        for unit in ((0, 0, 1), (0, 119, 1), (0, 65535, 1), (0, 1, 0), (0, 1, 1000), (1000, 1, 1), (13, 6, 0), (65535, 1, 1)):
            bad(**{first: [(0, kind, 1, [unit])]})
        for count, answer in ((0, bad), (1, good), (2, good), (999, good), (1000, bad), (65535, bad)):
            answer(**{first: [(0, kind, count, C)]})
        for sign, answer in ((0, good), (1, good), (2, bad), (255, bad)):
            answer(**{first: [(sign, kind, 1, C)]})
        for n in (1, 12):
            good(**{first: [(0, kind, 1, C * n)]})
        for n in (0, 13):
            bad(**{first: [(0, kind, 1, C * n)]})
        good(**{first: [(0, kind, 1, C)] * many})
        bad(**{first: [(0, kind, 1, C)] * (many + 1)})
    bad(losses=[(0, 2, 1, [])])
    bad(losses=[(0, 3, 1, C)])
    bad(items=[(0, 1, 1, C)])
    bad(items=[(0, 2, 1, C)])
    bad(items=[(0, 2, 0, [])])
    good(items=[(0, 2, 999, [])])
    for isotope in ((0, 0, 1, 0, 0), (1, 0, 999, 0, 0), (0, 1, 2, 0, 0), (1, 2, 1, 1, 1), (0, 2, 999, 999, 118)):
        good(isotopes=[isotope])
    for isotope in ((2, 0, 1, 0, 0), (0, 3, 1, 0, 0), (0, 0, 0, 0, 0), (0, 0, 1000, 0, 0), (0, 0, 1, 1, 0), (0, 0, 1, 0, 1), (0, 1, 1, 13, 6), (0, 2, 1, 0, 6), (0, 2, 1, 13, 0), (0, 2, 1, 1000, 6), (0, 2, 1, 13, 119), (0, 2, 0, 13, 6)):
        bad(isotopes=[isotope])
    good(isotopes=[(0, 2, 1, 13, 6)] * 4)
    bad(isotopes=[(0, 2, 1, 13, 6)] * 5)
    for mixed in ([(0, 0, 1, 0, 0)] * 2, [(0, 1, 1, 0, 0)] * 2, [(0, 2, 1, 13, 6), (0, 0, 1, 0, 0)], [(0, 0, 1, 0, 0), (0, 1, 1, 0, 0)]):
        bad(isotopes=mixed)
    for n, answer in ((0, yes), (1, yes), (16, yes), (17, no), (255, no)):
        both(answer, *[annotation(4)] * n)


def kinds():
    """Each kind with its own fields, and with those that are another's."""
    own = {1: {}, 2: dict(position=2, end=3), 3: dict(series=67), 4: {}, 5: dict(text=b"TMT"), 6: dict(text=b"a b"), 7: dict(units=C), 8: dict(text=b"CN", items=[(1, 0, 1, H)]), 9: {}}
    for kind, more in own.items():
        good(kind=kind, **more)
        for name, value, holders in (("position", 5, (1, 9)), ("end", 7, (2,)), ("series", 3, (1,)), ("series", 70, (3,)), ("text", b"Ab", (3, 5, 6, 8)), ("text", b"AB", (1, 2, 3, 5, 6, 8)), ("units", C, (7,)), ("text", b"", (1, 2, 3, 4, 7, 9)), ("units", [], (1, 2, 3, 4, 5, 6, 8, 9))):
            if name == "position" and kind == 2:
                continue
            if kind == 2 and value == 3:
                # letters, which an internal ion has in edition 2 alone
                lettered(table(annotation(2, series=3, **more)))
                no(table(annotation(2, series=3, **more), edition=1))
                continue
            (good if kind in holders else bad)(**{**more, "kind": kind, name: value})
        for b in range(256):
            if more.get("text") and b in b"\0\x1f !,/[]{}~\x7f\x80\xff":
                fine = 32 <= b <= 126 and bytes([b]) not in (b"[]" if kind == 5 else b"{}")
                (good if fine else bad)(**{**more, "kind": kind, "text": b"a" + bytes([b])})
    bad(kind=8, text=b"CN")
    for name, answer in ((b"M", good), (b"M2", good), (b"M+", bad), (b"M-", bad), (b"M+H", bad), (b"m+H", good), (b"[", bad), (b"a]", bad), (b"+58", good), (b"{", good)):
        answer(kind=3, series=67, text=name)
    for name, answer in ((b"M+H", good), (b"2H1", bad), (b"Z", good), (b"a", good), (b" a", bad), (b"[a", bad), (b"a]", bad), (b"a{", good), (b"", bad), (b"a\n", bad), (b"a" * 255, good), (b"a" * 256, bad)):
        answer(losses=[(0, 1, 1, name)])
    for kind, byte in ((1, b"A"), (6, b"x")):
        good(kind=kind, text=byte * 255)
        bad(kind=kind, text=byte * 256)
    good(kind=7, units=C * 12)
    bad(kind=7, units=C * 13)


def nested():
    """Names with brackets inside. Document 02, M-100. They pair up in each name by itself."""
    def named(name, reference, modification, loss):
        reference(kind=5, text=name)
        modification(kind=3, series=67, text=name)
        loss(losses=[(0, 1, 1, name)])
    for name in (b"a[]", b"a[b]", b"Hex[a[b]]c", b"a[[]]", b"a[][]", b"a[b][c]d", b"M[+]", b"M[-H]", b"a[M+]", b"a[{]", b"a[}]", b"a[,/ ^*]", b"Cation:Ca[II]"):
        named(name, good, good, good)
    # a loss begins with a letter, a modification not with `M+` or `M-`
    for name in (b"[]", b"[a]", b"[M+H]", b"[[]]", b"[][]", b"[a]b", b"2[a]", b" [a]", b"+[a]"):
        named(name, good, good, bad)
    for name in (b"M+[a]", b"M-[]", b"M+[", b"M-]"):
        fine = good if name.count(b"[") == name.count(b"]") else bad
        named(name, fine, bad, fine)
    for name in (b"[", b"]", b"][", b"a[", b"a]", b"a][", b"a[[]", b"a[]]", b"[a", b"[[a]", b"[a]]", b"a[b]]", b"a[[b]", b"a]b[", b"a[b]][c", b"a[b]c]d[", b"a[" * 100, b"a" + b"]" * 100):
        named(name, bad, bad, bad)
    # closed twice: printed, these are lines that read to other tables
    for name in (b"a]-[b", b"a],r[b", b"a][M+H", b"a]^2,r[b", b"a]b", b"a]+i[M+Na"):
        named(name, bad, bad, bad)
    # a name that is open at its end is not closed by the next
    for first, second in ((b"a[", b"b]"), (b"a]", b"b["), (b"a[b", b"c]d"), (b"a[[", b"b]]"), (b"a[b]", b"c]"), (b"a[", b"b"), (b"a", b"b]")):
        bad(kind=5, text=first, losses=[(0, 1, 1, second)])
        bad(losses=[(0, 1, 1, first), (1, 1, 1, second)])
        both(no, annotation(5, text=first), annotation(5, text=second))
    good(kind=5, text=b"a[b]", losses=[(0, 1, 1, b"c[d]")])
    both(yes, annotation(5, text=b"[a]"), annotation(3, series=67, text=b"[M+]", items=[(1, 0, 1, H)]), annotation(6, text=b"["))
    # texts in braces count none; those of series and internal ions are sequences, whose names pair up
    for kind, more in ((6, {}), (8, dict(items=[(1, 0, 1, H)]))):
        for text in (b"[", b"]", b"][", b"a]", b"[[a]", b"[a]"):
            good(kind=kind, text=text, **more)
    for more in ({}, dict(kind=2, position=2, end=2)):
        for text in (b"[", b"]", b"][", b"a]", b"[[a]", b"[a]"):
            bad(text=text, **more)
    for byte in (b"\0", b"\n", b"\x1f", b"\x7f", b"\x80", b"\xff"):
        named(b"a[" + byte + b"]", bad, bad, bad)
    for name in (b"x" + b"[]" * 127, b"x" + b"[" * 127 + b"]" * 127, b"x" * 253 + b"[]"):
        named(name, good, good, good)
        named(name + b"z", bad, bad, bad)
        named(name[:-1] + b"z", bad, bad, bad)
    for name in (b"[]" * 127 + b"x", b"[" * 127 + b"x" + b"]" * 127):
        named(name, good, good, bad)
    for name in (b"[]" * 128, b"[" * 128 + b"]" * 128, b"[" * 255, b"]" * 255, b"[" * 128 + b"]" * 127, b"[" * 127 + b"]" * 128):
        named(name, bad, bad, bad)
    # `[` ranks lowest inside names too
    names = (b"Hex[[]]", b"Hex[x]", b"Hex[x]a", b"HexNAc", b"Hex", b"Hexa", b"Hexa[x]")
    ranked = sorted(names, key=lambda name: [0 if b == 91 else b for b in name + b"]"])
    assert ranked == [b"Hex[[]]", b"Hex[x]", b"Hex[x]a", b"HexNAc", b"Hex", b"Hexa[x]", b"Hexa"]
    good(losses=[(0, 1, 1, name) for name in ranked])
    for i, first in enumerate(ranked):
        for second in ranked[i + 1:]:
            good(losses=[(1, 1, 9, first), (0, 1, 1, second)])
            bad(losses=[(0, 1, 1, second), (1, 1, 9, first)])
    good(losses=[(0, 0, 1, [(2, 1, 1)]), (0, 1, 1, b"H[a]"), (0, 0, 1, [(0, 1, 1), (2, 1, 1)])])
    bad(losses=[(0, 1, 1, b"H[a]"), (0, 0, 1, [(2, 1, 1)])])
    # 4,096 bytes of such names, and one more
    full = [annotation(5, text=b"[]" * 126)] * 15
    both(yes, *full, annotation(5, text=b"[]" * 126 + b"x"))
    both(over, *full, annotation(5, text=b"[]" * 127))
    both(no, *full, annotation(5, text=b"[]" * 126 + b"x]"))


def cut(code, **fields):
    """An internal ion with a number in field 3."""
    return annotation(2, **{"position": 3, "end": 6, "series": code, **fields})


def cleavages():
    """Field 3 of internal ions. Document 02, M-113: 0 is `yb`, and 1 to 9 but 5 are the other letters, in edition 2 alone."""
    most = {name: value for name, value in rich().items() if name not in ("kind", "series", "position", "end")}
    more = ({}, dict(text=b"PEPT"), dict(position=2, end=2), dict(position=65535, end=65535), dict(also=1, has_analyte=1, analyte=0), dict(losses=[(0, 0, 2, H2O)]), dict(isotopes=[(1, 2, 2, 13, 6)]), dict(items=[(1, 0, 1, NA)]),
            dict(charge=2), dict(deviation=2, decimals=2, off=-20), dict(sure=1, sure_decimals=1, confidence=5), most)
    for code in (*range(16), 64, 65, 90, 127, 128, 129, 255):
        for fields in more:
            one = cut(code, **fields)
            (yes if code == 0 else lettered if code < 10 and code != 5 else no)(table(one))
            (yes if code == 0 else no)(table(one, edition=1))
    cleavages_beside()
    letters_and_faults()
    long_letters()
    # of the other kinds field 3 is what it was: a series, a letter, or not used
    for code in range(1, 10):
        good(series=code)
        for kind, fields in ((3, {}), (4, {}), (5, dict(text=b"TMT")), (6, dict(text=b"a b")), (7, dict(units=C)), (8, dict(text=b"CN", items=[(1, 0, 1, H)])), (9, {})):
            bad(kind=kind, series=code, **fields)
    made = table(cut(9, text=b"PEPT"), cut(1), annotation(4))
    lettered(made)
    for i, b in enumerate(made):
        for value in dict.fromkeys(((b + 1) % 256, (b + 255) % 256, 0, 5)):
            if value != b:
                ask(changed(made, i, value))
    for n in range(len(made)):
        no(made[:n])
    for tail in (b"\0", b"\0\0", b"\0" * 38, made):
        no(made + tail)
        no(changed(made + tail, 2, len(made + tail), 2))


def cleavages_beside():
    """Letters in one annotation of several, or in more."""
    plain = [annotation(4), cut(0), annotation(series=3), annotation(3, series=67), annotation(7, units=C)]
    for at in range(6):
        for code, answer in ((1, lettered), (9, lettered), (5, no), (10, no)):
            made = plain[:at] + [cut(code)] + plain[at:]
            answer(table(*made))
            no(table(*made, edition=1))
    both(yes, *plain)
    for codes, answer in (((1, 9), lettered), ((0, 9), lettered), ((9, 0), lettered), ((1, 2, 3, 4, 0, 6, 7, 8, 9), lettered), ((1,) * 16, lettered), ((0,) * 15 + (8,), lettered), ((1, 5), no), ((5, 1), no), ((1, 10), no), ((255, 1), no),
                          ((0, 5), no), ((1,) * 15 + (5,), no), ((1,) * 17, no)):
        answer(table(*[cut(code) for code in codes]))
        no(table(*[cut(code) for code in codes], edition=1))


def letters_and_faults():
    """9 goes before 20, in the annotation that has letters or in another; and a table of edition 1 with letters is 9, not 10."""
    faults = (dict(position=1, end=1), dict(position=1), dict(position=7), dict(position=0), dict(end=0), dict(text=b"PEP"), dict(text=b"x"), dict(text=b"M[]"), dict(text=b"A" * 256), dict(text=b"PEPT", residues=3), dict(text=b"PEPT", residues=0), dict(residues=4),
              dict(zero=1), dict(last=1), dict(charge=0), dict(also=2), dict(analyte=1), dict(units=C), dict(decimals=1), dict(deviation=1, decimals=10), dict(sure=1, confidence=2), dict(deviation=1, off=10**12),
              dict(losses=[(0, 0, 1, H), (0, 0, 1, C)]), dict(losses=[(0, 1, 1, b"2H1")]), dict(losses=[(0, 0, 1, C)] * 9), dict(isotopes=[(0, 0, 1, 0, 0)] * 2), dict(items=[(1, 2, 1, []), (0, 0, 1, H)]))
    for fields in faults:
        for made in ((cut(1, **fields),), (cut(1), cut(0, **fields)), (cut(9, **fields), cut(0))):
            both(no, *made)
    for other in (annotation(position=4, text=b"PEP"), annotation(text=b"x"), annotation(8, text=b"CN"), annotation(5, text=b"a["), annotation(3, series=67, text=b"M+"), annotation(0), annotation(10)):
        both(no, cut(1), other)
        both(no, other, cut(1))
    share = dict(sure=1, sure_decimals=1, confidence=6)
    both(no, cut(1, **share), cut(2, **share))
    lettered(table(cut(1, **share), cut(2)))
    for edition in (0, 1, 3, 256, 258, 65535):
        no(changed(table(cut(1)), 0, edition, 2))
    no(changed(table(cut(1), edition=1), 0, 2, 2))


def filling(size):
    """Two precursors that take so many bytes of a line, with the comma before each; 16 losses, in order."""
    left, names = size - len(",p,p") - 16 * len("-[]"), []
    for i in range(16):
        n = left // (16 - i)
        names.append((0, 1, 1, b"x" * n))
        left -= n
    return annotation(4, losses=names[:8]), annotation(4, losses=names[8:])


def long_letters():
    """Lines of 4,096 bytes with letters, and longer ones: 20 goes before 1."""
    for code in (0, 1, 9):
        before = len(spelled(table(cut(code))))
        for size in (MAX_LINE - 1, MAX_LINE, MAX_LINE + 1, MAX_LINE + 2):
            made = table(cut(code), *filling(size - before))
            assert len(spelled(made)) == size
            fits, longer = (lettered, lettered_over) if code else (yes, over)
            (fits if size <= MAX_LINE else longer)(made)
            no(changed(made, 28 + 15, 1))
            no(made[:-1])
    lettered_over(table(cut(1), largest(), largest()))
    lettered_over(table(largest(), largest(), cut(1)))
    no(table(cut(5), largest(), largest()))
    no(table(cut(1), largest(), largest(), edition=1))


def sums():
    """Confidences over the line."""
    def share(confidence, decimals):
        return annotation(sure=1, sure_decimals=decimals, confidence=confidence)
    both(yes, *[share(1, 1)] * 10)
    both(no, *[share(1, 1)] * 11)
    both(yes, share(999999999, 9), share(1, 9), share(0, 3))
    both(no, share(999999999, 9), share(2, 9))
    both(yes, share(1, 0), share(0, 0))
    both(no, share(1, 0), share(1, 9))
    both(yes, *[share(625, 4)] * 16)


def largest():
    """The most that one annotation may have, and a line of any length."""
    names = [(0, 1, 999, b"x" * 255)] * 8
    items = [(0, 0, 999, [(999, 118, 999)] * 12)] * 4
    return annotation(also=1, has_analyte=1, analyte=65535, position=255, series=13, charge=255, deviation=2, decimals=9, off=-999999999999, sure=1, sure_decimals=9, confidence=1,
                      text=b"A" * 255, losses=names, isotopes=[(1, 2, 999, 999, 118)] * 4, items=items)


def texts(*lengths, edition=2):
    return table(*[annotation(6, text=b"x" * n) for n in lengths], edition=edition)


def long():
    """Lines at their bound, and tables whose lines are longer: 1, unless they are no tables or of edition 1."""
    full = [252] * 15
    for edition in (2, 1):
        for last, answer in ((252, yes), (253, yes), (254, over), (255, over), (256, no)):
            answer(texts(*full, last, edition=edition))
        two = table(largest(), largest(), edition=edition)
        over(two)
        no(two + b"\0")
        no(two[:-1])
        no(changed(two, len(two) - 1, 10))
        no(changed(two, 28 + 15, 1))
        yes(table(largest(), edition=edition))
        # the largest table of all, with one byte more, and with its last adduct item out of order
        most = table(*[largest()] * 16, edition=edition)
        assert len(most) == {1: 43596, 2: 43628}[edition]
        over(most)
        no(most + b"\0")
        last = largest()
        last["items"] = last["items"][:3] + [(0, 0, 998, last["items"][0][3])]
        no(table(*[largest()] * 15, last, edition=edition))
        # a line of 4,604 bytes whose last sequence keeps the rules, or breaks them
        for last, answer in ((annotation(text=b"K"), over), (annotation(position=2, text=b"K"), no), (annotation(text=b"k"), no)):
            answer(table(*line_of_4598(), last, edition=edition))
        # lines and tables around 1,024 bytes
        for n in (249, 250, 251):
            yes(texts(253, 253, 253, n, edition=edition))
        for n in (87, 88, 89, 95, 96, 97):
            made = texts(252, 252, 252, n, edition=edition)
            assert (len(made) == 1024) == (n == {1: 96, 2: 88}[edition])
            yes(made)
        # the same of tables of many units: of edition 2, and of edition 1
        for whole, each, several in ((11, 8, (1, 2, 3)), (13, 6, (3, 4, 5))):
            for n in several:
                yes(table(*[annotation(7, units=C * each)] * whole, annotation(7, units=C * n), edition=edition))


def digits():
    """Lines that are no pairs of digits, and capitals, which are digits."""
    made = table(annotation()).hex().encode()
    for line in (b"0", made[:-1], made + b"0", made + b" ", b" " + made, made[:-1] + b"g", b"g" + made[1:], made + b"\r", b"0x" + made, b"zz", b"/0", b":0", b"@0", b"G0", b"`0", b"0\xff", b"0" * 87257):
        ask_digits(line, 9, 0)
    for edition in (2, 1):
        made = table(rich(), edition=edition)
        ask_digits(made.hex().upper().encode(), *today(made, 0, 0))


def rooms():
    """Outputs around the length of a line."""
    for made in (table(), table(annotation()), table(annotation(4), annotation(4)), table(rich()), table(*other()), table(rich(), *other()), table(*[annotation(4)] * 16), table(annotation(9)), texts(252, 252),
                 table(annotation(3, series=90, items=[(1, 0, 1, H)])), table(annotation(3, series=67, text=b"[M+]", losses=[(0, 1, 1, b"a[b]")])), texts(255, 255, 255, 255), texts(*[252] * 15, 250), texts(*[252] * 15, 253), table(largest()),
                 table(edition=1), table(annotation(), edition=1), table(rich(), *other(), edition=1), table(largest(), edition=1), table(annotation(position=3, text=b"PEP")),
                 table(annotation(position=3, text=b"PEP"), edition=1)):
        n = len(spelled(made))
        for room in dict.fromkeys((n, max(n - 1, 0), min(n + 1, 4096), 0) + (() if n > 1000 else (1, 28, 4096))):
            spare.append((room, made, today(made, *((0, 0, n) if n <= room else (8, n, 0)))))
    for made, answer in ((b"", (9, 0, 0)), (b"\0", (9, 0, 0)), (table(annotation()) + b"\0", (9, 0, 0)), (table(annotation(4, position=1)), (9, 0, 0)), (texts(*[252] * 15, 254), (1, 4096, 0)), (table(largest(), largest()), (1, 4096, 0)),
                         (changed(table(annotation()), 0, 1, 2), (9, 0, 0)), (table(annotation(position=3, text=b"PEP", residues=2)), (9, 0, 0)), (table(annotation(position=4, text=b"PEP"), edition=1), (9, 0, 0)),
                         (table(annotation(text=b"x"), edition=1), (9, 0, 0)), (texts(*[252] * 15, 254, edition=1), (10, 0, 0))):
        for room in (0, 1, 2, 4096):
            spare.append((room, made, answer))
    # 20 goes before 1 and 8, and behind 9
    for made, answer in ((table(cut(1)), 20), (table(annotation(), cut(9, text=b"PEPT"), annotation(4)), 20), (table(cut(4), *filling(4090)), 20), (table(cut(4), *filling(4091)), 20), (table(cut(1), largest(), largest()), 20), (table(cut(5)), 9),
                         (table(cut(1), edition=1), 9), (table(cut(1, text=b"PEP")), 9), (table(cut(0), edition=1), 10)):
        for room in (0, 1, 5, 6, 7, 4096):
            spare.append((room, made, (answer, 0, 0)))


# ---- conversions

def turn(data, *answer):
    """A table to be converted, with the number and the place, or without."""
    digits = data.hex().encode()
    turned.append(digits)
    assert not answer or turns.setdefault(digits, answer) == answer, (digits, answer)


def show(data, *answer):
    """The same, of the program `convert` too."""
    turn(data, *answer)
    briefly.append(turned[-1])


def first(*annotations):
    return table(*annotations, edition=1)


def line_of_4598():
    """Three annotations, of which the preferred line has 4,598 bytes."""
    most, rest = annotation(4, losses=[(0, 1, 1, b"x" * 255)] * 8), annotation(4, losses=[(0, 1, 1, b"x" * 204), (0, 1, 1, b"x" * 255)])
    assert len(spelled(first(most, most, rest))) == 4598
    return most, most, rest


def of_request():
    """What request M-112 and its readings name: 9 as document 01 with M-100 has it, then 11 or 6 at the place in the preferred line, however long."""
    pep, short, foreign = annotation(position=3, text=b"PEP"), annotation(position=4, text=b"PEP"), annotation(text=b"x")
    show(first(), 0, 0)
    show(first(annotation()), 0, 0)
    show(first(pep), 0, 0)
    assert len(converted(first())[2]) == 28 and len(converted(first(pep))[2]) == 69 and number(converted(first(pep))[2], 28 + 36) == 3
    show(first(annotation(4), short), 6, 2)
    show(first(short), 6, 0)
    show(first(foreign), 11, 0)
    show(first(annotation(4), foreign), 11, 2)
    # 11 goes before 6, whichever stands first, and each is that of the first such annotation
    show(first(short, foreign), 11, 8)
    show(first(foreign, short), 11, 0)
    show(first(pep, foreign, short, foreign), 11, 8)
    show(first(pep, short, pep, short), 6, 8)
    # what breaks a rule of document 01 is no table, and so are tables of edition 2, and what is neither
    for broken in (annotation(2, position=1, end=1), annotation(2, position=3, end=2), annotation(kind=8, text=b"CN"), annotation(position=0), annotation(text=b"A" * 256), annotation(5, text=b"a[b")):
        (show if broken["kind"] == 2 else turn)(first(broken), 9, 0)
        turn(first(broken, foreign), 9, 0)
        turn(first(short, broken), 9, 0)
    for made in (table(), table(annotation()), table(pep), table(short), table(foreign)):
        (show if made == table(pep) else turn)(made, 9, 0)
    show(b"", 9, 0)
    show(changed(first(pep), 0, 2, 2), 9, 0)
    show(changed(table(pep), 0, 1, 2), 9, 0)
    show(changed(first(pep), 29, 2), 9, 0)
    show(first(pep) + b"\0", 9, 0)
    show(first(pep)[:-1], 9, 0)
    turn(first(*[annotation(sure=1, sure_decimals=1, confidence=6)] * 2), 9, 0)
    turn(first(annotation(losses=[(0, 0, 1, H), (0, 0, 1, C)])), 9, 0)
    turn(first(*[annotation(4)] * 17), 9, 0)
    # lines of 4,604 bytes, and one of 4,097
    for last, answer in ((annotation(text=b"K"), (0, 0)), (annotation(position=2, text=b"K"), (6, 4599)), (annotation(text=b"k"), (11, 4599))):
        made = first(*line_of_4598(), last)
        assert len(spelled(made)) == 4604
        turn(made, *answer)
    turn(texts(*[252] * 15, 254, edition=1), 0, 0)
    # the largest table of all is that of the largest of edition 1
    most = first(*[largest()] * 16)
    turn(most, 0, 0)
    assert len(converted(most)[2]) == 43628


def of_fields():
    """Tables of many fields, of which the other edition has the same."""
    some = [annotation(6, text=b"x"), annotation(8, text=b"CN", items=[(1, 0, 1, H)]), annotation(5, text=b"PEP"), annotation(3, series=67, text=b"PEP"), annotation(7, units=C), annotation(9, position=17)]
    for made in ((rich(),), tuple(other()), (rich(), *other()), (*other(), rich()), tuple(some), (*some, rich()), (annotation(4),) * 16):
        (show if len(made) < 3 else turn)(first(*made), 0, 0)
        turn(table(*made), 9, 0)
    # the place is that in the preferred line
    for before in ((rich(),), tuple(other()), (rich(), *other()), tuple(some)):
        place = len(spelled(first(*before))) + 1
        turn(first(*before, annotation(text=b"x"), annotation(4)), 11, place)
        turn(first(*before, annotation(position=8, text=b"PEPTIDE"), annotation(4)), 6, place)
    # names of losses stand between the sequences
    named = annotation(position=2, text=b"MK", losses=[(0, 1, 1, b"Hex"), (0, 1, 2, b"x")])
    turn(first(named, named, annotation(4), named), 0, 0)
    turn(first(named, annotation(position=3, text=b"MK", losses=[(0, 1, 1, b"KKK")])), 6, len(spelled(first(named))) + 1)
    for edition in (0, 3, 256, 257, 258, 513, 65535):
        turn(changed(first(rich()), 0, edition, 2), 9, 0)
        turn(changed(first(), 0, edition, 2), 9, 0)


def of_sequences():
    """Sequences, and texts that are none."""
    internal = dict(kind=2, position=2, end=2)
    for text in (b"A", b"PEPTIDE", b"[Acetyl]-M", b"K-[am]", b"[a]-K-[b]", b"M[a][b]", b"M[[]]", b"M[a[b]c]", b"M[K]", b"[KK]-M", b"M[,/*0.5]", b"A" * 255):
        count = residues(text)
        turn(first(annotation(position=count, text=text)), 0, 0)
        turn(first(annotation(position=count + 1, text=text)), 6, 0)
        turn(first(annotation(2, position=2, end=count + 1, text=text)), 0, 0)
        turn(first(annotation(2, position=2, end=count + 2, text=text)), 6, 0)
    for text in (b"x", b"Ax", b"xA", b" A", b"A1", b"P(a)", b"-", b"A-", b"A-B", b"[a]", b"[a]-", b"[a]A", b"[]-A", b"A-[]", b"A[]", b"A[", b"A]", b"A[[a]", b"[A]-[B]-M", b"A-[a]B", b"][", b"A" * 254 + b"x"):
        turn(first(annotation(text=text)), 11, 0)
        turn(first(annotation(text=text, **internal)), 11, 0)
        turn(first(annotation(6, text=text)), 0, 0)
    for start, end, answer in ((65533, 65535, 0), (65532, 65535, 6), (2, 4, 0), (2, 5, 6), (2, 65535, 6), (1, 3, 9), (3, 2, 9)):
        turn(first(annotation(2, position=start, end=end, text=b"PEP")), answer, 0)
    turn(first(annotation(position=65535, text=b"PEP")), 6, 0)


def of_lines_read():
    """The edition 1 tables of the fields of short lines: each gives the table that the line is read to, if the line has no letters."""
    for made in tables_read(["reads"], 5):
        assert converted(first_edition(made)) == (0, 0, made)
        turn(first_edition(made), 0, 0)
    for made in tables_read(["try_second_reads"], 7):
        if has_letters(made):
            turn(first_edition(made), 9, 0)


def of_cleavages():
    """Field 3 of internal ions (M-113): edition 1 has no letters, so that such bytes are no table, before all else."""
    for code in (*range(11), 70, 128, 255):
        (show if code in (0, 1, 5, 9, 10) else turn)(first(cut(code)), 9 if code else 0, 0)
        turn(table(cut(code)), 9, 0)
        for text, answer in ((b"PEPT", 0), (b"PEP", 6), (b"x", 11)):
            turn(first(cut(code, text=text)), 9 if code else answer, 0)
        for beside, answer in ((annotation(4), 0), (annotation(position=4, text=b"PEP"), 6), (annotation(text=b"x"), 11)):
            place = 0 if code or answer == 0 else len(spelled(first(cut(0)))) + 1
            turn(first(cut(code), beside), 9 if code else answer, place)
            turn(first(beside, cut(code)), 9 if code else answer, 0)
    turn(first(*line_of_4598(), cut(1)), 9, 0)
    turn(first(*line_of_4598(), cut(0)), 0, 0)


def of_damage():
    """Bytes changed, tables cut and made longer."""
    small, made = first(annotation(position=3, text=b"PEP")), first(rich())
    for i, b in enumerate(small):
        for value in dict.fromkeys(((b + 1) % 256, (b + 255) % 256, 0, 255)):
            if value != b:
                turn(changed(small, i, value))
    for i, b in enumerate(made):
        turn(changed(made, i, (b + 1) % 256))
    for n in range(len(small)):
        turn(small[:n], 9, 0)
    for tail in (b"\0", b"\0\0", b"\0" * 36, b"\0" * 38, small):
        turn(small + tail, 9, 0)
        turn(changed(small + tail, 2, len(small + tail), 2), 9, 0)
    for counts, sections in (sections_of(small), sections_of(table(annotation(position=3, text=b"PEP")))):
        for edition in (1, 2):
            if len(sections[0]) != WIDTH[edition]:
                turn(framed(counts, sections, edition), 9, 0)


def of_digits():
    """Lines that are no pairs of digits, and capitals, which are digits."""
    digits = first(annotation(position=3, text=b"PEP")).hex().encode()
    for line in (b"zz", digits[:-1], digits + b" ", b"0x" + digits, b"-"):
        turned.append(line)
        turns[line] = (9, 0)
        briefly.append(line)
    turned.append(digits.upper())
    turns[turned[-1]] = (0, 0)
    briefly.append(turned[-1])


# ---- answers

def parts_of(answer):
    """Number, place and length, and the bytes."""
    found = answer.split(b" ")
    return tuple(int(n) for n in found[:3]), b"" if found[3] == b"-" else bytes.fromhex(found[3].decode())


def fault(data, answer, expected, second=False):
    """What is wrong with an answer to a table that is to be a line of the first edition, or of the second, by what is stated and by the table's own fields."""
    got, line = parts_of(answer)
    if len(line) != got[2]:
        return "a line of the length that is said"
    if got[:len(expected)] != expected:
        return expected
    if got[0] == 0 and line != spelled(data):
        return spelled(data)
    if got[0] not in (0, 1, 8, 9, 10, 20):
        return "0, 1, 8, 9, 10 or 20"
    if got[0] != 9 and number(data, 0) != (1 if got[0] == 10 else 2):
        return "10 for a table of edition 1, and no other number but 9"
    if got[0] not in (9, 10) and (got[0] == 20) != (has_letters(data) and not second):
        return "20 for a table with letters in the first edition, and no other number but 9"
    if got[0] == 10 and has_letters(data):
        return "9 for a table of edition 1 with letters"
    return None


def second_fault(data, answer, expected):
    return fault(data, answer, expected, True)


def turn_fault(data, answer, expected):
    """What is wrong with an answer to a table that is converted."""
    got, made = parts_of(answer)
    if len(made) != got[2]:
        return "a table of the length that is said"
    if got[:len(expected)] != expected:
        return expected
    if got[0] not in (0, 6, 9, 11):
        return "0, 6, 9 or 11"
    if got[0] != 9 and (number(data, 0) != 1 or (*got[:2], made) != converted(data)):
        return "9, or what the fields of the table say"
    return None


def brief(answer):
    """What the program `convert` prints of an answer."""
    got, made = parts_of(answer)
    return b"!%d %d" % got[:2] if got[0] else made.hex().encode()


def is_pairs(line):
    return len(line) % 2 == 0 and all(b in b"0123456789abcdefABCDEF" for b in line)


def faults(name, given, fault):
    """What is wrong with the stored answers of a program to lines, by what is stated of each."""
    answers = stored(name, "stdout").split(b"\n")[:-1]
    assert len(answers) == len(given), (name, len(answers), len(given))
    for (line, expected), answer in zip(given, answers):
        what = fault(bytes.fromhex(line.decode()) if is_pairs(line) else b"", answer, expected)
        if what is not None:
            yield line, what, answer


def brief_faults():
    """`convert` prints what `converts` does, in its own form."""
    said = dict(zip(turned, stored("converts", "stdout").split(b"\n")))
    answers = stored("convert", "stdout").split(b"\n")[:-1]
    assert len(answers) == len(briefly), (len(answers), len(briefly))
    return [(line, brief(said[line]), answer) for line, answer in zip(briefly, answers) if answer != brief(said[line])]


def check():
    first, second = asked.each()
    wrong = [*faults(first.name, stated_of(first), fault), *faults(second.name, stated_of(second), second_fault),
             *faults("try_write_sized", [(made.hex().encode(), answer) for _, made, answer in spare], fault),
             *faults("converts", [(line, turns.get(line, ())) for line in turned], turn_fault), *brief_faults()]
    for line, expected, got in wrong:
        print("table %s: stated %.200r, stored %s" % (line[:400].decode("latin-1"), expected, got[:200].decode()))
    for of in asked.each():
        print("%s: %d tables, %d of them with a stated answer, %d written" % (of.name, len(of.tables), sum(line in of.stated for line in of.tables), done(of.name)))
    print("%d rooms" % len(spare))
    print("%d to be converted, %d of them with a stated answer, %d converted; %d in brief" % (len(turned), sum(line in turns for line in turned), done("converts"), len(briefly)))
    print("%d differences" % len(wrong))
    return not wrong


def stated_of(of):
    return [(line, of.stated.get(line, ())) for line in of.tables]


def done(name):
    """How many tables a program did not refuse."""
    return sum(answer.startswith(b"0 ") for answer in stored(name, "stdout").split(b"\n"))


def answers_of(folder, given, *words, flags=LANDED):
    """What the other implementation prints for each line of digits; what is no pairs of digits is no table."""
    pairs = b"".join(line + b"\n" for line in given if is_pairs(line))
    answers = iter(answers_by(folder, "cross", pairs, "--hex", *words, flags=flags).splitlines())
    return [next(answers) if is_pairs(line) else b"9 0 0 -" for line in given]


def lined(answers):
    return b"".join(answer + b"\n" for answer in answers)


def store_inputs():
    """The last line of some lacks its line feed, as it may."""
    store(asked.first.name, "stdin", b"\n".join(asked.first.tables))
    store_second(asked.second.name, b"\n".join(asked.second.tables))
    store("try_write_sized", "stdin", lined(b"%d " % room + made.hex().encode() for room, made, _ in spare))
    store("converts", "stdin", b"\n".join(turned))
    store("convert", "stdin", lined(briefly))


def store_outputs(folder):
    for of in asked.each():
        store(of.name, "stdout", lined(answers_of(folder, of.tables, "--write", flags=of.flags)))
    store("try_write_sized", "stdout", lined(answer for room, made, _ in spare for answer in answers_of(folder, [made.hex().encode()], "--write", "--out", str(room))))
    store("converts", "stdout", lined(answers_of(folder, turned, "--convert")))
    store("convert", "stdout", lined(brief(answer) for answer in answers_of(folder, briefly, "--convert")))


def main(words):
    for part in (of_lines, bytes_changed, cut_and_longer, editions, counts, sequences, ordered, fields, kinds, nested, sums, long, digits, rooms, cleavages):
        part()
    of_lines("try_second_reads")
    # tables that the second edition answers as the first, but for those with letters
    asked.of(asked.second, of_lines, "try_second_reads")
    for part in (editions, fields, kinds, sums, cleavages):
        asked.of(asked.second, part)
    for part in (of_request, of_fields, of_sequences, of_lines_read, of_cleavages, of_damage, of_digits):
        part()
    # each once
    for of in asked.each():
        of.tables[:] = dict.fromkeys(of.tables)
    turned[:] = dict.fromkeys(turned)
    if words[:1] == ["--check"]:
        return 0 if check() else 1
    store_inputs()
    if words[:1] == ["--with"]:
        store_outputs(words[1])
        return 0 if check() else 1
    return 0


if __name__ == "__main__":
    sys.exit(main(sys.argv[1:]))
