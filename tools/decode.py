#!/usr/bin/env python3
"""Reads stored tables and prints each as text: a worked decoder, to copy.

    python3 tools/decode.py [--line] [FILE..]          tables in hexadecimal digits, one a line (standard input without FILE)
    python3 tools/decode.py [--line] --bin FILE..      tables as raw bytes, one behind the other

A line holds the digits alone, as the program `writes` takes them, or NUMBER PLACE LENGTH DIGITS, as the program `reads` prints them;
of a refusal its number and place are printed. With --line the preferred spelling of each table is printed, and `!NUMBER PLACE` of a
refusal, which is what the program `relabel` prints. The layout is told in docs/TABLE.md. Tables of both editions are decoded: in edition 2,
which `reads` gives, an annotation has the count of residues of its sequence behind its other fields. Of an internal ion the cleavage is printed, and
with --line its letters, as in `mxa3:6`, but for yb, which is written without: tables with letters come of lines of the second edition.

This decodes sound tables: those that `reads` made, or that `writes` accepts. It is not a checker. Of bytes that are no table it may
print something all the same; whether they are one is what `writes` tells.
"""
import argparse
import struct
import sys

SERIES = "a b c d v w x y z da db wa wb".split()
SYMBOLS = """
    H He Li Be B C N O F Ne Na Mg Al Si P S Cl Ar K Ca Sc Ti V Cr Mn Fe Co Ni Cu Zn Ga Ge As Se Br Kr Rb Sr Y Zr Nb Mo Tc Ru Rh Pd Ag Cd In Sn
    Sb Te I Xe Cs Ba La Ce Pr Nd Pm Sm Eu Gd Tb Dy Ho Er Tm Yb Lu Hf Ta W Re Os Ir Pt Au Hg Tl Pb Bi Po At Rn Fr Ra Ac Th Pa U Np Pu Am Cm Bk
    Cf Es Fm Md No Lr Rf Db Sg Bh Hs Mt Ds Rg Cn Nh Fl Mc Lv Ts Og""".split()
CLEAVAGES = "yb xa xb xc ya yb yc za zb zc".split()  # of internal ions, by field 3: yb is held as 0, never as 5
KINDS = ["", "series", "internal", "immonium", "precursor", "reference", "named", "formula", "SMILES", "unknown"]
SIGNS = "-+"

HEADER = struct.Struct("<14H")
ANNOTATIONS = {1: struct.Struct("<4B3H6BqI2H4B"), 2: struct.Struct("<4B3H6BqI2H4BH")}  # by edition
LOSS = struct.Struct("<2B2H")
ISOTOPE = struct.Struct("<2B3H")
ITEM = struct.Struct("<2B2H")
UNIT = struct.Struct("<3H")


class Row:
    """Records of one section, taken one after the other."""

    def __init__(self, table, record, count, offset):
        self.table, self.record, self.left, self.at = table, record, count, offset

    def take(self, n):
        """The next n records. No record says where it stands: the order in which they are taken finds them."""
        if n > self.left:
            raise ValueError("a section ends too early")
        size = self.record.size
        found = [self.record.unpack_from(self.table, self.at + i * size) for i in range(n)]
        self.at += n * size
        self.left -= n
        return found


class Text:
    """The text bytes, taken one text after the other."""

    def __init__(self, table, count, offset):
        self.rest = table[offset:offset + count]

    def take(self, n):
        """The next n bytes. A text has no end mark: its length stands in the record that it belongs to."""
        if n > len(self.rest):
            raise ValueError("the text ends too early")
        found, self.rest = self.rest[:n], self.rest[n:]
        return found.decode("ascii")


def decoded(table):
    """The annotations of a table, each a dictionary of its fields."""
    edition, length, *pairs = HEADER.unpack_from(table)
    if edition not in ANNOTATIONS or length != len(table):
        raise ValueError("not a table of edition 1 or 2 with this length")
    (annotations, at), losses, isotopes, items, units, text = zip(pairs[0::2], pairs[1::2])
    losses, isotopes, items, units = Row(table, LOSS, *losses), Row(table, ISOTOPE, *isotopes), Row(table, ITEM, *items), Row(table, UNIT, *units)
    text = Text(table, *text)
    return [annotation(record, losses, isotopes, items, units, text) for record in Row(table, ANNOTATIONS[edition], annotations, at).take(annotations)]


def annotation(record, losses, isotopes, items, units, text):
    """One annotation, with what the other sections hold of it: the ion's units and text, then each loss's, then each adduct item's units."""
    (kind, auxiliary, has_analyte, letter, analyte, first, last, charge, deviation, deviation_decimals, has_confidence, confidence_decimals, _,
     deviation_value, confidence_value, text_length, unit_count, loss_count, isotope_count, item_count, _, *residues) = record
    a = {"kind": kind, "auxiliary": auxiliary == 1, "analyte": analyte if has_analyte else None, "letter": letter, "first": first, "last": last,
         "charge": charge, "deviation": None, "confidence": None, "losses": [], "items": [], "residues": residues[0] if residues else 0}
    if deviation:
        a["deviation"] = (decimal(deviation_value, deviation_decimals), deviation == 2)
    if has_confidence:
        a["confidence"] = decimal(confidence_value, confidence_decimals)
    a["text"] = text.take(text_length)
    a["units"] = units.take(unit_count)
    for sign, what, count, length in losses.take(loss_count):
        a["losses"].append((SIGNS[sign], count, text.take(length) if what == 1 else units.take(length)))
    a["isotopes"] = isotopes.take(isotope_count)
    for sign, what, count, length in items.take(item_count):
        a["items"].append((SIGNS[sign], count, "electron" if what == 2 else units.take(length)))
    return a


def decimal(value, decimals):
    """A decimal from its digits without the point and the number of digits behind it: -20 and 2 are -0.20. No fraction is ever rounded."""
    digits = str(abs(value)).rjust(decimals + 1, "0")
    whole = digits if decimals == 0 else digits[:-decimals] + "." + digits[-decimals:]
    return "-" + whole if value < 0 else whole


def count_text(n):
    return "" if n == 1 else str(n)


def formula_text(units):
    """The preferred spelling of a formula: a count of 1 is left out, but not in brackets."""
    return "".join("[%d%s%d]" % (nucleons, SYMBOLS[atomic - 1], count) if nucleons else SYMBOLS[atomic - 1] + count_text(count)
                   for nucleons, atomic, count in units)


def change_text(sign, count, what):
    """A loss or an adduct item: `what` is a name in a loss, `electron` in an adduct item, or units."""
    return sign + count_text(count) + (formula_text(what) if isinstance(what, list) else what)


def losses_text(a):
    return "".join(change_text(sign, count, what if isinstance(what, list) else "[%s]" % what) for sign, count, what in a["losses"])


def isotope_text(sign, what, n, nucleons, atomic):
    return SIGNS[sign] + count_text(n) + "i" + ("", "A", "%d%s" % (nucleons, SYMBOLS[atomic - 1]))[what]


def adduct_text(a):
    items = "".join(change_text(sign, count, "e" if what == "electron" else what) for sign, count, what in a["items"])
    return "[M%s]" % items if items else ""


def ion_text(a):
    kind, text = a["kind"], a["text"]
    if kind == 1:
        return SERIES[a["letter"] - 1] + str(a["first"]) + ("{%s}" % text if text else "")
    if kind == 2:
        letters = CLEAVAGES[a["letter"]] if a["letter"] else ""
        return "m%s%d:%d" % (letters, a["first"], a["last"]) + ("{%s}" % text if text else "")
    if kind == 3:
        return "I" + chr(a["letter"]) + ("[%s]" % text if text else "")
    if kind == 9:
        return "?" + (str(a["first"]) if a["first"] else "")
    return {4: "p", 5: "r[%s]" % text, 6: "_{%s}" % text, 7: "f{%s}" % formula_text(a["units"]), 8: "s{%s}" % text}[kind]


def annotation_text(a):
    """The preferred spelling of an annotation. Losses and adduct items stand in the table in their preferred order already."""
    said = "&" if a["auxiliary"] else ""
    said += "" if a["analyte"] is None else "%d@" % a["analyte"]
    said += ion_text(a) + losses_text(a) + "".join(isotope_text(*i) for i in a["isotopes"]) + adduct_text(a)
    said += "" if a["charge"] == 1 else "^%d" % a["charge"]
    if a["deviation"]:
        said += "/" + a["deviation"][0] + ("ppm" if a["deviation"][1] else "")
    return said + ("" if a["confidence"] is None else "*" + a["confidence"])


def fields(a):
    """What an annotation says, in lines of text."""
    kind, said = a["kind"], []
    said.append("ion: %s, %s" % (KINDS[kind], ion_text(a)))
    if kind == 2:
        said.append("cleavage: %s" % CLEAVAGES[a["letter"]])
    if a["residues"]:
        said.append("residues: %d" % a["residues"])
    if a["auxiliary"]:
        said.append("auxiliary: yes")
    if a["analyte"] is not None:
        said.append("analyte: %d" % a["analyte"])
    for sign, count, what in a["losses"]:
        formula = isinstance(what, list)
        said.append("%s: %d times %s %s" % ("gain" if sign == "+" else "loss", count, "formula" if formula else "name", formula_text(what) if formula else what))
    for i in a["isotopes"]:
        said.append("isotope: " + isotope_text(*i))
    for sign, count, what in a["items"]:
        said.append("adduct: %s %d times %s" % ("plus" if sign == "+" else "minus", count, formula_text(what) if isinstance(what, list) else what))
    said.append("charge: %d" % a["charge"])
    if a["deviation"]:
        said.append("deviation: %s %s" % (a["deviation"][0], "ppm" if a["deviation"][1] else "m/z"))
    if a["confidence"] is not None:
        said.append("confidence: %s" % a["confidence"])
    return said


def shown(annotations, table, as_line):
    """A table as text."""
    if as_line:
        return ",".join(annotation_text(a) for a in annotations)
    said = ["table of %d bytes, annotations: %d" % (len(table), len(annotations))]
    for n, a in enumerate(annotations, 1):
        said.append("  annotation %d: %s" % (n, annotation_text(a)))
        said += ["    " + f for f in fields(a)]
    return "\n".join(said)


def of_line(line, as_line):
    """What is printed of a line of digits, or of an answer of `reads`."""
    words = line.split()
    if len(words) == 4 and words[0] != "0":
        return ("!%s %s" if as_line else "refused: %s at %s") % (words[0], words[1])
    if len(words) not in (1, 4):
        raise ValueError("neither digits nor NUMBER PLACE LENGTH DIGITS")
    table = bytes.fromhex(words[-1])
    return shown(decoded(table), table, as_line)


def tables_of(data):
    """Raw bytes cut into tables: bytes 2 and 3 of each are its length."""
    at = 0
    while at < len(data):
        length = HEADER.unpack_from(data, at)[1]
        if length < HEADER.size:
            raise ValueError("byte %d: no table begins here" % at)
        yield data[at:at + length]
        at += length


def main():
    parser = argparse.ArgumentParser(description="Prints stored tables as text. For sound tables: it does not check them.")
    parser.add_argument("--line", action="store_true", help="print the preferred spelling of each table")
    parser.add_argument("--bin", action="store_true", help="the files hold raw bytes, not hexadecimal digits")
    parser.add_argument("files", nargs="*", metavar="FILE")
    given = parser.parse_args()
    if given.bin and not given.files:
        parser.error("--bin needs a FILE")
    for name in given.files or ["standard input"]:
        where = name
        try:
            if given.bin:
                with open(name, "rb") as f:
                    for table in tables_of(f.read()):
                        print(shown(decoded(table), table, given.line))
                continue
            with open(name, encoding="ascii") if given.files else sys.stdin as lines:
                for n, line in enumerate(lines, 1):
                    where = "%s, line %d" % (name, n)
                    print(of_line(line, given.line))
        except (ValueError, IndexError, KeyError, struct.error, OSError) as fault:
            print("decode.py: %s: %s" % (where, fault), file=sys.stderr)
            return 1
    return 0


if __name__ == "__main__":
    sys.exit(main())
