#!/usr/bin/env python3
"""The bytes of the worked lines: crates/rules/proofs/worked and crates/starred/specs/Tables.antt.

    python3 tools/worked.py                   holds the bytes of each row to the line beside them, by tools/decode.py; prints differences
    python3 tools/worked.py --with PROGRAM    writes them anew, as PROGRAM has them

PROGRAM reads lines from standard input and prints `NUMBER PLACE LENGTH HEX` for each, HEX being the table. It is a reader other than this
repository's, so that the proofs hold the definitions to bytes that were not made from them. A record a line; how wide it is goes by the
edition of each table, as tools/decode.py has it, and nothing here is written by hand.
"""
import re
import subprocess
import sys
from pathlib import Path

import decode

ROOT = Path(__file__).resolve().parent.parent
WORKED = sorted((ROOT / "crates/rules/proofs/worked").glob("*.antt"))
TABLES = ROOT / "crates/starred/specs/Tables.antt"
STARRED = ROOT / "crates/starred/specs/Rows.antt"
# A row: the line, its spelling, how long its table is, the bytes, the line that the table is written as.
ROW = re.compile(r'(: Worked (?:"(?P<line>[^"\n]*)"|line)\n.*?\n    )(?P<size>\d+)(\n    )\((?P<bytes>\d+ ∷ .*?)∷ \[\]\)(?=\n    (?:"(?P<best>[^"\n]*)"|line)\n)', re.S)
NAMED = re.compile(r'^line = "(?P<line>[^"\n]*)"', re.M)
TABLE = re.compile(r"(^(?P<name>\w+) =\n    )(?P<bytes>\d+ ∷ .*?)(?=∷ \[\]\n)", re.M | re.S)
READ = re.compile(r'"(?P<line>[^"\n]*)" is read (?P<size>\d+) (?P<name>\w+) "(?P<best>[^"\n]*)"')


def labels(edition):
    """The sections: what a record is called, how long it is, how many stand on a line."""
    return [("annotation", decode.ANNOTATIONS[edition].size, 1), ("loss", decode.LOSS.size, 1), ("isotope", decode.ISOTOPE.size, 1),
            ("adduct item", decode.ITEM.size, 1), ("unit", decode.UNIT.size, 1), ("text", 1, 255)]


def records(table):
    """The table, cut into its header and its records, each with a name."""
    yield "header", table[:decode.HEADER.size]
    edition, _, *pairs = decode.HEADER.unpack(table[:decode.HEADER.size])
    for (name, size, together), count, at in zip(labels(edition), pairs[::2], pairs[1::2]):
        # many units: six a line, by their symbols
        many = name == "unit" and count > 12
        together = 6 if many else together
        for i in range(0, count, together):
            part = table[at + i * size:at + min(i + together, count) * size]
            yield " ".join(decode.SYMBOLS[n - 1] for _, n, _ in decode.UNIT.iter_unpack(part)) if many else name, part


def written(table):
    """The bytes as source: all but the bracket before them and the end of the list behind them."""
    rows = ["∷ ".join(f"{b} " for b in part) + f" -- {name}\n    " for name, part in records(table)]
    return "∷ ".join(rows)


def read(source):
    return bytes(int(b) for b in re.findall(r"\d+", re.sub(r"--.*", "", source)))


def asked(program, lines):
    answers = subprocess.run(program, input="".join(line + "\n" for line in lines), capture_output=True, text=True, check=True).stdout.splitlines()
    return {line: bytes.fromhex(answer.split()[3]) for line, answer in zip(lines, answers, strict=True)}


def worked(path):
    """The rows of a file: each a match, its line and the line that its table is written as."""
    text = path.read_text()
    if path == TABLES:
        starred = {m["name"]: (m["line"], m["best"]) for m in READ.finditer(STARRED.read_text())}
        return [(m, *starred[m["name"]]) for m in TABLE.finditer(text)]
    named = NAMED.search(text)
    either = lambda line: named["line"] if line is None else line
    return [(m, either(m["line"]), either(m["best"])) for m in ROW.finditer(text)]


def renewed(path, rows, tables):
    """The file's text with the bytes, and how many they are, that the lines' tables have."""
    text, made, at = path.read_text(), "", 0
    for m, line, _ in rows:
        if path != TABLES:
            made, at = made + text[at:m.start("size")] + str(len(tables[line])), m.end("size")
        made, at = made + text[at:m.start("bytes")] + written(tables[line]), m.end("bytes")
    return made + text[at:]


def main(words):
    program = words[1:] if words[:1] == ["--with"] else None
    if words and not program:
        sys.exit(__doc__)
    wrong = seen = 0
    for path in [*WORKED, TABLES]:
        rows = worked(path)
        seen += len(rows)
        if program:
            new = renewed(path, rows, asked(program, [line for _, line, _ in rows])) if rows else path.read_text()
            if new != path.read_text():
                path.write_text(new)
                print(f"{path.relative_to(ROOT)}: written")
        for m, line, best in [] if program else rows:
            table = read(m["bytes"])
            said = decode.shown(decode.decoded(table), table, True)
            if said != best:
                wrong += 1
                print(f"{path.relative_to(ROOT)}: `{line}`: the bytes say `{said}`")
    print(f"{seen} rows" + ("" if program else f"; {wrong} wrong"))
    sys.exit(1 if wrong else 0)


main(sys.argv[1:])
