#!/usr/bin/env python3
"""The table of wrong programs in docs/MAP.md, from the must-fail edits themselves.

  python3 tools/edits.py            says whether docs/MAP.md has the table as the edits have it (exit status 1 if not)
  python3 tools/edits.py --write    writes it there

An edit begins with three lines: `# ` and the program that it makes, `# ` and what that program answers to one line, `# promise: ` and what is promised.
"""
import sys
from pathlib import Path

ROOT = Path(__file__).resolve().parent.parent
MAP = ROOT / "docs/MAP.md"
BEGIN, END = "<!-- edits: by tools/edits.py -->\n", "<!-- end of edits -->\n"


def rows():
    for crate in (line.split(":")[0].replace(" staticlib", "").strip() for line in (ROOT / "crates.txt").read_text().splitlines()):
        for edit in sorted((ROOT / "crates" / crate / "must-fail").glob("*.edit")) if crate and not crate.startswith("#") else []:
            said = [line[2:] for line in edit.read_text().splitlines()[:3] if line.startswith("# ")]
            if len(said) != 3 or not said[2].startswith("promise: "):
                sys.exit(f"{edit.relative_to(ROOT)}: it does not begin with program, answer and promise")
            yield f"| `{crate}/{edit.stem}` | {said[0]} | {said[1]} | {said[2][len('promise: '):]} |"


def main():
    table = "| edit | the program | what it would answer | what is promised |\n|---|---|---|---|\n" + "".join(row + "\n" for row in rows())
    text = MAP.read_text()
    before, rest = text.split(BEGIN)
    old, after = rest.split(END)
    if old == table:
        print(f"docs/MAP.md has all {table.count(chr(10)) - 2} edits")
    elif "--write" in sys.argv[1:]:
        MAP.write_text(before + BEGIN + table + END + after)
        print(f"wrote {table.count(chr(10)) - 2} edits")
    else:
        sys.exit("docs/MAP.md has another table: run tools/edits.py --write")


main()
