#!/usr/bin/env python3
"""Makes the scan's tables from the grammar of a line, as it stands in crates/shape/proofs/Grammar.antt (tools/grammar.py reads it). Run it when that changes:

    python3 tools/tables.py

It writes crates/shape/specs/Tables.antt, crates/shape/proofs/Rows.antt and crates/scan_line/src/tables.rt. Nothing is trusted of it:
the check proves that the tables are those of the grammar, and that the grammar is that of the rules.
"""
import functools
import re
import sys

sys.dont_write_bytecode = True
from grammar import ROOT, line_grammar

sys.setrecursionlimit(100000)

# ---- the machine: its states are lists of stacks of grammars

@functools.lru_cache(None)
def null(r):
    t = r[0]
    if t == 'seq':
        return null(r[1]) and null(r[2])
    if t == 'alt':
        return null(r[1]) or null(r[2])
    if t == 'nest':
        return r[2] == 0
    return t in ('eps', 'star')


class Nodes:
    """Each grammar a number, so that stacks are compared fast."""

    def __init__(self):
        self.ids, self.nodes = {}, []

    def make(self, r):
        key = r if r[0] in ('cls', 'eps', 'nest') else (r[0],) + tuple(self.make(x) for x in r[1:])
        if key not in self.ids:
            self.ids[key] = len(self.nodes)
            self.nodes.append((key, null(r)))
        return self.ids[key]


def classes_of(nodes):
    """The classes of bytes that a grammar names."""
    return sorted({c for key, _ in nodes for c in ([key[1]] if key[0] == 'cls' else key[1][1:] if key[0] == 'nest' else [])})


def machine(line):
    made = Nodes()
    start, nodes = made.make(line), made.nodes

    def edges(r, k):
        (t, *parts), _ = nodes[r]
        if t == 'eps':
            return []
        if t == 'cls':
            return [(parts[0], k)]
        if t == 'seq':
            return edges(parts[0], (parts[1],) + k) + (edges(parts[1], k) if nodes[parts[0]][1] else [])
        if t == 'alt':
            return edges(parts[0], k) + edges(parts[1], k)
        if t == 'nest':
            (_, plain, opens, closes), depth = parts
            ways = [(plain, depth), (opens, depth + 1)] + ([(closes, depth - 1)] if depth else [])
            return [(c, (made.make(('nest', parts[0], d)),) + k) for c, d in ways]
        return edges(parts[0], (r,) + k)

    def opened(state):
        """The bytes that open a bracket, where one is open and nothing else goes on: a deep state, which stands for all depths"""
        key = nodes[state[0][0]][0] if len(state) == 1 and state[0] else ('eps',)
        return key[1][2] if key[0] == 'nest' and key[2] == 1 else ()

    @functools.lru_cache(None)
    def stack_edges(k):
        if not k:
            return []
        return edges(k[0], k[1:]) + (stack_edges(k[1:]) if nodes[k[0]][1] else [])

    # bytes that no class of the grammar tells apart
    ranges = classes_of(nodes)
    columns, classes, reps = {}, [], []
    for b in range(256):
        column = tuple(any(lo <= b <= hi for lo, hi in c) for c in ranges)
        if column not in columns:
            columns[column] = len(reps)
            reps.append(b)
        classes.append(columns[column])

    states, paths, index, rows, i = [((start,),)], [()], {((start,),): 0}, [], 0
    while i < len(states):
        out = [e for k in states[i] for e in stack_edges(k)]
        row = []
        for b in reps:
            if any(lo <= b <= hi for lo, hi in opened(states[i])):
                row.append(i)  # the scan counts it, and does not look here
                continue
            to = tuple(k for c, k in out if any(lo <= b <= hi for lo, hi in c))
            if len(set(to)) < len(to):
                sys.exit(f'ambiguous: two ways to go on alike after {bytes(paths[i] + (b,))}')
            if to and to not in index:
                index[to] = len(states)
                states.append(to)
                paths.append(paths[i] + (b,))
            row.append(index[to] if to else None)
        rows.append(row)
        i += 1
    # states that letters alone lead to are the last, so that those before them are the first edition's machine; deep states stand before them
    lettered = lambda q: re.fullmatch(rb'(.*,)?m[xyz][abc]?', bytes(paths[q]), re.DOTALL) is not None
    order = sorted(range(len(states)), key=lambda q: (lettered(q), bool(opened(states[q]))))
    place = {q: n for n, q in enumerate(order)} | {None: len(states)}
    flats = sum(not lettered(q) for q in range(len(states)))
    deeps = flats - sum(bool(opened(s)) for s in states)
    rows = [[place[to] for to in rows[q]] for q in order]
    accepts = [int(any(all(nodes[r][1] for r in k) for k in states[q])) for q in order]
    return classes, reps, rows, accepts, [paths[q] for q in order], deeps, flats


# ---- what is written

def antt_list(xs):
    return ' ∷ '.join([str(x) for x in xs] + ['[]'])


def antt_wrapped(xs, width=30):
    return '\n    ∷ '.join([' ∷ '.join(map(str, xs[i:i + width])) for i in range(0, len(xs), width)] + ['[]'])


def antt_lists(xss):
    return '\n    ∷ '.join([f'({antt_list(xs)})' for xs in xss] + ['[]'])


def rt_lines(xs):
    """One to a line, as the formatter has them."""
    return ',\n    '.join(map(str, xs))


CHUNK = 24
ROWS = 256  # a state is held in a byte: a row for each, so that no state reaches past the rows


def machine_bytes(classes, rows, accepts):
    """The classes, a row for each state, a 1 for each state in which a line may end. What no state has is 0."""
    kinds = len(rows[0])
    laid = [q for row in rows for q in row]
    return classes + laid + [0] * (ROWS * kinds - len(laid)) + accepts + [0] * (ROWS - len(accepts))


def packed(xs):
    return [int.from_bytes(bytes(xs[i:i + 8]), 'little') for i in range(0, len(xs), 8)]


def layout(classes, rows, accepts):
    rows_at = len(classes)
    ends_at = rows_at + ROWS * len(rows[0])
    return rows_at, ends_at, ends_at + ROWS


def letters_at(classes, rows, flats):
    """For each first letter the place in the machine's bytes of the cell by which it leads to a state of letters; there is one row with such cells."""
    rows_at, width = len(classes), len(rows[0])
    found = [(q, c) for q, row in enumerate(rows[:flats]) for c, to in enumerate(row) if to >= flats and to < len(rows)]
    letters = [(letter, classes[ord(letter)]) for letter in 'xyz']
    if {q for q, _ in found} != {found[0][0]} or sorted(c for _, c in found) != sorted(c for _, c in letters):
        sys.exit('letters lead on elsewhere than behind one `m`')
    return [(letter, rows_at + found[0][0] * width + c) for letter, c in letters]


def tables_antt(classes, reps, rows, accepts, paths, deeps, flats):
    rows_at, ends_at, size = layout(classes, rows, accepts)
    numbers = [
        ('how many states there are; the state of this number is where no shape goes on', 'states', len(rows)),
        ('the states from this number on, and before the next, are deep: a bracket is open inside a name', 'deeps', deeps),
        ('to the states from this number on letters of an internal ion alone lead; those before are the first edition\'s', 'flats', flats),
        ('how many classes of bytes there are', 'kinds', len(reps)),
        ("where the rows begin in the machine's bytes", 'rows_at', rows_at),
        ('where the marks of the states in which a line may end begin', 'ends_at', ends_at),
        ("how many the machine's bytes are", 'size', size),
        *[(f'where the machine has what follows `m{letter}`: a state that letters alone lead to', f'{letter}_at', at) for letter, at in letters_at(classes, rows, flats)],
    ]
    named = [
        ('the class of each byte', 'classes', 'List ℕ', antt_wrapped(classes)),
        ('a byte of each class', 'reps', 'List ℕ', antt_wrapped(reps)),
        ('for each state the state that each class leads to', 'rows', 'List (List ℕ)', antt_lists(rows)),
        ('1 for each state in which a line may end', 'accepts', 'List ℕ', antt_wrapped(accepts)),
        ('for each state a word that leads to it', 'words', 'List (List ℕ)', antt_lists(paths)),
        ("the machine's bytes: classes, rows, accepts, each row and mark that no state has 0; eight to a number, the lowest first", 'packed', 'List ℕ',
         antt_wrapped(packed(machine_bytes(classes, rows, accepts)), 8)),
    ]
    out = ['-- The scan\'s tables. Made by tools/tables.py; nothing is trusted of it: proofs/Certificate.antt and proofs/Cells.antt test them. Assumes nothing.',
           'use Rattle.std.specs.Prelude.{ℕ, List, [], ◌∷◌}']
    for comment, name, value in numbers:
        out += ['', f'-- {comment}', f'abbrev pub {name} : ℕ', f'{name} = {value}']
    for comment, name, kind, value in named:
        out += ['', f'-- {comment}', f'unfoldable pub {name} : {kind}', f'{name} =', f'    {value}']
    return '\n'.join(out) + '\n'


def rows_antt(n, which):
    """The rows of the second edition's machine, or of the first's, which has fewer."""
    machine, tables, more = ('machine', 'rows, words, states', []) if which == 2 else ('machine1', 'rows, words, flats', ['rows1', 'words1'])
    starts = range(0, n, CHUNK)
    out = [f'-- The rows of the machine of the {"second" if which == 2 else "first"} edition of lines, each tested: in chunks, since a test has its step limit. Made by tools/tables.py. Assumes nothing.',
           'use Prim.Native.Nat.{ℕ, ◌+◌}', 'use mathlib.Core.Bool.{Bool}', 'use lib.Dec.{T}',
           'use Rattle.lang.proofs.Machine.{all_b}', 'use Rattle.lang.proofs.Certify.{row_t, Below, none_yet, chunk}',
           'use Rattle.rules.specs.Elements.{symbols}',
           f'use Rattle.shape.specs.Tables.{{classes, reps, {tables}}}',
           'use Rattle.shape.proofs.Grammar.{symbol_re}',
           f'use Rattle.shape.proofs.TableMachine.{{{", ".join([machine] + more)}}}', '',
           'row : ℕ → Bool', f'unfolding {machine}', f'row q = row_t {machine} q']
    for a in starts:
        out += ['', f'rows{a} : T (all_b (λ i. row ({a} + i)) {min(CHUNK, n - a)})', ' '.join(['unfolding row', machine, *more, 'words rows classes reps symbol_re symbols']), f'rows{a} = tt']
    term = 'none_yet row'
    for a in starts:
        term = f'chunk row {a} {min(CHUNK, n - a)} ({term}) rows{a}'
    out += ['', f'pub all_rows_lem : Below (row_t {machine}) {tables.split()[-1]}', f'unfolding row {machine}', f'all_rows_lem = {term}']
    return '\n'.join(out) + '\n'


def tables_rt(classes, rows, accepts, deeps, flats):
    rows_at, ends_at, size = layout(classes, rows, accepts)
    words = packed(machine_bytes(classes, rows, accepts))
    numbers = [
        ('How many states there are; the state of this number is where no shape goes on.', 'STATES', len(rows)),
        ('The states from this number on, and before the next, are deep: a bracket is open inside a name.', 'DEEPS', deeps),
        ("To the states from this number on letters of an internal ion alone lead; those before are the first edition's.", 'FLATS', flats),
        ('How many classes of bytes there are.', 'KINDS', len(rows[0])),
        ("Where the rows begin in the machine's bytes.", 'ROWS_AT', rows_at),
        ('Where the marks of the states in which a line may end begin.', 'ENDS_AT', ends_at),
        ("How many the machine's bytes are.", 'SIZE', size),
        *[(f'Where the machine has what follows `m{letter}`: a state that letters alone lead to.', f'{letter.upper()}_AT', at) for letter, at in letters_at(classes, rows, flats)],
    ]
    out = ['// The scan\'s tables. Made by tools/tables.py; nothing is trusted of it.']
    for comment, name, value in numbers:
        out += ['', f'// {comment}', f'pub const {name}: usize = {value};']
    out += ['', "// The machine's bytes, eight to a number, the lowest first.", f'pub const PACKED: [u64; {len(words)}] = [', f'    {rt_lines(words)},', '];']
    return '\n'.join(out) + '\n'


def main():
    classes, reps, rows, accepts, paths, deeps, flats = machine(line_grammar())
    for path, text in [('crates/shape/specs/Tables.antt', tables_antt(classes, reps, rows, accepts, paths, deeps, flats)),
                       ('crates/shape/proofs/Rows.antt', rows_antt(len(rows), 2)), ('crates/shape/proofs/FirstRows.antt', rows_antt(flats, 1)),
                       ('crates/scan_line/src/tables.rt', tables_rt(classes, rows, accepts, deeps, flats))]:
        (ROOT / path).write_text(text, encoding='utf-8')
    print(f'{len(rows)} states, of which {flats - deeps} deep and {len(rows) - flats} for letters; {len(reps)} classes')


if __name__ == '__main__':
    main()
