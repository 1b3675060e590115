"""The grammar of a line, read from where it stands: crates/shape/proofs/Grammar.antt, and the classes of bytes and the words that it takes from crates/rules/specs.

It knows the forms that stand there and no others; where it meets another it says the line, and stops. A file has comments, `use PATH.{NAMES}`, and definitions:

    abbrev pub NAME : TYPE          or `unfoldable pub ..`; the type is not looked at
    NAME PARAMETERS = EXPRESSION    one clause; lines behind it that are indented go on with it

An expression is a name with its arguments, `"a" to "z"`, a list `x ∷ y ∷ []`, a text in quotes, or one of them in parentheses. The words of lang that grammars are
written in (`seq`, `lit_re`, ..) are said once more below, under WORDS. Of the files of rules only the definitions that the grammar names are looked at.

A grammar is given as ('eps',), ('cls', ranges), ('seq', r, s), ('alt', r, s), ('star', r) or ('nest', brackets, depth); the ranges are pairs of numbers,
and brackets are ('brackets', plain, opens, closes), three classes.
"""
import re
import sys
from pathlib import Path

ROOT = Path(__file__).resolve().parent.parent
GRAMMAR = 'crates/shape/proofs/Grammar.antt'
TOKEN = re.compile(r'\s*(?:(?P<text>"(?:[ !#-\[\]-~]|\\\\)*")|(?P<nil>\[\])|(?P<mark>[()∷])|(?P<name>[A-Za-z]\w*)(?=[\s()]|$))')


def stop(where, why):
    sys.exit(f'{where[0]}:{where[1]}: {why}')


# ---- the words that grammars are written in: crates/lang, and of crates/rules/specs/Bytes.antt `bytes` and `to`

def lit(w):
    """lit_re: a word, byte by byte"""
    if not w:
        return ('eps',)
    first = ('cls', ((w[0], w[0]),))
    return ('seq', first, lit(w[1:])) if w[1:] else first


def lits(ws):
    """lits_re: one of several words"""
    return ('alt', lit(ws[0]), lits(ws[1:])) if ws else ('cls', ())


def cls(ranges):
    return ('cls', tuple(ranges))


def head(others, first):
    """head_re: a byte of the second class, and any number of the first"""
    return ('seq', cls(first), ('star', cls(others)))


def brackets(plain, opens, closes):
    return ('brackets', tuple(plain), tuple(opens), tuple(closes))


def nested(b, first):
    """nested_re: a byte of the class, or one that opens a bracket; and bytes behind it with which brackets pair up"""
    return ('alt', ('seq', cls(first), ('nest', b, 0)), ('seq', cls(b[2]), ('nest', b, 1)))


def is_brackets(v):
    return isinstance(v, tuple) and v[0] == 'brackets'


def is_re(v):
    return isinstance(v, tuple) and isinstance(v[0], str) and not is_brackets(v)


def is_range(v):
    return isinstance(v, tuple) and isinstance(v[0], int)


def is_text(v):
    return isinstance(v, str)


def is_word(v):
    return is_list(v, lambda b: isinstance(b, int))


def is_list(v, each):
    return isinstance(v, list) and all(map(each, v))


def is_class(v):
    return is_list(v, is_range)


def is_words(v):
    return is_list(v, is_word)


# what each takes, and what it gives
WORDS = {
    'eps': ([], lambda: ('eps',)),
    'cls': ([is_class], cls),
    'seq': ([is_re, is_re], lambda r, s: ('seq', r, s)),
    'alt': ([is_re, is_re], lambda r, s: ('alt', r, s)),
    'star': ([is_re], lambda r: ('star', r)),
    'opt_re': ([is_re], lambda r: ('alt', ('eps',), r)),
    'lit_re': ([is_word], lit),
    'lits_re': ([is_words], lits),
    'head_re': ([is_class, is_class], head),
    'brackets': ([is_class, is_class, is_class], brackets),
    'paired_re': ([is_brackets], lambda b: ('nest', b, 0)),
    'nested_re': ([is_brackets, is_class], nested),
    'bytes': ([is_text], lambda s: list(s.encode('ascii'))),
    'map': ([callable, lambda v: isinstance(v, list)], lambda f, vs: [f(v) for v in vs]),
}


# ---- expressions: ('name', where, name, arguments), ('text', where, text), ('list', where, items), ('to', where, a, b)

class Reader:
    """The expression of a clause. Tokens are (kind, what, where)."""

    def __init__(self, lines):
        self.tokens, self.i = [], 0
        for where, line in lines:
            at = 0
            while line[at:].strip():
                m = TOKEN.match(line, at)
                if not m:
                    stop(where, f'a form that is not known here: {line[at:].strip()}')
                self.tokens.append((m.lastgroup, m.group(m.lastgroup), where))
                at = m.end()
        self.end = ('end', 'the end', lines[-1][0])

    def peek(self):
        return self.tokens[self.i] if self.i < len(self.tokens) else self.end

    def take(self):
        token = self.peek()
        self.i += 1
        return token

    def whole(self):
        e = self.expression()
        kind, what, where = self.peek()
        if kind != 'end':
            stop(where, f'an expression goes on in a form that is not known here, at {what}')
        return e

    def expression(self):
        """x, or x ∷ y ∷ .. ∷ []"""
        items = [self.element()]
        where = items[0][1]
        while self.peek()[1] == '∷':
            self.take()
            items.append(self.element())
        if len(items) == 1:
            return items[0]
        if items[-1] != ('list', items[-1][1], []):
            stop(items[-1][1], 'a list that does not end with []')
        return ('list', where, items[:-1])

    def element(self):
        """x, or a to b"""
        a = self.application()
        if self.peek()[:2] != ('name', 'to'):
            return a
        where = self.take()[2]
        return ('to', where, a, self.application())

    def application(self):
        first = self.atom()
        arguments = []
        while self.begins_atom():
            arguments.append(self.atom())
        if not arguments:
            return first
        if first[0] != 'name' or first[3]:
            stop(first[1], 'what is given arguments here is no name')
        return ('name', first[1], first[2], arguments)

    def begins_atom(self):
        kind, what, _ = self.peek()
        return kind in ('text', 'nil') or what == '(' or kind == 'name' and what != 'to'

    def atom(self):
        kind, what, where = self.take()
        if kind == 'text':
            return ('text', where, what[1:-1].replace('\\\\', '\\'))
        if kind == 'nil':
            return ('list', where, [])
        if kind == 'name' and what != 'to':
            return ('name', where, what, [])
        if what != '(':
            stop(where, f'an expression was expected, and not {what}')
        e = self.expression()
        if self.take()[1] != ')':
            stop(where, 'a parenthesis that is not closed')
        return e


# ---- files

class File:
    """What a file defines, and from which files of the rules it takes names. All definitions of a `whole` one are looked at, of another those that are asked for."""

    def __init__(self, path, whole):
        self.path, self.taken, self.said, self.clauses, self.known = path, {}, {}, {}, {}
        pending = None
        for number, line in enumerate((ROOT / path).read_text(encoding='utf-8').splitlines(), 1):
            where = (path, number)
            if not line.strip() or line.lstrip().startswith('--'):
                continue
            defined = re.fullmatch(r'(?:abbrev|unfoldable) pub (\w+) : .+', line)
            clause = re.match(r'(\w+)\b', line)
            if line[0] == ' ' and pending:
                pending.append((where, line))
            elif line.startswith('use '):
                self.take_names(where, line)
                pending = None
            elif defined:
                self.said[defined[1]], self.clauses[defined[1]] = where, []
                pending = None
            elif clause and clause[1] in self.clauses:
                pending = [(where, line)]
                self.clauses[clause[1]].append(pending)
            elif whole:
                stop(where, f'a form that is not known here: {line.strip()}')
            else:
                pending = None
        for name in self.clauses if whole else []:
            self.definition(name)

    def take_names(self, where, line):
        m = re.fullmatch(r'use ([^{}]*?)(?:\.\{(.*)\}| as \w+)', line)
        if not m:
            stop(where, 'a `use` in a form that is not known here')
        source = re.fullmatch(r'Rattle\.rules\.specs\.(\w+)', m[1])
        for name in m[2].split(', ') if source and m[2] else []:
            self.taken[name] = f'crates/rules/specs/{source[1]}.antt'

    def definition(self, name):
        """Its parameters, and its expression."""
        if name not in self.known:
            clauses = self.clauses[name]
            if len(clauses) != 1:
                stop(self.said[name], f'{name} has {len(clauses)} clauses; here it should have one')
            (where, line), *more = clauses[0]
            m = re.match(r'((?:\w+ )+)=(?= |$)', line)
            if not m:
                stop(where, f'a clause in a form that is not known here: {line}')
            self.known[name] = (m[1].split()[1:], Reader([(where, line[m.end():]), *more]).whole())
        return self.known[name]


class Grammar:
    def __init__(self):
        self.files = {}

    def file(self, path):
        if path not in self.files:
            self.files[path] = File(path, whole=path == GRAMMAR)
        return self.files[path]

    def named(self, path, where, name, arguments):
        """A name with its arguments: a definition of the file, a word, or a definition of the file that it is taken from."""
        file = self.file(path)
        if name in WORDS:
            kinds, give = WORDS[name]
            if kinds and not arguments:
                return lambda *more: self.named(path, where, name, more)
            if len(arguments) != len(kinds) or not all(kind(v) for kind, v in zip(kinds, arguments)):
                stop(where, f'{name} has other arguments than are known here')
            return give(*arguments)
        if name in file.clauses:
            parameters, e = file.definition(name)
            if len(arguments) != len(parameters):
                stop(where, f'{name} has {len(arguments)} arguments, and takes {len(parameters)}')
            return self.value(path, e, dict(zip(parameters, arguments)))
        if name in file.taken:
            if name not in self.file(file.taken[name]).clauses:
                stop(where, f'{name} is not found in {file.taken[name]}')
            return self.named(file.taken[name], where, name, arguments)
        return stop(where, f'{name} is not known here')

    def value(self, path, e, given):
        kind, where, *parts = e
        if kind == 'text':
            return parts[0]
        if kind == 'list':
            return [self.value(path, x, given) for x in parts[0]]
        if kind == 'to':
            ends = [self.value(path, x, given) for x in parts]
            if not all(is_text(x) and len(x) == 1 for x in ends):
                stop(where, 'a range that is not from one byte to another')
            return (ord(ends[0]), ord(ends[1]))
        name, arguments = parts
        if name in given and not arguments:
            return given[name]
        return self.named(path, where, name, [self.value(path, x, given) for x in arguments])


def line_grammar():
    """The grammar of lines of the second edition, whose internal ions may have letters."""
    read, where = Grammar(), (GRAMMAR, 1)
    line = read.named(GRAMMAR, where, 'line_re', [read.named(GRAMMAR, where, 'letters_re', [])])
    if not is_re(line):
        stop((GRAMMAR, 1), 'line_re is no grammar')
    return line
