#!/usr/bin/env python3
"""Makes random slips in the definitions of a crate (specs/*.antt), by seed, and prints those with which it is still proved.

    python3 tools/slips.py CRATE                   20 slips by seed 1, one check at a time
    python3 tools/slips.py CRATE --count 70 --seed 3 --jobs 2
    python3 tools/slips.py CRATE --list            the slips alone, nothing is checked
    python3 tools/slips.py CRATE --only Causes     those in specs/Causes.antt (may be given several times; --without leaves a file out)
    python3 tools/slips.py CRATE --laws            the laws alone: the crate's functions and their proofs are left out of the copy
    python3 tools/slips.py state --laws --judge model    by the laws of a crate above it too
    python3 tools/slips.py CRATE --kinds           the kinds of slips, and how many of each the crate has room for
    python3 tools/slips.py model --pairs           the same slip in each definition that both desks have of one thing (see TWINS and PHRASES)
    python3 tools/slips.py model --pairs --by Afterwards --by Takes    tells those that a law of these files of proofs/ refuses from the others

Each slip is one that a person could make: see the functions of the section "kinds". Definition and code that slip together are judged by the laws alone:
with --laws the code is left out, so that it cannot disagree. The same sources, seed and options give the same slips. It
works on a copy of the crate and of those beneath it, in a temporary folder that is removed at the end; the repository stays as it is. What lies beneath
is not proved again where `rt check` has proved it on this machine. A slip is tried by `rt check` over what has not changed since; one that is still proved
is tried once more from nothing, by `rt verdict`.

For each slip one line says where it is, its kind and what was changed, and one what became of it:

    PROVED                          no law judges this, or the definition is equal to the one before: look at it
    refused at FILE:LINE in NAME    the first place that the prover names, and the law or lemma there; then the others that it refuses for themselves
    ill-typed at FILE:LINE          refused in specs/ already: it says nothing
    no verdict                      the prover did not end in time, or it could not tell

A slip that is refused only because a lemma's proof has another shape is not caught by a law: read where it is refused. The summary at the end counts
slips by that place. Exit status: 0 when all slips were tried, 2 for bad usage or where the crate is not proved as it stands.
"""
import argparse
import os
import random
import re
import shutil
import signal
import subprocess
import sys
import tempfile
import threading
import time
from collections import Counter
from dataclasses import dataclass, field
from pathlib import Path
from queue import Empty, Queue

ROOT = Path(__file__).resolve().parent.parent
OPERATORS = {'&&', '||', '∷', '++', '+', '*', '-', '/', '%', '^', '+ℤ', '-ℤ', '≡', '→', '×', '⊎', '<', '≤', '=', ':', ';', ',', '∙'}
KEYWORDS = {'λ', 'let', 'in', 'record', 'where', 'rw', 'absurd'}
# where a specification has the library's words from
PRELUDE = 'Rattle.std.specs.Prelude'
# functions of the library: the types of their arguments, and of what they give
LIBRARY = {n: (['ℕ', 'ℕ'], 'Bool') for n in ('leb', 'ltb', 'eqb', 'nat_le', 'nat_lt', 'nat_eq')}
# constructors of the library: which argument of its type each carries
CARRIED = {'Some': 0, 'Ok': 0, 'Err': 1}


def refuse(word):
    print(f'slips: {word}', file=sys.stderr)
    sys.exit(2)


# ---- words of a text

@dataclass
class Word:
    text: str
    start: int
    end: int
    depth: int


def words_in(text, start, end):
    """The words from start to end, each with its depth in brackets; comments are passed over. A field, as `.day` of `d.frame.day`, is a word of its own."""
    words, depth = [], 0
    for m in re.finditer(r'--[^\n]*|[(){};,]|(?:\.?[^\s(){};,.]+|\.+)(?=\.[^\s(){};,.])|[^\s(){};,]+', text[start:end]):
        word = m.group()
        if word.startswith('--'):
            continue
        if word in ')}':
            depth -= 1
        words.append(Word(word, start + m.start(), start + m.end(), depth))
        if word in '({':
            depth += 1
    return words


def closing(words, i):
    """The index of the bracket that closes the one at i."""
    return next((j for j in range(i + 1, len(words)) if words[j].depth == words[i].depth and words[j].text in ')}'), len(words) - 1)


def is_operand(word):
    return not (word in OPERATORS or word in KEYWORDS or word in '(){};,' or word.startswith('.') or word.endswith('.'))


def atom_end(words, i):
    """The index behind the argument that begins at i, with the fields that are taken of it, or None."""
    if i >= len(words) or not (words[i].text == '(' or is_operand(words[i].text)):
        return None
    end = closing(words, i) + 1 if words[i].text == '(' else i + 1
    while end < len(words) and words[end].text[0] == '.' and words[end].start == words[end - 1].end:
        end += 1
    return end


@dataclass
class Use:
    """A name with its arguments, each from one offset to another."""
    head: Word
    args: list


def uses_in(words):
    """Each name that stands where an application begins, with its arguments."""
    for i, w in enumerate(words):
        if not is_operand(w.text) or w.text[0].isdigit() or w.text == '_':
            continue
        before = words[i - 1].text if i else '='
        if before == ')' or before == '}' or before.startswith('.') and before != '.' or is_operand(before):
            continue
        args, j = [], i + 1
        while (end := atom_end(words, j)) is not None:
            args.append((words[j].start, words[end - 1].end))
            j = end
        yield Use(w, args)


# ---- what the sources declare

def one_line(text):
    return ' '.join(text.split())


def signature(text):
    """The types of a name's explicit arguments, and that of its result."""
    words, parts, begin = words_in(text, 0, len(text)), [], 0
    for w in words:
        if w.text == '→' and w.depth == 0:
            parts.append(text[begin:w.start])
            begin = w.end
    args = []
    for part in parts:
        inner = words_in(part, 0, len(part))
        i = 0
        while i < len(inner):
            if inner[i].text not in '({' or not any(w.text == ':' and w.depth == 1 for w in inner[i:closing(inner, i)]):
                args.append(one_line(part[inner[i].start:]))
                break
            end = closing(inner, i)
            colon = next(w for w in inner[i:end] if w.text == ':' and w.depth == 1)
            if inner[i].text == '(':
                args += [one_line(part[colon.end:inner[end].start])] * sum(1 for w in inner[i + 1:end] if w.end <= colon.start)
            i = end + 1
    return args, one_line(text[begin:])


def arguments_of(type):
    """The arguments of a type, as A and E of `Result A E`."""
    return [re.sub(r'^\((.*)\)$', r'\1', type[a:b]) for u in list(uses_in(words_in(type, 0, len(type))))[:1] for a, b in u.args]


@dataclass
class Clause:
    name: str
    indent: int
    line: int
    start: int
    equals: int
    end: int
    text: str

    @property
    def left(self):
        return words_in(self.text, self.start, self.equals)[1:]

    @property
    def right(self):
        return words_in(self.text, self.equals + 1, self.end)

    @property
    def body(self):
        words = self.right
        return words[0].start, words[-1].end


@dataclass
class File:
    """A file of definitions: its clauses, what it declares and what it names of others."""
    path: Path
    text: str
    names: dict = field(default_factory=dict)
    lines: dict = field(default_factory=dict)
    records: dict = field(default_factory=dict)
    data: dict = field(default_factory=dict)
    clauses: list = field(default_factory=list)
    uses: list = field(default_factory=list)

    def line_of(self, offset):
        return self.text.count('\n', 0, offset) + 1


def read_file(path):
    f = File(path, path.read_text())
    lines = f.text.split('\n')
    starts = [0]
    for l in lines:
        starts.append(starts[-1] + len(l) + 1)
    depth = lambda i: len(lines[i]) - len(lines[i].lstrip())

    def block_end(i):
        j = i + 1
        while j < len(lines) and lines[j].strip() and depth(j) > depth(i) and lines[j].strip() != 'where' and not lines[j].strip().startswith('--'):
            j += 1
        return j

    i, declared = 0, set()
    while i < len(lines):
        l = lines[i]
        s = l.strip()
        if not s or s.startswith('--'):
            i += 1
            continue
        use = re.match(r'use ([^\s{]+)\.\{(.*)\}$', s)
        if use:
            f.uses.append((use.group(1), [n.strip() for n in use.group(2).split(',')], starts[i] + l.index('{') + 1, starts[i] + l.rindex('}')))
            i += 1
            continue
        head = re.match(r'(?:pub )?(record|data) ([^\s:({]+).*\bwhere$', s)
        if head:
            fields, k, i = [], depth(i), i + 1
            while i < len(lines) and (not lines[i].strip() or depth(i) > k):
                m = re.match(r'\s*(?:pub )?([^\s:]+) : (.*)$', lines[i])
                if m and not lines[i].strip().startswith('--'):
                    fields.append((m.group(1), one_line(m.group(2))))
                i += 1
            (f.records if head.group(1) == 'record' else f.data)[head.group(2)] = fields
            continue
        sig = re.match(r'(?:(?:abbrev|unfoldable|pub) )*([^\s:(]+) :(?: (.*))?$', s)
        if sig and not s.startswith(('use ', 'module ', 'unfolding ')):
            end = block_end(i)
            f.names[sig.group(1)] = signature(' '.join([sig.group(2) or '', *lines[i + 1:end]]))
            f.lines[sig.group(1)] = i + 1
            declared.add((sig.group(1), depth(i)))
            i = end
            continue
        if (s.split()[0], depth(i)) in declared:
            end = block_end(i)
            stop = starts[end] - 1
            equals = next((w for w in words_in(f.text, starts[i], stop) if w.text == '=' and w.depth == 0), None)
            if equals:
                f.clauses.append(Clause(s.split()[0], depth(i), i + 1, starts[i] + depth(i), equals.start, stop, f.text))
            i = end
            continue
        i += 1
    return f


def read_types(crate):
    """The structs and enums of a crate's code: fields, and variants with what they carry."""
    text = ''.join(re.sub(r'//[^\n]*', '', p.read_text()) for p in sorted((ROOT / 'crates' / crate / 'src').glob('*.rt')))
    head = r'(\w+)(?:<[^>]*>)?'
    structs = {m.group(1): re.findall(r'^    (?:pub )?(\w+): ([^,\n]+),', m.group(2), re.M) for m in re.finditer(rf'pub struct {head} \{{(.*?)\n\}}', text, re.S)}
    structs.update({n: structs[of] for n, of in re.findall(rf'pub type (\w+) = {head};', text) if of in structs})
    enums = {}
    for m in re.finditer(rf'pub enum {head} \{{(.*?)\n\}}', text, re.S):
        enums[m.group(1)] = [(v.group(1), re.findall(r'\w+: ([^,}]*[^,}\s])', v.group(2) or '') or re.findall(r'\(([^)]*)\)', v.group(2) or ''))
                             for v in re.finditer(r'^    (\w+)( \{.*?\}|\([^)]*\))?(?: = \w+)?,$', m.group(2), re.M | re.S)]
    return structs, enums


def beneath(crate):
    """The crates of the repository that a crate stands on, and itself, lowest first."""
    lines = dict(re.findall(r'^(\w+)[^:#\n]*:(.*)$', (ROOT / 'crates.txt').read_text(), re.M))
    if crate not in lines:
        refuse(f'crates.txt lists no {crate}')
    found = []

    def visit(c):
        for d in lines[c].split():
            if d in lines and d not in found:
                visit(d)
        if c not in found:
            found.append(c)

    visit(crate)
    return found


class Sources:
    """What a file's names are, from all the files that it may name."""

    def __init__(self, crate):
        self.crate, self.crates = crate, beneath(crate)
        self.files, self.structs, self.enums = {}, {}, {}
        for c in beneath(crate):
            for p in sorted((ROOT / 'crates' / c / 'specs').glob('*.antt')):
                self.files[c, p.stem] = read_file(p)
            structs, enums = read_types(c)
            self.structs.update({(c, n): v for n, v in structs.items()})
            self.enums.update({(c, n): v for n, v in enums.items()})
        # each record's fields with their types, by its name and by the names of its fields
        self.typed = {n: dict(v) for f in self.files.values() for n, v in f.records.items()} | {n: dict(v) for (_, n), v in self.structs.items()}
        self.records = {frozenset(v): v for v in self.typed.values()}

    def scope(self, f):
        """The signatures of the names that a file can use; the constructors, by name, with their type and what they carry; the imports."""
        names, makers, imports = dict(f.names), {}, {}
        for t, cs in f.data.items():
            makers.update({c: (t, *signature(s)) for c, s in cs})
        for module, listed, start, end in f.uses:
            path = module.split('.')
            for entry in listed:
                imports[entry.split(' as ')[-1]] = (module, entry)
            if path[0] != 'Rattle' or path[1] not in self.crates:
                for n in listed:
                    if n in LIBRARY:
                        names[n] = LIBRARY[n]
                continue
            crate = path[1]
            if 'TheVariants' in path:
                variants = self.enums.get((crate, path[-2]), [])
                makers.update({v: (path[-2], carried, path[-2]) for v, carried in variants if v in listed})
                continue
            other = self.files.get((crate, path[-1]))
            if other:
                for entry in listed:
                    n, _, alias = entry.partition(' as ')
                    if n in other.names:
                        names[alias or n] = other.names[n]
                for t, cs in other.data.items():
                    makers.update({c: (t, *signature(s)) for c, s in cs if c in listed})
        return names, makers, imports


# ---- kinds: each gives its slips, as replacements of parts of the text

@dataclass
class Part:
    """Replacements in one file: from an offset to another, by a text."""
    file: File
    edits: list

    @property
    def line(self):
        return self.file.line_of(min(e[0] for e in self.edits if not self.file.text[:e[0]].split('\n')[-1].startswith('use ')))

    def after(self):
        text = self.file.text
        for start, end, new in sorted(self.edits, reverse=True):
            text = text[:start] + new + text[end:]
        return text


@dataclass
class Slip:
    """One slip: a part for each file that it changes."""
    kind: str
    parts: list


class Kinds:
    """The slips of one file. A method whose name begins with `of_` is a kind; its first line says what it is."""

    def __init__(self, sources, f):
        self.sources, self.f, self.text = sources, f, f.text
        self.names, self.makers, self.imports = sources.scope(f)

    def part(self, span):
        return self.text[span[0]:span[1]]

    def exchange(self, a, b):
        """Two parts of the text in each other's place, or None where they are the same or one holds the other."""
        if a > b:
            a, b = b, a
        return None if a[1] > b[0] or self.part(a) == self.part(b) else [(*a, self.part(b)), (*b, self.part(a))]

    def bring(self, name, module):
        """What makes a name of a module usable: nothing, or one name more among the imports. None if it cannot be had."""
        if name in self.imports or name in self.f.names:
            return []
        for m, listed, start, end in self.f.uses:
            if m == module:
                return [(end, end, f', {name}')]
        return None

    def parameters(self, c):
        """The variables of a clause's left side, each with its type where that is known."""
        types = self.f.names[c.name][0]
        left, i, n, known = c.left, 0, 0, {}

        def inside(words, of):
            if len(words) == 2 and words[0].text in CARRIED:
                known[words[1].text] = dict(enumerate(arguments_of(of))).get(CARRIED[words[0].text], '')
            elif len(words) > 1 and words[0].text in self.makers:
                for w, t in zip(words[1:], self.makers[words[0].text][1]):
                    if is_operand(w.text):
                        known[w.text] = t
            else:
                for w in words:
                    if is_operand(w.text) and w.text not in self.makers:
                        known.setdefault(w.text, '')

        while i < len(left):
            end = atom_end(left, i) or i + 1
            if end == i + 1 and left[i].text not in self.makers and is_operand(left[i].text):
                known[left[i].text] = types[n] if n < len(types) else ''
            elif end > i + 1:
                inside(left[i + 1:end - 1], types[n] if n < len(types) else '')
            i, n = end, n + 1
        return {v: t for v, t in known.items() if v not in self.names and not v[0].isdigit()}

    def of_number(self):
        """a number off by one"""
        for c in self.f.clauses:
            ws = c.right
            for i, w in enumerate(ws):
                if not w.text.isdigit() or ws[i - 1].text in ('{', 'Type') and i or i + 1 < len(ws) and ws[i + 1].text == '=':
                    continue
                for n in {int(w.text) + 1, max(0, int(w.text) - 1)} - {int(w.text)}:
                    yield [(w.start, w.end, str(n))]

    def of_order(self):
        """< for ≤, or ≤ for <, or ≤ for ="""
        other = {'leb': 'ltb', 'ltb': 'leb', 'eqb': 'leb', 'nat_le': 'nat_lt', 'nat_lt': 'nat_le', 'nat_eq': 'nat_le', '<': '≤', '≤': '<'}
        for c in self.f.clauses:
            for w in c.right:
                if w.text in other:
                    new = other[w.text]
                    brought = self.bring(f'◌{new}◌' if new in '<≤' else new, PRELUDE)
                    if brought is not None:
                        yield [(w.start, w.end, new), *brought]

    def of_truth(self):
        """true for false, or false for true"""
        for c in self.f.clauses:
            for w in c.right:
                if w.text in ('true', 'false'):
                    new = 'false' if w.text == 'true' else 'true'
                    brought = self.bring(new, PRELUDE)
                    if brought is not None:
                        yield [(w.start, w.end, new), *brought]

    def of_connective(self):
        """or for and, or and for or"""
        for c in self.f.clauses:
            for w in c.right:
                if w.text in ('&&', '||'):
                    new = '||' if w.text == '&&' else '&&'
                    brought = self.bring(f'◌{new}◌', PRELUDE)
                    if brought is not None:
                        yield [(w.start, w.end, new), *brought]

    def of_condition(self):
        """a condition negated"""
        negation = self.bring('not', PRELUDE)
        for c in self.f.clauses:
            for u in uses_in(c.right):
                if u.head.text == 'not' and len(u.args) == 1:
                    yield [(u.head.start, u.args[0][0], '')]
                elif u.head.text == 'cond' and len(u.args) == 3:
                    yield self.exchange(u.args[1], u.args[2])
                elif u.head.text == 'rule' and len(u.args) >= 2 and negation is not None:
                    yield [(*u.args[0], f'(not {self.part(u.args[0])})'), *negation]
            if self.f.names[c.name][1] == 'Bool' and negation is not None and c.right[0].text not in ('true', 'false', 'not'):
                yield [(*c.body, f'not ({self.part(c.body)})'), *negation]

    def of_operator(self):
        """plus for minus or times, or the other way round"""
        other = {'+ℤ': '-ℤ', '-ℤ': '+ℤ', '+': '*', '*': '+', '-': '+'}
        for c in self.f.clauses:
            for w in c.right:
                if w.text in other:
                    new = other[w.text]
                    brought = self.bring(f'◌{new}◌', PRELUDE)
                    if brought is not None:
                        yield [(w.start, w.end, new), *brought]

    def of_case(self):
        """a case for another one of its type: causes, statuses, sides"""
        for c in self.f.clauses:
            for w in c.right:
                if w.text not in self.makers:
                    continue
                kind, carried, _ = self.makers[w.text]
                for n, (k, other, _) in self.makers.items():
                    if k == kind and other == carried and n != w.text:
                        yield [(w.start, w.end, n)]

    def neighbours(self):
        """Two clauses of one definition, one after the other."""
        return [(a, b) for a, b in zip(self.f.clauses, self.f.clauses[1:]) if a.name == b.name and a.indent == b.indent]

    def fits(self, to, of):
        """Whether the right side of one clause can stand in another: its variables are there too."""
        there, own = self.parameters(to), self.parameters(of)
        return all(w.text in there for w in of.right if w.text in own)

    def of_clauses(self):
        """the right sides of two clauses exchanged"""
        for a, b in self.neighbours():
            if self.fits(a, b) and self.fits(b, a):
                yield self.exchange(a.body, b.body)

    def of_neighbour(self):
        """a clause answered by its neighbour"""
        for a, b in self.neighbours():
            for to, of in ((a, b), (b, a)):
                if self.fits(to, of) and self.part(to.body) != self.part(of.body):
                    yield [(*to.body, self.part(of.body))]

    def of_arguments(self):
        """two arguments of one type exchanged in a call"""
        for c in self.f.clauses:
            for u in uses_in(c.right):
                types = self.names[u.head.text][0] if u.head.text in self.names else self.makers[u.head.text][1] if u.head.text in self.makers else []
                for i in range(min(len(u.args), len(types))):
                    for j in range(i):
                        if types[i] == types[j] and u.head.text not in ('eqb', 'nat_eq'):
                            yield self.exchange(u.args[j], u.args[i])
                if u.head.text == 'set' and len(u.args) == 3 and not any(self.part(a).startswith('(') for a in u.args[1:]):
                    yield self.exchange(u.args[1], u.args[2])

    def of_parameters(self):
        """two parameters of one type exchanged on the left side"""
        for c in self.f.clauses:
            known = self.parameters(c)
            ws, used = [w for w in c.left if known.get(w.text)], {w.text for w in c.right}
            for i, a in enumerate(ws):
                for b in ws[i + 1:]:
                    if known[a.text] == known[b.text] and used & {a.text, b.text}:
                        yield self.exchange((a.start, a.end), (b.start, b.end))

    def of_variable(self):
        """a variable for another one of its type"""
        for c in self.f.clauses:
            known = self.parameters(c)
            for w in c.right:
                for n, t in known.items():
                    if known.get(w.text) and t == known[w.text] and n != w.text:
                        yield [(w.start, w.end, n)]

    def of_name(self):
        """a definition for another one of its type"""
        for c in self.f.clauses:
            local = self.parameters(c)
            for w in c.right:
                if w.text not in self.names or w.text in local or w.text == c.name:
                    continue
                for n, s in self.names.items():
                    above = self.f.lines.get(n, 0) < self.f.lines[c.name]
                    if s == self.names[w.text] and above and n != w.text and s[1] != 'Type 0' and n not in LIBRARY:
                        yield [(w.start, w.end, n)]

    def lines_of_table(self, c):
        return [u for u in uses_in(c.right) if u.head.text == 'rule' and len(u.args) >= 2]

    def tables(self):
        """Two lines of a table, one below the other."""
        for c in self.f.clauses:
            lines = self.lines_of_table(c)
            for a, b in zip(lines, lines[1:]):
                yield a, b

    def of_lines(self):
        """two lines of a table exchanged"""
        for a, b in self.tables():
            yield self.exchange((a.args[0][0], a.args[1][1]), (b.args[0][0], b.args[1][1]))

    def of_causes(self):
        """the causes of two lines of a table exchanged"""
        for a, b in self.tables():
            yield self.exchange(a.args[1], b.args[1])

    def of_silence(self):
        """a line of a table that never holds"""
        brought = self.bring('false', PRELUDE)
        for c in self.f.clauses:
            for u in self.lines_of_table(c):
                if brought is not None:
                    yield [(*u.args[0], 'false'), *brought]

    def of_branches(self):
        """the answers of two cases, one after the other, exchanged"""
        for c in self.f.clauses:
            conds = [u for u in uses_in(c.right) if u.head.text == 'cond' and len(u.args) == 3]
            for u in conds:
                for v in conds:
                    if u.args[2][0] < v.head.start < u.args[2][1] and self.text[u.args[2][0] + 1:v.head.start].strip() == '':
                        yield self.exchange(u.args[1], v.args[1])

    def owners(self, c):
        """The record that each field of a clause's right side is taken of, by the field's place: a variable's, a call's, or that of the field before.
        A field that has one type in all records tells what follows it too."""
        known, types, owners = self.parameters(c), {}, {}
        for u in uses_in(c.right):
            if u.args and u.head.text in self.names and len(u.args) == len(self.names[u.head.text][0]):
                types[u.args[-1][1]] = self.names[u.head.text][1]
            elif not u.args:
                types[u.head.end] = known.get(u.head.text) or self.names.get(u.head.text, ((), ''))[1]
        for w in c.right:
            if known.get(w.text):
                types.setdefault(w.end, known[w.text])
        for before, w in zip(c.right, c.right[1:]):
            if w.text == ')' and before.end in types:
                types[w.end] = types[before.end]
            if not w.text.startswith('.'):
                continue
            record = self.sources.typed.get(re.split('[ <]', types.get(before.end, ''))[0])
            if record:
                owners[w.start] = record
            of = {r[w.text[1:]] for r in ([record] if record else self.sources.typed.values()) if w.text[1:] in r}
            types[w.end] = of.pop() if len(of) == 1 else ''
        return owners

    def of_field(self):
        """a field for another one of its record and type"""
        for c in self.f.clauses:
            owners = self.owners(c)
            for w in c.right:
                name = w.text[1:]
                if not w.text.startswith('.') or not name.isidentifier():
                    continue
                for fields in [owners[w.start]] if w.start in owners else [r for r in self.sources.typed.values() if name in r]:
                    for n, t in fields.items():
                        if n != name and t == fields.get(name):
                            yield [(w.start, w.end, '.' + n)]

    def of_record(self):
        """the values of two fields of one type exchanged in a record"""
        for c in self.f.clauses:
            ws = c.right
            for i, w in enumerate(ws):
                if w.text != 'record' or i + 1 == len(ws) or ws[i + 1].text != '{':
                    continue
                end, inner = closing(ws, i + 1), ws[i + 1].depth + 1
                values, k = {}, i + 2
                while k < end:
                    stop = next((j for j in range(k, end) if ws[j].text == ';' and ws[j].depth == inner), end)
                    if stop > k + 2 and ws[k + 1].text == '=':
                        values[ws[k].text] = (ws[k + 2].start, ws[stop - 1].end)
                    k = stop + 1
                types = self.sources.records.get(frozenset(values), {})
                listed = list(values)
                for j, a in enumerate(listed):
                    for b in listed[j + 1:]:
                        if types.get(a) and types[a] == types.get(b):
                            yield self.exchange(values[a], values[b])

    def lists(self):
        """The elements of each list that is written out."""
        stops = {'=', ';', ',', '++', 'in', '→', '≡', '×', '&&', '||'}
        for c in self.f.clauses:
            ws, seen = c.right, set()
            for i, w in enumerate(ws):
                if w.text != '∷' or i in seen:
                    continue
                first = i
                while first and not (ws[first - 1].depth < w.depth or ws[first - 1].depth == w.depth and (ws[first - 1].text in stops or ws[first - 1].text.endswith('.'))):
                    first -= 1
                elements, begin, k = [], first, i
                while k < len(ws) and not (ws[k].depth < w.depth or ws[k].depth == w.depth and ws[k].text in stops):
                    if ws[k].text == '∷' and ws[k].depth == w.depth:
                        seen.add(k)
                        elements.append((ws[begin].start, ws[k - 1].end, ws[k + 1].start))
                        begin = k + 1
                    k += 1
                yield elements

    def of_element(self):
        """a list with an element left out"""
        for elements in self.lists():
            for start, end, following in elements:
                yield [(start, following, '')]

    def of_elements(self):
        """two elements of a list exchanged"""
        for elements in self.lists():
            for a, b in zip(elements, elements[1:]):
                yield self.exchange(a[:2], b[:2])


def kinds():
    return {n.removeprefix('of_'): getattr(Kinds, n).__doc__ for n in dir(Kinds) if n.startswith('of_')}


def slips_of(sources, only, without):
    """All slips of the crate's definitions, by kind."""
    found = {k: [] for k in kinds()}
    for (crate, module), f in sorted(sources.files.items()):
        if crate != sources.crate or module == 'Lib' or only and module not in only or module in without:
            continue
        of, seen = Kinds(sources, f), set()
        for kind in found:
            for edits in getattr(of, 'of_' + kind)():
                part = Part(f, edits or [])
                if edits and (after := part.after()) not in seen:
                    seen.add(after)
                    found[kind].append(Slip(kind, [part]))
    return found


# ---- pairs: the same slip in what both desks have of one thing

# the running desk's and the plain desk's table of what a call makes; their clauses go together by the call
TWINS = [('Step', 'granting'), ('Plain', 'granted'), ('Plain', 'sets_by'), ('Plain', 'set_in')]

# the call behind a setting of the plain desk
SETTINGS = {'opened': 'opens', 'placed': 'activates', 'allotted': 'assigns', 'delivered': 'submits', 'judged': 'notices', 'closed_in': 'closes', 'issued_in': 'issues', 'lodged': 'lodges'}

# what the two desks say in words of their own: what the slip is, and in each file the text and what stands in its place
PHRASES = [
    ('run 2 books what run 1 selects', [
        ('Series', 'figure_of', 'selected run p vs', 'selected 1 p vs'), ('Series', 'outside_of', 'selected run p vs', 'selected 1 p vs'),
        ('Step', 'amend_by', '(or_else t.old2 t.old1) (or_else t.new2 t.new1)', 't.old1 t.new1')]),
    ('run 2 has nothing without its own', [
        ('Series', 'figure_of', 'selected run p vs', 'own run p vs'), ('Series', 'outside_of', 'selected run p vs', 'own run p vs'),
        ('Step', 'amend_by', '(or_else t.old2 t.old1) (or_else t.new2 t.new1)', 't.old2 t.new2')]),
    ('run 1 books what run 2 selects', [
        ('Series', 'figure_of', 'selected run p vs', 'selected 2 p vs'), ('Series', 'outside_of', 'selected run p vs', 'selected 2 p vs'),
        ('Step', 'amend_by', 't.old1 t.new1 values book', '(or_else t.old2 t.old1) (or_else t.new2 t.new1) values book')]),
    ('run 2 is booked under the delta groups of run 1', [
        ('Series', 'figure_of', 'groups_in run gs', 'groups_in 1 gs'), ('Step', 'amend_by', 'sides_of (groups_in 2 gs) here', 'sides_of (groups_in 1 gs) here')]),
    ('log rows have day 0', [
        ('Plain', 'with_versions', 'due w.versions ws p w.day', 'due w.versions ws p 0'), ('Step', 'followed', 'due (versions_in d) ws p day', 'due (versions_in d) ws p 0')]),
    ('a close frees point 1', [
        ('Plain', 'sets_by', 'closed_in r ∷ []', 'closed_in r ∷ placed 1 free_point ∷ []'),
        ('Step', 'granting', 'accept (desk_with (desk_with d (the_closed', 'accept (desk_with (desk_with (desk_with d (the_points (with_point d.points 1 free_point))) (the_closed')]),
    ('a close is not kept', [
        ('Plain', 'sets_by', 'closed_in r ∷ []', '[]'), ('Step', 'granting', '(desk_with d (the_closed (flagged r d.frame.closed)))', 'd')]),
    ('an issue is not kept', [
        ('Plain', 'set_in', 'w.closed (flagged r w.issued)', 'w.closed w.issued'), ('Step', 'granting', '(desk_with (settled_desk d r) (the_issued (flagged r d.frame.issued)))', '(settled_desk d r)')]),
    ('an issue closes its run too', [
        ('Plain', 'set_in', 'w.closed (flagged r w.issued)', '(flagged r w.closed) (flagged r w.issued)'),
        ('Step', 'granting', '(the_issued (flagged r d.frame.issued))) (the_day day)', '(the_issued (flagged r d.frame.issued))) (the_closed (flagged r d.frame.closed))')]),
    ('a deactivated point stays', [
        ('Plain', 'sets_by', 'placed p free_point ∷ []', '[]'), ('Step', 'granting', '(desk_with d (the_points (with_point d.points p free_point)))', 'd')]),
    ('a lodging is not kept', [
        ('Plain', 'sets_by', 'lodged g es ∷ []', '[]'),
        ('Step', 'granting', '(with_schedules s (splice s.schedules (schedule_start d.frame.opening.quarters g) d.frame.opening.quarters (map word es)))', 's')]),
    ('an assignment is not kept', [
        ('Plain', 'sets_by', 'allotted a g ∷ []', '[]'),
        ('Step', 'granting', '(desk_with (desk_with d (the_groups (with_group both a g d.frame.groups))) (the_day day))', '(desk_with d (the_day day))'),
        ('Step', 'granting', '(with_book s (moved both d.frame.opening.quarters a g d.frame.groups s.book))', 's')]),
    ('surplus and shortfall exchanged', [
        ('Plain', 'granted', 'surplus = monthly h (surplus_at h r g); shortfall = monthly h (shortfall_at h r g)', 'surplus = monthly h (shortfall_at h r g); shortfall = monthly h (surplus_at h r g)'),
        ('Step', 'granting', 'surplus = month_surplus', 'surplus = month_shortfall'), ('Step', 'granting', 'shortfall = month_shortfall', 'shortfall = month_surplus')]),
]


def throughout(of, c):
    """A number of a clause for another one, or 0, 1 or 2 for it, wherever it stands on the right side."""
    known = of.parameters(c)
    for v, t in known.items():
        places = [w for w in c.right if w.text == v]
        if t != 'ℕ' or not places:
            continue
        for new in [n for n, s in known.items() if s == t and n != v] + ['0', '1', '2']:
            yield [(w.start, w.end, new) for w in places]


def alike(part, c, call):
    """What a slip is, whatever the clause calls its variables: the call, and what was exchanged for what. The day is `day` or `d`."""
    plain = lambda text: ' '.join({'day': 'd'}.get(w.text, w.text) for w in words_in(text, 0, len(text)))
    return call, frozenset((plain(part.file.text[s:e]), plain(new)) for s, e, new in part.edits if c.start <= s < c.end)


def twin_slips(sources):
    """The slips in the clauses of each of TWINS, by what they are."""
    found = {}
    for module, name in TWINS:
        f = sources.files[sources.crate, module]
        of = Kinds(sources, f)
        for c in f.clauses:
            makers = [w.text for w in c.left if w.text in of.makers]
            if c.name != name or not makers:
                continue
            call = SETTINGS.get(makers[0], makers[0])
            single = [(k, e) for k in kinds() for e in getattr(of, 'of_' + k)() if e and all(c.start <= s < c.end for s, _, _ in e)]
            for kind, edits in single + [('throughout', e) for e in throughout(of, c)]:
                part = Part(f, edits)
                found.setdefault((kind, *alike(part, c, call)), {}).setdefault((module, name), []).append(part)
    return found


def pairs_of(sources):
    """The same slip in the running desk's definition and in the plain desk's, by kind; those of PHRASES have a kind of their own."""
    found = {k: [] for k in [*kinds(), 'throughout', 'phrase']}
    for (kind, call, _), places in twin_slips(sources).items():
        running = [p for (module, _), parts in places.items() for p in parts if module == 'Step']
        plain = [p for (module, _), parts in places.items() for p in parts if module != 'Step']
        found[kind] += [Slip(kind, [a, b]) for a, b in zip(running, plain)]
    for said, texts in PHRASES:
        parts = {}
        for module, name, old, new in texts:
            f = sources.files[sources.crate, module]
            at = [f.text.index(old, c.start) for c in f.clauses if c.name == name and old in f.text[c.start:c.end]]
            if not at:
                refuse(f'{module}.antt: {name} has no "{old}" for the slip "{said}"')
            parts.setdefault(module, Part(f, [])).edits.append((at[0], at[0] + len(old), new))
        found['phrase'].append(Slip(said, list(parts.values())))
    return found


def name_of(kind):
    return {**kinds(), 'throughout': 'a number for another one, throughout'}.get(kind, kind)


def chosen(found, count, seed):
    """So many slips, each of a kind that is drawn first, so that rare kinds come up as often as common ones."""
    draw, left, picked = random.Random(seed), {k: list(v) for k, v in found.items() if v}, []
    while left and len(picked) < count:
        kind = draw.choice(sorted(left))
        picked.append(left[kind].pop(draw.randrange(len(left[kind]))))
        if not left[kind]:
            del left[kind]
    return picked


def cut(text, most=150):
    text = one_line(text)
    return text if len(text) <= most else text[:most] + ' ..'


def changes(part):
    """The lines that the part of a slip changes, before and after."""
    old, new = part.file.text.split('\n'), part.after().split('\n')
    if len(old) == len(new):
        pairs = [(a, b) for a, b in zip(old, new) if a != b and not a.startswith('use ')]
    else:
        start, end = min(e[0] for e in part.edits), max(e[1] for e in part.edits)
        pairs = [(part.file.text[start:end], ' / '.join(e[2] for e in part.edits) or 'nothing')]
    return [(cut(a), cut(b)) for a, b in pairs]


# ---- trying them

def without_functions(text):
    """A source without its functions, `impl`s and traits, and without the names that only they use."""
    text = re.sub(r'(?:^(?://|#\[)[^\n]*\n)*^(?:pub )?(?:extern "C" )?(?:fn|impl|trait)\b.*?^}\n', '', text, flags=re.M | re.S)
    left = re.sub(r'^(?:ghost )?use .*?;|//[^\n]*', '', text, flags=re.M | re.S)

    def as_used(use):
        listed = [n.strip() for n in use.group(2).strip('{},\n').split(',')]
        names = [n for n in listed if re.search(rf'(?<!\w){re.escape(n.split(" as ")[-1].strip("◌"))}(?!\w)', left)]
        return f'{use.group(1)}{{{", ".join(names)}}};\n' if names else ''

    return re.sub(r'^((?:ghost )?use [^\s{;]*?)(\{[^}]*\}|\w+(?: as \w+)?);\n', as_used, text, flags=re.M)


class Place:
    """A copy of the crate whose laws judge, and of what it stands on; the slips are made in `crate`."""

    def __init__(self, folder, crate, judge):
        self.folder, self.crate, self.judge = folder, crate, judge
        self.process, self.closed, self.lock = None, False, threading.Lock()

    def fill(self, laws):
        self.folder.mkdir(parents=True)
        shutil.copy(ROOT / 'crates.txt', self.folder)
        for c in beneath(self.judge):
            for part in ('src', 'specs', 'proofs'):
                if (ROOT / 'crates' / c / part).is_dir():
                    shutil.copytree(ROOT / 'crates' / c / part, self.folder / 'crates' / c / part)
            if laws and self.crate in beneath(c):
                self.leave_laws(self.folder / 'crates' / c)
        # The top of a repository: `rt` looks no higher for the crates' list, which wants each crate's src/.
        (self.folder / '.git').mkdir()
        for p in (ROOT / 'crates').iterdir():
            if (p / 'src').is_dir() and not (self.folder / 'crates' / p.name).exists():
                (self.folder / 'crates' / p.name / 'src').mkdir(parents=True)

    def leave_laws(self, folder):
        """Takes the functions and their proofs out of a crate. Its types stay, with their facts and what is derived for them."""
        for p in (folder / 'src').glob('*.rt'):
            p.write_text(without_functions(p.read_text()))
        for p in (folder / 'proofs').glob('*'):
            if p.is_dir():
                shutil.rmtree(p)

    def check(self, most, verb='check'):
        """What `rt` says in the folder of the crate whose laws judge, and its exit status: None where it took longer than `most` seconds."""
        with open(self.folder / 'said', 'w') as said:
            with self.lock:
                if self.closed:
                    raise InterruptedError
                self.process = subprocess.Popen(['rt', verb], cwd=self.folder / 'crates' / self.judge, stdin=subprocess.DEVNULL, stdout=said, stderr=subprocess.STDOUT,
                                                start_new_session=True)
            try:
                status = self.process.wait(most)
            except subprocess.TimeoutExpired:
                self.stop()
                status = None
        return status, (self.folder / 'said').read_text(errors='replace')

    def stop(self):
        """Ends the check that runs here, with what it started."""
        if self.process and self.process.poll() is None:
            os.killpg(self.process.pid, signal.SIGKILL)
            self.process.wait()

    def close(self):
        with self.lock:
            self.closed = True
            self.stop()

    def made(self):
        """What checks leave, of the crate and of those between it and the one whose laws judge: pairs of a folder and where it is kept."""
        return [(self.folder / 'crates' / c / 'out', self.folder / 'kept' / c) for c in beneath(self.judge) if self.crate in beneath(c)]

    def keep(self):
        """Keeps what the check of the crate as it stands left, so that each slip begins with it."""
        for out, kept in self.made():
            shutil.copytree(out, kept)

    def begin(self):
        for out, kept in self.made():
            shutil.rmtree(out, ignore_errors=True)
            shutil.copytree(kept, out)

    def try_slip(self, slip, most):
        specs = self.folder / 'crates' / self.crate / 'specs'
        for part in slip.parts:
            (specs / part.file.path.name).write_text(part.after())
        self.begin()
        status, said = self.check(most)
        if status == 0:
            status, said = self.check(most, 'verdict')
        for part in slip.parts:
            (specs / part.file.path.name).write_text(part.file.text)
        return self.verdict(status, said)

    def verdict(self, status, said):
        """What became of a slip: a word, the place, and the names of all that is refused for itself."""
        if status is None:
            return 'no verdict', 'longer than the time allowed', []
        if status == 0 and 'logic=proved' in said:
            return 'PROVED', '', []
        errors, notes, of = [], [], self.judge
        for line in said.split('\n'):
            # `rt` names a crate when it begins with it; the paths that follow are below that crate's folder
            if m := re.match(r'rt: chose --jobs \d+ for (\w+)$', line):
                of = m.group(1)
            elif (m := re.match(r'(note: )?(\S+?):(\d+):\d+:(.*)', line)) and not re.search(r'was not (admitted|checked)', line):
                found = self.folder / 'crates' / of / m.group(2), int(m.group(3))
                (notes if m.group(1) or not m.group(4).startswith(' error') else errors).append(found)
        errors = errors or notes
        if status != 1 or not errors:
            return 'no verdict', cut(said.strip().split('\n')[-1]) if said.strip() else f'exit {status}', []
        path, line = errors[0]
        inside = self.inside(path)
        if 'specs' in inside.parts:
            return 'ill-typed', f'{inside}:{line}', []
        names = list(dict.fromkeys(f'{self.inside(p).stem}.{self.name_at(p, n)}' for p, n in errors))
        others = names[1:]
        more = f'; also {", ".join(others[:6])}' + (f' and {len(others) - 6} more' if len(others) > 6 else '') if others else ''
        return 'refused', f'{inside}:{line} in {self.name_at(path, line)}{more}', names

    def inside(self, path):
        """A path as the summary has it: below its crate, and with the crate's name where several judge."""
        crates = self.folder / 'crates'
        if crates not in path.parents:
            return Path(*path.parts[-2:])
        return path.relative_to(crates / self.crate if self.judge == self.crate else crates)

    def name_at(self, path, line):
        """The law, lemma or function that a line of a proof belongs to."""
        if path.name in ('Proof.antt', 'Answers.antt', 'Invariants.antt') or path.suffix == '.rt' or not path.is_file():
            return path.parent.name
        for l in reversed(path.read_text().split('\n')[:line]):
            m = re.match(r' {0,2}(?:(?:abbrev|unfoldable|pub) )*([^\s:(]+) :(?: |$)', l)
            if m:
                return m.group(1)
        return '?'


def try_all(picked, crate, judge, jobs, laws, most):
    """Each slip with its verdict, as they come."""
    room = Path(tempfile.mkdtemp(prefix='slips-'))
    places = []
    try:
        first = Place(room / '1', crate, judge)
        places.append(first)
        first.fill(laws)
        print(f'{judge} as it stands: ', end='', flush=True)
        began = time.monotonic()
        status, said = first.check(None)
        if status != 0:
            print(f'not proved\n{said}')
            sys.exit(2)
        print(f'proved ({time.monotonic() - began:.0f} s)', flush=True)
        first.keep()
        for k in range(2, min(jobs, len(picked)) + 1):
            shutil.copytree(room / '1', room / str(k))
            places.append(Place(room / str(k), crate, judge))
        waiting, ended = Queue(), Queue()
        for item in enumerate(picked):
            waiting.put(item)

        def work(place):
            try:
                while True:
                    k, slip = waiting.get_nowait()
                    began = time.monotonic()
                    ended.put((k, slip, *place.try_slip(slip, most), time.monotonic() - began))
            except Empty:
                pass
            except Exception as fault:
                ended.put((None, None, 'fault', repr(fault), [], 0))

        for p in places:
            threading.Thread(target=work, args=(p,), daemon=True).start()
        for _ in picked:
            result = ended.get()
            if result[2] == 'fault':
                refuse(result[3])
            yield result
    finally:
        for p in places:
            p.close()
        shutil.rmtree(room, ignore_errors=True)


def show_slip(number, slip):
    print(f'{number} {", ".join(f"specs/{p.file.path.name}:{p.line}" for p in slip.parts)}: {name_of(slip.kind)}')
    for part in slip.parts:
        for old, new in changes(part):
            print(f'    - {old}\n    + {new}')


def main():
    parser = argparse.ArgumentParser(usage='python3 tools/slips.py CRATE [--count N] [--seed S] [--jobs J] [--only FILE] [--without FILE] [--laws] [--pairs] [--judge CRATE] [--by FILE] [--seconds S] [--list] [--kinds]')
    parser.add_argument('crate')
    parser.add_argument('--count', type=int, default=20)
    parser.add_argument('--seed', type=int, default=1)
    parser.add_argument('--jobs', type=int, default=1)
    parser.add_argument('--only', action='append', default=[])
    parser.add_argument('--without', action='append', default=[])
    parser.add_argument('--laws', action='store_true')
    parser.add_argument('--pairs', action='store_true')
    parser.add_argument('--judge')
    parser.add_argument('--by', action='append', default=[])
    parser.add_argument('--list', action='store_true')
    parser.add_argument('--kinds', action='store_true')
    parser.add_argument('--seconds', type=float, default=600, help='how long a check may take')
    given = parser.parse_args()
    stem = lambda names: [Path(n).stem for n in names]
    if given.judge and given.crate not in beneath(given.judge):
        refuse(f'{given.judge} does not stand on {given.crate}')
    sources = Sources(given.crate)
    for n in stem(given.only + given.without):
        if (given.crate, n) not in sources.files:
            refuse(f'{given.crate} has no specs/{n}.antt')
    if given.pairs and any((given.crate, m) not in sources.files for m, _ in TWINS):
        refuse(f'{given.crate} does not have both desks')
    found = pairs_of(sources) if given.pairs else slips_of(sources, stem(given.only), stem(given.without))
    if given.kinds:
        for k, v in found.items():
            print(f'{len(v):5} {k}: {name_of(k)}')
        return
    picked = chosen(found, given.count, given.seed)
    print(f'{given.crate}: {len(picked)} of {sum(map(len, found.values()))} slips, seed {given.seed}', flush=True)
    if given.list:
        for k, slip in enumerate(picked):
            show_slip(k + 1, slip)
        return
    words, at, proved, apart = Counter(), Counter(), [], []
    for done, (k, slip, word, place, names, took) in enumerate(try_all(picked, given.crate, given.judge or given.crate, given.jobs, given.laws, given.seconds)):
        show_slip(k + 1, slip)
        print(f'    {word}{" at " if place and word != "no verdict" else ": " if place else ""}{place} ({took:.0f} s; {done + 1} of {len(picked)})', flush=True)
        words[word] += 1
        if word == 'refused':
            at[re.sub(r':\d+|;.*', '', place)] += 1
        laws = [n for n in names if n.split('.')[0] in stem(given.by)]
        if laws:
            print(f'    by {", ".join(laws)}', flush=True)
        elif given.by and word == 'refused':
            apart.append((k + 1, slip))
        if word == 'PROVED':
            proved.append((k + 1, slip))
    print(f'\n{given.crate}, seed {given.seed}: ' + ', '.join(f'{n} {w}' for w, n in sorted(words.items())) + f', of {len(picked)}')
    for place, n in at.most_common():
        print(f'{n:5} refused at {place}')
    for said, slips in (('refused, and by no law of those files', apart), ('still proved', proved)):
        if slips:
            print(f'\n{said}:')
        for k, slip in slips:
            show_slip(k, slip)


if __name__ == '__main__':
    signal.signal(signal.SIGTERM, lambda *_: sys.exit(143))
    try:
        main()
    except KeyboardInterrupt:
        sys.exit(130)
