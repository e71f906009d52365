#!/usr/bin/env python3
"""spelling: after port.py, the other definitions and lemmas of this repository in today's spelling, as PORTING.md, part 3, has it.

Definitions in snake case: takeWhile becomes take_while. A lemma's dash stays where it joins two names, a word and a word that it is applied
to, as in length-flat; every other dash becomes _; and a lemma that would have a definition's name gets _lem. Run once, at the top; it says
which names it turned, and stops where two would fall together.

In specs/, in src/ and in the edits the tests on numbers have the Prelude's names: eqb a b is a == b, leb is nat_le, ltb is nat_lt. In the
edits, and in clauses, a projection is tight: s .epoch is s.epoch."""
import os
import re
import sys

TOKEN = re.compile(r"(?<![\w'.-])([A-Za-z_][\w'-]*)|(?<=\.)([A-Za-z_][\w'-]*)")
DECLARED = re.compile(r"^\s*(?:(?:abbrev|unfoldable|pub|private) +)*(?:(?:record|data) )?([A-Za-z_][\w'-]*) *:(?: |$)")
# The library's words that the names of lemmas are made of.
LIBRARY = {'length', 'set', 'sets', 'take', 'drop', 'map', 'replicate', 'get_or', 'append', 'reverse', 'cond', 'zero', 'suc'}


def files(kinds):
    for top, folders, names in os.walk('crates'):
        folders[:] = sorted(f for f in folders if f not in ('out', '.git'))
        for name in sorted(names):
            if name.endswith(kinds):
                yield os.path.join(top, name)


def text_of(path):
    with open(path, encoding='utf-8') as file:
        return file.read()


def snake(name):
    """takeWhile is take_while; a name that begins with a capital, a type, stays."""
    if not name[0].islower():
        return name
    return re.sub(r'(?<=[a-z0-9])([A-Z])', lambda m: '_' + m.group(1).lower(), name)


def declared(path):
    return [m.group(1) for m in map(DECLARED.match, text_of(path).splitlines()) if m]


def dashed(name, words):
    """A lemma's name, with the dashes that join two words alone."""
    parts = [snake(part) for part in name.split('-')]
    for i in range(1, len(parts)):
        left, right = '_'.join(parts[:i]), parts[i:]
        if left in words and any('_'.join(right[:k]) in words for k in range(1, len(right) + 1)):
            return left + '-' + '_'.join(right)
    return '_'.join(parts)


def turned_names():
    """The definitions and lemmas that are spelled anew, each with its new name."""
    defined, lemmas = set(), set()
    for path in files('.antt'):
        folder = os.path.basename(os.path.dirname(path))
        if folder == 'specs':
            defined |= set(declared(path))
        elif folder == 'proofs':
            lemmas |= set(declared(path))
    words = {snake(name) for name in defined} | LIBRARY
    new = {name: snake(name) for name in defined}
    of_definitions = set(new.values())
    for name in lemmas - defined:
        other = dashed(name, words)
        new[name] = other + '_lem' if other in of_definitions else other
    for name in set(new) - {n for n in new if new[n] != n}:
        del new[name]
    return new


def fall_together(new):
    taken, found = {}, []
    for path in files('.antt'):
        for name in declared(path):
            if name not in new:
                taken.setdefault(name, set()).add(path)
    for name, other in sorted(new.items()):
        for path in taken.get(other, ()):
            found.append('%s would be %s, which %s has' % (name, other, path))
    for other in sorted(set(new.values())):
        names = sorted(n for n in new if new[n] == other)
        if len(names) > 1:
            found.append('%s would all be %s' % (', '.join(names), other))
    return found


def turn(path, new, code):
    """In code only definitions are named; a projection or a generated name after a dot keeps its dashes. An edit has names that port.py
    turns elsewhere."""
    edit = path.endswith('.edit')

    def one(m):
        name = m.group(1) or m.group(2)
        if edit and name not in new:
            return snake(name)
        if m.group(2) and '-' in name:
            return name
        if code and '-' in name:
            return name
        return new.get(name, name)

    old = text_of(path)
    text = TOKEN.sub(one, old)
    if text != old:
        with open(path, 'w', encoding='utf-8') as file:
            file.write(text)


ATOM = r"(?:\((?:[^()]|\((?:[^()]|\([^()]*\))*\))*\)(?:\.\w+)*|[\w'.]+)"
EQUAL = re.compile(r"(?<![\w'.-])eqb (%s) (%s)(?![\w'-])" % (ATOM, ATOM))
TESTS = {'eqb': 'nat_eq', 'leb': 'nat_le', 'ltb': 'nat_lt'}


def bare(atom):
    """A call beside == needs no parentheses; a sum does."""
    inner = re.fullmatch(r"\((\w[\w']*(?: [\w'.]+| \([^()]*\))*)\)", atom)
    return inner.group(1) if inner else atom


def with_tests(line):
    """A line with today's names of the tests on numbers."""
    while EQUAL.search(line):
        line = EQUAL.sub(lambda m: bare(m.group(1)) + ' == ' + bare(m.group(2)), line, 1)
    return re.sub(r"(?<![\w'.-])(eqb|leb|ltb)(?![\w'-])", lambda m: TESTS[m.group(1)], line)


def imported(line, body):
    """A use line of the Prelude, which names the tests that the file's body has."""
    head, names = line.rstrip().rstrip(';').rstrip('}').split('{')
    out = []
    for name in names.split(', '):
        out += [w for w in {'eqb': ['◌==◌', 'nat_eq']}.get(name, [TESTS.get(name, name)]) if w.strip('◌') in body.split() or '(' + w in body or w == name]
    return head + '{' + ', '.join(out) + '}' + (';' if line.rstrip().endswith(';') else '')


def tests_of(path):
    lines = text_of(path).split('\n')
    uses = [bool(re.match(r'(ghost )?use ', line)) for line in lines]
    lines = [line if use else with_tests(line) for line, use in zip(lines, uses)]
    body = '\n'.join(line for line, use in zip(lines, uses) if not use)
    return '\n'.join(imported(line, body) if use and re.search(r'\b(eqb|leb|ltb)\b', line) else line for line, use in zip(lines, uses))


def tight(line):
    """s .epoch as s.epoch, and (s .epoch) as s.epoch."""
    line = re.sub(r"\(([\w']+) \.([\w']+)\)", r'\1.\2', line)
    line = re.sub(r"(?<=[\w')]) \.(?=[a-z0-9])", '.', line)
    return line


def write(path, text):
    with open(path, 'w', encoding='utf-8') as file:
        file.write(text)


def main():
    new = turned_names()
    wrong = fall_together(new)
    for line in wrong:
        print(line, file=sys.stderr)
    if wrong:
        return 1
    for path in files(('.antt', '.rt', '.edit')):
        turn(path, new, not path.endswith('.antt'))
    for path in files(('.antt', '.rt', '.edit')):
        if path.endswith('.edit'):
            write(path, '\n'.join(tight(line) if re.match('(old|new): ', line) else line for line in text_of(path).split('\n')))
        if path.endswith('.rt') or '/specs/' in path or path.endswith('.edit') and 'file: proofs/' not in text_of(path):
            write(path, tests_of(path))
    for name in sorted(new):
        print('%s %s' % (name, new[name]))
    return 0


if __name__ == '__main__':
    sys.exit(main())
