#!/usr/bin/env python3
"""Brings the names of this repository's own definitions, lemmas and fields to today's spelling: words in snake case, facts in camel case.

Run once, at the top of the repository, after the toolchain's port.py. It changes names that have a dash, in specs/ and proofs/ and in
the clauses of src/. It leaves strings, comments, the library's names and the names that Rattle makes of a function's code.
"""
import glob
import re

TOKEN = r"[^\s(){}\[\];,.«»∥⌜⌝λ\"`:]+"
# Names that stand for something else already when they are respelled: variants of faults, functions of the code, words of the library.
OTHERWISE = {
    'Fork-rule': 'KeepsForkRule',
    'Loop-rule': 'KeepsLoopRule',
    'Whole-ends': 'HasWholeEnds',
    'No-vertex': 'IsNoVertex',
    'bit-or': 'bit_either',
    'but-zero': 'but_zero_lem',
    'how-many': 'how_many_lem',
}
# Lemmas of the library that are imported by an older path.
LIBRARY = {'get_or-eq_default', 'div-eq_of_lt'}


def without_comment(line):
    return re.sub(r'(^|\s)--.*', '', line)


def respelled(name):
    if name in OTHERWISE:
        return OTHERWISE[name]
    if name[0].isupper():
        first, *rest = name.split('-')
        return first + ''.join(part[:1].upper() + part[1:] for part in rest)
    return name.replace('-', '_')


def own_names(files):
    own, library = set(), set(LIBRARY)
    for file in files:
        text = '\n'.join(without_comment(line) for line in open(file).read().split('\n'))
        for m in re.finditer(r'use\s+Rattle\.std\.[^{\s]*\.\{([^}]*)\}', text):
            library |= {word.strip().split(' as ')[0] for word in m.group(1).split(',')}
        if file.endswith(('Answers.antt', 'Invariants.antt')):
            continue
        own |= {t for t in re.findall(TOKEN, text) if '-' in t and re.search(r'\w-\w|⁺-', t)}
    return own - library


def turn(text, names, made):
    def one(m):
        name = m.group(0)
        if name not in names:
            return name
        # in an answer, c.NAME is a place in a function's code, which Rattle names
        if made and re.search(r'(?<![\w\'])c\.$', text[max(0, m.start() - 3):m.start()]):
            return name
        return respelled(name)
    return re.sub(TOKEN, one, text)


def turn_line(line, names, mark, made):
    at = re.search(mark, line)
    cut = at.start() if at else len(line)
    code, comment = line[:cut], line[cut:]
    parts = re.split(r'("(?:[^"\\]|\\.)*")', code)
    code = ''.join(p if i % 2 else turn(p, names, made) for i, p in enumerate(parts))
    comment = re.sub(r'`([^`]*)`', lambda m: '`' + turn(m.group(1), names, made) + '`', comment)
    return code + comment


def main():
    antt = sorted(glob.glob('crates/*/specs/**/*.antt', recursive=True) + glob.glob('crates/*/proofs/**/*.antt', recursive=True))
    code = sorted(glob.glob('crates/*/src/**/*.rt', recursive=True))
    names = own_names(antt)
    for file in antt + code:
        text = open(file).read()
        mark = r'//' if file.endswith('.rt') else r'(^|\s)--'
        made = file.endswith(('Answers.antt', 'Invariants.antt'))
        new = '\n'.join(turn_line(line, names, mark, made) for line in text.split('\n'))
        if new != text:
            open(file, 'w').write(new)
    print(len(names), 'names')


main()
