#!/usr/bin/env python3
"""Brings this repository's own definitions and lemmas to the spelling of today's Rattle, once, after the kit's port.py.

usage: tools/respell.py [ROOT]

A word, that is a definition or a lemma, is in snake case. In a lemma's name a dash stays where it joins two definitions, as in `length-levels`, and is `_` where it
joins plain words, as in `row_by_row`; one that would have a definition's name gets `_lem`. Types, modules, the functions of src/, exported C names, strings, inputs and outputs keep their names.
What it wrote is printed, a line a name, and so is each new name that stood in the crates before.
"""
import glob
import os
import re
import sys

STD = set('length total take drop map min max set get_or zero suc cons nil append'.split())
WORD = re.compile(r"[A-Za-z_Ͱ-Ͽ][\w'-]*")
DEFINES = re.compile(r"\s*(?:(?:abbrev|unfoldable|pub|ruleset) )*([^\s:(){}]+)\s*:\s")
TYPE = re.compile(r"\s*(?:pub )?(?:record|data) ([^\s:(){}]+)")


def found(*patterns):
    return sorted({p for pattern in patterns for p in glob.glob(pattern, recursive=True) if '/out/' not in p})


def read(path):
    with open(path, encoding='utf-8') as f:
        return f.read()


def snake(name):
    return re.sub(r'(?<=[a-z0-9])([A-Z])', lambda m: '_' + m.group(1).lower(), name)


def table():
    """Old name to new, for the names that the files of definitions and laws declare; proofs of functions are not laws."""
    names = set()
    for path in found('crates/*/specs/**/*.antt', 'crates/*/proofs/**/*.antt'):
        if path.endswith('/Proof.antt'):
            continue
        for line in read(path).split('\n'):
            declared = DEFINES.match(line)
            if declared and not TYPE.match(line) and not line.startswith(('--', 'use')):
                names.add(declared.group(1))
    names.add('lineLight')  # a bound variable
    new = {n: snake(n) for n in names if re.match(r'[a-z]', n) and '-' not in n}
    joined = set(new.values()) | STD
    for name in names:
        if '-' in name and re.match(r'[a-z]', name):
            parts = [snake(p) for p in name.split('-')]
            new[name] = parts[0] + ''.join(('-' if a in joined and b in joined else '_') + b for a, b in zip(parts, parts[1:]))
    definitions = {new[n] for n in new if '-' not in n}
    for name in new:
        if '-' in name and new[name] in definitions:
            new[name] += '_lem'
    return {a: b for a, b in new.items() if a != b}


def turned_line(line, new):
    """The line with its names turned; in a glossary, `--   name arguments    what it is`, the second column stays where it stood."""
    turned = WORD.sub(lambda w: new.get(w.group(), w.group()), line)
    row = re.match(r'--   (\S+(?: \S+)*)(  +)', turned)
    if row and len(turned) > len(line):
        gap = max(2, len(row.group(2)) - len(turned) + len(line))
        turned = turned[:row.end(1)] + ' ' * gap + turned[row.end():]
    return turned


def main(root):
    os.chdir(root)
    new = table()
    code = found('crates/**/*.antt', 'crates/**/*.rt', 'crates/**/*.edit')
    before = {w for p in code for w in WORD.findall(read(p))}
    strings = re.compile(r'"(?:[^"\\]|\\.)*"')
    for path in code:
        text, out, end = read(path), [], 0
        for m in strings.finditer(text) if path.endswith('.rt') else ():
            out += [WORD.sub(lambda w: new.get(w.group(), w.group()), text[end:m.start()]), m.group()]
            end = m.end()
        out += ['\n'.join(turned_line(line, new) for line in text[end:].split('\n'))]
        if ''.join(out) != text:
            with open(path, 'w', encoding='utf-8') as f:
                f.write(''.join(out))
    for path in found('*.md', 'docs/**/*.md'):
        if path == 'docs/PORT.md':
            continue
        text = read(path)
        turned = re.sub(r'`[^`\n]+`', lambda m: WORD.sub(lambda w: new.get(w.group(), w.group()), m.group()), text)
        if turned != text:
            with open(path, 'w', encoding='utf-8') as f:
                f.write(turned)
    for a in sorted(new):
        print(a, new[a], '(stood before)' if new[a] in before else '')
    taken = {}
    for a, b in new.items():
        taken.setdefault(b, []).append(a)
    for b, olds in taken.items():
        if len(olds) > 1:
            print('fall together:', *olds)


main(sys.argv[1] if len(sys.argv) > 1 else '.')
