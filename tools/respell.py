#!/usr/bin/env python3
"""Brings the repository's own definitions and lemmas to today's spelling: facts and types in camel case, other words in snake case.

Run once at the top of the repository, after the kit's port.py:  python3 tools/respell.py
It renames each name with a dash that specs/ or a lemma file of proofs/ declares, wherever clauses, definitions, proofs and
must-fail edits cite it. Comments, strings and the names that Rattle makes for goals and steps are left alone.
It prints what it renamed, and stops without writing where two names of one file would fall together.
"""
import collections
import pathlib
import re
import sys

DASHED = r"[A-Za-z][A-Za-z0-9_']*(?:-[A-Za-z0-9_']+)+"
WORD = re.compile(r"(?<![\w'\-◌])" + DASHED + r"(?![\w'\-◌])")


def code_part(line, path):
    """The line up to its comment."""
    mark = '//' if path.suffix == '.rt' else '--'
    at = line.find(mark)
    while at >= 0:
        if at == 0 or line[at - 1] in ' \t':
            return line[:at]
        at = line.find(mark, at + 2)
    return line


def is_lemma_file(path):
    return path.suffix == '.antt' and (path.parent.name in ('specs', 'proofs'))


def imported(line):
    """Names that a use line takes from a library of the kit."""
    found = set()
    for match in re.finditer(r"use\s+([\w.]+)\.\{([^}]*)\}", line):
        if match.group(1).startswith('Rattle.std') or not match.group(1).startswith('Rattle.'):
            found |= {name.strip().split(' as ')[0] for name in match.group(2).split(',')}
    return found


def declared(line, lemma_file):
    """Names with a dash that a line declares."""
    found = set()
    match = re.match(r"\s*(?:pub\s+|abbrev\s+|unfoldable\s+)*(" + DASHED + r")\s*(?:\{[^}]*\}|\([^)]*\))*\s*:\s*(\S*)", line)
    if match and not match.group(2).startswith('goal.'):
        found.add(match.group(1))
    if not lemma_file:
        return found
    match = re.match(r"\s*pub\s+(?:record|data)\s+(" + DASHED + ")", line)
    if match:
        found.add(match.group(1))
    for match in re.finditer(r"[({]((?:[\w'\-]+\s+)*[\w'\-]+)\s*:\s", line):
        found |= set(re.findall(DASHED, match.group(1)))
    for match in re.finditer(r"λ\s*([^.]*)\.", line):
        found |= set(re.findall(DASHED, match.group(1)))
    for match in re.finditer(r"\blet\s+(" + DASHED + ")", line):
        found.add(match.group(1))
    return found


def respelt(name):
    parts = name.split('-')
    if name[0].isupper():
        return ''.join(part[:1].upper() + part[1:] for part in parts)
    return '_'.join(parts)


def main():
    files = [path for path in sorted(pathlib.Path('crates').rglob('*')) if path.suffix in ('.antt', '.rt', '.edit') and 'out' not in path.parts]
    own, library = set(), set()
    for path in files:
        if path.suffix != '.antt':
            continue
        for line in path.read_text().split('\n'):
            code = code_part(line, path)
            library |= imported(code)
            own |= declared(code, is_lemma_file(path))
    own -= library
    renaming = {name: respelt(name) for name in own}

    together, texts = [], {}
    for path in files:
        text = path.read_text()
        lines, before = [], set()
        for line in text.split('\n'):
            code = code_part(line, path)
            before |= set(re.findall(r"[A-Za-z][\w'\-]*", code))
            lines.append(WORD.sub(lambda match: renaming.get(match.group(0), match.group(0)), code) + line[len(code):])
        if path.suffix == '.antt':
            here = collections.defaultdict(set)
            for name in before:
                here[renaming.get(name, name)].add(name)
            together += [(path, names) for names in here.values() if len(names) > 1]
        new = '\n'.join(lines)
        if new != text:
            texts[path] = new
    for path, names in together:
        print(f'falls together: {path}: {" ".join(sorted(names))}')
    if together and '--anyway' not in sys.argv:
        sys.exit(1)
    for path, text in texts.items():
        path.write_text(text)
    for name in sorted(renaming):
        print(f'{name} -> {renaming[name]}')
    print(f'{len(renaming)} names in {len(texts)} files')


if __name__ == '__main__':
    main()
