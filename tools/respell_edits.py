#!/usr/bin/env python3
"""Brings the texts of wrong programs (crates/CRATE/must-fail/ and wrong-programs/CRATE/) to the spelling that the crates have: names by tools/respelled.tsv,
projections written tight, paths with one dot, and what the library calls otherwise now.

  tools/respell_edits.py

It runs in the repository and rewrites edits in place; a second run changes nothing. It tells which edits do not fit then, and which of its texts it
would change but leaves, since what stands in the crate is not that.
"""
import glob
import os
import re
import sys

ROOT = os.path.dirname(os.path.dirname(os.path.abspath(__file__)))
NAME = re.compile(r"(?<![\w'-])[^\W\d_][\w'-]*")
# Words of the library that go by other names now, and what is spelled otherwise everywhere.
WORDS = {'getD': 'get_or', 'listSet': 'slice_set'}
SPELLED = (
    (r"\u203e?Rattle\u00b7(\w+)\u00b7(specs|proofs)\.\2\b", r'Rattle.\1.\2'),
    (r"\u203e?Rattle\u00b7(\w+)\b", r'Rattle.\1'),
    (r"\.the-variants\b", '.TheVariants'),
    (r"\bset rows\b", 'slice_set rows'),
    (r"\u2032", "'"),
    (r"(?<![\w'\u25cc])_([^\s\w{}(),]{1,2})_(?![\w'\u25cc])", '\u25cc\\1\u25cc'),
    (r"\u00ab(\w+)\u00bb", r'\1'),
)
FIELD = r"[\w']+(?:\.[\w']+)*"


def respelled():
    with open(os.path.join(ROOT, 'tools', 'respelled.tsv'), encoding='utf-8') as table:
        return dict(line.rstrip('\n').split('\t') for line in table)


def snake(name):
    """A definition's name in camel case, in snake case."""
    return re.sub(r"(?<=[a-z0-9'])([A-Z])", lambda m: '_' + m.group(1), name).lower() if re.match(r'[a-z]', name) and re.search(r'[a-z][A-Z]', name) else name


def tight(text):
    """`x .f .g` as `x.f.g`, without the brackets that stood about it alone."""
    before = None
    while text != before:
        before = text
        text = re.sub(rf"\(({FIELD}(?: \.[\w']+)+)\)", lambda m: m.group(1).replace(' .', '.'), text)
    return re.sub(rf"(?<![\w'.])({FIELD}(?: \.[\w']+)+)", lambda m: m.group(1).replace(' .', '.'), text)


def turned(text, table, file):
    if file.endswith('.antt'):
        for old, new in SPELLED:
            text = re.sub(old, new, text)
        text = tight(text)
    name = lambda m: WORDS.get(m.group(0)) or table.get(m.group(0)) or snake(m.group(0))
    return NAME.sub(name, text)


def changes(lines):
    """The number of the line of each old and new text of an edit, with the file that it is for."""
    file = ''
    for number, line in enumerate(lines):
        if line.startswith('file: '):
            file = line[6:]
        elif line.startswith(('old: ', 'new: ')):
            yield number, file


def misfits(crate, lines):
    """The old texts that do not stand exactly once, the changes made one behind the other."""
    texts, old = {}, ''
    for number, file in changes(lines):
        path = os.path.join(ROOT, 'crates', crate, file)
        if file not in texts:
            texts[file] = open(path, encoding='utf-8').read() if os.path.isfile(path) else ''
        if lines[number].startswith('old: '):
            old = lines[number][5:]
            if texts[file].count(old) != 1:
                yield file, old
        else:
            texts[file] = texts[file].replace(old, lines[number][5:])


def main():
    if sys.argv[1:]:
        sys.exit(__doc__)
    table = respelled()
    for path in sorted(glob.glob(os.path.join(ROOT, 'crates', '*', 'must-fail', '*.edit')) + glob.glob(os.path.join(ROOT, 'wrong-programs', '*', '*.edit'))):
        told, parts = os.path.relpath(path, ROOT), os.path.relpath(path, ROOT).split('/')
        with open(path, encoding='utf-8') as edit:
            lines = edit.read().split('\n')
        mended = list(lines)
        for number, file in changes(lines):
            mended[number] = lines[number][:5] + turned(lines[number][5:], table, file)
        if mended != lines:
            if len(list(misfits(parts[1], mended))) <= len(list(misfits(parts[1], lines))):
                with open(path, 'w', encoding='utf-8') as edit:
                    edit.write('\n'.join(mended))
                lines = mended
            else:
                print(f'{told}: left, since less of it would stand in the crate')
        for file, old in misfits(parts[1], lines):
            print(f'{told}: does not stand exactly once in {file}: {old}')


main()
