#!/usr/bin/env python3
"""Brings the names of definitions and lemmas to snake case: a word in camel case or with hyphens gets underscores.

  tools/respell.py [--list]

It runs at the top of the repository, once, behind /opt/rattle/port/port.py, and rewrites files in place; --list says what it would rename and writes nothing.
Types, modules and constructors keep their camel case; functions of src/, names that are imported from a library, text and comments keep their spelling,
but for names in camel case, which can be nothing but a definition's. What falls together is told; EXCEPTIONS has other names for those.
"""
import glob
import os
import re
import sys

NAME = re.compile(r"(?<![\w'-])[^\W\d_][\w'-]*")
DEFINED = re.compile(r"^([ ]*)((?:abbrev|unfoldable|pub|opaque) +)*([^\W\d_][\w'-]*) +:(?![:=])")
FIELD = re.compile(r"[{;(] *([^\W\d_][\w'-]*) +:(?!:)")
USE = re.compile(r"^(?:pub |ghost )?use +([\w.'+-]+)(?:\.\{([^}]*)\})?", re.M)

# Names that would fall together with another one: a lemma beside the word that it speaks of.
EXCEPTIONS = {name: name.replace('-', '_') + '_is' for name in '''
    first-broken packet-item rule-item flow-from ipv6-in free-row on-frame on-listing each-called entries-called extended-called path-called
    sample-called segment-called path-again bit-and counters-found limit-allowed so-far is-over each_again'''.split()}
# Files in which such a name is a record's field and keeps it.
FIELDS = {'crates/writer/specs/Datagrams.antt': {'so-far': 'so_far'}, 'crates/writer/proofs/Theorems.antt': {'so-far': 'so_far'}} | dict.fromkeys(
    ['crates/theorems/specs/Numbers.antt', 'crates/theorems/proofs/Demands.antt'], {'end-lines': 'end_lines_told'})
ALIAS = re.compile(r'^((?:pub )?use [\w.\'+-]+ as )([\w\'-]+)', re.M)


def snake(name):
    if not name[0].islower():
        return name
    parts = re.sub(r'-', '_', name)
    return re.sub(r'(?<=[a-z0-9\'])([A-Z])', lambda m: '_' + m.group(1).lower(), parts).lower() if re.search(r'[A-Z]', parts) else parts


def brought(text):
    """Names that a file gives to what it imports."""
    return {name for m in USE.finditer(text) for name in re.findall(r" as ([a-z][\w'-]*)", m.group(2) or '')}


def is_goal(path):
    return path.endswith('/Proof.antt')


def read(path):
    with open(path, encoding='utf-8') as file:
        return file.read()


def code_parts(text, comment):
    """The text in pieces: (is code, piece). A comment runs to the end of its line; a string is no code either."""
    at, out = 0, []
    pattern = re.compile(r'"(?:[^"\\\n]|\\.)*"|' + re.escape(comment) + r'[^\n]*' if comment == '//' else r'(?<![\w-])--(?!\w)[^\n]*')
    for m in pattern.finditer(text):
        out.append((True, text[at:m.start()]))
        out.append((False, m.group(0)))
        at = m.end()
    out.append((True, text[at:]))
    return out


def own_names():
    """The definitions, lemmas and fields that the repository's own antt files state: name to the files, and those of one proof file alone."""
    every, local = {}, {}
    for path in sorted(glob.glob('crates/*/specs/**/*.antt', recursive=True) + glob.glob('crates/*/proofs/**/*.antt', recursive=True)):
        code = ''.join(piece if is_code else '' for is_code, piece in code_parts(read(path), '--'))
        for line in code.split('\n'):
            m = DEFINED.match(line)
            found = [m.group(3)] if m else []
            if line.strip().startswith(('record', 'abbrev', 'let')) or 'record {' in line:
                found += FIELD.findall(line)
            for name in found:
                if is_goal(path):
                    if not re.search(r': tie\.', line):
                        local.setdefault(path, set()).add(name)
                else:
                    every.setdefault(name, set()).add(path)
    return every, local


def imported(text):
    """The names that a file imports from elsewhere than this repository's crates."""
    crates = set(os.listdir('crates'))
    found = set()
    for m in USE.finditer(text):
        parts = m.group(1).split('.')
        if not (parts[0] == 'Rattle' and len(parts) > 1 and parts[1] in crates):
            found |= {part.strip().split(' as ')[0] for part in (m.group(2) or '').split(',')}
    return found


def renamed(every):
    table = {'ended-so': 'ended_so', 'at-is': 'at_is'}  # port.py turned these where they are stated, and not everywhere
    for name in every:
        new = EXCEPTIONS.get(name, snake(name))
        if new != name:
            table[name] = new
    return table


def aliased(path, text):
    """Modules that a file names by another name, in camel case."""
    names = {m.group(2): ''.join(part.capitalize() for part in re.split('[-_]', m.group(2))) for m in ALIAS.finditer(text) if m.group(2)[0].islower()}
    for old, new in names.items():
        if re.search(rf"(?<![\w.'-]){new}(?![\w'-])", ''.join(p for c, p in code_parts(text, '--') if c)):
            print(f'{path}: the module {old} becomes {new}, which stands there already')
        text = re.sub(rf"(?m)^((?:pub )?use [\w.'+-]+ as ){old}(?![\w'-])", rf'\g<1>{new}', text)
        text = re.sub(rf"(?<![\w.'-]){old}\.(?=\S)", f'{new}.', text)
    return text


def turned(text, table, comment, steps=False):
    swap = lambda m: m.group(0) if steps and m.group(0) in EXCEPTIONS and m.string[:m.start()].endswith('.') else table.get(m.group(0), m.group(0))
    camel = lambda m: table.get(m.group(0), m.group(0)) if re.search(r'[a-z][A-Z]', m.group(0)) else m.group(0)
    return ''.join(NAME.sub(swap if is_code else camel, piece) for is_code, piece in code_parts(text, comment))


def main():
    listing = sys.argv[1:] == ['--list']
    if sys.argv[1:] and not listing:
        print(__doc__)
        sys.exit(2)
    every, local = own_names()
    table = renamed(every)
    changed = {}
    for path in sorted(glob.glob('crates/*/specs/**/*.antt', recursive=True) + glob.glob('crates/*/proofs/**/*.antt', recursive=True)):
        text = read(path)
        kept = imported(text)
        mine = {old: new for old, new in table.items() if old not in kept} | FIELDS.get(path, {})
        mine.update({name: snake(name) for name in set(local.get(path, ())) | brought(text) if snake(name) != name})
        if not is_goal(path):
            text = aliased(path, text)
        changed[path] = turned(text, mine, '--', is_goal(path))
        for old in mine:
            if mine[old] in kept and re.search(rf"(?<![\w'-]){old}(?![\w'-])", text):
                print(f'{path}: {old} becomes {mine[old]}, which is imported there')
        news = {}
        for m in NAME.finditer(''.join(p for c, p in code_parts(text, '--') if c)):
            news.setdefault(mine.get(m.group(0), m.group(0)), set()).add(m.group(0))
        for new, olds in sorted(news.items()):
            if len(olds) > 1:
                print(f'{path}: {" and ".join(sorted(olds))} become {new}')
    for path in sorted(glob.glob('crates/*/src/**/*.rt', recursive=True)):
        text = read(path)
        kept = imported(text)
        mine = {old: new for old, new in table.items() if old not in kept}
        changed[path] = turned(text, mine, '//')
        code = ''.join(p for c, p in code_parts(text, '//') if c)
        for old in set(NAME.findall(code)) & set(mine):
            if re.search(rf'\b{mine[old]}: ', code):
                print(f'{path}: {old} becomes {mine[old]}, which is a parameter or a field there')
    if listing:
        for old, new in sorted(table.items()):
            print(f'{old}\t{new}')
        return
    for path, text in changed.items():
        if text != read(path):
            with open(path, 'w', encoding='utf-8') as file:
                file.write(text)
    with open('tools/respelled.tsv', 'w', encoding='utf-8') as file:
        file.write(''.join(f'{old}\t{new}\n' for old, new in sorted(table.items())))


main()
