"""What the tree has: files, the crates, what is defined where."""
import functools
import glob
import os
import re

ROOT = os.path.dirname(os.path.dirname(os.path.dirname(os.path.abspath(__file__))))
DOCUMENTS = ('README.md', 'docs/*.md', 'conformance/README.md', 'differential/README.md', 'rust/README.md', 'include/sflow4.h')
CODE = ('crates/*/src/*.rt', 'crates/*/specs/*.antt', 'crates/*/proofs/**/*.antt', 'conformance/src/**/*.rs', 'conformance/tests/**/*.rs',
        'differential/src/*.rs', 'rust/src/*.rs', 'rust/tests/**/*.rs', 'rust/examples/*.rs', 'include/*.h', 'tests/*', 'examples/*', 'bench/*',
        'wrong-programs/*')
NAME = r'[A-Za-z_]\w*(?:-\w+)*'
# The crate whose functions C and Rust call: export_c, or export where it is not there.
EXPORT_CRATE = 'export_c' if os.path.isdir(os.path.join(ROOT, 'crates', 'export_c')) else 'export'
EXPORT = f'crates/{EXPORT_CRATE}/src/lib.rt'


@functools.lru_cache(None)
def text(path):
    with open(os.path.join(ROOT, path), encoding='utf-8') as file:
        return file.read()


def forget():
    """Files were written: they are read again."""
    text.cache_clear()


def files(*patterns):
    """The files that patterns name, from the root, in order."""
    found = (glob.glob(os.path.join(ROOT, pattern), recursive=True) for pattern in patterns)
    return sorted({os.path.relpath(path, ROOT) for paths in found for path in paths if os.path.isfile(path)})


def exists(path):
    return bool(glob.glob(os.path.join(ROOT, path)))


def line_of(path, at):
    return text(path).count('\n', 0, at) + 1


@functools.lru_cache(None)
def crates():
    return {line.split(':')[0].split()[0] for line in text('crates.txt').splitlines() if line and not line.startswith('#')}


@functools.lru_cache(None)
def uncommented(path):
    """A source without the comments that reach to a line's end, or stand between marks."""
    source = text(path)
    if path.endswith(('.c', '.h')):
        return re.sub(r'/\*.*?\*/', '', source, flags=re.S)
    mark = {'.antt': '--', '.rt': '//', '.rs': '//'}.get(os.path.splitext(path)[1])
    return re.sub(rf'(?:^|(?<=\s)){mark}.*', '', source, flags=re.M) if mark else source


@functools.lru_cache(None)
def defined(path):
    """What a file of definitions or proofs declares: a name, its parameters if any, a colon and its type; constructors and fields too."""
    words = r'(?:(?:pub|abbrev|unfoldable|data|record)\s+)*'
    return set(re.findall(rf'^\s*{words}({NAME})(?:\s+[({{][^\n]*?)?\s*:(?=\s)', uncommented(path), re.M))


@functools.lru_cache(None)
def public_functions(path):
    return set(re.findall(r'^pub (?:extern "C" )?fn (\w+)', uncommented(path), re.M))


@functools.lru_cache(None)
def parameters(path):
    """The names of the parameters of each public function of a source."""
    found = re.findall(r'^pub (?:extern "C" )?fn (\w+)(?:<[^>]*>)?\(([^)]*)\)', uncommented(path), re.M)
    return {name: re.findall(r'(\w+):', given) for name, given in found}


@functools.lru_cache(None)
def exported():
    return public_functions(EXPORT)


@functools.lru_cache(None)
def edits(crate):
    """The wrong programs of a crate, by name."""
    return {os.path.basename(path)[:-5] for path in files(f'crates/{crate}/must-fail/*.edit', f'wrong-programs/{crate}/*.edit')}


@functools.lru_cache(None)
def parts():
    """The parts of the differential tests: the names in their table."""
    table = re.search(r'static PARTS\b.*?\];', text('differential/src/parts.rs'), re.S)
    return set(re.findall(r'"([\w-]+)"', table.group(0))) if table else set()


@functools.lru_cache(None)
def tests(module):
    """The tests in a file of the second program's."""
    path = f'conformance/tests/all/{module}.rs'
    return set(re.findall(r'#\[test\]\s+fn (\w+)', text(path))) if exists(path) else set()


@functools.lru_cache(None)
def starred_cases():
    """The numbers of the cases in the table of crate theorems."""
    table = text('crates/theorems/specs/Cases.antt').split('\ncases =', 1)[1]
    return {int(number) for number in re.findall(r'^\s*-- (\d+):', table, re.M)}


@functools.lru_cache(None)
def all_names():
    """Every name that stands in code, outside of comments, and the names of files, folders, crates and edits."""
    found = set()
    for path in files(*CODE):
        found.update(re.findall(NAME, uncommented(path)))
        found.update(re.findall(r'\w+', uncommented(path)))
        found.add(os.path.splitext(os.path.basename(path))[0])
    for crate in crates():
        found.update(edits(crate), [crate])
    return found
