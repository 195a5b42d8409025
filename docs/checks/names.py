"""Every name in the documents is that of something. docs/TRACE.md says in its first table how names are written; each is looked up where it says. Of
docs/ARCHITECTURE.md the tables of crates, files and theorems are looked up so; in the other documents a name has to stand somewhere in the code."""
import os
import re

import tree

TRACE = 'docs/TRACE.md'
ARCHITECTURE = 'docs/ARCHITECTURE.md'
DIFFERENTIAL = 'differential/README.md'
KINDS = re.compile(r'\b(law|edit|test|differential)s?\s*$')
JOINED = ('', 'and', 'or')
COMPARED = ('README.md', 'docs/DECISIONS.md', 'docs/REFERENCE.md', 'docs/PERFORMANCE.md', ARCHITECTURE, 'conformance/README.md', DIFFERENTIAL,
            'rust/README.md')


class Said:
    """Something between backquotes: what, where it begins, the text since the one before it, and the file that it is said to be in, as in `name` in `file`."""

    def __init__(self, text, match, end):
        self.name, self.at, self.before = match.group(1), match.start(), text[end:match.start()]
        home = re.match(r'(?: and `[^`]*`)? in `([^`]*)`', text[match.end():])
        self.home = home.group(1) if home else ''


def units(path):
    """Rows of tables and paragraphs, each with its offset. What stands between fences, or is indented as code, is none."""
    source = re.sub(r'^```.*?^```|^    [^\n]*', lambda code: re.sub(r'[^\n]', ' ', code.group(0)), tree.text(path), flags=re.M | re.S)
    for match in re.finditer(r'^\|[^\n]*|^[^\s|][^\n]*(?:\n(?!\||- )[^\n]*\S[^\n]*)*', source, re.M):
        yield match.start(), match.group(0)


def said_in(text):
    end = 0
    for match in re.finditer(r'`([^`]*)`', text):
        yield Said(text, match, end)
        end = match.end()


def cells(row):
    return [cell.strip() for cell in row.strip('|').split('|')]


# docs/TRACE.md


class Row:
    """What a row has named so far, for the names that mean something only behind others."""

    def __init__(self):
        self.kind, self.file, self.module, self.places = '', '', '', []

    def turn(self, said):
        """Which kind of name comes next: the word before it says so, and holds for those that are joined to it."""
        word = KINDS.search(said.before)
        if word:
            self.kind = word.group(1)
        elif said.before.strip(' ,\n') not in JOINED or '|' in said.before:
            self.kind = ''
        if said.home:
            self.place(said.home)

    def place(self, *paths):
        self.places = [path for path in paths if tree.exists(path)]


def is_path(name):
    first = name.split('/')[0]
    return '/' in name and ' ' not in name and first not in tree.crates() and tree.exists(first)


def wrong_definition(row, name):
    """`crate/File.name`: a law is in the crate's proofs, anything else in its definitions."""
    crate, file = name.split('.')[0].split('/')
    row.file = f'crates/{crate}/{"proofs" if row.kind == "law" else "specs"}/{file}.antt'
    row.place(row.file)
    if not tree.exists(row.file):
        return f'there is no {row.file}'
    wanted = name.partition('.')[2]
    return '' if not wanted or wanted in tree.defined(row.file) else f'{row.file} has no {wanted}'


def wrong_function(row, name):
    """`crate::module::function`, or `..::function` of the module before it."""
    *module, function = name.split('::')
    if module != ['..']:
        row.module = f'crates/{module[0]}/src/{module[1] if len(module) > 1 else "lib"}.rt'
    row.place(row.module)
    if not tree.exists(row.module):
        return f'there is no {row.module or "module before it"}'
    return '' if function in tree.public_functions(row.module) else f'{row.module} has no public function {function}'


def wrong_edit(name):
    crate, _, edit = name.partition('/')
    return '' if edit in tree.edits(crate) else f'neither crates/{crate}/must-fail nor wrong-programs/{crate} has {edit}.edit'


def wrong_test(name):
    module, _, test = name.partition('::')
    return '' if test in tree.tests(module) else f'conformance/tests/all/{module}.rs has no test {test}'


def stands_in(path, name):
    """Whether a name, or a piece of code in which `..` is left out, stands in a file."""
    piece = r'.*'.join(re.escape(part) for part in name.split('..')) if ' .. ' in name else re.escape(name)
    return re.search(rf'(?<![\w-]){piece}(?![\w-])', tree.uncommented(path)) is not None


def is_function_in(path, name):
    """Whether a function is defined or called in a source."""
    return re.search(rf'(?<!\w){name}(?:<[^>]*>)?\s*\(', tree.uncommented(path)) is not None


def wrong_word(row, name):
    """A name by itself: a crate, an exported function, a command, or something in the file that the row named before it."""
    if name in tree.crates():
        row.place(*tree.files(f'crates/{name}/src/*.rt'))
        return ''
    if re.fullmatch(r'(?:sflow4|rtfm)_\w+', name):
        return '' if name in tree.exported() else f'crate {tree.EXPORT_CRATE} has no such function'
    if name.startswith('make '):
        return '' if re.search(rf'^{name[5:]}:', tree.text('Makefile'), re.M) else 'the Makefile has no such target'
    if name.startswith('_'):
        return '' if any(crate.endswith(name) for crate in tree.crates()) else 'no crate ends so'
    anywhere = tree.files('crates/*/src/*.rt')
    if not re.fullmatch(tree.NAME, name) or not row.places:
        return '' if any(stands_in(path, name) for path in row.places + anywhere) else 'it does not stand in the code'
    in_code = row.places[0].endswith(('.rt', '.rs', '.c')) and re.fullmatch('[a-z][a-z0-9_]*', name)
    there = any((is_function_in if in_code else stands_in)(path, name) for path in row.places)
    return '' if there else f'it does not stand in {", ".join(row.places)}'


def wrong_name(row, name):
    """What is wrong with a name of docs/TRACE.md, or nothing."""
    if not re.search(r'[A-Za-z]', name):
        return ''
    if row.kind == 'edit':
        return wrong_edit(name)
    if row.kind == 'test':
        return wrong_test(name)
    if row.kind == 'differential':
        return '' if name in tree.parts() else 'differential/src/parts.rs has no such part'
    if re.fullmatch(rf'[a-z_]+/[A-Z]\w*(?:\.{tree.NAME})?', name):
        return wrong_definition(row, name)
    if re.fullmatch(r'(?:\.\.|\w+)(?:::\w+)+', name):
        return wrong_function(row, name)
    if name.startswith('.'):
        return '' if row.file and name[1:] in tree.defined(row.file) else f'{row.file or "no file before it"} has no {name[1:]}'
    if is_path(name):
        row.place(*tree.files(name))
        return '' if tree.exists(name) else 'there is no such file'
    return wrong_word(row, name)


def case_numbers(text):
    """The numbers of a list such as 1, 4 or 12 to 16."""
    for part in re.split(r', | and ', text.replace('*', '')):
        first, _, last = part.partition(' to ')
        yield from range(int(first), int(last or first) + 1)


def wrong_cases(text):
    for match in re.finditer(r'\bcases? (\d+(?:(?:, | to | and )\d+)*)', text):
        for number in case_numbers(match.group(1)):
            if number not in tree.starred_cases():
                yield match.start(), f'case {number}', 'it is not in theorems/Cases.cases'


def starred_rows(fault):
    """The table of cases names each number once, with a star exactly where theorems/Cases.cases has it."""
    numbers = {}
    for at, text in units(TRACE):
        first = cells(text)[0] if text.startswith('|') else ''
        if re.fullmatch(r'\d+\*?(?:(?:, | to )\d+\*?)*', first):
            numbers.update(dict.fromkeys(case_numbers(first), '*' in first))
    tested = {int(name[5:]) for name in tree.tests('all_cases') if name.startswith('case_')}
    if set(numbers) != tested or {number for number, star in numbers.items() if star} != tree.starred_cases():
        fault(f'{TRACE}: the table of cases does not have the numbers, and stars, of conformance/tests/all/all_cases.rs and theorems/Cases.cases')


def check_trace(fault):
    count = 0
    for at, text in units(TRACE):
        row = Row()
        for said in said_in(text):
            count += 1
            row.turn(said)
            wrong = wrong_name(row, said.name)
            if wrong:
                fault(f'{TRACE}:{tree.line_of(TRACE, at + said.at)}: {(row.kind + " ").lstrip()}`{said.name}`: {wrong}')
        for place, name, wrong in wrong_cases(text):
            fault(f'{TRACE}:{tree.line_of(TRACE, at + place)}: {name}: {wrong}')
    starred_rows(fault)
    return count


# the tables of docs/ARCHITECTURE.md and README.md


def tables(path):
    """Each row of a table with its offset and the heading of the table's first column."""
    heading = ''
    for at, text in units(path):
        if not text.startswith('|'):
            heading = ''
        elif not heading:
            heading = cells(text)[0]
        elif not re.fullmatch(r'[|\s-]+', text):
            yield at, heading, text


def paths_in(names):
    """Paths, where those behind the first may go without the folder, and files of definitions without their ending."""
    folder = ''
    for name in names:
        if '/' in name:
            folder = name if name.endswith('/') else os.path.dirname(name) + '/'
            yield name
        else:
            yield folder + name + ('' if name.endswith('.antt') else '.antt')


def theorem_groups(cell, default, last):
    """The theorems of a cell with the files that they are in: those in the brackets behind them, the row before's, or the default."""
    for match in re.finditer(r'((?:`[^`]*`(?:, )?)+)(?:\s*\(([^)]*)\))?', cell):
        named = [said.name for said in said_in(match.group(1))]
        inside = [said.name for said in said_in(match.group(2) or '')]
        yield named, list(paths_in(inside)) if inside else last if match.group(2) == 'the same' else [default]


def wrong_theorems(cell, default, last):
    """What is wrong with a row of theorems; the files that it names stay in `last`."""
    for named, paths in theorem_groups(cell, default, list(last)):
        last[:] = paths
        if named[0].endswith('.antt'):
            yield from (f'there is no {name}' for name in named if not tree.exists(name))
            continue
        yield from (f'there is no {path}' for path in paths if not tree.exists(path))
        found = tree.files(*(path + '*.antt' if path.endswith('/') else path for path in paths))
        yield from (f'`{name}` is not in {", ".join(paths)}' for name in named if not any(name in tree.defined(path) for path in found))


def check_tables(fault):
    """The tables of ARCHITECTURE: crates, files, theorems."""
    default = re.search(r'`([^`]*)` where no file is named', tree.text(ARCHITECTURE)).group(1)
    last, crates, count = [default], set(), 0
    for at, heading, row in tables(ARCHITECTURE):
        names, wrong = [said.name for said in said_in(cells(row)[0])], []
        count += len(names)
        if heading == 'Crate':
            crates.update(names)
        elif heading == 'File':
            wrong = [f'there is no {path}' for path in paths_in(names) if not tree.exists(path)]
        elif heading == 'Theorem':
            wrong = wrong_theorems(cells(row)[0], default, last)
        for told in wrong:
            fault(f'{ARCHITECTURE}:{tree.line_of(ARCHITECTURE, at)}: {told}')
    for name in sorted(crates ^ tree.crates()):
        fault(f'{ARCHITECTURE}: crate {name} is not in {"crates.txt" if name in crates else "its table of crates"}')
    return count


def check_crates(path, fault):
    """What the first column of a table of crates, or of the README's parts, names is a crate or a path."""
    for at, heading, row in tables(path):
        for said in said_in(cells(row)[0]) if heading in ('Crate', 'Part') and path != DIFFERENTIAL else ():
            if said.name not in tree.crates() and not ('/' in said.name and tree.exists(said.name)):
                fault(f'{path}:{tree.line_of(path, at)}: `{said.name}` is not in crates.txt')


def check_parts(fault):
    """The table of the differential tests has their parts."""
    named = {said.name for _, heading, row in tables(DIFFERENTIAL) if heading == 'Part' for said in said_in(cells(row)[0])}
    if named != tree.parts():
        fault(f'{DIFFERENTIAL}: its table of parts does not have those of differential/src/parts.rs: {", ".join(sorted(named ^ tree.parts()))}')


def check_definition_files(fault):
    """Every file of definitions is named in ARCHITECTURE, so that nothing has to be believed that it does not name."""
    named = set()
    for _, text in units(ARCHITECTURE):
        named.update(paths_in(said.name for said in said_in(text)))
    for path in tree.files('crates/*/specs/*.antt'):
        if path not in named and not path.endswith('/Lib.antt'):
            fault(f'{ARCHITECTURE}: {path} is not named')


# all documents


def wrong_path(folder, name):
    """A path from the root or from the document's folder; a part in capitals stands for any, and what is built need not be there."""
    if re.match(r'(?:\.\./)*(?:target/|crates/\w+/out/)|[A-Z]+/', name):
        return ''
    pattern = re.sub(r'\b[A-Z]+\b', '*', name) if not name.endswith('.md') else name
    return '' if tree.exists(pattern) or tree.exists(os.path.join(folder, pattern)) else 'there is no such file'


def wrong_call(name):
    """`crate::module::function(a, b)`, or without the module: a public function with parameters of these names; `..` leaves out those that are not said."""
    function, given = name.rstrip(')').split('(')
    *module, function = function.split('::')
    path = f'crates/{module[0]}/src/{module[1] if len(module) > 1 else "lib"}.rt' if module else 'crates/*/src/*.rt'
    sources = tree.files(path) if module else tree.files(path, 'conformance/src/inputs.rs')
    known = [tree.parameters(source)[function] for source in sources if function in tree.parameters(source)]
    said = [word.split()[-1] for word in re.split(r',\s*', given.replace('&', '')) if word]
    if not known:
        return f'there is no public function {function} in {path}'
    return '' if said == ['..'] or said in known else f'its parameters are {", ".join(known[0])}'


def wrong_anywhere(folder, name):
    """A name that only has to stand somewhere: a path, a definition, law or edit of a crate, or names of the code."""
    row = Row()
    if name.startswith(('make ', '_')):
        return wrong_word(row, name)
    if re.fullmatch(r'[\w.*-]+(?:/[\w.*-]*)+', name):
        if name.split('/')[0] not in tree.crates():
            return wrong_path(folder, name)
        law = Row()
        law.kind = 'law'
        return wrong_edit(name) and wrong_name(row, name) and wrong_name(law, name) and wrong_path('crates', name)
    if re.fullmatch(r'[a-z]\w*(?:::\w+)*\([^()]*\)', name):
        return wrong_call(name)
    if re.fullmatch(r'\w+\.antt', name):
        return wrong_path('crates/*/*', name)
    if re.fullmatch(rf'{tree.NAME}(?:::{tree.NAME})*(?:\([^()]*\))?', name):
        missing = [part for part in re.split(r'::', name.split('(')[0]) if part not in tree.all_names()]
        return f'{missing[0]} does not stand in the code' if missing else ''
    return ''


def check_anywhere(path, fault):
    count = 0
    for at, text in units(path):
        for said in said_in(text):
            count += 1
            wrong = wrong_anywhere(os.path.dirname(path), said.name)
            if wrong:
                fault(f'{path}:{tree.line_of(path, at + said.at)}: `{said.name}`: {wrong}')
    return count


def check(fault):
    """Gives each fault to `fault`, and answers how many names were looked up."""
    count = check_trace(fault) + check_tables(fault)
    check_definition_files(fault)
    check_parts(fault)
    for path in COMPARED:
        check_crates(path, fault)
        count += check_anywhere(path, fault)
    return count
