"""Figures in the documents: each is counted in the tree, or taken from the one place that is its source, and every place that says it has to agree.

A figure is what it counts, how it is found, and the words that the documents say it in: patterns whose one group is the figure. Words that no document has are
a fault too, so that a figure does not go unchecked once its sentence is written anew."""
import re

import tree

PERFORMANCE = 'docs/PERFORMANCE.md'
WORDS = ('zero one two three four five six seven eight nine ten eleven twelve thirteen fourteen fifteen sixteen seventeen eighteen nineteen twenty '
         'twenty-one twenty-two twenty-three twenty-four').split()
NUMBER = rf'(\d+(?:[,_]\d{{3}})*|(?i:{"|".join(sorted(WORDS, key=len, reverse=True))}))\b'


class Lost(Exception):
    """A figure cannot be found where it is looked for."""


def number(said):
    """A figure as a number: digits, with commas or not, or a word; -1 where it is neither."""
    digits = re.sub(r'[,_]', '', said)
    return int(digits) if digits.isdigit() else WORDS.index(said.lower()) if said.lower() in WORDS else -1


def written(value, like):
    """A number in digits or as a word, as what it is put in place of."""
    if like[0].isdigit() or value >= len(WORDS):
        return f'{value:,}' if ',' in like or value >= 1000 else str(value)
    return WORDS[value].capitalize() if like[0].isupper() else WORDS[value]


# how figures are found


def found(path, pattern):
    match = re.search(pattern, tree.text(path), re.S)
    if not match:
        raise Lost(f'{path} has no {pattern}')
    return number(match.group(1))


def octets(path):
    with open(f'{tree.ROOT}/{path}', 'rb') as file:
        return file.read()


def strings(crate):
    """How many whole strings a program's vectors are, each behind its length in four octets."""
    data, at, count = octets(f'crates/{crate}/stdin'), 0, 0
    while at + 4 <= len(data):
        at += 4 + int.from_bytes(data[at:at + 4], 'big')
        count += at <= len(data)
    return count


def accepted():
    return len(re.findall(r'^accepted', tree.text('crates/reader_vectors/stdout'), re.M))


def minutes():
    """The measured run of the gate, to the nearest minute."""
    whole, seconds = (found(PERFORMANCE, pattern) for pattern in (r'must-fail edits: (\d+) min', r'must-fail edits: \d+ min (\d+) s'))
    return whole + (seconds >= 30)


def constant(path, name):
    return found(path, rf'const {name}: usize = ([\d_]+);')


def inputs(part, name):
    """A number of inputs of the differential tests: a constant of the file that is named after the part."""
    return lambda: constant(f'differential/src/{part}.rs', name)


def measured(pattern):
    return lambda: found(PERFORMANCE, pattern)


ROOM = 'crates/record_lines/proofs/Room.antt'
RECORDS = 'crates/record_lines/specs/Records.antt'

# What it is, how it is found, in which words it is said.
FIGURES = (
    ('vectors of the reader', lambda: strings('reader_vectors'), (rf'on {NUMBER} vectors',)),
    ('accepted vectors of the reader', accepted, (rf'{NUMBER} accepted vectors',)),
    ('operations of the ledger', lambda: len(octets('crates/ledger_vectors/stdin')) // 64, (rf'on {NUMBER} operations',)),
    ('samples of the attributes', lambda: strings('attribute_vectors'), (rf'on {NUMBER} samples', rf'`attribute_vectors` \({NUMBER} samples\)')),
    ('rule sets of the check', lambda: strings('check_vectors'), (rf'samples and {NUMBER} rule sets',)),
    ('pairs of the engine', lambda: strings('engine_vectors') // 2, (rf'on {NUMBER} pairs',)),
    ('wrong programs in the gate', lambda: len(tree.files('crates/*/must-fail/*.edit')), (rf'\*\*In the gate\*\* {NUMBER} are tried',)),
    ('wrong programs', lambda: len(tree.files('crates/*/must-fail/*.edit', 'wrong-programs/*/*.edit')), (rf'of {NUMBER} in all',)),
    ('exported functions', lambda: len(tree.exported()), (rf'\*\*{NUMBER} functions\*\*', rf'That all\s+{NUMBER} meet', rf'no part of one of the {NUMBER},')),
    ('cases of document 01', lambda: sum(name.startswith('case_') for name in tree.tests('all_cases')), (rf'the {NUMBER} cases', rf'all {NUMBER} cases')),
    ('room for any record', lambda: found(ROOM, r'room_enough : [^\n]*≤ (\d+)'),
     (rf'with {NUMBER} octets left takes', rf'and {NUMBER} octets of output take', rf'SFLOW4_LINES_ROOM = {NUMBER},', rf'const LINES_ROOM: usize = {NUMBER};',
      rf'room_for_any = {NUMBER}')),
    ('most samples of a datagram', lambda: found(ROOM, r'samples_few : [^\n]*≤ (\d+)'), (rf'has at most {NUMBER} samples',)),
    ('room for a record', lambda: found(RECORDS, r'\(Ok h\) = (\d+) \+'),
     (rf'\b{NUMBER} octets,? and \d+ (?:a|for each) sample', rf'const RECORD_ROOM: usize = {NUMBER};')),
    ('room for a sample', lambda: found(RECORDS, r'\(Ok h\) = \d+ \+ (\d+) \*'),
     (rf'octets,? and {NUMBER} (?:a|for each) sample', rf'const SAMPLE_ROOM: usize = {NUMBER};')),
    ('room for the last lines', lambda: found('crates/listing/src/lib.rt', r'write_line (\d+) '),
     (rf'`record_lines/Lines.write_line` with {NUMBER}\b', rf'SFLOW4_END_LINES_ROOM = {NUMBER},', rf'where the output has fewer than {NUMBER} octets')),
    ("numbers of the ledger's table", lambda: found('crates/ledger_calls/specs/LedgerTable.antt', r'\(\w+ (\d+) \(length ns\)\)'),
     (r'table (?:of|as|has) (?:fewer than )?(\d+) numbers', r'all (\d+) numbers', rf'SFLOW4_LEDGER_NUMBERS = {NUMBER},', rf'empty table is {NUMBER} zeros')),
    ('datagrams of `reading`', inputs('reading', 'DATAGRAMS'), (rf'\| `reading` \| {NUMBER} datagrams',)),
    ('calls of `writing`', inputs('writing', 'CALLS'), (rf'\| `writing` \| {NUMBER} calls',)),
    ('appends of `writing`', inputs('writing', 'APPENDS'), (rf'\| `writing` \|[^|]*? {NUMBER} appends from values',)),
    ('datagrams of `writing`', inputs('writing', 'DATAGRAMS'), (rf'\| `writing` \|[^|]*? {NUMBER} datagrams',)),
    ('runs of `ledger`', inputs('ledger', 'RUNS'), (rf'\| `ledger` \| {NUMBER} runs',)),
    ('sets of `rule-sets`', inputs('rule_sets', 'SETS'), (rf'\| `rule-sets` \| {NUMBER} sets',)),
    ('pairs of `rule-sets`', inputs('rule_sets', 'PAIRS'), (rf'\| `rule-sets` \|[^|]*? {NUMBER} pairs',)),
    ('captures of `lines`', inputs('lines', 'CAPTURES'), (rf'\| `lines` \| {NUMBER} captures',)),
    ('minutes of the gate', minutes, (rf'took some {NUMBER} minutes',)),
    ('edits of the measured gate', measured(r'with (\d+) must-fail edits'), (rf'\| {NUMBER} must-fail edits \|',)),
    ('octets of the counters measured', measured(r'counter samples \(([\d,]+) octets\)'), (rf'counter samples \({NUMBER}\s+octets\)',)),
    ('octets of the flows measured', measured(r'switch entry each \(([\d,]+) octets\)'), (rf'(?:switch|switch entry each) \({NUMBER}\s+octets\)',)),
    ('instructions for counters written', measured(r'counters, written\s+([\d,]+)'), (rf'against {NUMBER} and [\d,]+ from values',)),
    ('instructions for flows written', measured(r'flows, written\s+([\d,]+)'), (rf'against [\d,]+ and {NUMBER} from values',)),
)
# sources that say figures of their own beside the documents
SOURCES = ('rust/src/listing.rs', 'differential/src/lines.rs', 'differential/src/expected_lines.rs', 'crates/lister/specs/Held.antt')


def places(pattern):
    """Where the documents say a figure in these words: file and match."""
    for path in tree.files(*tree.DOCUMENTS, *SOURCES):
        for match in re.finditer(pattern.replace(' ', r'\s+'), tree.text(path)):
            yield path, match


def wrong_places(figure):
    """Each place where a figure is not the right one: file, match, the right one."""
    _, find, patterns = figure
    value = find()
    for pattern in patterns:
        for path, match in places(pattern):
            if number(match.group(1)) != value:
                yield path, match, written(value, match.group(1))


def mend():
    """Puts the right figures into the documents; tells each."""
    changes = {}
    for figure in FIGURES:
        try:
            for path, match, right in wrong_places(figure):
                if path.endswith('.md'):
                    changes.setdefault(path, []).append((match.start(1), match.end(1), right, figure[0]))
        except Lost:
            continue
    for path, places_in in sorted(changes.items()):
        source = tree.text(path)
        for start, end, right, what in sorted(places_in, reverse=True):
            yield f'{path}:{tree.line_of(path, start)}: {what}: {source[start:end]} is now {right}'
            source = source[:start] + right + source[end:]
        with open(f'{tree.ROOT}/{path}', 'w', encoding='utf-8') as file:
            file.write(source)


def check(fault):
    """Gives each fault to `fault`, and answers in how many places figures were looked up."""
    count = 0
    for figure in FIGURES:
        what, _, patterns = figure
        try:
            for path, match, right in wrong_places(figure):
                fault(f'{path}:{tree.line_of(path, match.start(1))}: {what}: it says {match.group(1)}, and should say {right}')
        except (Lost, OSError) as error:
            fault(f'{what} cannot be found: {error}')
        for pattern in patterns:
            said = len(list(places(pattern)))
            count += said
            if not said:
                fault(f'{what}: no document says it in these words: {pattern.replace(NUMBER, "N")}')
    return count
