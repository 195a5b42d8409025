"""include/sflow4.h and rust/src/calls.rs declare exactly the functions that are exported (crates/export_c/src/lib.rt): the same names, and of each the same
parameters in the same order, with the same names and widths, and the same result. A slice of n is passed as a pointer n and a length n_length. Each is that of the
same name in crates/export, about which the theorems speak: with the same parameters, result and clauses."""
import re

import tree

EXPORT, SAME, HEADER, CALLS = tree.EXPORT, 'crates/export/src/lib.rt', 'include/sflow4.h', 'rust/src/calls.rs'
C_TYPES = {'uint8_t': 'u8', 'uint16_t': 'u16', 'uint32_t': 'u32', 'uint64_t': 'u64', 'size_t': 'usize'}


class Unknown(Exception):
    """Something stands there that is no declaration of the kind known here."""


def split(given):
    """Parameters between commas; a comma may stand behind the last."""
    return [' '.join(part.split()) for part in given.split(',') if part.strip()]


def whole(pattern, given):
    match = re.fullmatch(pattern, given)
    if not match:
        raise Unknown(given)
    return match.groups()


def passed(given):
    """A parameter of Rattle as C passes it: name and type, of a slice those of pointer and length."""
    name, kind = whole(r'(\w+): (.+)', given)
    slice_of = re.fullmatch(r'&(mut )?\[(\w+)\]', kind)
    if slice_of:
        return [(name, f'*{"mut" if slice_of.group(1) else "const"} {slice_of.group(2)}'), (f'{name}_length', 'usize')]
    whole(r'u8|u16|u32|u64|usize', kind)
    return [(name, kind)]


def exported():
    """Name, parameters as passed and result of each exported function, with the offset of its declaration."""
    source = tree.uncommented(EXPORT)
    for match in re.finditer(r'(#\[unsafe\(no_mangle\)\]\s+)?pub extern "C" fn (\w+)\(([^)]*)\)\s*->\s*(\w+)', source):
        if not match.group(1):
            raise Unknown(f'{match.group(2)} without #[unsafe(no_mangle)]')
        yield match.group(2), [part for given in split(match.group(3)) for part in passed(given)], match.group(4)


def c_parameter(given):
    const, kind, pointer, name = whole(r'(const )?(\w+) (\*)?(\w+)', given)
    if kind not in C_TYPES or const and not pointer:
        raise Unknown(given)
    return name, f'*{"const" if const else "mut"} {C_TYPES[kind]}' if pointer else C_TYPES[kind]


def in_header():
    """The same of the header: what is left of it without comments, preprocessor lines and enums are declarations."""
    source = re.sub(r'^#.*', '', tree.uncommented(HEADER), flags=re.M)
    source = re.sub(r'enum\s*\{[^}]*\}\s*;|extern "C" \{|\n\}', '', source)
    for declaration in filter(str.strip, source.split(';')):
        kind, name, given = whole(r'\s*(\w+) (\w+)\(([^()]*)\)\s*', declaration)
        yield name, [c_parameter(part) for part in split(given)], C_TYPES.get(kind, kind)


def in_calls():
    """The same of the Rust crate's declarations."""
    block = re.search(r'extern "C" \{(.*?)\n\}', tree.uncommented(CALLS), re.S).group(1)
    for declaration in filter(str.strip, block.split(';')):
        name, given, kind = whole(r'\s*fn (\w+)\(([^()]*)\)\s*->\s*(\w+)\s*', declaration)
        yield name, [whole(r'(\w+): (\*(?:const|mut) \w+|\w+)', part) for part in split(given)], kind


def stated(path):
    """What a source states of each public function: its parameters, result and clauses."""
    source = tree.uncommented(path)
    found = re.finditer(r'^pub (?:extern "C" )?fn (\w+)\(([^)]*)\)\s*->\s*(\w+)(?: \{\n|(.*?)\n\{\n)', source, re.M | re.S)
    return {match.group(1): (split(match.group(2)), match.group(3), ' '.join((match.group(4) or '').split())) for match in found}


def same_statements(fault):
    """What is exported states of each function what crate export does, where it is another crate."""
    if EXPORT == SAME:
        return
    ours, theirs = stated(EXPORT), stated(SAME)
    for name in sorted(set(ours) | set(theirs)):
        if name not in ours or name not in theirs:
            fault(f'{EXPORT if name not in ours else SAME}: {name} is not there')
        elif ours[name] != theirs[name]:
            fault(f'{EXPORT}:{line_of(EXPORT, name)}: {name}: parameters, result or clauses differ from those of {SAME}:{line_of(SAME, name)}')


def different(ours, theirs):
    """In what two declarations of a function differ."""
    for number, (wanted, found) in enumerate(zip(ours[0], theirs[0]), 1):
        if wanted != found:
            yield f'parameter {number} is {": ".join(found)}, and should be {": ".join(wanted)}'
    if len(ours[0]) != len(theirs[0]):
        yield f'it has {len(theirs[0])} parameters, and should have {len(ours[0])}'
    if ours[1] != theirs[1]:
        yield f'its result is {theirs[1]}, and should be {ours[1]}'


def line_of(path, name):
    match = re.search(rf'\b{name}\(', tree.text(path))
    return tree.line_of(path, match.start()) if match else 1


def compare(path, functions, declared, fault):
    found = {name: (parameters, result) for name, parameters, result in declared}
    for name in sorted(set(found) ^ set(functions)):
        fault(f'{path}:{line_of(path, name)}: {name} is ' + (f'not in {EXPORT}' if name in found else 'not declared'))
    for name in sorted(set(found) & set(functions)):
        for told in different(functions[name], found[name]):
            fault(f'{path}:{line_of(path, name)}: {name}: {told} ({EXPORT}:{line_of(EXPORT, name)})')


def check(fault):
    """Gives each fault to `fault`, and answers how many functions there are."""
    try:
        functions = {name: (parameters, result) for name, parameters, result in exported()}
    except Unknown as what:
        fault(f'{EXPORT}: this cannot be passed as C does: {what}')
        return 0
    same_statements(fault)
    if set(functions) != tree.exported():
        fault(f'{EXPORT}: these are not declared so that C can call them: {", ".join(sorted(tree.exported() ^ set(functions)))}')
    for path, declared in ((HEADER, in_header), (CALLS, in_calls)):
        try:
            compare(path, functions, declared(), fault)
        except Unknown as what:
            fault(f'{path}: this is no declaration known here: {" ".join(str(what).split())}')
    return len(functions)
