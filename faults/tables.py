"""Faults as tables: a text for each area, with the name, the file, the old lines and the new lines of each fault."""
import os

HERE = os.path.dirname(os.path.abspath(__file__))
ROOT = os.path.dirname(HERE)
SECOND = os.path.join(ROOT, 'conformance')


class Fault:
    """A change of the second program."""

    def __init__(self, area, name):
        self.area, self.name = area, name
        self.file, self.old, self.new = '', [], []

    def applied(self, text):
        """The text with the new lines in place of the old ones, and how often the old ones stand there. Lines are compared without indentation."""
        lines = text.split('\n')
        bare = [line.strip() for line in lines]
        count = len(self.old)
        places = [at for at in range(len(lines) - count + 1) if bare[at:at + count] == self.old]
        if len(places) != 1:
            return text, len(places)
        at = places[0]
        indent = lines[at][:len(lines[at]) - len(lines[at].lstrip())]
        return '\n'.join(lines[:at] + [indent + line for line in self.new] + lines[at + count:]), 1

    def misfit(self):
        """Why the fault does not fit the second program; nothing where it does."""
        if not self.file or not self.old or self.old == self.new:
            return 'it needs a file, old lines, and new lines that are others'
        path = os.path.join(SECOND, self.file)
        if not os.path.isfile(path):
            return f'there is no {self.file}'
        with open(path, encoding='utf-8') as source:
            stands = self.applied(source.read())[1]
        return '' if stands == 1 else f'its old lines stand {stands} times in {self.file}'


def areas():
    return sorted(name[:-4] for name in os.listdir(HERE) if name.endswith('.txt'))


def faults_of(area):
    """The faults of an area's table; a line of another form is an error."""
    faults = []
    path = os.path.join(HERE, area + '.txt')
    with open(path, encoding='utf-8') as table:
        for number, line in enumerate(table.read().split('\n'), 1):
            key, _, rest = (part.strip() for part in line.partition(':'))
            if key == 'fault' and rest:
                faults.append(Fault(area, rest))
            elif faults and key == 'file':
                faults[-1].file = rest
            elif faults and key in ('old', 'new'):
                getattr(faults[-1], key).append(rest)
            elif line and not line.startswith('#'):
                raise ValueError(f'{path}, line {number}: neither fault:, file:, old: nor new:')
    return faults


def misfits(faults):
    """The faults that do not fit, and names that stand twice, each as a line."""
    wrong, seen = [], set()
    for fault in faults:
        reason = fault.misfit() or ('its name stands twice' if fault.name in seen else '')
        seen.add(fault.name)
        if reason:
            wrong.append(f'{fault.area}: {fault.name}: does not fit: {reason}')
    return wrong
