"""Copies of the second program and of the differential tests, in which faults are tried."""
import json
import os
import re
import shutil
import subprocess
import threading
import time

from tables import ROOT

# What a copy has: folders of the repository without what is built, and single files that the differential tests need.
FOLDERS = ('conformance', 'differential')
FILES = ('rust/build.rs', 'rust/src/calls.rs')
LEFT_OUT = ('target', '.cargo')

# One workspace, so that the second program is built once for its own tests and for the differential ones. Little is optimised, in many small units:
# a changed line is built in seconds. The longest run of a rule set, 325 million rules, rules out no optimisation at all.
WORKSPACE = '''[workspace]
members = ["conformance", "differential"]
resolver = "2"

[profile.faults]
inherits = "release"
opt-level = 1
overflow-checks = true
debug-assertions = true
incremental = true
codegen-units = 256
'''

# Seconds after which a test is taken to hang: several times what each takes on a busy machine.
TESTS_LIMIT, VECTORS_LIMIT, DIFFERENTIAL_LIMIT = 60, 30, 300
BUILD_LIMIT = 600

# Runs a command with 8 GB of memory at most, for faults that never stop queueing.
WITHIN_MEMORY = ['sh', '-c', 'ulimit -v 8388608; exec "$@"', 'sh']

# The folders that the vectors program writes, and the crates that are run on them.
VECTORS = {'': 'reader_vectors', 'ledger': 'ledger_vectors', 'attributes': 'attribute_vectors', 'check': 'check_vectors', 'engine': 'engine_vectors'}


class NotTried(Exception):
    """A fault that cannot be put in or does not compile."""


class Failed:
    """What fails: a kind of tests, and which of them."""

    def __init__(self, kind, which):
        self.kind, self.which = kind, which

    def __str__(self):
        return f'{self.kind} ({self.which})'


def files_of(folder):
    """The files below a folder of the repository that a copy has, by their names from the root."""
    for place, folders, names in os.walk(os.path.join(ROOT, folder)):
        folders[:] = [name for name in folders if name not in LEFT_OUT]
        yield from (os.path.relpath(os.path.join(place, name), ROOT) for name in names)


def contents(path):
    with open(path, 'rb') as file:
        return file.read()


def put(path, data):
    """Writes a file, unless it has this contents: cargo builds again what was written."""
    if not os.path.isfile(path) or contents(path) != data:
        os.makedirs(os.path.dirname(path), exist_ok=True)
        with open(path, 'wb') as file:
            file.write(data)


class Copy:
    """A copy, with a folder of its own for what cargo builds, which stays for the next time."""

    def __init__(self, place, number, library):
        self.number, self.took = number, 0
        self.folder = os.path.join(place, str(number))
        self.said = os.path.join(place, 'said')
        self.built = os.path.join(self.folder, 'target')
        self.log = None
        self.environment = {**os.environ, 'CARGO_TARGET_DIR': self.built, 'TROUTGABLE_LIB': library, 'CARGO_TERM_COLOR': 'never', 'RUST_BACKTRACE': '0'}

    def path(self, name):
        return os.path.join(self.folder, name)

    def restore(self):
        """Makes the copy what the repository has."""
        names = {name for folder in FOLDERS for name in files_of(folder)} | set(FILES)
        for folder in FOLDERS:
            for place, _, there in os.walk(self.path(folder)):
                for name in there:
                    if os.path.relpath(os.path.join(place, name), self.folder) not in names:
                        os.remove(os.path.join(place, name))
        for name in names:
            put(self.path(name), contents(os.path.join(ROOT, name)))
        put(self.path('Cargo.toml'), WORKSPACE.encode())

    def try_unchanged(self):
        """What fails in the copy as it stands; None where nothing does."""
        return self.tried('unchanged', f'copy-{self.number}')

    def try_fault(self, fault):
        """What fails with a fault put in; None where nothing does."""
        return self.tried(fault.area, re.sub(r'[^A-Za-z0-9]+', '-', fault.name), fault)

    def tried(self, area, name, fault=None):
        """Runs the tests from the cheapest to the dearest, up to the first that fails."""
        begun = time.monotonic()
        self.restore()
        if fault:
            self.put_in(fault)
        path = os.path.join(self.said, area, name + '.log')
        os.makedirs(os.path.dirname(path), exist_ok=True)
        try:
            with open(path, 'w', encoding='utf-8') as self.log:
                return self.own_tests() or self.vectors() or self.differential()
        finally:
            self.took = time.monotonic() - begun

    def put_in(self, fault):
        path = self.path(os.path.join('conformance', fault.file))
        text, stands = fault.applied(contents(path).decode())
        if stands != 1:
            raise NotTried(f'its old lines stand {stands} times in {fault.file}')
        put(path, text.encode())

    def build(self, *arguments):
        """Builds with cargo; the programs that come of it, in the order they were built."""
        command = ['cargo', *arguments, '--offline', '--profile', 'faults', '--message-format', 'json-render-diagnostics']
        done = subprocess.run(command, cwd=self.folder, env=self.environment, stdout=subprocess.PIPE, stderr=subprocess.PIPE, text=True, timeout=BUILD_LIMIT)
        self.log.write(done.stderr)
        if done.returncode != 0:
            errors = re.findall(r'^error.*', done.stderr, re.M)
            raise NotTried(f'it does not compile: {(errors + [""])[0]}')
        told = [json.loads(line) for line in done.stdout.split('\n') if line.startswith('{')]
        return [one['executable'] for one in told if one.get('executable')]

    def run(self, command, limit, failing=None):
        """Runs a program up to its end, its limit, or the first line that tells a failure. The reason why it failed; None where it did not."""
        program = subprocess.Popen(WITHIN_MEMORY + command, cwd=self.path('conformance'), env=self.environment, stdin=subprocess.DEVNULL,
                                   stdout=subprocess.PIPE, stderr=subprocess.STDOUT, text=True, errors='replace')
        clock = Clock(program, limit)
        try:
            for line in program.stdout:
                self.log.write(line)
                found = re.match(failing, line) if failing else None
                if found:
                    return ', '.join(found.groups())
            program.wait()
        finally:
            clock.stop()
        if clock.rang:
            return f'it hangs, {limit} s'
        return f'status {program.returncode}' if program.returncode else None

    def own_tests(self):
        """The second program's tests; its commands have none of their own."""
        for program in self.build('test', '--no-run', '-p', 'conformance', '--lib', '--test', '*'):
            if os.path.basename(os.path.dirname(program)) == 'deps':
                which = self.run([program], TESTS_LIMIT, r'test (\S+) \.\.\. FAILED')
                if which:
                    return Failed("the second program's tests", which)
        return None

    def vectors(self):
        """The stored vectors and sample captures, against those that the second program writes."""
        made = os.path.join(self.folder, 'made')
        shutil.rmtree(made, ignore_errors=True)
        for program in ('vectors', 'captures'):
            which = self.run([os.path.join(self.built, 'faults', program), os.path.join(made, program)], VECTORS_LIMIT)
            if which:
                return Failed('the stored vectors', f'{program}: {which}')
        for folder, crate in VECTORS.items():
            for name in ('stdin', 'stdout'):
                if contents(os.path.join(made, 'vectors', folder, name)) != contents(os.path.join(ROOT, 'crates', crate, name)):
                    return Failed('the stored vectors', f'{crate}/{name}')
        for name in sorted(os.listdir(os.path.join(made, 'captures'))):
            if contents(os.path.join(made, 'captures', name)) != contents(os.path.join(ROOT, 'captures', name)):
                return Failed('the stored vectors', f'captures/{name}')
        return None

    def differential(self):
        """The differential tests with their fixed seed, up to the first difference."""
        programs = self.build('build', '-p', 'differential')
        which = self.run([programs[-1], '--first'], DIFFERENTIAL_LIMIT, r'(.+): difference \d+ in (.+), at input')
        return Failed('the differential tests', which) if which else None


class Clock:
    """Ends a program at its limit, and in any case when it is stopped."""

    def __init__(self, program, limit):
        self.program, self.rang = program, False
        self.timer = threading.Timer(limit, self.ring)
        self.timer.start()

    def ring(self):
        self.rang = True
        self.program.kill()

    def stop(self):
        self.timer.cancel()
        self.program.kill()
        self.program.wait()
        self.program.stdout.close()
