"""Counts the instructions of programs and takes their times, and prints tables of both."""
import re
import shutil
import subprocess
import sys
import time

ROUNDS = 9
A_WHILE = 0.15  # seconds


class Row:
    """A line of a table: its sides do the same work. A side is a function that gives, for a number of turns, a command and the file for its standard
    input (or None). Instructions are the difference of many turns and few; times are those of `timed` turns, or of as many as take a while."""

    def __init__(self, name, sides, few, many, timed=None):
        self.name, self.sides, self.few, self.many, self.timed = name, sides, few, many, timed
        self.instructions = self.nanoseconds = None


def stop(message):
    sys.exit(f'bench: {message}')


def need(tool, why):
    if not shutil.which(tool):
        stop(f'{tool} is not on the path; {why}')


def finished(command, given, output=subprocess.PIPE):
    """Runs a command to its end; stops where it fails."""
    file = open(given, 'rb') if given else subprocess.DEVNULL
    try:
        run = subprocess.run(command, stdin=file, stdout=output, stderr=subprocess.PIPE, text=True)
    finally:
        if given:
            file.close()
    if run.returncode != 0:
        stop(f'{" ".join(command)} failed\n{run.stderr[-2000:]}')
    return run


def compare(row):
    """Stops where the sides do not print the same."""
    said = [finished(*side(row.few)).stdout for side in row.sides]
    if len(set(said)) != 1:
        told = [f'  {" ".join(side(row.few)[0])}: {text[-200:].strip()}' for side, text in zip(row.sides, said)]
        stop('\n'.join([f'the sides find different things in {row.name}:'] + told))


def counted(command, given):
    said = finished(['valgrind', '--tool=callgrind', '--callgrind-out-file=/dev/null'] + command, given).stderr
    return int(re.search(r'Collected : (\d+)', said).group(1))


def count(row):
    row.instructions = [(counted(*side(row.many)) - counted(*side(row.few))) / (row.many - row.few) for side in row.sides]


def seconds(command, given):
    start = time.perf_counter()
    finished(command, given, subprocess.DEVNULL)
    return time.perf_counter() - start


def turns_for(row, side):
    """How many turns to time: as many as take a while, so that a program's start does not count."""
    turns = row.timed or row.many
    while not row.timed and seconds(*side(turns)) < A_WHILE:
        turns *= 2
    return turns


def take_times(rows):
    """The best time a turn of each side, all sides of all rows once in every round, so that they meet the same load."""
    jobs = [(row, i, side, turns_for(row, side)) for row in rows for i, side in enumerate(row.sides)]
    for row in rows:
        row.nanoseconds = [float('inf')] * len(row.sides)
    for _ in range(ROUNDS):
        for row, i, side, turns in jobs:
            row.nanoseconds[i] = min(row.nanoseconds[i], seconds(*side(turns)) * 1e9 / turns)


def measure(rows, counting):
    for row in rows:
        compare(row)
        if counting:
            count(row)
    take_times(rows)
    return rows


def cells(values, digits):
    """The first value is ours; behind each other one the ratio of ours to it."""
    told = f'{values[0]:11,.{digits}f}'
    for other in values[1:]:
        told += f'{other:11,.{digits}f}{values[0] / other:7.2f}'
    return told


def table(title, unit, others, rows, digits=0):
    """Prints the rows; `others` names the sides beside ours."""
    heads = f'{"ours":>11}' + ''.join(f'{other:>11}{"ratio":>7}' for other in others)
    kinds = [('instructions', lambda row: row.instructions), ('nanoseconds', lambda row: row.nanoseconds)]
    kinds = [(name, of) for name, of in kinds if of(rows[0])]
    print()
    print(f'{title:22}' + '  '.join(f'{name + " " + unit:>{len(heads)}}' for name, _ in kinds))
    print(f'{"":22}' + '  '.join(heads for _ in kinds))
    for row in rows:
        print(f'{row.name:22}' + '  '.join(cells(of(row), digits) for _, of in kinds), flush=True)
