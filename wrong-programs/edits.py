"""Wrong programs as edits: a comment, then file, old text and new text of each change."""
import os

HERE = os.path.dirname(os.path.abspath(__file__))
ROOT = os.path.dirname(HERE)


def changes_of(path):
    """The changes of an edit: file, old text, new text."""
    changes, file, old = [], None, None
    with open(path, encoding='utf-8') as edit:
        for line in edit.read().split('\n'):
            if line.startswith('file: '):
                file = line[6:]
            elif line.startswith('old: '):
                old = line[5:]
            elif line.startswith('new:'):
                changes.append((file, old, line[5:]))
    return changes
