#!/usr/bin/env python3
"""Says which edits of wrong bodies no longer apply: those whose old line isn't in its file exactly once.

    tests/wrong_bodies/stale.py

Looks at all of tests/wrong_bodies/CRATE and crates/CRATE/must-fail, and proves nothing. Ends with 1 where an edit is stale.
"""
import pathlib
import sys

TOP = pathlib.Path(__file__).resolve().parents[2]


def is_stale(folder, edit):
    """Whether an edit of the crate in this folder doesn't apply."""
    lines = edit.read_text(encoding='utf-8').splitlines()
    said = {word: [line[len(word) + 2:] for line in lines if line.startswith(word + ': ')] for word in ('file', 'old')}
    file = folder / said['file'][0]
    return not file.is_file() or any(file.read_text(encoding='utf-8').count(old) != 1 for old in said['old'])


def main():
    edits = [(TOP / 'crates' / edit.parent.name, edit) for edit in TOP.glob('tests/wrong_bodies/*/*.edit')]
    edits += [(edit.parents[1], edit) for edit in TOP.glob('crates/*/must-fail/*.edit')]
    stale = sorted(edit for folder, edit in edits if is_stale(folder, edit))
    for edit in stale:
        print('stale', edit.relative_to(TOP))
    print(len(edits), 'edits')
    sys.exit(1 if stale else 0)


if __name__ == '__main__':
    main()
