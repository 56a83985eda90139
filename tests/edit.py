"""How an edit is applied, for tests/definitions/run.py and tests/edits/run.py, and the functions that its comment names; and the crates of crates.txt.

An edit is a text with a comment and with `file:`, `old:` and `new:` lines, as the toolchain's must-fail edits have them: a `file:` line holds for the
pairs of `old:` and `new:` after it, and each old text must stand exactly once in the file, as the pairs before it left it.
"""
import os, re

# `# of NAME: ` or `# of NAME, NAME: ` before the sentence: the public functions whose answers the edit makes wrong.
NAMED = re.compile(r'# of (\w+(?:::\w+)*(?:, \w+(?:::\w+)*)*): ')


def listed(top):
    """The crates of crates.txt in their order, each with those that it names."""
    crates = {}
    with open(os.path.join(top, 'crates.txt'), encoding='utf-8') as f:
        for line in f:
            head, _, below = line.split('#')[0].partition(':')
            # behind the name stand words about the crate, as `staticlib`
            if head.split():
                crates[head.split()[0]] = below.split()
    return crates


def change(where, path):
    """Applies the edit at a path to the files below a folder; what is wrong with the edit, or None."""
    file = old = None
    pairs = 0
    with open(path, encoding='utf-8') as f:
        lines = f.read().split('\n')
    for line in lines:
        if line.startswith('file: '):
            file = line[6:]
        elif line.startswith('old: '):
            old = line[5:]
        elif line.startswith('new:'):
            bad = replace(where, file, old, line[4:].removeprefix(' '))
            if bad:
                return bad
            old, pairs = None, pairs + 1
    return None if pairs else 'it has no old: and new: pair'


def replace(where, file, old, new):
    """Puts the new text in the old one's place; what is wrong, or None."""
    if not file or os.path.isabs(file) or '..' in file.split('/') or not os.path.isfile(os.path.join(where, file)):
        return f'{file} is no file to change'
    if not old:
        return 'a new: line has no old: line before it'
    with open(os.path.join(where, file), encoding='utf-8', newline='') as f:
        text = f.read()
    if text.count(old) != 1:
        return f'an old text stands {text.count(old)} times in {file}'
    with open(os.path.join(where, file), 'w', encoding='utf-8', newline='') as f:
        f.write(text.replace(old, new))
    return None
