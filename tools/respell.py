#!/usr/bin/env python3
"""Spells the repository's own definitions and lemmas in snake case, by the table spelling.tsv beside this script.

It was run once, right after port.py, as docs/PORT.md says, and goes by text alone: whole names of the specs, the proofs, the clauses and the edits turn,
and in comments and pages what stands between back quotes. A name of a function of src/ is never a row of the table under its old spelling.

usage: tools/respell.py [FOLDER]     the repository in FOLDER; without it, the one that this script stands in
"""
import os, re, sys

HERE = os.path.dirname(os.path.abspath(__file__))
NAME = re.compile(r"[^\s(){}.,;:@\"«»\[\]|`⌜⌝]+")
SPAN = re.compile(r'`[^`\n]+`')
LABEL = re.compile(r'(?m)^(\S+) : (?:tie|goal)\.')
QUOTED = re.compile(r'"(?:\\.|[^"\\\n])*"')


def rows():
    with open(os.path.join(HERE, 'spelling.tsv'), encoding='utf-8') as f:
        return dict(line.rstrip('\n').split('\t') for line in f)


def turn(text, table, kept=(), dotted=True):
    """Each name of the table in a text of clauses or proofs; a name that had underscores before is turned only where it stands behind no dot."""
    def one(m):
        word = m[0]
        if word in kept or word not in table:
            return word
        behind = m.start() and text[m.start() - 1] == '.'
        if behind and not dotted or behind and '-' not in word and word.islower():
            return word
        return table[word]
    return NAME.sub(one, text)


def spans(text, table):
    """What stands between back quotes, and each name with a capital inside it, which no other word has."""
    plain = {a: b for a, b in table.items() if '-' not in a and not a.islower()}
    return turn(SPAN.sub(lambda m: turn(m[0], table), text), plain)


def code(text, table, comment, kept=()):
    """The lines of a file: a comment's back quotes, and all else but quoted text."""
    lines = []
    for line in text.split('\n'):
        at = -1
        for m in re.finditer(re.escape(comment), line):
            if m.start() == 0 or line[m.start() - 1].isspace():
                at = m.start()
                break
        front, back = (line, '') if at < 0 else (line[:at], line[at:])
        parts, end = [], 0
        for m in QUOTED.finditer(front):
            parts += [turn(front[end:m.start()], table, kept), m[0]]
            end = m.end()
        parts.append(turn(front[end:], table, kept))
        lines.append(''.join(parts) + spans(back, table))
    return '\n'.join(lines)


def main(top):
    table = rows()
    code_of_rust = {a: b for a, b in table.items() if '-' in a or not a.islower()}
    changed = 0
    for folder, dirs, files in os.walk(top):
        dirs[:] = sorted(d for d in dirs if d not in ('out', 'target', '.git', 'tools'))
        for name in sorted(files):
            path = os.path.join(folder, name)
            if not name.endswith(('.antt', '.rt', '.edit', '.md')):
                continue
            with open(path, encoding='utf-8') as f:
                old = f.read()
            if name.endswith('.antt'):
                new = code(old, table, '--', set(LABEL.findall(old)))
            elif name.endswith('.rt'):
                new = code(old, code_of_rust, '//')
            elif name.endswith('.edit'):
                new = turn(old, code_of_rust)
            else:
                new = spans(old, code_of_rust)
            if new != old:
                with open(path, 'w', encoding='utf-8') as f:
                    f.write(new)
                changed += 1
    print(f'{changed} files changed')


if __name__ == '__main__':
    main(sys.argv[1] if len(sys.argv) > 1 else os.path.dirname(HERE))
