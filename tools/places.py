"""Lists the places of the eight points of docs/DESIGN-PASS.md in the sources of this repository, by patterns.

    tools/places.py [FOLDER] [--list]

FOLDER is a checkout, this one where none is named. Without --list only the counts are printed. What a pattern finds is a place to look at, and not yet one to
change: the page says of each that is left why it stays.
"""
import collections, glob, os, re, sys

LISTED = '--list' in sys.argv
FOLDERS = [word for word in sys.argv[1:] if not word.startswith('--')]
TOP = FOLDERS[0] if FOLDERS else os.path.dirname(os.path.dirname(os.path.abspath(__file__)))

FUNCTION = re.compile(r'^ *(?:pub(?:\(crate\))? )?(?:extern "C" )?fn (\w+)(?:<[^>\n]*>)?\(([^{]*?)\)(?: -> ([^{]*?))?\n?( *(?:requires|ensures)[\s\S]*?\})?\s*\{\n', re.M)
NUMBER = r'(?:u8|u16|u32|u64|usize)'


def sources():
    for path in sorted(glob.glob(os.path.join(TOP, 'crates/*/src/*.rt'))):
        yield os.path.relpath(path, os.path.join(TOP, 'crates')), open(path, encoding='utf-8').read()


def line_of(text, at):
    return text.count('\n', 0, at) + 1


def functions(text):
    """Name, parameters, result, clauses, body and place of each function with a body."""
    for head in re.finditer(r'^( *)(?:pub(?:\(crate\))? )?(?:extern "C" )?fn (\w+)', text, re.M):
        indent, name = head.group(1), head.group(2)
        end = re.compile(r'^%s\}$' % indent, re.M).search(text, head.end())
        whole = text[head.start():end.end()] if end else ''
        start = re.search(r'^%s\{$|\{$' % indent, whole, re.M)
        clauses = re.search(r'^ +(?:requires|ensures)', whole, re.M)
        if clauses:
            start = re.compile(r'^%s\{$' % indent, re.M).search(whole, clauses.start())
        if not start:
            continue
        signature = whole[:clauses.start() if clauses else start.start()]
        yield name, signature, whole[clauses.start():start.start()] if clauses else '', whole[start.end():], head.start(2)


def shape(body):
    """A body with every name and every number taken as the same."""
    body = re.sub(r'//.*', '', body)
    words = re.findall(r'[A-Za-z_]\w*|\d+|[^\s\w]', body)
    kept = {'if', 'else', 'for', 'in', 'while', 'return', 'match', 'let', 'mut'}
    return ' '.join(word if word in kept or not word[0].isalnum() and word[0] != '_' else 'N' if word[0].isdigit() else 'I' for word in words)


found = collections.OrderedDict()


def place(point, kind, path, text, at, what):
    found.setdefault((point, kind), []).append(f'{path}:{line_of(text, at)} {what}')


bodies, clauses_seen, given = {}, {}, {}
for path, text in sources():
    for m in re.finditer(r'^ *(?:pub(?:\(crate\))? )?enum (\w+)', text, re.M):
        place(1, 'enums of our own', path, text, m.start(1), m.group(1))
    for m in re.finditer(r'^ +(?:pub )?(\w+): bool,', text, re.M):
        if re.search(r'struct \w+(?:<.*>)? \{[^}]*$', text[:m.start()]):
            place(1, 'flags in a struct', path, text, m.start(1), m.group(1))
    for m in re.finditer(r'let (\w+)(?:: \w+)? = [^;]*\);\n\s*if (?:\1(?:\.\w+)? (?:==|!=) 0|!\1\.\w+|\1 < [\w.]+(?:\(\))?) \{', text):
        place(1, 'an answer tested for 0, a flag or the end', path, text, m.start(1), m.group(1))
    for m in re.finditer(r'^ *(while .*) \{', text, re.M):
        place(3, 'while', path, text, m.start(1), m.group(1))
    for m in re.finditer(r'^ *(?:pub(?:\(crate\))? )?fn (\w+)\(\w+: (?:u8|u16|u32)\) -> (?:u32|u64|usize|i32)\b', text, re.M):
        place(4, 'functions that only cast', path, text, m.start(1), m.group(1))
    for name, signature, clauses, body, at in functions(text):
        plain = shape(body)
        if len(plain.split()) >= 30:
            bodies.setdefault(plain, []).append((path, text, at, name))
        if re.fullmatch(r'\s*if (\w+) < (\w+) \{\s*(?:return )?\w+;?\s*\}(?: else \{)?\s*\w+\s*\}?\s*\}', body):
            place(4, 'the larger or the smaller by hand', path, text, at, name)
        if re.match(r'\s*match \w+ \{', body) and not re.search(r'\bfor\b|\bwhile\b', body):
            arms = re.findall(r'=> (.*)', body)
            if len(arms) > 3:
                place(4, 'an enum turned to numbers or words', path, text, at, name)
        for m in re.finditer(r'(?:requires|ensures)(?: \w+)? \{((?:[^{}]|\{[^{}]*\})*)\}', clauses):
            clause = re.sub(r'\s+', ' ', m.group(1)).strip()
            if 'result' not in clause and '.new' not in clause:
                clauses_seen.setdefault(clause, []).append((path, text, at, name))
        words = re.findall(r'(\w+): ', signature[signature.index('('):])
        for group in (('attributes', 'headings', 'pairs'), ('releases', 'deadlines'), ('file', 'at'), ('slots', 'm', 'h'), ('out', 'at')):
            if all(word in words for word in group):
                place(5, ', '.join(group), path, text, at, name)
        for m in re.finditer(r'(\w+): bool\b', signature):
            place(7, 'a flag as a parameter', path, text, at, f'{name}({m.group(1)})')
    for m in re.finditer(r'^ +(?:pub )?(\w+): (?:\[\w+; [\w:]+\]|Attributes|Headings|Pairs),', text, re.M):
        place(6, 'a buffer in a struct', path, text, m.start(1), m.group(1))
    for m in re.finditer(r'let mut (\w+)(?:: [^=]+)? = \[.*; ?[\w:]+\];', text):
        place(6, 'a buffer of fixed size', path, text, m.start(1), m.group(1))
    for m in re.finditer(r'\[\[u(?:16|32); [23]\](?:; \w+)?\]', text):
        place(6, 'rows of numbers', path, text, m.start(), m.group(0))
for same in bodies.values():
    if len(same) > 1:
        path, text, at, _ = same[0]
        place(2, 'bodies of one shape', path, text, at, ' = '.join(f'{p}:{name}' for p, _, _, name in same))
for clause, same in clauses_seen.items():
    if len(same) > 2:
        path, text, at, _ = same[0]
        place(5, 'a clause of three functions or more', path, text, at, f'{clause} ({len(same)})')
for path in sorted(glob.glob(os.path.join(TOP, 'crates/*/proofs/**/*.antt'), recursive=True)):
    text = open(path, encoding='utf-8').read()
    short = os.path.relpath(path, os.path.join(TOP, 'crates'))
    for m in re.finditer(r'^(?!pub )(\S+) c = (omega arith|search rules|search|refl|grind arith)$', text, re.M):
        place(8, 'answers that are one tactic', short, text, m.start(1), f'{m.group(1)} = {m.group(2)}')

totals = collections.Counter()
for (point, kind), places in sorted(found.items(), key=lambda item: item[0]):
    totals[point] += len(places)
    print(f'{point} {kind}: {len(places)}')
    if LISTED:
        for line in places:
            print('    ' + line)
print('in all: ' + ', '.join(f'{point}: {totals[point]}' for point in range(1, 9)))
