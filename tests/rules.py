"""Holds docs/RULES.md to the tree.

Every definition that a rule names stands in the file that it links to, a rule's number stands once, and every rule that a comment or a page names exists.
The constants of include/flute.h are those of the kinds, and the longest file is the one of the theorem, for which the programs' buffers have room.
Each fault is printed; the last line adds up.
"""
import os
import re
import sys

TOP = os.path.dirname(os.path.dirname(os.path.abspath(__file__)))
PAGE = 'docs/RULES.md'
LINK = re.compile(r'\[[^\]]+\]\(\.\./(crates/[^)]+)\)(: (?:`[^`]+`(?:, )?)+)?')
NUMBER = re.compile(r'\bR\d+\.\d+\b')
# The constants of the header, and where each comes from: the file, and what stands before the number there.
HEADER = {
    'FLUTE_LONGEST_FILE': ('crates/theorems/specs/FileParts.antt', r'^pub longest_file : .* length file ≤ '),
    'FLUTE_MOST_TASKS': ('crates/kinds/src/lib.rt', r'^    pub const MOST_TASKS: usize = '),
    'FLUTE_MOST_PROCESSORS': ('crates/kinds/src/lib.rt', r'^    pub const MOST_PROCESSORS: u32 = '),
    'FLUTE_LONGEST_CYCLE': ('crates/kinds/src/lib.rt', r'^    pub const LONGEST: u32 = '),
    'FLUTE_MOST_JOBS': ('crates/kinds/src/lib.rt', r'^    pub const MOST_JOBS: u32 = '),
    'FLUTE_STATE_BYTES': ('crates/dispatcher/src/bytes.rt', r'^    pub const BYTES: usize = '),
}
# The bytes of the kit's `io::large_buffer`, into which a program reads its file.
BUFFER = 65536
ENDINGS = ('.antt', '.rt', '.md', '.h', '.py', '.sh', '.c')


def read(path):
    with open(os.path.join(TOP, path), encoding='utf-8') as f:
        return f.read()


def defines(text, name):
    """Whether a name has a signature, or is a record or a struct, in a file."""
    sign = rf'^ *(?:(?:unfoldable|abbrev) )?(?:pub )?{re.escape(name)} :'
    kind = rf'^(?:pub )?(?:record|data|struct|enum) {re.escape(name)}\b'
    return bool(re.search(f'{sign}|{kind}', text, re.M))


def sources():
    for folder in ('crates', 'docs', 'include', 'tests', 'examples'):
        for base, _, names in os.walk(os.path.join(TOP, folder)):
            for name in names:
                if name.endswith(ENDINGS):
                    yield os.path.relpath(os.path.join(base, name), TOP)
    yield 'README.md'


def number(path, before):
    """The one number that stands after a text in a file, or None."""
    found = set(re.findall(f'{before}(\\d+)', read(path), re.M))
    return int(found.pop()) if len(found) == 1 else None


def constants():
    """For each constant of the header, and for the programs' buffers: what is wrong, or None."""
    header = dict(re.findall(r'^#define (FLUTE_\w+) (\d+)', read('include/flute.h'), re.M))
    for name in sorted(set(HEADER) | set(header)):
        source = number(*HEADER[name]) if name in HEADER else None
        yield None if source is not None and header.get(name) == str(source) else f'{name} is {header.get(name)} in the header and {source} where it comes from'
    longest = number(*HEADER['FLUTE_LONGEST_FILE'])
    for name in sorted(os.listdir(os.path.join(TOP, 'crates'))):
        if name.startswith('flute_'):
            fits = longest is not None and longest < BUFFER and 'let mut file = io::large_buffer();' in read(f'crates/{name}/src/main.rt')
            yield None if fits else f'{name} has no buffer for the longest file'


def main():
    faults, passed = [], 0
    for fault in constants():
        if fault:
            faults.append(fault)
        else:
            passed += 1
    page = read(PAGE)
    rules = re.findall(r'^\| (R\d+\.\d+) \|', page, re.M)
    for rule in sorted(set(rules)):
        if rules.count(rule) > 1:
            faults.append(f'{rule} stands {rules.count(rule)} times')
        else:
            passed += 1
    for link in LINK.finditer(page):
        path, names = link[1], re.findall('`([^`]+)`', link[2] or '')
        if not os.path.isfile(os.path.join(TOP, path)):
            faults.append(f'{path} is no file')
            continue
        for name in names:
            if defines(read(path), name):
                passed += 1
            else:
                faults.append(f'{path} does not define {name}')
    for path in sources():
        for number in set(NUMBER.findall(read(path))):
            if number in rules:
                passed += 1
            else:
                faults.append(f'{path} names {number}, which is no rule')
    for fault in faults:
        print(fault)
    print(f'{passed} passed, {len(faults)} failed')
    return 1 if faults or not rules else 0


sys.exit(main())
