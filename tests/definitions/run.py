"""A changed definition must break the marked cases, or the second table of cases.

Each *.edit beside this file changes a definition of some crate. The script lays out `cases` and the definitions that it stands on, without code and without
laws, so that nothing else can refuse the change; proves both tables there as they are; and then shows that each change makes the marked cases fail. An
edit in `second` makes a part of the second table fail and leaves the marked cases as they are. No other file may have an error. An edit has a comment, and
`file:`, `old:` and `new:` lines as must-fail edits have, with the path from the top. RT_JOBS edits run at a time, as in rt. All of it is laid out outside of
the tree, where `rt ci` would take it for the repository's own.
"""
import concurrent.futures, os, re, shutil, subprocess, sys, tempfile

TOP = os.path.abspath(os.path.join(os.path.dirname(__file__), '..', '..'))
sys.dont_write_bytecode = True
sys.path.insert(0, os.path.join(TOP, 'tests'))
from edit import change, listed

FIRST = {'Marked'}
PARTS = {'ReaderCases', 'SetCases', 'WriterCases', 'JudgeCases', 'DispatcherCases'}
# by an edit's folder, the table that has to fail: what it is called, its files, and the files that must have no error
TABLES = {'': ('the marked cases', FIRST, set()), 'second': ('the second table', PARTS, FIRST)}
USE = re.compile(r'^(?:ghost )?use Rattle\.(\w+)\.(specs|proofs)\.(\w+)', re.M)


def modules(crate, part):
    """The files that stand in a crate's specs or proofs, in the order of Lib.antt there."""
    lib = os.path.join(TOP, 'crates', crate, part, 'Lib.antt')
    if not os.path.isfile(lib):
        return []
    with open(lib, encoding='utf-8') as f:
        return re.findall(r'^(?:pub )?mod (\w+)', f.read(), re.M)


def used(text):
    """The files of this repository, as (crate, part, file), that a text brings in."""
    return {(crate, part, file) for crate, part, file in USE.findall(text) if crate != 'std' and file != 'declared'}


def reached():
    """Every file of definitions, and of the cases themselves, that the cases stand on."""
    todo = [('cases', part, file) for part in ('specs', 'proofs') for file in modules('cases', part)]
    seen = set()
    while todo:
        crate, part, file = todo.pop()
        if (crate, part, file) in seen:
            continue
        seen.add((crate, part, file))
        with open(os.path.join(TOP, 'crates', crate, part, file + '.antt'), encoding='utf-8') as f:
            todo += used(f.read())
    return seen


def types_only(text, crates):
    """The structs, enums, names of types and `use` lines of a source: what definitions can name. Of a `use` line the types of these crates are kept."""
    text = re.sub(r'//[^\n]*|^#!\[[^\n]*', '', text, flags=re.M)
    kept, at = [], 0
    item = re.compile(r'\s*(?:#\[[^\]]*\]\s*)*(?:pub\s+)?(?:extern\s+"C"\s+)?(ghost use|use|struct|enum|const|fn|impl|mod|type)\b')
    while True:
        m = item.match(text, at)
        if not m:
            break
        word, end = m.group(1), m.end()
        depth = 0
        while end < len(text):
            c = text[end]
            if c in '{[':
                depth += 1
            elif c in '}]':
                depth -= 1
                if c == '}' and depth == 0 and word not in ('use', 'ghost use') and not re.match(r'\s*(requires|ensures|\{)', text[end + 1:]):
                    end += 1
                    break
            elif c == ';' and depth == 0:
                end += 1
                break
            end += 1
        piece = text[at:end].strip()
        if word in ('struct', 'enum', 'type'):
            kept.append(piece)
        elif word == 'use':
            crate, _, names = re.sub(r'^use\s+|\s|;$', '', piece).partition('::')
            types = [name for name in names.strip('{}').split(',') if re.fullmatch(r'[A-Z]\w*', name)]
            if crate in crates and types:
                kept.append(f"use {crate}::{{{', '.join(types)}}};")
        at = end
    return '\n'.join(kept) + '\n'


def lay_out(where):
    files = reached()
    crates = sorted({crate for crate, _, _ in files})
    below = listed(TOP)
    for crate in crates:
        home, copy = os.path.join(TOP, 'crates', crate), os.path.join(where, 'crates', crate)
        os.makedirs(os.path.join(copy, 'src'))
        with open(os.path.join(home, 'src', 'lib.rt'), encoding='utf-8') as f, open(os.path.join(copy, 'src', 'lib.rt'), 'w', encoding='utf-8') as out:
            out.write(types_only(f.read(), crates))
        for part in ('specs', 'proofs'):
            order = [file for file in modules(crate, part) if (crate, part, file) in files]
            if order:
                os.makedirs(os.path.join(copy, part))
                with open(os.path.join(copy, part, 'Lib.antt'), 'w', encoding='utf-8') as out:
                    out.write(''.join(f'pub mod {file}\n' for file in order))
            for file in order:
                shutil.copy(os.path.join(home, part, file + '.antt'), os.path.join(copy, part, file + '.antt'))
    with open(os.path.join(where, 'crates.txt'), 'w', encoding='utf-8') as out:
        out.write(''.join(f"{c}: {' '.join(d for d in below[c] if d in crates)}\n" for c in crates))


def check(where):
    """The status of a check, the files in which it found errors, by their names, and all that it said."""
    ran = subprocess.run(['rt', 'check', '--jobs', '1'], cwd=os.path.join(where, 'crates', 'cases'), capture_output=True, text=True)
    said = ran.stdout + ran.stderr
    found = set(re.findall(r'^(?:\./)?(\S+?):\d+:\d+: error', said, re.M))
    return ran.returncode, {re.sub(r'^(specs|proofs)/|\.antt$', '', f) for f in found}, said


def tried(work, folder, name):
    """Whether the edit of a folder is refused by its table, over what a check of the unedited definitions kept, and what to say of it."""
    here = os.path.dirname(os.path.abspath(__file__))
    with tempfile.TemporaryDirectory(prefix='definitions-') as room:
        where = os.path.join(room, 'changed')
        shutil.copytree(work, where)
        bad = change(where, os.path.join(here, folder, name))
        if bad:
            return False, bad
        status, errors, said = check(where)
    table, files, kept = TABLES[folder]
    # the joined statement fails where a part of its table does
    if status == 1 and errors & files and not errors & kept and errors <= FIRST | PARTS | {'Second'}:
        return True, f'refused by {table}, as it must be'
    return False, 'NOT REFUSED' if status == 0 else f'refused elsewhere, at {", ".join(sorted(errors)) or said[-300:]}'


def main():
    here = os.path.dirname(os.path.abspath(__file__))
    passed = failed = 0
    with tempfile.TemporaryDirectory(prefix='definitions-') as work:
        lay_out(work)
        status, errors, said = check(work)
        if status == 0:
            passed += 1
            print('the marked cases and the second table follow from the definitions alone', flush=True)
        else:
            failed += 1
            print('the cases are not proved from the definitions alone:\n' + said[-3000:])
        edits = [(folder, name) for folder in (TABLES if status == 0 else ())
                 for name in sorted(f for f in os.listdir(os.path.join(here, folder)) if f.endswith('.edit'))]
        with concurrent.futures.ThreadPoolExecutor(int(os.environ.get('RT_JOBS') or min(4, os.cpu_count() or 1))) as pool:
            for (_, name), (right, said) in zip(edits, pool.map(lambda edit: tried(work, *edit), edits)):
                passed, failed = passed + right, failed + (not right)
                print(f'{name[:-5]}: {said}', flush=True)
    print(f'{passed} passed, {failed} failed')
    return 0 if failed == 0 else 1


sys.exit(main())
