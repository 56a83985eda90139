"""Wrong edits of the crates, each tried over what a check of the unedited crate kept.

The edits here, tests/edits/NAME/*.edit, are of the form of rt's must-fail edits, and so are those of crates/NAME/must-fail, which `rt ci` tries itself. For
each crate with edits the runner
- checks the unedited crate in the tree by `rt check`, which has to prove it: a case of its own;
- lays out the crates in a folder outside of the tree, with the edits of both places among the must-fail edits of the copy, and has `rt must-fail` try all.
  That begins with what the check of the unedited crate kept, and takes from earlier runs on this machine what stands on the very same files;
- demands of each that a fact fails: rt has to say that the edit is refused, and the first error that it shows has to say that a goal does not follow from
  what is known, or that one fact is given where another is wanted.
An edit of which rt shows something else, as that a proof names what the edit took away, or that it cannot read the edited text (it says so of each edit of
specs/ after which a statement there is left unchecked), is looked at again: `rt check` runs on a copy with this edit alone, begun with what the check of the
unedited crate kept, and every error that does not follow from another has to say that a fact fails. A refusal for another reason (the proof names something
that the edit took away, a text that does not parse, a crash) shows nothing, and is a failure, and so is an edit that is not refused.

An edit whose comment begins with `# of NAME: ` or `# of NAME, NAME: ` makes the answers of these public functions wrong (`Type::name` for a method,
`module::name` in a public module). Every public function with an `ensures` has to be named by two edits at least, of both folders together: a case of its
own, with one line for a crate that has them all. An edit that names a function that is not there is a failure.

What is trusted: what `rt check` kept in out/ of the crate and of those below, and what rt keeps of the edits that it tried. A fault there could only show as
an unedited crate that is not proved, as an edit that is not refused, or as a refusal at a fact that does hold. Nothing here is a verdict on a crate: that is
`rt ci` alone.

    tests/edits/run.py [FOLDER]     the edits of another folder, FOLDER/NAME/*.edit, without those of crates/NAME/must-fail, and no count
    tests/edits/run.py --count      only the count, without trying an edit

RT_JOBS edits are tried at a time, as in rt; where it is not set, as many as there are processors, in the second look at most 4. The last line is
'N passed, M failed'.
"""
import concurrent.futures, os, re, shutil, signal, subprocess, sys, tempfile, time

HERE = os.path.dirname(os.path.abspath(__file__))
TOP = os.path.dirname(os.path.dirname(HERE))
sys.dont_write_bytecode = True
sys.path.insert(0, os.path.dirname(HERE))
from edit import NAMED, change, listed

LONGEST = 1800  # seconds for one check
PARTS = ('src', 'specs', 'proofs')

# How the prover says that a fact fails, at the start of an error. Every error that does not follow from another has to be one of these: whatever begins in
# another way shows that the edit took something away that the proof names, or that a text does not fit.
FACTS = [re.compile(form) for form in (
    # A goal of a function, at its place in the code.
    r'it is not proved that ',
    # The goal does not follow from what is known.
    r'`omega`: the (goal|part `.*` of the goal) does not follow from what it read',
    r'`search`: no proof of `.*` was found',
    r'`grind`: .*(no proof|does not follow|was not proved)',
    r'give a proof of that as the last argument, `(rw|simp) L t`',
    # An equation that is known has nothing to say about the goal.
    r'`simp`: no equation of the list has an instance in the goal `',
    r'`rw`: no part of the goal `.*` is an instance of ',
    r"`rw`: no occurrence of the path's (left|right) endpoint in the goal",
    # The two sides of an equation differ.
    r'(as printed|computed as far as they go), the two sides ',
    r'computed as a goal is, one side reads ',
    r'`.*` ≟ `.*`:? does not hold \(this comparison',
)]
# One fact is given where another is wanted, if what is wanted says something of terms; a type of data, as `ℕ → ℕ`, has none in it.
OTHER = re.compile(r'(?:expected type|(?:as printed|computed as far as they go), the two types) ')
WANTED = re.compile(r'(?:expected type|the two types are|the two types (?:first differ|differ only) where one has) `([^`]*)(?:`|$)')
MODULES = re.compile(r'[^\s(){}.]+\.(?=\S)')
TERM = re.compile(r'[≡≤<∣]|\bPath\b|(?<![\w.])[a-z]|^\d+$')
ERROR = re.compile(r'^(\S+?):(\d+):\d+: error(?:\[[\w-]+\])?: (?:`[^`\n]+`: )?(.*(?:\n  .*)*)', re.M)
GOAL = re.compile(r'^note: (\S+?):(\d+):\d+: (it is not proved that .*)', re.M)
SEARCH = re.compile(r'^note: what antt said of a `search` in the proof that rattle made: (\S+?):(\d+):\d+: `[^`\n]+`: (.*(?:\n  .*)*)', re.M)
FOLLOWS = re.compile(r'\d+ declarations? that depends? on `[^`\n]+`, which was (?:rejected|not admitted), (?:was|were) not checked'
                     r'|`[^`\n]+` (?:was not admitted .* so this cannot be checked|cannot be unfolded because it was not admitted)'
                     r'|this file exports no `[^`\n]+`, the name by which')
# What rt says of an edit; and in that, the first error that it shows.
TRIED = re.compile(r'^rt: must-fail (\w+)/([\w.-]+)\.edit: (.*)', re.M)
SHOWN = re.compile(r'refused, as it must be: (?:note: )?(\S+?):(\d+):\d+: (?:error(?:\[[\w-]+\])?: )?(?:`[^`\n]+`: )?(.*)')
AGAIN = re.compile(r'refused, as it must be|BAD EDIT: the prover cannot read the edited text')


def rt(where, *words, longest=None):
    """Runs rt in a folder: its exit status, None where it took too long, what it said, and the seconds."""
    began = time.time()
    ran = subprocess.Popen(['rt', *words], cwd=where, stdout=subprocess.PIPE, stderr=subprocess.STDOUT, encoding='utf-8', errors='replace',
                           start_new_session=True)
    try:
        said, _ = ran.communicate(timeout=longest)
        status = ran.returncode
    except subprocess.TimeoutExpired:
        os.killpg(ran.pid, signal.SIGKILL)
        said, _ = ran.communicate()
        status = None
    return status, said, round(time.time() - began)


def lay_out(where, crates):
    """A repository with copies of the crates, without what was kept of them and without must-fail edits."""
    os.makedirs(os.path.join(where, 'crates'))
    for file in ('crates.txt', 'HANDLES'):
        if os.path.isfile(os.path.join(TOP, file)):
            shutil.copy(os.path.join(TOP, file), where)
    for crate in crates:
        for part in PARTS:
            if os.path.isdir(os.path.join(TOP, 'crates', crate, part)):
                shutil.copytree(os.path.join(TOP, 'crates', crate, part), os.path.join(where, 'crates', crate, part))


def unedited(name):
    """Shows that the unedited crate is proved: a line to print, and whether it is so."""
    home = os.path.join(TOP, 'crates', name)
    status, said, took = rt(home, 'check', longest=LONGEST) if os.path.isdir(home) else (2, 'there is no such folder', 0)
    if status != 0 or not re.search(r'^logic=proved ', said, re.M):
        return f'{name}: NOT PROVED unedited (exit status {status}):\n{said[-3000:]}', False
    return f'{name}: unedited, it is proved ({took} s)', True


def fails(text):
    """Whether an error says that a fact fails."""
    if any(form.match(text) for form in FACTS):
        return True
    return bool(OTHER.match(text)) and any(TERM.search(MODULES.sub('', m.group(1))) for m in WANTED.finditer(text))


def own_errors(said):
    """The prover's own errors, those that do not follow from another: file, line and text of each."""
    found = [m.groups() for m in ERROR.finditer(said) if not FOLLOWS.match(m.group(3))]
    found += [m.groups() for form in (GOAL, SEARCH) for m in form.finditer(said)]
    return [(file.removeprefix('./'), int(line), ' '.join(text.split())) for file, line, text in found]


def refusal(said):
    """The place of the prover's first own error, one that does not follow from another; and what shows no failed fact, or None."""
    own = own_errors(said)
    if not own:
        return 'no place', 'there is no error but such as follow from another'
    return f'{own[0][0]}:{own[0][1]}', next((text for _, _, text in own if not fails(text)), None)


def judged(one, said):
    """What to print of an edit after what rt said of it, and whether it is refused as it must be, or None where that needs a second look."""
    shown = SHOWN.match(said)
    if shown and fails(shown[3]):
        return f'{one}: refused at {shown[1].removeprefix("./")}:{shown[2]}', True
    if AGAIN.match(said):
        return None
    return f'{one}: {said}', False


def attempt(one, name, edit, crates):
    """Checks the crate with one edit: a line to print, and whether it is refused as it must be."""
    with tempfile.TemporaryDirectory(prefix='edit-') as where:
        lay_out(where, crates)
        home, kept = (os.path.join(top, 'crates', name) for top in (where, TOP))
        bad = change(home, edit)
        if bad:
            return f'{one}: BAD EDIT: {bad}', False
        if os.path.isdir(os.path.join(kept, 'out', 'incremental')):
            shutil.copytree(os.path.join(kept, 'out', 'incremental'), os.path.join(home, 'out', 'incremental'))
        status, said, took = rt(home, 'check', '--jobs', '1', longest=LONGEST)
    if status == 0:
        return f'{one}: NOT REFUSED: the crate is still proved with this edit ({took} s)', False
    if status is None:
        return f'{one}: NO ANSWER in {took} s', False
    place, other = refusal(said)
    if status != 1 or not re.search(r'^logic=not-proved$', said, re.M):
        return f'{one}: BAD EDIT: it did not reach the prover (exit status {status}), at {place}: {(other or said)[:300]}', False
    if other:
        return f'{one}: NO FAILED FACT, first at {place}: {other[:300]}', False
    return f'{one}: refused at {place}, looked at again ({took} s)', True


def edits_in(folder):
    """The edits of a folder, by label and path."""
    found = sorted(f for f in os.listdir(folder) if f.endswith('.edit')) if os.path.isdir(folder) else []
    return [(f[:-5], os.path.join(folder, f)) for f in found]


def contracts(name):
    """The public functions of a crate that have an `ensures`, as an edit names them."""
    src = os.path.join(TOP, 'crates', name, 'src')
    texts = {}
    for file in sorted(os.listdir(src)) if os.path.isdir(src) else []:
        if file.endswith('.rt'):
            with open(os.path.join(src, file), encoding='utf-8') as f:
                texts[file[:-3]] = f.read()
    modules = re.findall(r'^pub mod (\w+);', '\n'.join(texts.values()), re.M)
    found = []
    for module, text in texts.items():
        owner, head = '', None
        for line in text.split('\n'):
            impl, public = re.match(r'impl\b.*?(\w+)(?:<.*>)? \{$', line), re.match(r' *pub (?:const )?(?:extern "C" )?fn (\w+)', line)
            if impl or line == '}':
                owner = impl[1] + '::' if impl else ''
            elif public:
                head = (module + '::' if module in modules else '') + owner + public[1]
            elif head and re.match(r' *ensures\b', line):
                found, head = found + [head], None
            # the head of a function ends where its body begins, and a clause may be of several lines
            if head and line.endswith('{') and not re.match(r' *requires\b', line):
                head = None
    return found


def count(name):
    """Counts the edits of each public contract of a crate: lines to print, and how many cases passed and failed."""
    there, times, faults = contracts(name), {}, []
    for folder in (os.path.join(TOP, 'crates', name, 'must-fail'), os.path.join(HERE, name)):
        for label, path in edits_in(folder):
            with open(path, encoding='utf-8') as f:
                said = NAMED.match(f.readline())
            for one in sorted(set(said[1].split(', '))) if said else []:
                times[one] = times.get(one, 0) + 1
                if one not in there:
                    faults.append(f'{name}/{label}: NO PUBLIC CONTRACT of {name} is {one}')
    few = [f'{name}::{one}: only {times.get(one, 0)} edits' for one in there if times.get(one, 0) < 2]
    lines = few + faults or ([f'{name}: each of its {len(there)} public contracts has two edits'] if there else [])
    return lines, len(there) - len(few), len(few) + len(faults)


def by_rt(edits, crates):
    """Has rt try the edits of some crates, by name a list of label and path: what it says of each, by name and label."""
    with tempfile.TemporaryDirectory(prefix='edits-') as where:
        lay_out(where, crates)
        for name in edits:
            os.makedirs(os.path.join(where, 'crates', name, 'must-fail'))
            for label, path in edits[name]:
                shutil.copy(path, os.path.join(where, 'crates', name, 'must-fail', label + '.edit'))
        status, said, _ = rt(where, 'must-fail', *edits) if edits else (0, '', 0)
    found = {(m[1], m[2]): m[3] for m in TRIED.finditer(said)}
    if any((name, label) not in found for name in edits for label, _ in edits[name]):
        print(f'rt must-fail did not try every edit (exit status {status}):\n{said[-3000:]}', flush=True)
    return found


def trial(home, crates):
    """Tries the edits of a folder and prints a line for each: how many cases passed and failed."""
    lost = [name for name in sorted(os.listdir(home)) if name not in crates and edits_in(os.path.join(home, name))]
    edits, passed, failed = {}, 0, len(lost)
    for name in lost:
        print(f'crates.txt does not list {name}, which has edits')
    for name in crates:
        found = edits_in(os.path.join(home, name))
        if home == HERE:
            found = edits_in(os.path.join(TOP, 'crates', name, 'must-fail')) + found
        if found:
            edits[name] = found
        for label in sorted({label for label, _ in found if [x for x, _ in found].count(label) > 1}):
            print(f'{name}/{label}: NOT TRIED, since two edits of the crate have this name')
            edits[name], failed = [it for it in found if it[0] != label], failed + 1
    proved = {}
    for name in edits:
        line, right = unedited(name)
        print(line, flush=True)
        passed, failed = passed + right, failed + (not right)
        if right:
            proved[name] = edits[name]
    said = by_rt(proved, crates)
    with concurrent.futures.ThreadPoolExecutor(int(os.environ.get('RT_JOBS') or min(4, os.cpu_count() or 1))) as pool:
        cases = []
        for name in edits:
            untried = 'NOT TRIED' if name in proved else 'NOT TRIED, since the unedited crate is not proved'
            for label, path in edits[name]:
                one = f'{name}/{label}'
                case = judged(one, said.get((name, label), untried))
                cases.append(pool.submit(attempt, one, name, path, crates) if case is None else case)
        for case in cases:
            line, right = case if isinstance(case, tuple) else case.result()
            print(line, flush=True)
            passed, failed = passed + right, failed + (not right)
    return passed, failed


def main():
    counting = sys.argv[1:] == ['--count']
    home = os.path.abspath(sys.argv[1]) if len(sys.argv) > 1 and not counting else HERE
    crates = listed(TOP)
    passed = failed = 0
    for name in crates if home == HERE else []:
        lines, right, wrong = count(name)
        passed, failed = passed + right, failed + wrong
        for line in lines:
            print(line, flush=True)
    if not counting:
        passed, failed = (a + b for a, b in zip((passed, failed), trial(home, crates)))
    print(f'{passed} passed, {failed} failed')
    return 0 if failed == 0 else 1


if __name__ == '__main__':
    sys.exit(main())
