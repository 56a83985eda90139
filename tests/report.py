"""The report for people who do not read proofs: from the log of a gate run, and from the tree that it ran on.

    .ci/run 2>&1 | tee LOG
    python3 tests/report.py LOG > docs/REPORT.md

Every figure is either taken from the log or counted in the tree. What the log lacks, or what failed in it, stands at the top of the page, and the exit status
is 1 then.
"""
import os
import re
import sys
import textwrap

sys.dont_write_bytecode = True
from edit import NAMED, listed

TOP = os.path.join(os.path.dirname(os.path.abspath(__file__)), '..')

# The statements behind each demand: file below crates/, name, and what it says in plain words. That they stand in the file is tested.
DEMANDS = [
    ('Demand 1: every call ends well and answers as the rules say', '''
Whatever bytes a call is handed, and however many, it comes to an end, touches only what it was lent, loses nothing in a sum or a product, and gives exactly the
answer that the rules (`docs/RULES.md`) prescribe: this number with this evidence, and no other. A call from C that refuses leaves every byte that it was lent as
it was. This is proved function by function, for every input there is.''',
     [('theorems/proofs/Demands.antt', 'start_refused', 'a start that is refused leaves the state as it is'),
      ('theorems/proofs/Demands.antt', 'step_refused', 'and a step that is refused state and output'),
      ('theorems/proofs/Demands.antt', 'times_refused', 'and a refused call for adjusted times both buffers'),
      ('theorems/proofs/Demands.antt', 'write_refused', 'and a refused call that writes a file its buffer'),
      ('theorems/specs/FileMeaning.antt', 'read_exactly', 'the bytes that are read are exactly those that a right set and a plan of its size are written as'),
      ('theorems/specs/FileMeaning.antt', 'read_write', 'what was written is read as the same set and plan'),
      ('theorems/specs/FileMeaning.antt', 'write_read', 'what was read is written as the same bytes'),
      ('flute/specs/Calls.antt', 'start_once', 'for a start from C only one number and one state are allowed'),
      ('flute/specs/Calls.antt', 'step_once', 'for a step from C only one number, one state and one output'),
      ('dispatcher/specs/Outcome.antt', 'one_outcome', 'for a step only one answer, one next state and one output are allowed'),
      ('screen/specs/Written.antt', 'answered_once', 'for adjusted times only one answer and one content of both buffers are allowed'),
      ('reader/proofs/ReadLaws.antt', 'read_sound', 'tasks that are read keep every limit'),
      ('reader/proofs/ReadLaws.antt', 'read_long', 'a plan that is read has a slot for every tick and processor'),
      ('reader/proofs/ReadLaws.antt', 'read_slots', 'a plan that is read names no unknown task')]),
    ('Demand 2: accepted means right for ever, and nothing right is turned away', '''
The judge says yes exactly to the plans whose endless repetition gives every job its full running time between its release and its deadline, gives it no tick
outside, never runs it on two processors at once, and keeps every order that is asked for. To any other plan it says no, names the first rule that is broken, and
shows where. The screen reports a set of tasks only with a true finding, and then no plan for these tasks is ever accepted.''',
     [('theorems/specs/Demand2.antt', 'judge_accepts', 'the judge says yes exactly to such plans'),
      ('theorems/specs/Demand2.antt', 'accepted_iff', 'the same for any bytes at all, of the right length or not'),
      ('theorems/specs/Demand2.antt', 'first_rule', 'otherwise it names the first broken rule, at the lowest place'),
      ('theorems/specs/Demand2.antt', 'one_verdict', 'no second verdict would be as right'),
      ('theorems/proofs/Demands.antt', 'judge_shows_ticks', 'where a job gets too few ticks or too many, it shows how many, and when the first and the last of them fall'),
      ('theorems/proofs/Demands.antt', 'start_shows_same', 'and a start answers and shows the same'),
      ('theorems/specs/NextRound.antt', 'gets_next', 'where a job waits for one of the round before, over the end of a cycle too, its ticks are those of the job that it repeats, a cycle later'),
      ('theorems/specs/BothWays.antt', 'both_ways_not_found', 'two tasks that wait for each other, one of the two always for the round before, are not taken for a circle'),
      ('theorems/specs/NextRound.antt', 'same_verdict', 'the edition of a file changes nothing else: a set that two editions allow gets the same verdict in both'),
      ('theorems/specs/ScreenTrue.antt', 'finding_true', 'what the screen finds is so'),
      ('theorems/proofs/Accepted.antt', 'finding_is_final', 'after a finding no plan for these tasks is accepted'),
      ('theorems/specs/OldReleases.antt', 'same_findings', 'that a job waits until those before it have had time to run changes no finding but which job is named'),
      ('theorems/proofs/Demand2Bytes.antt', 'judged_zero', 'all this for the bytes that a controller hands to the judge'),
      ('theorems/specs/ShutOut.antt', 'not_repeat', 'a judge that always says the same would not do')]),
    ('Demand 3: a right plan is rightly played', '''
From an accepted plan, for any number of ticks and whatever finishes early: every job whose deadline has passed, and that was not heard to finish before its last
planned tick, has had exactly its planned ticks. No job gets more, or any after it is heard to finish. None runs before the ticks of those that it waits for are
over. What one task reports changes no tick of another.''',
     [('theorems/proofs/Accepted.antt', 'accepted_plays', 'whatever the judge accepts is a plan of which the following holds'),
      ('theorems/proofs/Demand3.antt', 'goes_on', 'no rightly made step is ever refused, however many went before'),
      ('theorems/proofs/Demand3.antt', 'refused_is_none', 'a refused step is as if it had not been made'),
      ('theorems/proofs/Demand3.antt', 'all_planned', 'a job that did not finish early has had all its planned ticks at its deadline'),
      ('theorems/proofs/Demand3.antt', 'all_running', 'and they are its full running time'),
      ('theorems/proofs/Demand3.antt', 'never_more', 'no job gets more ticks than are planned'),
      ('theorems/proofs/Demand3.antt', 'none_after', 'or any after it is heard to finish'),
      ('theorems/proofs/Demand3.antt', 'in_order_lem', 'no job runs before those that it waits for are over, also from one cycle into the next'),
      ('theorems/proofs/Demand3.antt', 'own_reports_only', "other tasks' early finishes change nothing for a task"),
      ('theorems/proofs/Demand3Shown.antt', 'shown_once', 'no task is shown on two processors in one tick'),
      ('theorems/proofs/Demands.antt', 'every_play_keeps', 'all of this holds of the rows that the controller gets from its calls, however many, refused ones among them'),
      ('theorems/proofs/Demands.antt', 'own_reports_decide', 'the last of it too'),
      ('theorems/proofs/Demand3Bytes.antt', 'refused_in_bytes', 'and a refused step leaves state and output as they are, whatever they were')]),
]

NOT_COVERED = '''
- **The compiler's back end, the C compiler, the processor, the C library.** A proof speaks of the program as it is written. What was run is compared with an
  independent program (above), which is a test and no proof.
- **C callers.** That a pointer and a length describe one buffer, and that a buffer that is written overlaps no other, is the caller's part.
- **Time.** How long a call takes is measured (`docs/BENCH.md`) and not proved.
- **The kit**: the prover, and its libraries for files and terminals, on which the small programs rest, and not the calls for C.
- **The rules themselves.** That they (`docs/RULES.md`, after the customer's document 01) ask for what the fire engine needs, and that running times are what they are
  said to be.'''

problems = []


def read(*path):
    with open(os.path.join(TOP, *path), encoding='utf-8') as f:
        return f.read()


def files(folder, ending):
    for base, dirs, names in os.walk(os.path.join(TOP, folder)):
        dirs.sort()
        for name in sorted(names):
            if name.endswith(ending):
                yield os.path.relpath(os.path.join(base, name), TOP)


def law_files(crate):
    """The files of laws that stand among a crate's proofs."""
    of_functions = ('Proof.antt', 'Answers.antt', 'Invariants.antt', 'Lib.antt')
    return [path for path in files(f'crates/{crate}/proofs', '.antt') if os.path.basename(path) not in of_functions]


# ---- the tree
FN = re.compile(r'(?P<pub>\bpub\s+)?(?P<c>extern\s+"C"\s+)?\bfn\s+(?P<name>\w+)\s*(?=[<(])')
SIGNATURE = re.compile(r'( *)((?:unfoldable |abbrev )?)(?:pub )?([^\s:()]+) : (.*)')
DATA = ('ℕ', 'ℤ', 'Bool', 'List', 'Set', 'Type')


def functions(crate):
    """Of every function in a crate's sources: whether it is public, is for C, and asks something of its caller."""
    found = []
    for path in files(f'crates/{crate}/src', '.rt'):
        text = re.sub(r'//[^\n]*', '', read(path))
        heads = list(FN.finditer(text))
        for m, following in zip(heads, heads[1:] + [None]):
            whole = text[m.end():following.start() if following else len(text)]
            found.append((bool(m['pub']), bool(m['c']), bool(re.search(r'\brequires\b', whole))))
    return found


def is_data(kind):
    """Whether a signature's type ends in numbers, lists and the like, so that it names a thing and states nothing."""
    end = re.sub(r'[({][^(){}]*[)}]', '', kind).split('→')[-1].split()
    return bool(end) and end[0] in DATA and not re.search('[≡≤<↔×⊎]', ' '.join(end))


def statements(path):
    """(kind, name) of every definition and law in a file of definitions. A definition is marked `unfoldable` or `abbrev`, is a record or a data type, or has data
    for its type; any other signature at the margin, or at the margin of a module, states a law."""
    inside, found = '', []
    for line in read(path).split('\n'):
        opened = re.match(r'(pub )?(record|data|module)\b\s*(\S+)', line)
        if opened:
            inside = opened[2]
            if inside != 'module':
                found.append(('definition', opened[3]))
            continue
        sign = SIGNATURE.match(line)
        if sign and (not sign[1] or (inside == 'module' and len(sign[1]) == 2)):
            found.append(('definition' if sign[2] or is_data(sign[4]) else 'law', sign[3]))
        if line and not line.startswith((' ', '--')):
            inside = ''
    return found


def edits(*folders):
    """Every edit in some folders by its label, with the sentence that it begins with, behind the functions that it is of, or else its label in words."""
    found = {}
    for path in (path for folder in folders for path in files(folder, '.edit')):
        label = os.path.basename(path)[:-5]
        said = [NAMED.sub('', x, 1).lstrip('# ').rstrip(' .') for x in read(path).split('\n') if x.startswith('#')]
        words = said[0] if said else label.replace('_', ' ')
        found[label] = words[:1].upper() + words[1:] + '.'
    return found


def wrong_edits(crate):
    """The edits of a crate: those that `rt ci` tries, and those that tests/edits/run.py has tried."""
    return edits(f'crates/{crate}/must-fail', f'tests/edits/{crate}')


# ---- the log
PARTS = ('proofs', 'changed definitions', 'edits', 'outside')
CLOSING = re.compile(r'(\d+) passed, (\d+) failed$')


def parts_of(lines):
    """The log's lines by the part that printed them."""
    parts, name = {}, ''
    for line in lines:
        if line.startswith('== ') and line[3:] in PARTS:
            name = line[3:]
            parts[name] = []
        elif name:
            parts[name].append(line)
    return parts


def paragraph(*words):
    return [textwrap.fill(' '.join(words), 158), '']


def in_words(n, one, many):
    return f'{n:,} {one if n == 1 else many}'


def table(head, rows):
    out = ['| ' + ' | '.join(head) + ' |', '|' + '|'.join('---:' if h.startswith('>') else '---' for h in head) + '|']
    out[0] = out[0].replace('>', '')
    return out + ['| ' + ' | '.join(str(x) for x in row) + ' |' for row in rows]


def proofs_section(lines, tried, crates):
    proved = {m[1] for m in (re.match(r'rt: (\w+) proved$', x) for x in lines) if m}
    # what an earlier run proved of the very same files is kept, and its functions are not shown again
    kept = {m[1] for m in (re.match(r'rt: (\w+) is kept: an earlier run on this machine proved the same files', x) for x in lines) if m}
    # (a closure is a part of its function, under a name in which `fn` stands, and what the compiler makes has a + in its name)
    shown = {(m[1], m[2]) for m in (re.match(r'fn (\w+)::(?!\S*fn::)([^\s+]+): proved$', x) for x in lines) if m}
    assumed, last = {}, None
    for x in lines:
        if x.startswith('logic=proved '):
            last = re.search(r' axioms=(\d+)', x)
        named = re.match(r'rt: (\w+) (proved$|ran )', x)
        if named and last:
            assumed[named[1]] = int(last[1])
        if named:
            last = None
    # each is run twice, as two compilers build it
    ran = sorted({m[1] for m in (re.match(r'rt: (\w+) ran\b.*and wrote what', x) for x in lines) if m}, key=crates.index)
    refused = {(m[1], m[2]) for m in (re.match(r'rt: must-fail (\w+)/([\w.-]+)\.edit: refused, as it must be', x) for x in lines) if m}
    refused |= {(m[1], m[2]) for m in (re.match(r'(\w+)/(\w+): refused at ', x) for x in tried) if m}
    for x in lines + tried:
        if re.search(r'NOT PROVED|NOT REFUSED|BAD EDIT|NO FAILED FACT|NOT TRIED|NO PUBLIC CONTRACT|only \d+ edits|its run FAILED|^rt: FAILED', x):
            problems.append('`' + x + '`')
    counts = {'functions': 0, 'public': 0, 'for C': 0, 'asking': 0, 'definitions': 0, 'laws': 0}
    rows = []
    for crate in crates:
        fns = functions(crate)
        seen = sum(1 for c, _ in shown if c == crate)
        if crate in kept:
            seen = len(fns)
        if crate not in proved | kept:
            problems.append(f'The log does not say that `{crate}` is proved.')
        elif seen != len(fns):
            problems.append(f'`{crate}` has {len(fns)} functions, and the log shows {seen} as proved.')
        said = [s for path in [*files(f'crates/{crate}/specs', '.antt'), *law_files(crate)] for s in statements(path)]
        definitions, laws = sum(kind == 'definition' for kind, _ in said), sum(kind == 'law' for kind, _ in said)
        wrong = wrong_edits(crate)
        unseen = [label for label in wrong if (crate, label) not in refused]
        if unseen:
            problems.append(f'The log does not say that these wrong edits of `{crate}` were refused: {", ".join(unseen)}.')
        counts['functions'] += seen
        counts['public'] += sum(public for public, _, _ in fns)
        counts['for C'] += sum(c for _, c, _ in fns)
        counts['asking'] += sum(public and asks for public, _, asks in fns)
        counts['definitions'] += definitions
        counts['laws'] += laws
        rows.append((f'`{crate}`', seen, definitions, laws, sum((crate, x) in refused for x in wrong)))
    return counts, rows, refused, ran, assumed, [x for x in crates if x in kept]


def demand_sections():
    out = []
    for title, words, where in DEMANDS:
        rows = []
        for path, name, said in where:
            there = ('law', name) in statements('crates/' + path)
            if not there:
                problems.append(f'The statement `{name}` is not in `crates/{path}`.')
            rows.append((said, f'`{name}`' if there else 'MISSING', f'`crates/{path}`'))
        out += [f'### {title}', '', words.strip(), ''] + table(['what is proved', 'its name', 'where it stands'], rows) + ['']
    return out


def edit_sections(refused, lines, crates):
    out = ['## Wrong edits that were refused', '']
    out += paragraph('A proof is worth something only if it fails where it should. Each line is a rule, or a wrong program. An edit that breaks the rule, or makes the program,',
                     'was tried in the run, and the checker refused it.')
    rows = [(f'`{crate}`', said, 'refused' if (crate, label) in refused else 'NOT SEEN IN THE LOG')
            for crate in crates for label, said in wrong_edits(crate).items()]
    out += table(['part', 'rule that the edit breaks', 'outcome'], rows) + ['']
    out += paragraph('And definitions: each line is a wrong reading of a rule. With it the marked cases A to M no longer come out, or where they still do a case of the second',
                     'table does not, and the checker refused it.')
    rows = []
    for label, said in edits('tests/definitions').items():
        by = [m[1] for m in (re.fullmatch(rf'{label}: refused by (the marked cases|the second table), as it must be', x) for x in lines) if m]
        if not by:
            problems.append(f'The log does not say that the changed definition `{label}` was refused.')
        rows.append((said, f'refused by {by[0]}' if by else 'NOT SEEN IN THE LOG'))
    return out + table(['wrong reading', 'outcome'], rows) + ['']


def outside_section(lines):
    rows, met, seed, told = [], [], None, []
    for x in lines:
        case = re.match(r'(.+): (\d+) passed, (\d+) failed$', x)
        if case:
            rows.append((case[1], f'{int(case[2]) + int(case[3]):,}', case[3]))
        if re.match(r'\d+ of \d+ numbers are held to', x):
            told.append(f'Source 003 adjusts times by rules that differ in part: {x}.')
        if re.match(r'seed \d+$', x):
            seed = x.split()[1]
        if re.match(r'[\w ]+, \d+ calls:|files that were read: |plans with a link into the next cycle: ', x):
            met.append('- ' + re.sub(r'(\d{4,})', lambda m: f'{int(m[1]):,}', x))
        if 'left out' in x or 'not built' in x:
            problems.append(x[:1].upper() + x[1:] + '.')
    if not rows:
        problems.append('The log has no outside cases.')
    out = ['## Cases that were run', '']
    out += paragraph('Beside the proofs, the archive that goes into the controller was linked into C programs and run. "Plain C" is a second program, written from the',
                     "customer's document 01 and requests alone; it answers the same outside cases, so that it is a fair judge of the random ones.")
    out += table(['cases', '>run', '>differed'], rows)
    for x in told:
        out += [''] + paragraph(x)
    if met:
        out += ([''] if out[-1] else []) + [f'The random cases, from seed {seed}, by the number that was answered:', ''] + met + ['']
        out += paragraph('Every buffer in them stood at the edge of memory that may be touched: a byte read or written outside, a byte changed in what was lent for reading, or a byte',
                         'changed by a refused call would have been counted as a difference.')
    return out + ([''] if out[-1] else [])


def main():
    if len(sys.argv) != 2:
        sys.exit('report.py LOG')
    with open(sys.argv[1], encoding='utf-8', errors='replace') as f:
        lines = [x.rstrip('\n') for x in f]
    parts, crates = parts_of(lines), list(listed(TOP))
    end = CLOSING.match(lines[-1]) if lines else None
    if not end:
        problems.append("The log's last line is not 'N passed, M failed': the run did not come to its end.")
    elif int(end[2]):
        problems.append(f'{in_words(int(end[2]), "check", "checks")} failed.')
    for name in PARTS:
        if name not in parts:
            problems.append(f"The log has no part '{name}'.")
    counts, rows, refused, ran, assumed, kept = proofs_section(parts.get('proofs', []), parts.get('edits', []), crates)
    demands = demand_sections()
    wrong = edit_sections(refused, parts.get('changed definitions', []), crates)
    cases = outside_section(parts.get('outside', []))

    out = ['# What was proved and what was tested', '']
    out += paragraph('For those who ride the engine and those who answer for it. This page is written by `tests/report.py` from the log of one full run of the gate and from',
                     'the tree it ran on; it has no figure that was not counted there.')
    if problems:
        out += ['**THIS RUN DOES NOT STAND:**', ''] + [f'- {x}' for x in problems] + ['']
    else:
        out += [f'The run: **{int(end[1]):,} passed, 0 failed.**', '']
    out += ['## What it is about', '']
    out += paragraph('The brake controller of a pump-and-roll engine runs its tasks by a plan, tick by tick. The software here reads such a plan, judges it, and plays it. If it',
                     'took a bad plan for a good one, or played a good one wrongly, a brake task could come too late.')
    out += paragraph('To test is to try some inputs. To prove is more: a checking program goes through a complete argument that covers every input there is. That was done here',
                     f'for {in_words(counts["functions"], "function", "functions")}. They are held against {in_words(counts["definitions"], "definition", "definitions")}, among them the',
                     f'rules of the product (`docs/RULES.md`) in exact form; {in_words(counts["laws"], "statement", "statements")} about these are proved as well. Of the functions',
                     f'{counts["public"]} can be called from outside their part, {counts["for C"]} of them from C.',
                     f'{counts["asking"]} of these ask something of their caller.' if counts['asking'] else 'None of these asks anything of its caller.')
    out += ['## The three demands', '']
    out += paragraph('They stand on one page, as statements about the bytes that a controller has, in `crates/theorems/proofs/Demands.antt`; each names its proof.')
    out += demands
    out += paragraph("The customer's own cases A to M (`docs/RULES.md`, section 14) are proved to follow from the definitions, in one statement (`marked_cases` in",
                     '`crates/cases/proofs/Marked.antt`). So a definition that reads a rule wrongly at one of these cases would not have passed. A second table, our own, does the',
                     'same for every refusal number with every reason for it (`second_cases_lem` in `crates/cases/specs/Second.antt`).')
    out += ['## Part by part', '']
    out += table(['part', '>functions proved', '>definitions', '>statements proved', '>wrong edits refused'], rows)
    total = [sum(r[k] for r in rows) for k in range(1, 5)]
    out += ['| in all | ' + ' | '.join(f'{x:,}' for x in total) + ' |', '']
    if ran:
        out += ['Programs that were proved, and run on a stored input: ' + ', '.join(f'`{x}`' for x in ran) + '.', '']
    if assumed:
        out += paragraph('Parts that rest on assumptions about the system they run on, which nobody proves, with their number:',
                         ', '.join(f'`{x}` {n}' for x, n in assumed.items()) + '. The others that this run proved rest on none.')
    if kept:
        out += paragraph('Parts that an earlier run had proved of the very same files, so that this run kept that and its log says nothing of what they rest on:',
                         ', '.join(f'`{x}`' for x in kept) + '.')
    out += wrong + cases + ['## What is not covered', '', NOT_COVERED.strip(), '']
    print('\n'.join(out), end='')
    return 1 if problems else 0


sys.exit(main())
