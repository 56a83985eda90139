#!/usr/bin/env bash
# Tests from outside: the archive is linked into C programs, as an integrator would, which run the vectors, the largest plans, periods two by two, random cases and
# the example; the programs run on stored inputs. Archive and programs are proved and built first where they are not yet. Each line that differs is printed; the
# last line adds up. tests/stand_in.c, in the archive's place, runs the same programs on plain C.
set -u
cd "$(dirname "$0")/.." || exit 2
out=target/outside
mkdir -p "$out"
passed=0 failed=0

give_up() { echo "$1"; echo '0 passed, 1 failed'; exit 1; }

root=.
. tests/platform.sh
. tests/programs.sh
(with=$archive; build_archive "$out") || give_up 'the archive is not built'
echo 'proving and building the programs: some minutes where nothing has been proved'
for name in tests/runs/*; do
    name=${name##*/}
    is_current "$name" || build "$name" >"$out/programs.log" || { cat "$out/programs.log"; give_up "$name is not built"; }
done
for program in vectors largest periods random; do
    $cc -O2 tests/$program.c bench/plain.c $archive -o "$out/$program" || give_up "$program is not built"
done
$cc -O2 tests/vectors.c $stand_in -o "$out/vectors_plain" || give_up 'vectors is not built'
$cc -O2 examples/executive.c $stand_in -o "$out/executive_plain" || give_up 'the example is not built'
$cc -O2 examples/executive.c $archive -o "$out/executive" || give_up 'the example is not built'

# count NAME COMMAND..: run it and take its last line into the sum.
count() {
    local name=$1 said last
    shift
    said=$("$@" 2>&1)
    last=$(printf '%s\n' "$said" | tail -n 1)
    printf '%s\n' "$said" | sed '$d'
    if [[ $last =~ ^([0-9]+)\ passed,\ ([0-9]+)\ failed$ ]]; then
        passed=$((passed + BASH_REMATCH[1]))
        failed=$((failed + BASH_REMATCH[2]))
    else
        failed=$((failed + 1))
    fi
    echo "$name: $last"
}

# stored NAME FILE COMMAND..: what the command prints is what the file holds.
stored() {
    local name=$1 file=$2
    shift 2
    if "$@" 2>&1 | cmp -s - "$file"; then
        passed=$((passed + 1)) same=$((same + 1))
    else
        failed=$((failed + 1)) other=$((other + 1))
        echo "$name prints something else than $file holds"
    fi
}

# ends STATUS COMMAND..: the command ends with the status.
ends() {
    local status=$1 got
    shift
    "$@" >/dev/null 2>&1
    got=$?
    if [ "$got" -eq "$status" ]; then
        passed=$((passed + 1)) same=$((same + 1))
    else
        failed=$((failed + 1)) other=$((other + 1))
        echo "'$*' ends with $got, and not with $status"
    fi
}

# The peer first: plain C answers every vector, so that the random cases compare with something that is right.
# A file of vectors is named by its kind, behind the number of a request where it came with one.
vectors=(103-reader 102-judge 103-judge 105-screen 105-adjusted step 103-step 101-write 103-write)
for name in "${vectors[@]}"; do
    count "plain C, $name" "$out/vectors_plain" "${name#*-}" "tests/vectors/$name.txt"
done
for name in "${vectors[@]}"; do
    count "archive, $name" "$out/vectors" "${name#*-}" "tests/vectors/$name.txt"
done
count 'archive, largest plans' "$out/largest"
count 'archive, periods two by two' "$out/periods"
count 'archive against plain C, random cases' "$out/random" 300000

# The example on every plan file: examples/NAME.out is what it prints.
same=0 other=0
for plan in examples/*.plan; do
    stored "plain C, $plan" "${plan%.plan}.out" "$out/executive_plain" "$plan"
    stored "archive, $plan" "${plan%.plan}.out" "$out/executive" "$plan"
done
# A refusal shows its number and evidence, of 22 all five.
stored 'the example on case E' <(echo 'flute_judge refuses by 22, evidence 0 2 4 20 23') "$out/executive" tests/runs/flute_judge/case_e.in
echo "example executive: $same passed, $other failed"

# The charts that stand beside the examples.
same=0 other=0
for chart in examples/*.chart; do
    stored "the chart of ${chart%.chart}" "$chart" "$(program_at flute_show)" "${chart%.chart}.plan"
done
echo "charts of examples: $same passed, $other failed"

# Stored runs of the programs: tests/runs/PROGRAM/NAME.in is what it reads, NAME.out what it prints; NAME.reports, where it is there, a second file.
same=0 other=0
for input in tests/runs/*/*.in; do
    [ -e "$input" ] || continue
    program=$(basename "$(dirname "$input")")
    base=${input%.in}
    if [ -e "$base.reports" ]; then
        stored "$program on $input" "$base.out" "$(program_at "$program")" "$input" "$base.reports"
    else
        stored "$program on $input" "$base.out" "$(program_at "$program")" <"$input"
    fi
done
echo "stored runs of programs: $same passed, $other failed"

# Files that a program makes: a copy is the file, byte for byte, and says so; a damaged file leaves what was there.
same=0 other=0
for plan in examples/*.plan; do
    stored "a copy of $plan" <(echo "0 $(wc -c <"$plan") written: the bytes are the same") "$(program_at flute_copy)" "$plan" "$out/copy"
    stored "a copy of $plan" "$plan" cat "$out/copy"
done
echo 'as it was' >"$out/copy"
stored 'a copy of a damaged file' tests/runs/flute_copy/left_over.out "$(program_at flute_copy)" tests/runs/flute_copy/left_over.in "$out/copy"
stored 'a copy of a damaged file' <(echo 'as it was') cat "$out/copy"
rm "$out/copy"
stored 'a copy of an empty file' tests/runs/flute_copy/empty.out "$(program_at flute_copy)" tests/runs/flute_copy/empty.in "$out/copy"
ends 1 test -e "$out/copy"
echo "files that programs make: $same passed, $other failed"

count 'source 003, adjusted times' python3 tests/tables.py

# The entry for people runs a program on a file. It ends with 1 after a refusal or finding and with 2 on wrong use; its progress, where it builds first, is on
# standard error.
same=0 other=0
stored './flute judge' tests/runs/flute_judge/case_a.out sh -c './flute judge examples/case_a.plan 2>/dev/null'
for command in read screen adjust judge show play; do ends 0 ./flute $command examples/case_a.plan; done
ends 1 ./flute read tests/runs/flute_read/empty.in
ends 1 ./flute screen tests/runs/flute_screen/case_i.in
ends 1 ./flute adjust tests/runs/flute_adjust/case_k.in
ends 1 ./flute judge tests/runs/flute_judge/case_e.in
ends 1 ./flute show tests/runs/flute_show/left_over.in
ends 1 ./flute play tests/runs/flute_play/case_e.in
ends 0 ./flute play tests/runs/flute_play/case_m.in tests/runs/flute_play/case_m.reports
ends 1 ./flute play tests/runs/flute_play/bad_report.in tests/runs/flute_play/bad_report.reports
ends 0 ./flute copy examples/case_a.plan "$out/copy"
ends 0 cmp examples/case_a.plan "$out/copy"
ends 1 ./flute copy tests/runs/flute_copy/left_over.in "$out/copy"
ends 2 ./flute copy examples/case_a.plan
ends 2 ./flute copy examples/case_a.plan tests
ends 2 ./flute copy examples/case_a.plan "$out/nowhere/copy"
ends 2 ./flute copy tests/runs/nowhere.in "$out/copy"
ends 2 ./flute
ends 2 ./flute judge
ends 2 ./flute look examples/case_a.plan
for file in tests tests/runs/nowhere.in; do
    ends 2 ./flute judge $file
    ends 2 ./flute play examples/case_a.plan $file
done
stored './flute on a folder' <(echo 'flute: tests is a folder and no file') ./flute judge tests
stored './flute on a missing file' <(echo 'flute: tests/nowhere is not there') ./flute judge tests/nowhere
echo "entry for people: $same passed, $other failed"

count 'rules and their definitions' python3 tests/rules.py
echo "$passed passed, $failed failed"
[ "$failed" -eq 0 ]
