"""Compares flute_adjust with the tables that source document 003 publishes for the flight application software, sections II.D and IV.E.

The two task sets are stored runs of flute_adjust, in units of 5 ms; the numbers below are the source's, in ms. The source adjusts a task, so a number of
its tables stands for every job of the task; document 01 adjusts each job. Each comparison is one number of a table, or the number that our rules put in its
place, against all jobs of its task. Those that differ are printed; the last line adds up.
"""
import os
import subprocess
import sys

ROOT = os.path.dirname(os.path.dirname(os.path.abspath(__file__)))
UNIT = 5

# Section II.D: name, T, D*. Every first release is 0.
SIMPLE = [('PDE', 100, 100), ('SGS', 1000, 1000), ('PWS', 1000, 1000), ('FDIR', 100, 95), ('GNC_US', 1000, 300), ('GNC_DS', 1000, 980),
          ('TM/TC', 10000, 10000), ('Gyro Acq', 100, 85), ('GPS Acq', 1000, 280), ('Str Acq', 10000, 10000)]

# Section IV.E: name, T, D*, O*.
EXTENDED = [('PDE', 100, 100, 0), ('SGS', 1000, 990, 10), ('PWS', 1000, 990, 10), ('FDIR', 100, 100, 0), ('GNC_US', 1000, 290, 10),
            ('GNC_DS', 1000, 990, 10), ('TM/TC', 10000, 9860, 170), ('Gyro Acq', 100, 100, 0), ('GPS Acq', 1000, 1000, 10), ('Str Acq', 10000, 10000, 20)]

# Where our rules say another number than section IV.E's table.
#
# The source's O* lets a job wait until its predecessors are released, formula (2) and property 1. Request 105's release also leaves them time to run: it is the
# greatest of the own release and, for each predecessor, its adjusted release plus its C. So the three tasks without a predecessor have the source's release, and
# the other seven a later one. GNC_US waits for FDIR until 25 and for GPS Acq only until 20.
RELEASES = {'FDIR': 0 + 15,     # Gyro Acq and its C
            'PDE': 15 + 10,     # FDIR and its C
            'GNC_US': 15 + 10,  # FDIR and its C
            'GNC_DS': 25 + 20,  # GNC_US and its C
            'SGS': 45 + 20,     # GNC_DS and its C
            'PWS': 45 + 20,     # GNC_DS and its C
            'TM/TC': 215 + 10}  # job 2 of FDIR and its C
# The source's 170 for TM/TC is in any case another number than its formula's, O_i + max(0, O_j* + n T_j - (O_i + n' T_i)) = 30 + (0 + 200) - (30 + 0) = 200: the
# worked example writes 0 in place of the first 30, and at 170 the job of FDIR that TM/TC waits for is not yet released.
#
# Section IV adjusts releases only: its D* is counted from O* and keeps O* + D* = O + D. Document 01's deadline is in any case section II's, the least of
# the own deadline and each successor's less its C, which is lower for the four tasks that have a successor to make room for.
DEADLINES = {'FDIR': 95, 'GNC_DS': 980, 'Gyro Acq': 85, 'GPS Acq': 280}


def adjusted(name):
    """A list of (release, deadline) in ms for each task, by its number."""
    path = os.path.join(ROOT, 'tests', 'runs', 'flute_adjust', name + '.in')
    program = os.path.join(ROOT, 'crates', 'flute_adjust', 'out', 'flute_adjust')
    lines = subprocess.run([program, path], capture_output=True, text=True, check=True).stdout.splitlines()
    if not lines or lines[0].split()[0] != '0':
        sys.exit('flute_adjust on %s: %s\n0 passed, 1 failed' % (name, lines[:1]))
    jobs = {}
    for line in lines[1:]:
        task, job, release, deadline = map(int, line.split())
        assert job == len(jobs.setdefault(task, []))
        jobs[task].append((release * UNIT, deadline * UNIT))
    return jobs


def compare(section, column, name, period, first, got):
    """Whether each job's time is the first job's plus its periods."""
    wrong = [(k, x) for k, x in enumerate(got) if x != first + k * period]
    for k, x in wrong[:3]:
        print('section %s, %s of %s: job %d has %d, not %d' % (section, column, name, k, x, first + k * period))
    return not wrong and len(got) == 10000 // period


def main():
    results = []
    jobs = adjusted('source_003_ii_d')
    for i, (name, period, deadline) in enumerate(SIMPLE):
        results.append(compare('II.D', 'D*', name, period, deadline, [d for _, d in jobs[i]]))
    jobs = adjusted('source_003_iv_e')
    for i, (name, period, deadline, release) in enumerate(EXTENDED):
        results.append(compare('IV.E', 'O*', name, period, RELEASES.get(name, release), [r for r, _ in jobs[i]]))
        results.append(compare('IV.E', 'O* + D*', name, period, DEADLINES.get(name, release + deadline), [d for _, d in jobs[i]]))
    print('%d of %d numbers are held to our rules and not to the source, where they differ' % (len(RELEASES) + len(DEADLINES), len(results)))
    print('%d passed, %d failed' % (sum(results), len(results) - sum(results)))
    return not all(results)


sys.exit(main())
