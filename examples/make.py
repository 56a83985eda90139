"""Writes the plan files of this folder; each is accepted.

case_a.plan      Case A of document 01.
flight.plan      The flight application software of source document 003 (its section IV, in units of 5 ms), laid out by its priorities: at each tick the
                 released job of highest priority runs, the adjusted releases being respected, which keeps the precedences.
example_2.plan   Example 2 of source document 000, which is case C of document 01. Two processors, as in the path that it prints: task 0 wakes at tick 1,
                 and the window of each of its jobs runs over the end of a cycle.
example_5.plan   Example 5 of source document 000, simple precedences. Two processors, as in its figure 6.
example_6.plan   Example 6 of source document 000, precedences between jobs of different periods. Two processors, since it asks for 21 ticks in a cycle of 20;
                 the plan is ours. Its pair (3, 1) from task 0 to task 1 is outside the range of a pattern, a below p/T0 = 2, so that a file with it is
                 refused by 6. The file has (1, 0): from job 3 on both say the same, so that a repeated plan keeps both or neither.
next_round.plan  A pump command that feeds the next round's brake job, of edition 2. Two processors, and two rounds of 8 ticks in a cycle of 16. In each round
                 wheel speed (task 0) comes before the brake (1), and the brake before the pump command (2); by the pair (0, 1) the command comes before the
                 brake of the next round, which after the second round is in the next cycle. So brake and command wait for each other, and no job waits for
                 itself. The command's last tick is just before the brake's first; a tick later it would break 23. The display (3) makes the cycle two rounds.
"""
import os

HERE = os.path.dirname(os.path.abspath(__file__))


def number(x):
    out = []
    while x >= 128:
        out.append(x % 128 + 128)
        x //= 128
    return out + [x]


def file(processors, tasks, patterns, slots, edition=1):
    numbers = [edition, len(tasks), processors] + [x for t in tasks for x in t] + [len(patterns)]
    for (a, b), pairs in sorted(patterns.items()):
        numbers += [a, b, len(pairs)] + [x for p in sorted(pairs) for x in p]
    return bytes(sum((number(x) for x in numbers), [])) + bytes(slots)


def flight():
    # name: T, C, O, D in ms, adjusted release, priority (1 the highest)
    table = [('PDE', 100, 5, 0, 100, 0, 6), ('SGS', 1000, 20, 0, 1000, 10, 7), ('PWS', 1000, 20, 0, 1000, 10, 8), ('FDIR', 100, 10, 0, 100, 0, 2),
             ('GNC_US', 1000, 20, 0, 300, 10, 4), ('GNC_DS', 1000, 20, 0, 1000, 10, 5), ('TM/TC', 10000, 200, 30, 10000, 170, 10),
             ('Gyro Acq', 100, 15, 0, 100, 0, 1), ('GPS Acq', 1000, 10, 10, 1000, 10, 3), ('Str Acq', 10000, 100, 20, 10000, 20, 9)]
    place = {row[0]: i for i, row in enumerate(table)}
    simple = [('Gyro Acq', 'FDIR'), ('FDIR', 'PDE'), ('GNC_US', 'GNC_DS'), ('GPS Acq', 'GNC_US'), ('GNC_DS', 'SGS'), ('GNC_DS', 'PWS')]
    links = {(place[a], place[b]): [(0, 0)] for a, b in simple}
    links[place['FDIR'], place['TM/TC']] = [(2, 0)]
    links[place['FDIR'], place['GNC_US']] = [(0, 0)]
    links[place['GNC_DS'], place['PDE']] = [(0, 9)]
    tasks = [tuple(x // 5 for x in (t, c, o, d)) for _, t, c, o, d, _, _ in table]
    cycle, left, slots = 2000, [0] * len(table), []
    for tick in range(cycle):
        for i, (_, t, c, _, _, release, _) in enumerate(table):
            if tick >= release // 5 and (tick - release // 5) % (t // 5) == 0:
                assert left[i] == 0, table[i][0]
                left[i] = c // 5
        ready = [i for i in range(len(table)) if left[i]]
        run = min(ready, key=lambda i: table[i][6]) if ready else None
        slots.append(0 if run is None else run + 1)
        if run is not None:
            left[run] -= 1
    assert not any(left)
    return file(1, tasks, links, slots)


def case_a():
    return file(1, [(8, 3, 0, 8), (12, 5, 0, 12), (12, 2, 0, 12)], {(1, 2): [(0, 0)]},
                [1, 1, 1, 2, 2, 2, 2, 2, 3, 3, 1, 1, 1, 2, 2, 2, 2, 2, 3, 3, 1, 1, 1, 0])


def example_2():
    return file(2, [(5, 5, 1, 5), (5, 2, 0, 5), (5, 2, 0, 5)], {}, [1, 2, 1, 2, 1, 3, 1, 3, 1, 0])


def example_5():
    first = [(0, 0)]
    return file(2, [(6, 1, 0, 6), (6, 2, 0, 6), (6, 2, 1, 6), (6, 1, 1, 6)],
                {(0, 1): first, (0, 2): first, (0, 3): first, (1, 3): first, (2, 3): first},
                [1, 0, 2, 3, 2, 3, 4, 0, 0, 0, 0, 0])


def example_6():
    one = [1, 1, 0, 0, 0, 1, 1, 2, 2, 2, 1, 1, 0, 0, 0, 1, 1, 2, 2, 2]
    two = [0] * 12 + [3] * 7 + [0]
    return file(2, [(5, 2, 0, 5), (10, 3, 0, 10), (20, 7, 0, 20)], {(0, 1): [(0, 0), (1, 0)], (0, 2): [(2, 0)]},
                [slot for row in zip(one, two) for slot in row])


def next_round():
    one = [1, 1, 2, 2, 2, 0, 0, 0] * 2
    two = [3, 3, 4, 4, 4, 4, 4, 3, 3, 3, 0, 0, 0, 0, 0, 3]
    return file(2, [(8, 2, 0, 4), (8, 3, 0, 6), (8, 3, 5, 8), (16, 5, 0, 16)], {(0, 1): [(0, 0)], (1, 2): [(0, 0)], (2, 1): [(0, 1)]},
                [slot for row in zip(one, two) for slot in row], edition=2)


for plan in (case_a, flight, example_2, example_5, example_6, next_round):
    with open(os.path.join(HERE, plan.__name__ + '.plan'), 'wb') as f:
        f.write(plan())
