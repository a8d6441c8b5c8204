"""A search of its own for settings in force, overload, serving and critical blocks of small books.

It goes through all sharings, all lists and all pairs, as docs/RULES.md says them. The stored cases are definitions of
the crate `schedule`, which proves that its own definitions answer the same.
"""
import dataclasses
import functools
import itertools
import pathlib
import random
from fractions import Fraction

from rules import Block, Demand, Interval

CASES = pathlib.Path('crates/schedule/specs/Cases.antt')

HEADER = """\
-- Small books, and what a search through all sharings, lists and pairs finds for each. Written by tests/schedule.py.
use Rattle.std.specs.Prelude.{List, [], ◌∷◌}
use Rattle.schedule.specs.Demands.{job}
use Rattle.schedule.specs.Answers.{Case}

-- the cases, each with its book and what was found
abbrev pub cases : List Case
cases =
"""


@dataclasses.dataclass(frozen=True)
class Case:
    """A small book, seen from now: the ticks ahead, the top, and the demands."""
    ticks: int
    top: int
    demands: list


def case_of(ticks, top, *demands):
    return Case(ticks, top, [Demand(*demand) for demand in demands])


WORKED = [
    case_of(3, 4),
    case_of(3, 4, (0, 2, 3), (0, 3, 1)),
    case_of(3, 4, (2, 3, 1), (0, 3, 2)),
    case_of(1, 4, (0, 1, 2), (0, 1, 2)),
    case_of(1, 3, (0, 1, 2), (0, 1, 2)),
    case_of(4, 3, (0, 4, 11), (2, 4, 4)),
    case_of(4, 2, (0, 4, 4), (1, 2, 5)),
    case_of(4, 2, (3, 4, 2), (0, 1, 2), (1, 2, 2)),
]


def by_chance(chance):
    ticks = chance.randrange(2, 6)
    top = chance.randrange(1, {2: 6, 3: 6, 4: 4, 5: 3}[ticks])
    demands = []
    for _ in range(chance.randrange(1, 5)):
        start = chance.randrange(ticks)
        end = chance.randrange(start + 1, ticks + 1)
        demands.append(Demand(start, end, chance.randrange(1, 2 + top * (end - start) // 2)))
    return Case(ticks, top, demands)


def cases():
    """The worked books and 56 by chance, the demands of each in order of deadline."""
    chance = random.Random(256)
    for case in WORKED + [by_chance(chance) for _ in range(56)]:
        yield Case(case.ticks, case.top, sorted(case.demands, key=lambda demand: demand.end))


@functools.lru_cache(None)
def rows(ticks, units):
    """Every way to give so many ticks these units."""
    if ticks == 0:
        return [()] if units == 0 else []
    return [(first, *rest) for first in range(units + 1) for rest in rows(ticks - 1, units - first)]


def given(counts, start, row):
    """What the ticks have once those from the start on have got this row too."""
    end = start + len(row)
    return counts[:start] + tuple(map(int.__add__, counts[start:end], row)) + counts[end:]


def exact_lists(ticks, demands):
    """What each sharing gives the ticks: the exact lists."""
    found = {(0,) * ticks}
    for demand in demands:
        ways = rows(demand.end - demand.start, demand.units)
        found = {given(counts, demand.start, row) for counts in found for row in ways}
    return found


def squares(counts):
    return sum(units * units for units in counts)


def in_force(exact):
    """The least sum of squares; among several, the greater at the first tick where they differ."""
    least = min(map(squares, exact))
    return max(counts for counts in exact if squares(counts) == least)


def does(settings, exact):
    """Whether some sharing gives no tick more units than its setting."""
    return any(all(units <= setting for units, setting in zip(counts, settings)) for counts in exact)


def work_inside(demands, start, end):
    return sum(demand.units for demand in demands if start <= demand.start and demand.end <= end)


def first_overload(top, demands):
    """The overloaded interval with the least start and, among those, the least end."""
    for start in sorted({demand.start for demand in demands}):
        for end in sorted({demand.end for demand in demands}):
            inside = work_inside(demands, start, end)
            if start < end and inside > top * (end - start):
                return Interval(start, end, inside)
    return None


def served(setting, demands):
    """What each demand gets in this tick, in the order of deadlines."""
    found = []
    for demand in demands:
        units = min(demand.units, setting) if demand.start == 0 else 0
        setting -= units
        found.append(units)
    return found


def left(demands, got):
    """What is left of each demand one tick later."""
    later = [(max(demand.start - 1, 0), demand.end - 1) for demand in demands]
    return [Demand(*window, demand.units - units) for window, demand, units in zip(later, demands, got)]


MODELS = [lambda s: s, lambda s: 10 + s ** 3, lambda s: max(s, 2) ** 3, lambda s: max(s - 1, 0)]


def draws(lists):
    """The least that one of the lists draws under each model."""
    return [min(sum(map(model, settings)) for settings in lists) for model in MODELS] if lists else []


def fastest(seen, free):
    """The pair of compressed times with the most work over length; then the least first, then the greatest second."""
    pairs = itertools.combinations(range(free + 1), 2)
    return max(pairs, key=lambda pair: (Fraction(work_inside(seen, *pair), pair[1] - pair[0]), -pair[0], pair[1]))


def blocks(ticks, demands):
    """The critical blocks, round by round, in ticks from now."""
    free, found = set(range(ticks)), []
    while demands:
        time = [sum(1 for tick in free if tick < until) for until in range(ticks + 1)]
        seen = [Demand(time[demand.start], time[demand.end], demand.units) for demand in demands]
        u, v = fastest(seen, len(free))
        taken = {tick for tick in free if u <= time[tick] < v}
        found.append(Block(work_inside(seen, u, v), v - u, min(taken), max(taken) + 1))
        demands = [demand for demand, at in zip(demands, seen) if not (u <= at.start and at.end <= v)]
        free -= taken
    return found


def answers(case):
    """What the search finds for a small book."""
    exact = exact_lists(case.ticks, case.demands)
    lists = itertools.product(range(case.top + 1), repeat=case.ticks)
    able = [settings for settings in lists if does(settings, exact)]
    settings = in_force(exact)
    got = served(settings[0], case.demands)
    overload = first_overload(case.top, case.demands)
    return {
        'overload': dataclasses.astuple(overload) if overload else (),
        'able': len(able),
        'exact': sum(settings in exact for settings in able),
        'settings': settings,
        'served': got,
        'left': [dataclasses.astuple(demand) for demand in left(case.demands, got)],
        'draws': draws(able),
        'blocks': [dataclasses.astuple(block) for block in blocks(case.ticks, case.demands)],
    }


def listed(values):
    return ''.join(f'{value} ∷ ' for value in values) + '[]'


def shown(value):
    """A number, or a list of numbers or of tuples."""
    return str(value) if isinstance(value, int) else listed(value)


def case_lines(case):
    """The lines of a case and of what is found for it."""
    demands = listed(f'job {demand.start} {demand.end} {demand.units}' for demand in case.demands)
    found = [f'        {name} = {shown(value)};' for name, value in answers(case).items()]
    return [
        '    record {',
        f'      book = record {{ ticks = {case.ticks}; top = {case.top}; demands = {demands} }};',
        '      found = record {',
        *found,
        '      };',
        '    } ∷',
    ]


def text():
    """The file of all cases."""
    return HEADER + ''.join(line + '\n' for case in cases() for line in case_lines(case)) + '    []\n'


def stored():
    return {CASES: text().encode()}
