"""test_values: the value of an error in two ways, from the state of a solver after some events of a run. At a changed
place of a pattern both are the pattern's change: these are the model's patterns of seed 7, and some made here, their
syndromes cut into rounds, at the end of the run and inside a round. Other states and places have what the model's two
formulas give, and 0 where they divide by zero."""
import copy
import random

import cases
import gii
from .common import FORMS, number, numbers, rows, stored, text
from .solver import cut, every_list

MOST = 48                                             # a number of iterations above counts as this one


def after(form, rounds, events):
    """Where a run is after so many events."""
    run = gii.Run(form)
    for syndromes in rounds:
        for step in [lambda: run.enter(syndromes)] + [run.iterate] * len(syndromes):
            if events == 0:
                return run
            step()
            events -= 1
    return run


def both(run, k, p, f):
    """What the model's formulas give at place p, a run of so many iterations being told."""
    told = copy.copy(run)
    told.r = min(k, MOST)
    w = gii.alpha_pow(-p)
    known = run.syn + [0] * (MOST - len(run.syn))
    found = gii.values_evaluator(run.st.L, known, told.r, w, f), gii.values_auxiliary(told, w, f)
    return tuple(y or 0 for y in found)


class Case:
    """So many events of a run, and places; with a pattern, what both values must be at its places."""

    def __init__(self, f, rounds, events, places, k=None, pattern=()):
        self.f, self.rounds, self.events, self.places = f, rounds, events, list(places)
        self.runs = {form: after(form, rounds, events) for form in FORMS}
        self.known = len(self.runs['plain'].syn)
        self.k = self.runs['plain'].r if k is None else k
        for form, run in self.runs.items():
            for p, y in pattern:
                assert both(run, self.k, p, f) == (y, y)

    def as_bytes(self):
        syndromes = [x for part in self.rounds for x in part]
        head = [self.f, len(self.rounds), len(syndromes), self.events, self.known, self.k, len(self.places)]
        return bytes(head + [len(part) for part in self.rounds] + syndromes + self.places)

    def lines(self):
        for form, run in self.runs.items():
            fields = ['%d %d %d' % ((p,) + both(run, self.k, p, self.f)) for p in self.places]
            yield ' | '.join(['%s %d %d' % (FORMS[form], self.f, self.k)] + fields)


def events_of(rounds):
    return len(rounds) + sum(len(part) for part in rounds)


def of_patterns(rng):
    """The model's patterns at the end of a run, in one round and in several; with one place more, not changed."""
    with stored(cases.values) as folder:
        for k, f, syndromes, pattern in rows(folder / 'values.txt'):
            k, f, syndromes, pattern = int(k), int(f), numbers(syndromes), numbers(pattern)
            pattern = list(zip(pattern[::2], pattern[1::2]))
            assert k == len(syndromes)
            places = [p for p, y in pattern] + [rng.choice([p for p in range(256) if p not in dict(pattern)])]
            ways = [[syndromes], cut(syndromes, [rng.randint(0, k) for _ in range(rng.randint(1, 4))])]
            for rounds in ways:
                yield Case(f, rounds, events_of(rounds), places, pattern=pattern)


def of_format(rng):
    """Strip 0 of FORMAT 10.5."""
    yield Case(1, [[15, 113], [166, 80]], 6, [0, 3], pattern=[(0, 1), (3, 200)])


def inside_rounds(rng):
    """Fewer changes than the syndromes tell: the state inside the round gives them too, in the scaled form with a
    factor that is not 1."""
    for _ in range(60):
        e, f = rng.randint(1, 10), rng.choice([0, 1, 2, 254, rng.randint(0, 254)])
        count = rng.randint(2 * e + 1, 47)
        pattern = sorted((p, rng.randint(1, 255)) for p in rng.sample(range(255), e))
        syndromes = [gii.pattern_syndrome(pattern, j, f) for j in range(count)]
        stop = rng.randint(2 * e, count - 1)
        begin = rng.randint(0, stop - 1)
        yield Case(f, cut(syndromes, [begin]), 2 + stop, [p for p, y in pattern], pattern=pattern)


def any_states(rng):
    """Runs of test_solver, stopped somewhere, and any places: here the formulas decide, and divide by zero at times.
    Sometimes another number of iterations is told."""
    for rounds in every_list()[::3]:
        events = rng.randint(0, events_of(rounds))
        k = rng.choice([None, None, 0, 1, 47, 48, 49, 255, rng.randrange(256)])
        yield Case(rng.choice([0, 1, 2, 254, 255]), rounds, events, [0, 1, 254, 255, rng.randrange(256)], k)


def make():
    rng = random.Random(6)
    every = [case for kind in (of_format, of_patterns, inside_rounds, any_states) for case in kind(rng)]
    return {'stdin': number(len(every)) + b''.join(case.as_bytes() for case in every),
            'stdout': text(line for case in every for line in case.lines())}
