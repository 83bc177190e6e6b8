"""test_length: lists of rounds, and the length at every point of each. A length is found by linear algebra: it is the
least number of coefficients that can make each later syndrome from those before it. No solver has a say in it. Some
lists are the model's of seed 7, which has the length at their end; some are made here, from a fixed generator."""
import itertools
import random

import cases
import gii
from .common import FORMS, number, numbers, rows, spaced, stored, text
from .solver import as_bytes, cut

LONG = [0] * 48, [0] * 47 + [1], [1] + [0] * 47, [7] * 48, [1, 0] * 24, [0, 0, 3] * 16


def recurs(syndromes, length):
    """Whether each syndrome from that number on is a fixed combination of so many before it."""
    later = range(length, len(syndromes))
    if length == 0:
        return not any(syndromes)
    equations = [[syndromes[i - 1 - j] for j in range(length)] for i in later]
    return not equations or gii.solve_linear(equations, [syndromes[i] for i in later])[0] != 'none'


def lengths(syndromes):
    """The least length for 0, 1, .. syndromes. What is too short for some is too short for more."""
    least = [0]
    for count in range(1, len(syndromes) + 1):
        least.append(next(n for n in itertools.count(least[-1]) if recurs(syndromes[:count], n)))
    return least


def every_cut(syndromes):
    """All ways to cut a list into rounds that are not empty."""
    gaps = range(1, len(syndromes))
    return [cut(syndromes, places) for n in range(len(syndromes)) for places in itertools.combinations(gaps, n)]


def some_cuts(rng, syndromes):
    """The list as one round, as rounds of one syndrome each, and cut at some places, perhaps twice at the same."""
    count = len(syndromes)
    places = [rng.randint(0, count) for _ in range(rng.randint(1, 5))]
    return [cut(syndromes, []), cut(syndromes, range(1, count)), cut(syndromes, places)]


def every_list():
    """Each list of syndromes, with ways to cut it into rounds."""
    for count in range(5):
        for syndromes in itertools.product((0, 1, 3), repeat=count):
            yield list(syndromes), every_cut(list(syndromes)) or [[], [[]], [[], []]]
    rng = random.Random(14)
    for syndromes in LONG:
        yield syndromes, some_cuts(rng, syndromes)
    with stored(cases.lengths) as folder:
        for fields in rows(folder / 'lengths.txt'):
            syndromes = numbers(fields[0])
            assert lengths(syndromes)[-1] == int(fields[1])
            yield syndromes, some_cuts(rng, syndromes)


def points(rounds):
    """How many syndromes a run has iterated over, before its first event and after each."""
    seen = [0]
    for syndromes in rounds:
        seen += range(seen[-1], seen[-1] + len(syndromes) + 1)
    return seen


def make():
    lists, lines = [], []
    for syndromes, ways in every_list():
        least = lengths(syndromes)
        for rounds in ways:
            lists.append(as_bytes(rounds))
            lines += [FORMS[form] + spaced(least[n] for n in points(rounds)) for form in FORMS]
    return {'stdin': number(len(lists)) + b''.join(lists), 'stdout': text(lines)}
