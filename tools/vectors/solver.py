"""test_solver: lists of rounds, made here from a fixed generator and run by the model in each form. The model also
holds its three forms to the measure at every point of every list."""
import random

import gii
from .common import FORMS, HELD, text, trimmed

FIXED = [[], [[]], [[], [], []], [[2, 4]], [[0, 1]], [[3, 5, 9, 17]], [[0] * 4], [[0] * 48], [[0] * 47 + [1]],
         [[0] * 47 + [1], []], [[1] + [0] * 47], [[], [5], []], [[0], [7]], [[1], [], [0, 0], [9]]]


def cut(syndromes, places):
    ends = [0] + sorted(places) + [len(syndromes)]
    return [syndromes[a:b] for a, b in zip(ends, ends[1:])]


def sparse(rng, shares, count):
    """So many syndromes, of which a share that is chosen is zero."""
    share = rng.choice(shares)
    return [0 if rng.random() < share else rng.randrange(256) for _ in range(count)]


def any_list(rng):
    count = rng.randint(0, 24)
    syndromes = sparse(rng, (0, .2, .5, .8), count)
    return cut(syndromes, [rng.randint(0, count) for _ in range(rng.randint(0, 4))])


def zeros_at_cuts(rng):
    """Zero syndromes around the ends of rounds, and an empty round."""
    count = rng.randrange(4, 20)
    syndromes = [rng.randrange(256) for _ in range(count)]
    places = [rng.randint(1, count - 1) for _ in range(3)]
    for place in places:
        for i in range(place - 1, place + 2):
            if i < count and rng.random() < .6:
                syndromes[i] = 0
    return cut(syndromes, places + [rng.choice(places)])


def zeros_first(rng):
    zeros, others = rng.randint(1, 11), rng.randint(1, 11)
    syndromes = [0] * zeros + [rng.randint(1, 255) for _ in range(others)]
    return cut(syndromes, [rng.randint(0, len(syndromes)) for _ in range(2)])


def of_pattern(rng):
    """The syndromes of up to one change more than the last capability, cut as stages cut them."""
    t = sorted(rng.randint(1, 12) for _ in range(rng.randint(1, 3)))
    places = rng.sample(range(255), rng.randint(0, t[-1] + 1))
    pattern = [(p, rng.randint(1, 255)) for p in places]
    return cut([gii.pattern_syndrome(pattern, j, 1) for j in range(2 * t[-1])], [2 * x for x in t[:-1]])


def long_list(rng):
    syndromes = sparse(rng, (0, .3), 48)
    return cut(syndromes, [rng.randint(0, 48) for _ in range(rng.randint(0, 3))])


def every_list():
    rng = random.Random(11)
    kinds = (any_list, 106), (zeros_at_cuts, 40), (zeros_first, 40), (of_pattern, 80), (long_list, 30)
    return FIXED + [kind(rng) for kind, count in kinds for _ in range(count)]


def as_bytes(rounds):
    """The number of rounds, the number of syndromes, the rounds' lengths, the syndromes."""
    lengths = [len(syndromes) for syndromes in rounds]
    return bytes([len(rounds), sum(lengths)] + lengths + [x for syndromes in rounds for x in syndromes])


def values(run):
    """All numbers of a state, as the program goes through them."""
    st = run.st
    out = [run.r, run.length] + st.L + st.B + [st.gamma]
    if run.form != 'plain':
        out += st.D + st.T + [st[x] for x in HELD[run.form]]
    return out + [int(r in run.swaps) for r in range(48)]


def line(form, rounds):
    """Where a run ends, and a number that depends on every state that it was in."""
    run, digest = gii.Run(form), 0

    def note():
        nonlocal digest
        for x in values(run):
            digest = (digest * 257 + x + 1) % 1000003

    note()
    for syndromes in rounds:
        run.enter(syndromes)
        note()
        for _ in syndromes:
            run.iterate()
            note()
    st = run.st
    fields = [run.swaps or '-', trimmed(st.L), trimmed(st.B), [st.gamma]]
    if form != 'plain':
        fields += [trimmed(st.D), trimmed(st.T), [st[x] for x in HELD[form]]]
    head = '%s %d %d %d' % (FORMS[form], run.r, st.k, run.length)
    return ' | '.join([head] + [' '.join(map(str, f)) for f in fields] + [str(digest)])


def make():
    lists = every_list()
    assert all(gii.demand3_problems(rounds)[0] == [] for rounds in lists)
    return {'stdin': b''.join(as_bytes(rounds) for rounds in lists),
            'stdout': text(line(form, rounds) for rounds in lists for form in FORMS)}
