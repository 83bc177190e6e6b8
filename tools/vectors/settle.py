"""test_settle: rows of syndromes, settled by the model. Rows with the first root alpha come first, then rows with
others. Of each, some are the model's of seed 7, and some are made here from a fixed generator. The expected lines are
the model's, by linear algebra, and its three solvers agree."""
import itertools
import random

import cases
import gii
from .common import FORMS, numbers, rows, spaced, stored, text


class Cases:
    """Rows to settle: t, n, f and 2t syndromes, each once. The first root is alpha^f."""

    def __init__(self):
        self.rows = {}

    def add(self, t, n, syndromes, f=1):
        assert len(syndromes) == 2 * t
        self.rows[t, n, f, bytes(syndromes)] = True

    def add_pattern(self, t, n, pattern, f=1):
        self.add(t, n, [gii.pattern_syndrome(pattern, j, f) for j in range(2 * t)], f)


def model_rows(c, alpha):
    """The model's rows without marks, at the first root alpha or at the others."""
    with stored(cases.settle) as folder:
        for t, n, f, marks, syndromes, _, _ in rows(folder / 'settle.txt'):
            if (f == '1') == alpha and marks == '-':
                c.add(int(t), int(n), numbers(syndromes), int(f))


def small(c):
    """FORMAT's sample row, and small t and n, also such as no profile has."""
    for n in 26, 255, 25, 2:
        c.add(1, n, [3, 5])
    c.add(2, 26, [3, 5, 9, 17])
    c.add(0, 0, [])
    c.add(0, 255, [])
    c.add(1, 0, [0, 0])
    c.add(1, 0, [1, 1])
    for n in 1, 2, 3:
        for syndromes in itertools.product((0, 1, 2), repeat=2):
            c.add(1, n, syndromes)
    c.add(24, 0, [0] * 48)
    c.add(24, 1, [7] * 48)


class Random:
    """The generator, and what it is asked for."""

    def __init__(self, seed):
        self.rng = random.Random(seed)

    def value(self):
        return self.rng.randint(1, 255)

    def length(self, t):
        return self.rng.randint(2 * t + 1, 255)

    def pattern(self, n, count):
        """So many changes below n."""
        return [(p, self.value()) for p in self.rng.sample(range(n), count)]


def within(c, r, t):
    """Patterns of at most t changes: settled, but where n is too small for them."""
    for n in 2 * t + 1, 255:
        for count in 0, t:
            c.add_pattern(t, n, r.pattern(n, count))
    for n in 2 * t + 1, r.length(t), 255:
        c.add_pattern(t, n, r.pattern(n, r.rng.randint(1, t)))
    c.add_pattern(t, 255, [(0, r.value())])
    c.add_pattern(t, 255, [(254, r.value())])
    pattern = r.pattern(r.length(t), t)
    last = max(p for p, _ in pattern)
    c.add_pattern(t, last + 1, pattern)
    c.add_pattern(t, last, pattern)
    n = r.length(t)
    pattern = [(p, r.value()) for p in range(n - t, n)]
    c.add_pattern(t, n, pattern)
    c.add_pattern(t, n, [(p + 1, y) for p, y in pattern])


def above(c, r, t):
    """More than t changes, and syndromes of nothing in particular."""
    for count in t + 1, r.rng.randint(t + 1, 2 * t + 1):
        n = r.rng.choice((2 * t + 1, r.length(t), 255))
        c.add_pattern(t, n, r.pattern(n, count))
    c.add(t, 255, [r.rng.randrange(256) for _ in range(2 * t)])


def codeword(places, first):
    """A word of the code of capability t at 2t + 1 places, which is `first` at the first of them."""
    k = len(places) - 1
    points = [[gii.alpha_pow((j + 1) * p) for p in places] for j in range(k)]
    kind, others = gii.solve_linear([row[1:] for row in points], [gii.mul(first, row[0]) for row in points])
    assert kind == 'one'
    return list(zip(places, [first] + others))


def wrongly(c, r, t):
    """t + 1 symbols of a codeword of 2t + 1: settled wrongly, by the t others, unless n is too small for these."""
    places = r.rng.sample(range(r.length(t)), 2 * t + 1)
    last = max(places)
    c.add_pattern(t, last + 1, codeword(places, r.value())[:t + 1])
    pattern = codeword(sorted(places), r.value())[:t + 1]
    c.add_pattern(t, last, pattern)
    c.add_pattern(t, last + 1, pattern)


def locator(places):
    out = [1]
    for p in places:
        out = [a ^ gii.mul(gii.alpha_pow(p), b) for a, b in zip(out + [0], [0] + out)]
    return out


def quotient(numerator, denominator, count):
    """The first coefficients of a quotient of polynomials, the denominator starting with 1."""
    out = []
    for j in range(count):
        x = numerator[j] if j < len(numerator) else 0
        for i in range(1, min(j, len(denominator) - 1) + 1):
            x ^= gii.mul(denominator[i], out[j - i])
        out.append(x)
    return out


def odd_locators(c, r, t):
    """Syndromes whose locator has a double root, and such whose locator has a degree below its length."""
    p = r.rng.randrange(255)
    double = locator([p, p] + [q for q, _ in r.pattern(255, r.rng.randint(0, t - 2))])
    c.add(t, 255, quotient([r.value() for _ in double[1:]], double, 2 * t))
    degree = r.rng.randint(1, t - 1)
    low = locator([q for q, _ in r.pattern(255, degree)])
    c.add(t, 255, quotient([r.value() for _ in range(r.rng.randint(degree + 1, t))], low, 2 * t))


def single(c, r, t):
    """All syndromes zero but one."""
    for j in r.rng.randrange(t), r.rng.randrange(t, 2 * t):
        syndromes = [0] * (2 * t)
        syndromes[j] = r.value()
        c.add(t, 255, syndromes)


def even(c, r):
    """The same change at d places that part the 255 evenly: most syndromes are zero."""
    for d in 3, 5, 15, 17:
        for t in d, (d + 24) // 2, 24:
            first, y = r.rng.randrange(255 // d), r.value()
            pattern = [(first + 255 // d * k, y) for k in range(d)]
            last = pattern[-1][0]
            for n in 255, last + 1, last:
                c.add_pattern(t, n, pattern)
        c.add_pattern(d - 1, 255, pattern)


FIRST_ROOTS = 0, 2, 127, 254


def few(c):
    """Small t and n, also such as no profile has, and FORMAT's sample rows, with each other first root."""
    for f in FIRST_ROOTS:
        c.add(0, 0, [], f)
        c.add(1, 0, [0, 0], f)
        c.add(1, 0, [1, 1], f)
        for n in 1, 3:
            for syndromes in (0, 0), (0, 1), (1, 0), (1, 1), (1, 2):
                c.add(1, n, syndromes, f)
        for n in 26, 25:
            c.add(1, n, [3, 5], f)
        c.add(2, 26, [3, 5, 9, 17], f)


def other_roots(c, r, t):
    """Patterns of at most t changes, settled but where n is too small for them, and of more. The first roots turn with
    t, so that each kind has each of them."""
    f = [FIRST_ROOTS[(t + q) % 4] for q in range(4)]
    pattern = r.pattern(r.length(t), t)
    last = max(p for p, _ in pattern)
    c.add_pattern(t, last + 1, pattern, f[0])
    c.add_pattern(t, last, pattern, f[0])
    c.add_pattern(t, 255, r.pattern(255, t + 1), f[1])
    c.add_pattern(t, 255, [(p, r.value()) for p in ((0, 254) if t > 1 else (254,))], f[2])
    if t % 3 == 1:
        c.add_pattern(t, 2 * t + 1, [(r.rng.randrange(2 * t + 1), r.value())], f[3])


def settled_small(c, r):
    """Patterns of one to t changes, with each other first root."""
    for t in range(1, 5):
        for f in FIRST_ROOTS:
            n = r.length(t)
            c.add_pattern(t, n, r.pattern(n, r.rng.randint(1, t)), f)
            c.add_pattern(t, n, [(0, r.value())], f)


def twisted(pattern, f):
    """The changes that have at the first root alpha the syndromes which these have at alpha^f."""
    return pattern and tuple((p, gii.mul(y, gii.alpha_pow(p * (f - 1)))) for p, y in pattern)


def lines_of(t, n, f, syndromes):
    pattern = gii.settle_peterson(list(syndromes), t, n, f)
    assert twisted(pattern, f) == gii.settle_peterson(list(syndromes), t, n)
    found = 'failed 0' if pattern is None else 'settled %d' % len(pattern)
    changes = spaced(x for change in pattern or () for x in change)
    for form, name in FORMS.items():
        assert gii.settle_run(gii.run_rounds(form, [syndromes]), syndromes, t, n, f) == pattern
        yield '%s | %d %d %d | %s |%s' % (name, t, n, f, found, changes)


def make():
    c, r = Cases(), Random(20)
    model_rows(c, True)
    small(c)
    for t in range(1, 25):
        within(c, r, t)
        above(c, r, t)
        wrongly(c, r, t)
        if t > 1:
            odd_locators(c, r, t)
        single(c, r, t)
    even(c, r)
    model_rows(c, False)
    few(c)
    r = Random('settle_vectors/first roots')
    for t in range(1, 25):
        other_roots(c, r, t)
    settled_small(c, r)
    return {'stdin': b''.join(bytes([t, n, f]) + syndromes for t, n, f, syndromes in c.rows),
            'stdout': text(line for row in c.rows for line in lines_of(*row))}
