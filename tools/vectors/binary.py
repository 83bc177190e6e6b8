"""test_binary: binary strips, and the state of the key-equation solver for syndromes. The model answers strips, and the
state is what its three iterations leave; they know no direct formula, except that the model holds both to each other.
Some cases are the model's of seed 7, the others are made here from a fixed generator."""
import random

import cases
import gii
from .common import number, numbers, rows, sized, spaced, stored, text

WORD, SOLVE = 0, 1
BEFORE = 170             # what an output holds before it is written to
TERMS = 6                # the coefficients of a polynomial that are printed


class Cases:
    """The cases as bytes, and the lines that are expected for them."""

    def __init__(self):
        self.bytes, self.lines = [], []

    def word(self, strip, size=None):
        size = len(strip) if size is None else size
        refusal, answer = gii.read_binary(bytes(strip), size, direct=False)
        out = bytes([BEFORE]) * size if refusal else answer
        self.bytes.append(bytes([WORD]) + sized(strip) + number(size))
        self.lines.append('word%s | %d |%s' % (spaced([len(strip), size]), refusal, spaced(out)))
        return refusal

    def solve(self, s0, s2, s4):
        state = gii.piba([s0, gii.power(s0, 2), s2, gii.power(s0, 4), s4, gii.power(s2, 2)])
        parts = [state[name] for name in ('L', 'xB', 'D', 'T')]
        assert not any(x for part in parts for x in part[TERMS:])
        parts = [part[:TERMS] for part in parts] + [[state['gamma'], state['LL'], state['LB'] + 1]]
        self.bytes.append(bytes([SOLVE, s0, s2, s4]))
        self.lines.append(' |'.join(['solve' + spaced([s0, s2, s4])] + [spaced(part) for part in parts]))
        return state['vec']


def ones(n, places):
    strip = bytearray(n)
    for p in places:
        strip[p] ^= 1
    return strip


def orbit(k):
    """The conjugates of alpha^k."""
    found, e = [], k
    while True:
        found.append(gii.alpha_pow(e))
        e = 2 * e % 255
        if e == k:
            return found


def generator():
    """The polynomial of least degree, 24, in the code."""
    product = [1]
    for root in orbit(1) + orbit(3) + orbit(5):
        product = [a ^ gii.mul(root, b) for a, b in zip([0] + product, product + [0])]
    assert set(product) <= {0, 1} and len(product) == 25
    return bytes(product)


def codeword(rng, n):
    """A word of n symbols in the code: a multiple of the generator."""
    strip = bytearray(n)
    for shift in range(n - 24):
        if rng.random() < .5:
            for k, x in enumerate(generator()):
                strip[shift + k] ^= x
    return strip


def samples(c):
    """FORMAT 11.10."""
    assert c.word(generator()) == 0
    for places, syndromes, vector in ([3], (8, 58, 38), '011'), ([3, 17], (144, 48, 240), '001'), \
            ([0, 9, 24], (180, 104, 251), '000'), ([0, 3, 9, 24], (188, 82, 221), '000'):
        strip = bytearray(generator())
        for p in places:
            strip[p] ^= 1
        assert tuple(gii.value(strip, gii.alpha_pow(j + 1)) for j in (0, 2, 4)) == syndromes
        assert c.solve(*syndromes) == vector and c.word(strip) == (17 if len(places) > 3 else 0)
    assert c.solve(0, 0, 1) == '110' and c.word(ones(255, range(0, 255, 51))) == 17
    assert c.word(ones(255, [36, 66, 143, 248])) == 17 and c.word([1]) == 0
    assert (c.word([]), c.word(bytes(256)), c.word([2], 2), c.word([2])) == (5, 5, 7, 16)


def questions(c):
    """Sizes and symbols that are refused, and two refusals at once: the first one counts."""
    for n, size in (0, 0), (0, 1), (256, 256), (256, 255), (300, 1), (1, 0), (1, 2), (255, 254), (255, 256), (7, 0):
        assert c.word(bytes(n), size) == (5 if n in (0, 256, 300) else 7)
    for n in 1, 2, 16, 17, 254, 255:
        for p in {0, n // 2, n - 1}:
            for x in 2, 3, 128, 255:
                strip = bytearray(n)
                strip[p] = x
                assert c.word(strip) == 16
    assert c.word(b'\2', 2) == 7 and c.word(bytes([9]) * 256, 256) == 5 and c.word(bytes([9]) * 300, 7) == 5
    assert c.word(bytes([1, 2, 1, 1, 1]), 5) == 16


def few_changes(c, rng):
    """Up to three changes of a word of the code, in strips of any size: these come back. One change at each place."""
    for p in range(255):
        assert c.word(ones(255, [p])) == 0
    for n in [1, 2, 3] + [rng.randint(4, 24) for _ in range(10)] + [25, 26, 254, 255] + [rng.randint(25, 255)
                                                                                       for _ in range(60)]:
        word = codeword(rng, n) if n > 24 else bytearray(n)
        for e in range(min(n, 3) + 1):
            strip = bytearray(word)
            for p in rng.sample(range(n), e):
                strip[p] ^= 1
            assert c.word(strip) == 0 and c.lines[-1].endswith(spaced(word))


def more_changes(c, rng):
    """Four to eight changes, and any strips: refused, or taken for another word, as the model says."""
    for _ in range(60):
        n = rng.choice([8, 20, 26, 60, 255, rng.randint(8, 255)])
        c.word(ones(n, rng.sample(range(n), rng.randint(4, 8))))
    for _ in range(30):
        c.word(bytearray(rng.randint(0, 1) for _ in range(rng.randint(1, 255))))


def past_the_end(c, rng):
    """Changes that only a place from n on would explain: the syndromes of a single change there, made by others."""
    met = 0
    while met < 20:
        n = rng.randint(30, 254)
        strip = ones(n, rng.sample(range(n), rng.randint(4, 7)))
        refusal, answer = gii.read_binary(bytes(strip) + bytes(255 - n), 255)
        if refusal == 0 and any(answer[n:]):
            assert c.word(strip) == 17
            met += 1


def long_locators(c, rng):
    """Locators of length 4 and 5 that have as many roots at places below n, all the same: four changes whose second
    and third elementary symmetric polynomials are zero, and five places 51 from one another."""
    for first in 0, 1, 7, 25, 50:
        assert c.word(ones(255, range(first, 255, 51))) == 17
    for places in (119, 187, 221, 238), (71, 116, 157, 217), (36, 66, 143, 248):
        assert c.word(ones(255, places)) == 17
    split = [[x for x in range(1, 256) if gii.power(x, 4) ^ gii.power(x, 3) == k] for k in range(1, 256)]
    split = [roots for roots in split if len(roots) == 4]
    for roots in split:
        turn = rng.randrange(255)
        strip = ones(255, [(gii.LOG[x] + turn) % 255 for x in roots])
        syndromes = [gii.value(strip, gii.alpha_pow(j + 1)) for j in (0, 2, 4)]
        assert c.solve(*syndromes) == '010' and c.word(strip) == 17
    assert len(split) >= 8


def of_the_model(c):
    with stored(cases.binary) as folder:
        for size, strip, refusal, answer in rows(folder / 'binary.txt'):
            assert c.word(numbers(strip), int(size)) == int(refusal)
        for triple, vector, *_ in rows(folder / 'tables000.txt'):
            assert c.solve(*numbers(triple)) == vector


def every_branch(c, rng):
    """Syndromes of each branch vector, some of them small."""
    seen = {}
    for s0 in range(3):
        for s2 in range(3):
            for s4 in range(3):
                if s0 or s2 or s4:
                    c.solve(s0, s2, s4)
    while min(seen.get(v, 0) for v in ('000', '001', '010', '011', '101', '110')) < 20:
        s0, s2, s4 = (rng.choice([0, rng.randrange(256)]) for _ in range(3))
        if rng.random() < .5:
            s2 = gii.power(s0, 3)
        if rng.random() < .5:
            s4 = gii.mul(gii.power(s0, 2), s2)
        if s0 and rng.random() < .3:
            s4 = gii.div(gii.power(s0, 6) ^ gii.mul(s2, gii.power(s0, 3)) ^ gii.mul(s2, s2), s0)
        if s0 or s2 or s4:
            vector = c.solve(s0, s2, s4)
            seen[vector] = seen.get(vector, 0) + 1


def make():
    rng = random.Random(9)
    c = Cases()
    samples(c)
    questions(c)
    few_changes(c, rng)
    more_changes(c, rng)
    past_the_end(c, rng)
    long_locators(c, rng)
    every_branch(c, rng)
    of_the_model(c)
    return {'stdin': number(len(c.lines)) + b''.join(c.bytes), 'stdout': text(c.lines)}
