"""test_decode: blocks that are read, with reports and solver states.

- the model's readings of seed 7: answer, report and block as they stand there;
- the model's states of seed 7: as they stand there;
- blocks made here, from a fixed generator: what the model answers in each form, with another way of settling agreeing;
- strips of libfec, from libfec_strips.c: libfec's answer, with the model agreeing.

How a case is written to stdin, and how a reading is printed, stands in crates/test_decode/src/main.rt."""
import pathlib
import random
import subprocess
import sys
import tempfile

import cases
import gii
from .common import EARLIER, FIRST_ROOT, FORMS, HELD, LANDED, number, numbers, rows, sized, spaced, stored, text, \
    trimmed


# ---- what is expected: (number, stage, last, changed, bits, lines, block)

def refusal(refused, stage=None):
    return refused, stage, None, None, None, None, None


def ones(x, y):
    """In how many bits two words differ."""
    return sum(bin(a ^ b).count('1') for a, b in zip(x, y))


def answer(a):
    if a.number:
        return refusal(a.number, a.stage if a.number == 8 else None)
    said = ['C' if line[0] == 'clean' else 'M%d/%d/%d' % (*line[1:], bits) for line, bits in zip(a.lines, a.strip_bits)]
    return 0, None, a.last, a.changed, a.bits, said, bytes(a.block)


def state_fields(form, iterations, st):
    """Lists of numbers: Lambda, B, gamma, k and L, and where the form has them Delta, Theta, the held scalars."""
    fields = [trimmed(st.L), trimmed(st.B), [st.gamma], [st.k, (iterations - st.k) // 2]]
    if form != 'plain':
        fields += [trimmed(st.D), trimmed(st.T), [st[x] for x in HELD[form]]]
    return fields


def model(profile, block, size):
    """The model's reading in each form. They are alike but for the states, and a second way of settling agrees."""
    read = {form: gii.read(profile, block, size, form, LANDED) for form in FORMS}
    other = gii.read(profile, block, size, rules=LANDED,
                     settle=lambda S, t, n, f, marks: gii.settle_peterson(S, t, n, f))
    assert all(answer(a) == answer(other) for a in read.values())
    return read


class Cases:
    """The cases as bytes, and the lines that are expected for them."""

    def __init__(self):
        self.bytes, self.lines = [], []

    def add(self, profile, block, size, expected, states=None):
        """A case. `states` is None, or form -> subword -> fields."""
        refused, stage, last, changed, bits, said, mended = expected
        self.bytes.append(bytes([states is not None, len(profile)]) + profile + sized(block) + number(size))
        self.lines.append('case%s |%s' % (spaced(profile), spaced([len(block), size])))
        for form, name in FORMS.items():
            if refused:
                self.lines.append('%s %d%s | kept' % (name, refused, '' if stage is None else ' %d' % stage))
                continue
            changes = [x for p in range(size) if block[p] != mended[p] for x in (p, mended[p])]
            assert (len(changes), ones(block, mended)) == (2 * changed, bits)
            head = '%s 0 |%s | %s' % (name, spaced([last, changed, bits]), ' '.join(said))
            self.lines.append('%s |%s' % (head, spaced(changes)))
            for i in sorted(states[form]) if states else ():
                self.lines.append('state %d%s' % (i, ''.join(' |' + spaced(f) for f in states[form][i])))

    def read(self, profile, block, size=None, states=False):
        """A case that the model answers, and its answer."""
        profile, block = bytes(profile), bytes(block)
        size = len(block) if size is None else size
        read = model(profile, block, size)
        of = None
        if states and read['plain'].number == 0:
            t = gii.read_profile(profile, LANDED)[1].t
            of = {form: {i: state_fields(form, 2 * t[line[2]], a.states[i])
                         for i, line in enumerate(a.lines) if line[0] != 'clean'} for form, a in read.items()}
        self.add(profile, block, size, answer(read['plain']), of)
        return answer(read['plain'])


# ---- the model's cases

def model_readings(c, folder, made_for):
    for row in rows(folder / 'reader.txt'):
        as_of, profile, marks, size, block, refused, stage, last, changed, bits, said, strip_bits, mended = row
        if as_of not in made_for or marks != '-':
            continue
        profile, block, size = bytes(numbers(profile)), bytes(numbers(block)), int(size)
        if refused == '0':
            lines = [line if line == 'C' else '%s/%s' % (line, b) for line, b in zip(said.split(), strip_bits.split())]
            expected = 0, None, int(last), int(changed), int(bits), lines, bytes(numbers(mended))
        else:
            expected = refusal(int(refused), None if stage == '-' else int(stage))
        assert answer(model(profile, block, size)['plain']) == expected
        c.add(profile, block, size, expected)


def model_states(c, folder):
    blocks = {}
    for profile, block, i, _, form, *fields in rows(folder / 'report_states.txt'):
        f = [numbers(x) for x in fields]
        f[3:5] = [f[3] + f[4]]                                # k and L
        if form == 'scaled':
            f[-1] = f[-1][-1:] + f[-1][:-1]                   # the model has the ratio last, the program first
        blocks.setdefault((profile, block), {g: {} for g in FORMS})[form][int(i)] = f
    for (profile, block), states in blocks.items():
        profile, block = bytes(numbers(profile)), bytes(numbers(block))
        expected = answer(model(profile, block, len(block))['plain'])
        corrected = [i for i, said in enumerate(expected[5]) if said != 'C']
        assert all(sorted(states[form]) == corrected for form in FORMS)
        c.add(profile, block, len(block), expected, states)


# ---- cases made here

def codeword(rng, profile):
    p = gii.read_profile(profile, LANDED)[1]
    return p, gii.write_triangular(p, bytes(rng.randrange(256) for _ in range(p.data_size)))


def any_change(rng):
    return rng.randint(1, 255)


def change(rng, p, block, counts, by=any_change):
    """So many changes in each subword."""
    block = bytearray(block)
    for i, count in enumerate(counts):
        for q in rng.sample(range(p.n), min(count, p.n)):
            block[i * p.n + q] ^= by(rng)
    return bytes(block)


def small_word(p, pattern, t):
    """A word of n symbols, zero but for its first 2t, with the syndromes j < 2t of a pattern, wherever it reaches."""
    return gii.fill_checks(p, bytes(p.n), 2 * t, [gii.pattern_syndrome(pattern, j, p.f) for j in range(2 * t)])


def added(p, block, i, word):
    return block[:i * p.n] + bytes(x ^ y for x, y in zip(p.strip(block, i), word)) + block[(i + 1) * p.n:]


def samples(c, rng):
    c.read([2, 1, 26, 1, 2, 0, 0], [1, 1] + [0] * 50, states=True)
    c.read([2, 1, 25, 1, 2, 0, 0], [1, 1] + [0] * 48, states=True)
    c.read([2, 1, 5, 1, 2, 0, 0], [117, 230, 216, 30, 1, 0, 0, 0, 0, 0], states=True)
    c.read([2, 1, 5, 1, 2, 0, 0], [8, 6, 1, 0, 0, 0, 0, 0, 0, 0], states=True)
    for n in (25, 26, 27, 255):                               # the same two changes, on other codewords
        b = bytearray(codeword(rng, [2, 1, n, 1, 2, 0, 0])[1])
        b[0] ^= 1
        b[1] ^= 1
        c.read([2, 1, n, 1, 2, 0, 0], b, states=True)


def questions(c, rng):
    """Blocks that are refused by each of the questions 1 to 7, some of them at fault for later ones too. The eighth
    bytes 0 and 1 are first roots, and no fault."""
    good = [2, 1, 5, 1, 2, 0, 0]
    for profile in [2], [2, 1, 5, 1, 2, 0], good + [0], good + [1], good + good, [9] * 6, [0] * 20:              # 1
        for k, size in (10, 10), (0, 0), (10, 9):
            c.read(profile, bytes(k), size)
    for m in 0, 9, 10, 128, 255:                                                                                # 2
        c.read([m, 1, 5, 1, 2, 0, 0], bytes(10))
        c.read([m, 9, 0, 0, 25, 1, 2], bytes(3), 4)
    for m, v in (1, 1), (2, 2), (3, 3), (8, 4), (4, 4), (1, 3), (8, 255), (5, 128):                             # 3
        c.read([m, v, 40, 1, 2, 3, 4], bytes(40 * m))
        c.read([m, v, 0, 9, 2, 0, 4], bytes(1), 0)
    for m, v, *t in ((1, 0, 0, 0, 0, 0), (1, 0, 25, 0, 0, 0), (1, 0, 255, 0, 0, 0), (1, 0, 1, 1, 0, 0),         # 4
                     (1, 0, 1, 0, 0, 1), (2, 1, 0, 1, 0, 0), (2, 1, 2, 2, 0, 0), (2, 1, 3, 2, 0, 0),
                     (2, 1, 1, 25, 0, 0), (2, 1, 1, 2, 2, 0), (2, 1, 1, 2, 0, 2), (3, 2, 1, 3, 2, 0),
                     (3, 2, 1, 1, 2, 0), (3, 2, 1, 2, 25, 0), (3, 2, 1, 2, 3, 4), (4, 3, 1, 2, 3, 2),
                     (4, 3, 1, 2, 1, 2), (4, 3, 2, 2, 2, 2), (4, 3, 1, 2, 3, 25), (4, 3, 0, 0, 0, 0),
                     (8, 3, 24, 24, 24, 24)):
        c.read([m, v, 60] + t, bytes(60 * m))
        c.read([m, v, 0] + t, bytes(0), 1)
    for profile in ([1, 0, 2, 1, 0, 0, 0], [1, 0, 0, 1, 0, 0, 0], [1, 0, 48, 24, 0, 0, 0],                      # 5
                    [2, 1, 4, 1, 2, 0, 0], [2, 1, 3, 1, 2, 0, 0], [3, 2, 4, 1, 2, 2, 0],
                    [8, 3, 48, 14, 16, 18, 24]):
        c.read(profile, bytes(profile[0] * profile[2]))
        c.read(profile, bytes(5), 6)
    for profile in good, [1, 0, 3, 1, 0, 0, 0], [4, 3, 12, 1, 2, 2, 4], [8, 3, 255, 14, 16, 18, 24]:
        p, w = codeword(rng, profile)
        for block in b'', w[:-1], w + b'\0', w[:p.n - 1]:                                                       # 6
            for size in p.size, len(block), 0:
                c.read(profile, block, size)
        for size in 0, 1, p.size - 1, p.size + 1, p.data_size:                                                  # 7
            c.read(profile, w, size)
            c.read(profile, change(rng, p, w, [p.tv + 1] * p.m), size)


SMALL = ([1, 0, 3, 1, 0, 0, 0], [3, 0, 12, 2, 0, 0, 0], [8, 0, 20, 3, 0, 0, 0], [2, 1, 26, 1, 2, 0, 0],
         [5, 1, 30, 3, 6, 0, 0], [3, 2, 9, 1, 2, 4, 0], [8, 2, 40, 4, 6, 9, 0], [4, 3, 20, 1, 2, 3, 4],
         [8, 3, 30, 4, 6, 9, 12], [4, 3, 25, 3, 6, 9, 12])
EQUAL = ([3, 2, 12, 1, 2, 2, 0], [4, 3, 12, 1, 2, 2, 4], [4, 3, 12, 1, 2, 2, 2], [4, 3, 20, 1, 2, 3, 3],
         [6, 3, 60, 5, 9, 9, 9], [8, 3, 50, 4, 8, 8, 20], [5, 2, 49, 10, 24, 24, 0])
LARGE = ([8, 3, 255, 14, 16, 18, 24], [8, 3, 255, 21, 22, 23, 24], [8, 3, 255, 1, 2, 3, 24],
         [8, 3, 255, 10, 24, 24, 24], [8, 3, 49, 14, 16, 18, 24], [1, 0, 255, 24, 0, 0, 0], [8, 0, 255, 24, 0, 0, 0],
         [2, 1, 255, 23, 24, 0, 0], [4, 3, 120, 6, 12, 18, 24])


def placed(rng, p, worst):
    """Counts of changes: `worst` in subwords anywhere, some up to t_0 in the others."""
    counts = [rng.choice([0, rng.randint(0, p.t[0]), p.t[0]]) for _ in range(p.m)]
    for i, count in zip(rng.sample(range(p.m), len(worst)), worst):
        counts[i] = count
    return counts


def ending(c, rng, profile, r, states=True, by=any_change):
    """Accepted with last stage r: v - r + 1 subwords wait for it, or settle before."""
    p, w = codeword(rng, profile)
    worst = []
    for q in range(p.v):
        s = min(r, p.v - q)                                   # the stage that settles it
        worst.append(rng.randint(min(p.t[s - 1] + 1, p.t[s]) if s else 0, p.t[s]))
    if worst and r:
        worst[0] = p.t[r]
    return c.read(profile, change(rng, p, w, placed(rng, p, worst), by), states=states)


def failing(c, rng, profile, r):
    """8 after stage r: v - r + 1 subwords have more than t_r changes."""
    p, w = codeword(rng, profile)
    worst = [p.t[r] + rng.randint(1, 2) for _ in range(p.v - r + 1)]
    return c.read(profile, change(rng, p, w, placed(rng, p, worst)))


def wrong(c, rng, profile):
    """A subword is settled wrongly: a word of the code of capability t_0 is added to it."""
    p, w = codeword(rng, profile)
    i = rng.randrange(p.m)
    start = bytes(rng.randrange(256) if q == p.n - 1 or rng.random() < .3 else 0 for q in range(p.n))
    word = gii.fill_checks(p, start, 2 * p.t[0], [0] * (2 * p.t[0]))
    return c.read(profile, change(rng, p, added(p, w, i, word), placed(rng, p, [])))


def beyond(c, rng, profile):
    """The locator has roots past position n - 1: a subword has the syndromes of a pattern that reaches there."""
    p, w = codeword(rng, profile)
    t = p.t[rng.randint(0, p.v)]
    few = rng.randint(1, min(t, 255 - p.n))
    pattern = [(q, rng.randint(1, 255)) for q in rng.sample(range(p.n), t - few)]
    pattern += [(q, rng.randint(1, 255)) for q in rng.sample(range(p.n, 255), few)]
    return c.read(profile, added(p, w, rng.randrange(p.m), small_word(p, pattern, t)), states=True)


def made(c, rng):
    for profiles, times in (SMALL, 2), (EQUAL, 3), (LARGE, 1):
        for profile in profiles:
            p, w = codeword(rng, profile)
            c.read(profile, w, states=True)
            for r in range(p.v + 1):
                for _ in range(times):
                    ending(c, rng, profile, r)
                    failing(c, rng, profile, r)
            if p.v:
                for _ in range(times):
                    wrong(c, rng, profile)
    for profile in ([1, 0, 3, 1, 0, 0, 0], [4, 0, 20, 3, 0, 0, 0], [2, 1, 25, 1, 2, 0, 0], [5, 2, 40, 4, 6, 9, 0],
                    [4, 3, 20, 1, 2, 3, 4], [4, 3, 60, 5, 9, 9, 14], [8, 3, 250, 14, 16, 18, 24]):
        for _ in range(4):
            beyond(c, rng, profile)


def no_profile(c, rng):
    """A profile of no bytes: readings that end after each stage, and sizes that are wrong."""
    p, w = codeword(rng, b'')
    c.read(b'', w, states=True)
    for r in range(p.v + 1):
        ending(c, rng, b'', r)
        failing(c, rng, b'', r)
    for block in b'', bytes(10), w[:-1]:
        c.read(b'', block)
    for size in 0, p.size - 1, p.data_size:
        c.read(b'', w, size)


ROOTS = ([1, 0, 3, 1, 0, 0, 0], [3, 0, 12, 2, 0, 0, 0], [2, 1, 26, 1, 2, 0, 0], [5, 2, 30, 4, 6, 9, 0],
         [4, 3, 20, 1, 2, 3, 4], [4, 3, 12, 1, 2, 2, 4])


def first_roots(c, rng):
    """Profiles of eight bytes. With each first root: readings that end after each stage, a subword settled wrongly,
    roots past the last position, and the two changes that are settled wrongly at the first root alpha."""
    for f in 0, 2, 127, 254, 1:
        outcomes = [c.read([2, 1, 26, 1, 2, 0, 0, f], [1, 1] + [0] * 50, states=True)]
        for seven in ROOTS:
            profile = seven + [f]
            p, w = codeword(rng, profile)
            outcomes.append(c.read(profile, w))
            for r in range(p.v + 1):
                outcomes.append(ending(c, rng, profile, r, p.n < 30))
                outcomes.append(failing(c, rng, profile, r))
            outcomes.append(beyond(c, rng, profile))
            while p.v and wrong(c, rng, profile)[0] != 9:
                pass
        ends = {(refused, stage if refused else last) for refused, stage, last, *_ in outcomes}
        assert ends >= {(0, r) for r in range(4)} | {(8, r) for r in range(4)}, ends
    large = [8, 3, 255, 14, 16, 18, 24]
    for seven, f, r in (large, 0, 3), (large, 254, 3), ([8, 3, 49, 21, 22, 23, 24], 127, 2), \
            ([1, 0, 255, 24, 0, 0, 0], 254, 0), ([2, 1, 255, 23, 24, 0, 0], 2, 1):
        ending(c, rng, seven + [f], r, seven[0] < 8)
        failing(c, rng, seven + [f], r)


def first_root_questions(c, rng):
    """An eighth byte of 1, which is answered as the seven bytes alone are, and one of 255, with blocks and sizes that
    are right and wrong; profiles that an earlier question refuses too."""
    for seven in [2, 1, 5, 1, 2, 0, 0], [4, 3, 20, 1, 2, 3, 4], [3, 2, 12, 1, 2, 2, 0]:
        p, w = codeword(rng, seven)
        for count in range(p.tv + 2):
            block = change(rng, p, w, placed(rng, p, [count]))
            assert c.read(seven + [1], block, states=True) == c.read(seven, block)
            c.read(seven + [255], block)
        for block, size in (w[:-1], p.size), (w, p.size - 1), (w[:-1], p.size - 1), (b'', 0):
            for f in 1, 254, 255:
                c.read(seven + [f], block, size)
    for seven in [9, 1, 5, 1, 2, 0, 0], [2, 2, 5, 1, 2, 2, 0], [2, 1, 5, 2, 2, 0, 0], [2, 1, 4, 1, 2, 0, 0], \
            [3, 2, 4, 1, 2, 2, 0]:
        for f in 0, 255:
            c.read(seven + [f], bytes(seven[0] * seven[2]))
            c.read(seven + [f], bytes(3), 4)
    for more in range(1, 4):
        c.read([2, 1, 5, 1, 2, 0, 0] + [255] * more, bytes(10))


LEAKED = ([1, 0, 3, 1, 0, 0, 0], [2, 1, 5, 1, 2, 0, 0], [5, 2, 30, 4, 6, 9, 0], [8, 3, 30, 4, 6, 9, 12],
          [4, 3, 20, 1, 2, 3, 4, 254])


def one_bit(rng):
    return 1 << rng.randrange(8)


def eight_bits(rng):
    return 255


def leaked_bits(c, rng):
    """Wrong bits: readings that end after each stage, with changes of one bit, of eight and of any number; zeros and
    255s, received and mended; every change once; each subword as the only one that is changed; many bits."""
    for profile in LEAKED:
        p = gii.read_profile(profile, LANDED)[1]
        for r in range(p.v + 1):
            for by, least, most in (one_bit, 1, 1), (eight_bits, 8, 8), (any_change, 1, 8):
                last = bits = None
                while last != r or not bits:                  # until it ends there, with a change
                    _, _, last, changed, bits, _, _ = ending(c, rng, profile, r, False, by)
                assert least * changed <= bits <= most * changed
    sample = [2, 1, 5, 1, 2, 0, 0]
    p = gii.read_profile(sample, LANDED)[1]
    for x in 0, 255, 15:
        w = gii.write_triangular(p, bytes([x]) * p.data_size)
        for e in 1, 128, 15, 240, 254, 255:
            for places in [0], [4], [9], [0, 4], [4, 9], [0, 4, 9]:
                block = bytearray(w)
                for q in places:
                    block[q] ^= e
                c.read(sample, block)
    profile = [8, 0, 60, 16, 0, 0, 0]
    p, w = codeword(rng, profile)
    for least in 0, 128:                                      # 128 changes in each block, 0 being none
        block = bytearray(w)
        for e in range(128):
            block[e // 16 * p.n + rng.randrange(3) + 3 * (e % 16)] ^= least + e
        c.read(profile, block)
    profile = [8, 3, 30, 4, 6, 9, 12]
    p, w = codeword(rng, profile)
    for i in range(p.m):
        for t in 1, p.t[0], p.t[3]:
            outcome = c.read(profile, change(rng, p, w, [t if k == i else 0 for k in range(p.m)]))
            assert sum(said != 'C' for said in outcome[5]) == 1
    for profile in [8, 0, 255, 24, 0, 0, 0], [8, 3, 255, 21, 22, 23, 24]:
        p, w = codeword(rng, profile)
        outcome = c.read(profile, change(rng, p, w, [p.t[max(p.v - i, 0)] for i in range(p.m)], eight_bits))
        assert outcome[4] == 8 * outcome[3] > 1024


# ---- libfec's strips

def libfec_strips():
    """What libfec_strips.c prints."""
    with tempfile.TemporaryDirectory() as folder:
        program = pathlib.Path(folder) / 'libfec_strips'
        source = pathlib.Path(__file__).with_name('libfec_strips.c')
        if subprocess.run(['cc', '-O2', source, '-lfec', '-o', program]).returncode:
            sys.exit('make_vectors: the strips of test_decode need cc and libfec (apt-get install libfec-dev)')
        return subprocess.run([program], check=True, stdout=subprocess.PIPE, text=True).stdout.splitlines()


def strips(c, lines):
    for line in lines:
        head, received, back = line.split(' | ')
        t, n, f = numbers(head)
        profile = bytes([1, 0, n, t, 0, 0, 0] + ([] if f == 1 else [f]))
        received, back = bytes(numbers(received)), bytes(numbers(back))
        if back:
            changed, bits = sum(x != y for x, y in zip(received, back)), ones(received, back)
            expected = 0, None, 0, changed, bits, ['M%d/0/%d' % (changed, bits) if changed else 'C'], back
        else:
            expected = refusal(8, 0)
        assert answer(model(profile, received, n)['plain']) == expected
        c.add(profile, received, n, expected)


def make():
    c = Cases()
    rng = random.Random('decode_vectors')
    lines = libfec_strips()
    samples(c, rng)
    questions(c, rng)
    with stored(cases.reader, cases.report_states) as folder:
        model_readings(c, folder, EARLIER)
        model_states(c, folder)
        made(c, rng)
        no_profile(c, random.Random('decode_vectors/no profile'))
        model_readings(c, folder, FIRST_ROOT)
    first_roots(c, random.Random('decode_vectors/first roots'))
    first_root_questions(c, random.Random('decode_vectors/first root questions'))
    leaked_bits(c, random.Random('decode_vectors/leaked bits'))
    strips(c, lines)
    return {'stdin': number(len(c.bytes)) + b''.join(c.bytes), 'stdout': text(c.lines)}
