"""test_code: profiles, writes, fetches and data that are read, answered by the model. Some cases are the model's of
seed 7, the others are made here from a fixed generator."""
import random

import cases
import gii
from .common import EARLIER, FIRST_ROOT, LANDED, number, numbers, rows, sized, spaced, stored, text

PROFILE, WRITE, FETCH, DATA = 0, 1, 2, 3
SAMPLE = bytes([2, 1, 5, 1, 2, 0, 0])
BEFORE = 170             # what an output holds before it is written to


class Cases:
    """The cases as bytes, and the lines that are expected for them."""

    def __init__(self):
        self.bytes, self.lines = [], []

    def add(self, kind, name, profile, rest, line):
        self.bytes.append(bytes([kind, len(profile)]) + profile + rest)
        self.lines.append('%s%s |%s' % (name, spaced(profile), line))

    def profile(self, profile):
        refusal, p = gii.read_profile(profile, LANDED)
        self.add(PROFILE, 'profile', bytes(profile), b'', spaced([refusal, p.data_size if p else 0]))

    def write(self, profile, data, size):
        refusal, block = gii.write(profile, data, size, LANDED)
        out = bytes([BEFORE]) * size if refusal else block
        line = '%s | %d |%s' % (spaced([len(data), size]), refusal, spaced(out))
        self.add(WRITE, 'write', bytes(profile), sized(data) + number(size), line)
        return block

    def fetch(self, profile, block, i):
        refusal, start, end = gii.fetch(profile, len(block), i, LANDED)
        line = '%s | %d |%s' % (spaced([len(block), i]), refusal, spaced(block[start:end]))
        self.add(FETCH, 'fetch', bytes(profile), sized(block) + number(i), line)

    def data(self, profile, block, size):
        refusal, p = gii.read_profile(profile, LANDED)
        out = bytes([BEFORE]) * size
        if p and len(block) != p.size:
            refusal = 6
        elif p and size != p.data_size:
            refusal = 7
        elif p:
            answer = gii.decode(p, bytes(block), rules=LANDED)
            refusal = answer.number
            if not refusal:
                out = bytes(answer.block[k] for k in gii.data_places(p))
        line = '%s | %d |%s' % (spaced([len(block), size]), refusal, spaced(out))
        self.add(DATA, 'data', bytes(profile), sized(block) + number(size), line)
        return refusal, out


def samples(c):
    for profile in SAMPLE, [2, 1, 4, 1, 2, 0, 0], [8, 3, 255, 14, 16, 18, 24], [8, 3, 255, 14, 16, 18, 25], \
            [2, 1, 26, 1, 2, 0, 0]:
        c.profile(profile)
    c.write(SAMPLE, bytes([1, 0, 0, 0]), 10)
    c.write(SAMPLE, bytes([0, 1, 0, 0]), 10)


def model_profiles(folder, made_for, callers):
    """The profiles that the model judges for these callers, each once, without those of an earlier group."""
    def of(group):
        return dict.fromkeys(profile for as_of, caller, profile, _, _ in rows(folder / 'profiles.txt')
                             if as_of in group and caller in callers)

    had = () if made_for == EARLIER else of(EARLIER)
    return [bytes(numbers(profile)) for profile in of(made_for) if profile not in had]


def model_cases(c, folder, made_for, some):
    """The model's profiles, writes and fetches."""
    for profile in model_profiles(folder, made_for, '01'):
        c.profile(profile)
    for as_of, profile, data, size, _, _ in rows(folder / 'writer.txt'):
        if as_of in made_for:
            c.write(bytes(numbers(profile)), bytes(numbers(data)), int(size))
    for as_of, profile, size, i, _, _, _ in rows(folder / 'fetch.txt'):
        if as_of in made_for:
            c.fetch(bytes(numbers(profile)), some(int(size)), int(i))


def model_strips(c, folder, seven):
    """The model's strips, which are blocks of one subword: of the first root alpha, whose profiles have seven bytes, or
    of the others."""
    for t, n, f, data, strip in rows(folder / 'rs_strips.txt'):
        if (f == '1') == seven:
            profile = bytes([1, 0, int(n), int(t), 0, 0, 0] + ([] if seven else [int(f)]))
            block = c.write(profile, bytes(numbers(data)), int(n))
            assert block == bytes(numbers(strip))


def model_writers(c, folder, made_for):
    """The profiles that the model's writer judges, with nothing else lent."""
    for profile in model_profiles(folder, made_for, '1'):
        c.write(profile, b'', 0)


def profile_of(m, v, n, t):
    """The seven bytes, of the first v + 1 capabilities."""
    return bytes([m, v, n, *t[:v + 1]] + [0] * (3 - v))


def edges(c):
    """Profiles at the edges of what questions 1 to 5 let pass."""
    for size in range(10):
        c.profile((SAMPLE + b'\0\0')[:size])
    for m in range(11):
        for v in range(5):
            c.profile(bytes([m, v]) + profile_of(m, min(v, 3), 255, (1, 2, 3, 4))[2:])
    for v in range(4):
        for t in (0, 1, 1, 1), (1, 1, 1, 1), (1, 2, 1, 2), (1, 2, 2, 1), (1, 2, 2, 2), (1, 24, 24, 24), \
                (23, 24, 24, 24), (24, 24, 24, 24), (23, 25, 25, 25), (24, 25, 25, 25), (1, 2, 25, 2):
            c.profile(profile_of(4, v, 2 * t[v], t))
            c.profile(profile_of(4, v, 2 * t[v] + 1, t))
        for i in range(v + 1, 4):
            profile = bytearray(profile_of(4, v, 255, (1, 2, 3)))
            profile[3 + i] = 1
            c.profile(bytes(profile))


def capabilities(rng, v):
    if v == 0:
        return [rng.randint(1, 24)]
    later = sorted(rng.randint(2, 24) for _ in range(v))
    return [rng.randint(1, later[0] - 1)] + later


def every_shape(c, rng, some):
    """Writes for every m and v, short and long, which are refused where strengths are equal, and fetches of every
    subword of the shortest blocks. The two lengths come in the order in which Python goes through a set of them."""
    def put(m, v, n, t):
        profile = profile_of(m, v, n, t)
        p = gii.read_profile(profile)[1]
        given = some(p.data_size)
        c.write(profile, given, p.size)
        block = gii.write_triangular(p, given)
        if n == 2 * p.tv + 1 < 10:
            for i in range(m):
                c.fetch(profile, block, i)

    for m in range(1, 9):
        for v in range(min(4, m)):
            for t in (1, 2, 2, 2), (1, 2, 3, 4), (2, 4, 4, 6), (1, 24, 24, 24), (23 if v else 24, 24, 24, 24):
                least = 2 * t[v] + 1
                for n in {least, least + rng.randint(1, 12)} if least < 49 else {49}:
                    put(m, v, n, t)
            put(m, v, 255, capabilities(rng, v))


def random_writes(c, rng, some):
    for _ in range(60):
        m = rng.randint(1, 8)
        v = rng.randint(0, min(3, m - 1))
        t = capabilities(rng, v)
        profile = profile_of(m, v, 2 * t[v] + 1 + rng.randrange(40), t)
        p = gii.read_profile(profile)[1]
        k = p.data_size
        c.write(profile, rng.choice([bytes(k), b'\xff' * k, some(k), some(k)]), p.size)


def refusals(c, some):
    """Refused writes and fetches: a profile at fault, with sizes that are right and wrong; then sizes at fault."""
    for profile in [2, 1, 5, 1, 2, 0], [2, 1, 5, 1, 2, 0, 0, 0], [], [0, 1, 5, 1, 2, 0, 0], [9, 1, 5, 1, 2, 0, 0], \
            [0] * 7, [2, 2, 5, 1, 2, 2, 0], [2, 4, 5, 1, 2, 0, 0], [2, 1, 5, 0, 2, 0, 0], [2, 1, 5, 2, 2, 0, 0], \
            [2, 1, 5, 1, 2, 1, 0], [2, 1, 4, 1, 25, 0, 0], [2, 1, 4, 1, 2, 0, 0], [2, 1, 0, 1, 2, 0, 0]:
        for k, size in (4, 10), (3, 10), (4, 9), (0, 0):
            c.write(bytes(profile), some(k), size)
        for size, i in (10, 0), (9, 1), (10, 2):
            c.fetch(bytes(profile), some(size), i)
    for k in 0, 3, 4, 5, 10, 2048:
        for size in 0, 9, 10, 11, 100:
            if (k, size) != (4, 10):
                c.write(SAMPLE, some(k), size)
    for size in 0, 9, 10, 11, 20:
        for i in 0, 1, 2, 3, 255, 256, 65535:
            c.fetch(SAMPLE, some(size), i)


def data_cases(c, rng, some):
    """Blocks with few and with many changes, and sizes at fault."""
    numbers_seen = set()
    for m, v, n, t in (2, 1, 5, (1, 2)), (1, 0, 7, (2,)), (3, 2, 9, (1, 2, 3)), (8, 3, 24, (2, 4, 6, 8)), \
            (4, 3, 17, (1, 2, 2, 5)), (8, 3, 255, (14, 16, 18, 24)):
        profile = profile_of(m, v, n, t)
        p = gii.read_profile(profile)[1]
        for changes in 0, 0, 1, t[0], t[0], t[0] + 1, t[v], t[v] + 1, 2 * t[v], n:
            given = some(p.data_size)
            block = bytearray(gii.write(profile, given, p.size)[1])
            i = rng.randrange(m)
            for k in rng.sample(range(n), min(changes, n)):
                block[i * n + k] ^= rng.randint(1, 255)
            refusal, out = c.data(profile, block, p.data_size)
            assert changes > t[0] or out == given
            numbers_seen.add(refusal)
        for size, room in (p.size - 1, p.data_size), (p.size, p.data_size - 1), (p.size, p.size), (p.size + 1, 0), \
                (0, p.data_size):
            numbers_seen.add(c.data(profile, some(size), room)[0])
    for profile in [2, 1, 5, 1, 2, 0], [9, 1, 5, 1, 2, 0, 0], [2, 2, 5, 1, 2, 2, 0], [2, 1, 5, 2, 2, 0, 0], \
            [2, 1, 4, 1, 2, 0, 0]:
        numbers_seen.add(c.data(bytes(profile), some(10), 4)[0])
    profile = profile_of(2, 1, 26, (1, 2))
    p = gii.read_profile(profile)[1]
    while 9 not in numbers_seen:
        block = bytearray(gii.write(profile, some(p.data_size), p.size)[1])
        for k in rng.sample(range(p.size), 4):
            block[k] ^= rng.randint(1, 255)
        numbers_seen.add(c.data(profile, block, p.data_size)[0])
    assert numbers_seen == set(range(10)), numbers_seen


def equal_strengths(c, rng, some):
    """Profiles with two equal strengths: their sizes, writes that are refused whatever n and the sizes are, and blocks
    from before they were refused, which are read and fetched from. Then profiles that rise, which are written, and
    some that fail an earlier question too."""
    def sizes_and_writes(m, v, t):
        profile = profile_of(m, v, 2 * t[v] + 1 + rng.randrange(9), t)
        p = gii.read_profile(profile, LANDED)[1]
        c.profile(profile)
        for k, size in (p.data_size + 1, p.size), (p.data_size, p.size - 1), (0, 0):
            c.write(profile, some(k), size)
        for n in 0, 2 * p.tv, 2 * p.tv + 1, 255:
            c.write(profile[:2] + bytes([n]) + profile[3:], some(p.data_size), p.size)
        given = some(p.data_size)
        return profile, p, given, c.write(profile, given, p.size)

    for m, v, t in (3, 2, (1, 2, 2)), (8, 2, (1, 24, 24)), (4, 3, (1, 2, 2, 3)), (4, 3, (1, 2, 3, 3)), \
            (8, 3, (4, 8, 8, 8)), (5, 3, (3, 6, 9, 9)), (6, 3, (2, 5, 5, 7)):
        profile, p, given, written = sizes_and_writes(m, v, t)
        assert written is None
        block = gii.write_triangular(p, given)
        for i in range(m + 1):
            c.fetch(profile, block, i)
        for changes in 0, 1, t[0], t[1], t[v], t[v] + 1:
            received = bytearray(block)
            for k in rng.sample(range(p.n), changes):
                received[(m - 1) * p.n + k] ^= rng.randint(1, 255)
            _, out = c.data(profile, received, p.data_size)
            assert out == given or changes > t[v]
    for m, v, t in (1, 0, (1,)), (2, 1, (1, 2)), (8, 1, (23, 24)), (3, 2, (1, 2, 3)), (8, 2, (1, 23, 24)), \
            (4, 3, (1, 2, 3, 4)), (8, 3, (1, 22, 23, 24)), (8, 3, (21, 22, 23, 24)), (6, 3, (2, 5, 6, 7)):
        assert sizes_and_writes(m, v, t)[3]
    for profile in [3, 2, 5, 1, 2, 2], [9, 2, 5, 1, 2, 2, 0], [2, 2, 5, 1, 2, 2, 0], [3, 2, 5, 2, 2, 2, 0], \
            [3, 2, 5, 1, 2, 2, 2], [4, 3, 255, 1, 25, 25, 25], [4, 3, 9, 1, 3, 3, 2], [4, 3, 9, 1, 3, 2, 2]:
        c.write(bytes(profile), some(6), 15)


def no_profile(c, rng, some):
    """A profile of no bytes, for every caller, beside the seven that it stands for: sizes that are right and wrong,
    subwords that are there and not, blocks with few and with many changes."""
    p = gii.read_profile(b'', LANDED)[1]
    numbers_seen = set()
    for profile in b'', gii.FACTORY:
        c.profile(profile)
        for k, size in (p.data_size, p.size - 1), (p.data_size - 1, p.size), (p.size, p.size), (0, 0):
            c.write(profile, some(k), size)
        given = some(p.data_size)
        block = c.write(profile, given, p.size)
        for i in 0, 2, 3, 7, 8, 255:
            c.fetch(profile, block, i)
        c.fetch(profile, block[1:], 8)
        for changes in 0, p.t[0], p.t[0] + 1, p.t[3], p.t[3] + 1:
            received = bytearray(block)
            for k in rng.sample(range(p.n), changes):
                received[5 * p.n + k] ^= rng.randint(1, 255)
            refusal, out = c.data(profile, received, p.data_size)
            assert out == given or changes > p.t[3]
            numbers_seen.add(refusal)
        for size, room in (p.size - 1, p.data_size), (p.size, p.size), (0, 0):
            numbers_seen.add(c.data(profile, some(size), room)[0])
    assert numbers_seen == {0, 6, 7, 8}, numbers_seen


def first_roots(c, rng, some):
    """Profiles of eight bytes, for every caller: each first root in several shapes, sizes that are right and wrong,
    subwords that are there and not, blocks with few and with many changes. An eighth byte of 1 is answered as the seven
    bytes alone are, and one of 255 is refused."""
    def written(profile, p, given, counts):
        """The block, which is also read with so many changes in a subword."""
        block = c.write(profile, given, p.size)
        if block and p.size < 60:
            assert block == gii.write_linear(gii.read_profile(profile, LANDED)[1], given)
        for count in counts:
            received = bytearray(block or some(p.size))
            i = rng.randrange(p.m)
            for k in rng.sample(range(p.n), min(count, p.n)):
                received[i * p.n + k] ^= rng.randint(1, 255)
            refusal, out = c.data(profile, received, p.data_size)
            assert out == given or refusal == 14 or count > p.t[0]
            numbers_seen.add(refusal)
        return block

    def sizes(profile, p):
        c.profile(profile)
        for k, size in (p.data_size - 1, p.size), (p.data_size, p.size - 1), (0, 0):
            c.write(profile, some(k), size)
        for size, i in (p.size, 0), (p.size, p.m - 1), (p.size, p.m), (p.size - 1, p.m):
            c.fetch(profile, some(size), i)
        for size, room in (p.size - 1, p.data_size), (p.size, p.data_size - 1), (0, 0):
            numbers_seen.add(c.data(profile, some(size), room)[0])

    numbers_seen = set()
    for m, v, n, t in (1, 0, 3, (1,)), (1, 0, 60, (24,)), (2, 1, 5, (1, 2)), (2, 1, 26, (1, 2)), (3, 2, 9, (1, 2, 3)), \
            (4, 3, 13, (1, 2, 3, 6)), (8, 3, 18, (2, 4, 6, 8)):
        seven = profile_of(m, v, n, t)
        p = gii.read_profile(seven, LANDED)[1]
        for f in 0, 1, 2, 127, 254, 255:
            given = some(p.data_size)
            block = written(seven + bytes([f]), p, given, (0, t[0], t[0] + 1, t[v], t[v] + 1) if f < 255 else (0,))
            assert (block is None) == (f == 255)
            assert f != 1 or written(seven, p, given, (0, t[v])) == block
            if p.size < 60:
                sizes(seven + bytes([f]), p)
    for f, n, t in (0, 255, (14, 16, 18, 24)), (2, 49, (21, 22, 23, 24)), (127, 255, (1, 22, 23, 24)), \
            (254, 255, (14, 16, 18, 24)):
        profile = profile_of(8, 3, n, t) + bytes([f])
        p = gii.read_profile(profile, LANDED)[1]
        c.profile(profile)
        written(profile, p, some(p.data_size), (t[3],))
    while 9 not in numbers_seen:
        profile = profile_of(2, 1, 26, (1, 2)) + bytes([rng.choice([0, 2, 127, 254])])
        p = gii.read_profile(profile, LANDED)[1]
        block = bytearray(gii.write(profile, some(p.data_size), p.size, LANDED)[1])
        for k in rng.sample(range(p.size), 4):
            block[k] ^= rng.randint(1, 255)
        numbers_seen.add(c.data(profile, block, p.data_size)[0])
    assert numbers_seen == {0, 6, 7, 8, 9, 14}, numbers_seen


def first_root_refusals(c, some):
    """Profiles of eight bytes and of other lengths, at fault for one question and for two: each caller's first no."""
    profiles = [(SAMPLE + bytes([254, 255, 0]))[:size] for size in range(11)]
    profiles += [SAMPLE + bytes([255, 0]), SAMPLE + bytes([255, 255]), SAMPLE + SAMPLE]                            # 1
    for f in 0, 254, 255:
        for seven in [0, 1, 5, 1, 2, 0, 0], [9, 1, 5, 1, 2, 0, 0], [2, 2, 5, 1, 2, 2, 0], [2, 4, 5, 1, 2, 0, 0], \
                [2, 1, 5, 2, 2, 0, 0], [2, 1, 5, 1, 2, 1, 0], [2, 1, 4, 1, 25, 0, 0], [3, 2, 4, 1, 2, 2, 0], \
                [3, 2, 5, 1, 2, 2, 0], [2, 1, 4, 1, 2, 0, 0], [2, 1, 0, 1, 2, 0, 0], [2, 1, 5, 1, 2, 0, 0]:
            profiles.append(bytes(seven + [f]))
    for profile in profiles:
        c.profile(profile)
        for k, size in (4, 10), (3, 10), (4, 9), (0, 0):
            c.write(profile, some(k), size)
        for size, i in (10, 0), (15, 2), (9, 1), (10, 2):
            c.fetch(profile, some(size), i)
        for size, room in (10, 4), (15, 5), (9, 4), (10, 3):
            c.data(profile, some(size), room)


def bytes_of(rng):
    """What gives so many bytes, from a generator."""
    return lambda k: bytes(rng.randrange(256) for _ in range(k))


def make():
    c = Cases()
    rng = random.Random('code_vectors/1')
    some = bytes_of(rng)
    with stored(cases.profiles, cases.writer, cases.fetches, cases.rs_strips) as folder:
        samples(c)
        model_cases(c, folder, EARLIER, some)
        model_strips(c, folder, True)
        edges(c)
        every_shape(c, rng, some)
        random_writes(c, rng, some)
        refusals(c, some)
        data_cases(c, random.Random('code_vectors/data'), some)
        no_profile(c, random.Random('code_vectors/no profile'), some)
        model_writers(c, folder, EARLIER)
        equal_strengths(c, random.Random('code_vectors/equal strengths'), some)
        rng = random.Random('code_vectors/first roots')
        some = bytes_of(rng)
        model_cases(c, folder, FIRST_ROOT, some)
        model_strips(c, folder, False)
        model_writers(c, folder, FIRST_ROOT)
        first_roots(c, rng, some)
        first_root_refusals(c, some)
    return {'stdin': number(len(c.bytes)) + b''.join(c.bytes), 'stdout': text(c.lines)}
