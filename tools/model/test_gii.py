"""The model's own checks: python3 test_gii.py [SCALE] [SEED] [NAME ...]

Each test holds the model to something that was written apart from it: brute force, linear algebra, a second reader, a
second encoder, the worked samples. SCALE 1 is the full set (some minutes), 0.1 a quick one; NAME names single tests.
"""
import functools, itertools, random, sys, time, traceback
from gii import *

_A = sys.argv[1:] if __name__ == "__main__" else []
SCALE = float(_A[0]) if len(_A) > 0 else 1.0
SEED = int(_A[1]) if len(_A) > 1 else 1
ONLY = _A[2:]
FORMS = ('plain', 'ahead', 'scaled')
TESTS = []


def test(fn):
    TESTS.append(fn)
    return fn


def N(x):
    return max(1, int(x * SCALE))


def prof(*b, rules=Rules(14)):
    no, p = read_profile(bytes(b), rules)
    assert no == 0, (no, b)
    return p


def random_profile(rng, mmax=5, tmax=4, nmax=14, vmin=0, strict=False, f=None):
    while True:
        m = rng.randint(1, mmax)
        v = rng.randint(vmin, 3)
        if v >= m:
            continue
        t = [rng.randint(1, tmax)]
        for i in range(v):
            lo = t[-1] + (1 if i == 0 or strict else 0)
            t.append(rng.randint(lo, lo + 2))
        if t[-1] > 24:
            continue
        n = rng.randint(2 * t[-1] + 1, max(2 * t[-1] + 1, nmax))
        if n > 255:
            continue
        b = [m, v, n] + t + [0] * (4 - len(t))
        if f is not None:
            b.append(f if f >= 0 else rng.randint(0, 254))
        return bytes(b)


@test
def field(rng):
    for a in range(256):
        for b in range(256):
            assert table_mul(a, b) == slow_mul(a, b) == mul(a, b) == mul(b, a)
        if a:
            assert mul(a, inv(a)) == 1 and POW[LOG[a]] == a
    assert LOG[0] == 0 and POW[255] == 0 and len(set(POW[:255])) == 255
    return '65536 products, 255 inverses'


@test
def samples(rng):
    assert mul(2, 128) == 29 and mul(2, 142) == 1 and mul(3, 244) == 1             # P1-P3
    p = bytes([2, 1, 5, 1, 2, 0, 0])
    assert list(write(p, bytes([1, 0, 0, 0]), 10)[1]) == [116, 231, 216, 30, 1, 0, 0, 0, 0, 0]   # P4
    assert list(write(p, bytes([0, 1, 0, 0]), 10)[1]) == [8, 6, 1, 0, 0] * 2      # P5
    assert prof(*p).data_size == 4
    for form in ('plain', 'ahead'):
        s = run_rounds(form, [[2, 4]]).st                                          # P6
        assert s.L[:3] == [2, 4, 0] and s.B[:3] == [0, 1, 0] and s.gamma == 2
        s = run_rounds(form, [[3, 5, 9, 17]]).st                                   # P8
        assert s.L[:4] == [34, 102, 68, 0] and s.B[:4] == [0, 3, 5, 0] and s.gamma == 10 and s.k == 0
    s = run_rounds('scaled', [[2, 4]]).st
    assert s.L[:3] == [1, 2, 0] and s.B[:3] == [0, 1, 0] and s.gamma == 2
    for form in FORMS:
        s = run_rounds(form, [[0, 1]]).st                                          # P7
        assert s.L[:4] == [1, 0, 1, 0] and s.B[:2] == [1, 0] and s.k == -2
        s = run_rounds(form, [[0, 0, 0, 0]]).st                                    # P9
        assert s.L == [1] + [0] * 48 and s.B == [0] * 4 + [1] + [0] * 44 and s.k == 4
    assert read_profile(bytes([2, 1, 4, 1, 2, 0, 0]))[0] == 5
    assert read_profile(bytes([2, 1, 5, 1, 2, 0, 0]))[0] == 0
    assert read_profile(bytes([2, 1, 255, 1, 24, 0, 0]))[0] == 0
    assert read_profile(bytes([2, 1, 255, 1, 25, 0, 0]))[0] == 4
    assert read_profile(bytes([1, 0, 255, 24, 0, 0, 0]))[0] == 0
    assert read_profile(bytes([1, 0, 255, 25, 0, 0, 0]))[0] == 4
    assert prof(8, 3, 255, 14, 16, 18, 24).data_size == 1784
    b = bytearray(52)
    b[0] = b[1] = 1
    for form in FORMS:
        P = prof(2, 1, 26, 1, 2, 0, 0)
        rd = staged(P, bytes(b), form)
        assert rd.number == 0 and rd.line[0] == ('mended', 1, 0) and rd.block[25] == 1
        assert read(bytes([2, 1, 26, 1, 2, 0, 0]), b, 52, form).number == 9
        a = read(bytes([2, 1, 26, 1, 2, 0, 0]), b, 52, form, Rules(8))             # request 8
        assert a.number == 0 and not any(a.block) and a.alternative == 0
        assert a.lines == [('mended', 2, 1), ('clean',)] and a.last == 1
    card = bytes([7, 2, 1, 5, 1, 2, 0, 0, 0, 2, 117, 230, 216, 30, 1, 0, 0, 0, 0, 0, 8, 6, 1, 0, 0, 0, 0, 0, 0, 0])
    assert card_program(card) == 'blocks 2\n0 ok 1 2\n1 refused 9\n'
    assert card_program(card, Rules(1)).split('\n')[1] == '0 ok 1 2 2'
    t = bytes([7, 2, 1, 5, 1, 2, 0, 0, 1, 2, 3, 4, 0, 0, 0, 3])
    assert trial_program(t, Rules(13)) == '3 0 0 0 0 0 0\n'
    return 'P1..P9, the run samples, the card, the samples of requests 1, 8, 13'


def profile_again(p, rules, writer):
    """A second, differently written judge of profiles."""
    if len(p) == 0 and rules.has(2):
        return 0
    if not (len(p) == 7 or (len(p) == 8 and rules.has(5))):
        return 1
    m, v, n = p[0], p[1], p[2]
    if m == 0 or m > 8:
        return 2
    if v > 3 or v + 1 > m:
        return 3
    used, rest = list(p[3:4 + v]), p[4 + v:7]
    if used[0] == 0 or used[-1] > 24 or any(rest) or used != sorted(used) or \
            (len(used) > 1 and used[0] == used[1]):
        return 4
    if writer and rules.has(7) and len(set(used[1:])) != v:
        return 15
    if n < 2 * used[-1] + 1:
        return 5
    if len(p) == 8 and p[7] == 255:
        return 14
    return 0


@test
def profiles(rng):
    seen = {}
    for q in range(N(60000)):
        kind = rng.random()
        if kind < .05:
            p = bytes(rng.randrange(256) for _ in range(rng.choice([0, 1, 6, 7, 8, 9])))
        else:
            p = bytearray(random_profile(rng, 8, 20, 60, f=rng.choice([None, -1])))
            for _ in range(rng.choice([0, 0, 1, 1, 2])):
                i = rng.randrange(len(p))
                p[i] = rng.choice([0, 1, 2, 3, 4, 7, 8, 9, 23, 24, 25, 48, 49, 255, rng.randrange(256),
                                   (p[i] + 1) % 256, (p[i] - 1) % 256])
        for rules in (Rules(0), Rules(14)):
            for writer in (False, True):
                a, b = read_profile(p, rules, writer)[0], profile_again(bytes(p), rules, writer)
                assert a == b, (list(p), a, b)
                seen[a] = seen.get(a, 0) + 1
    return 'verdicts %s' % dict(sorted(seen.items()))


@test
def writer(rng):
    n1 = n2 = n3 = 0
    for q in range(N(250)):
        raw = random_profile(rng, rng.choice([2, 4, 8]), 3, 12, f=rng.choice([None, -1]))
        P = prof(*raw)
        assert len(data_places(P)) == P.data_size
        data = bytes(rng.randrange(256) for _ in range(P.data_size))
        w = write_triangular(P, data)
        assert w == write_linear(P, data)
        assert is_codeword(P, w) and bytes(w[p] for p in data_places(P)) == data
        n1 += 1
        for i in range(P.m):                      # fetch agrees with data places
            no, s, e = fetch(raw, P.size, i, Rules(14))
            assert no == 0 and e > s
        assert b''.join(w[fetch(raw, P.size, i, Rules(14))[1]:fetch(raw, P.size, i, Rules(14))[2]]
                        for i in range(P.m)) == data
        bad = bytearray(w)                        # every single change breaks it
        for p in range(P.size):
            bad[p] ^= rng.randint(1, 255)
            assert not is_codeword(P, bytes(bad))
            bad[p] = w[p]
            n2 += 1
        assert fetch(raw, P.size, P.m, Rules(14))[0] == 10 and fetch(raw, P.size + 1, 0, Rules(14))[0] == 6
        assert write(raw, data + b'x', P.size, Rules(6))[0] == 6 and write(raw, data, 1, Rules(6))[0] == 7
    for q in range(N(8)):
        P = prof(8, 3, 255, 14, 16, 18, 24)
        data = bytes(rng.randrange(256) for _ in range(P.data_size))
        w = write_triangular(P, data)
        assert is_codeword(P, w) and bytes(w[p] for p in data_places(P)) == data
        n3 += 1
    return '%d blocks written both ways, %d single changes, %d factory blocks' % (n1, n2, n3)


def cuttings(S):
    """Every cutting of a list into nonempty rounds."""
    K = len(S)
    for mask in range(1 << max(K - 1, 0)):
        out, cur = [], []
        for i, s in enumerate(S):
            cur.append(s)
            if i == K - 1 or mask >> i & 1:
                out.append(cur)
                cur = []
        yield out


def with_empties(rng, rounds, many=2):
    rounds = [list(r) for r in rounds]
    for _ in range(rng.randint(0, many)):
        rounds.insert(rng.randint(0, len(rounds)), [])
    return rounds


def nasty_list(rng, K):
    kind = rng.randrange(7)
    if kind == 0:
        return [rng.randrange(256) for _ in range(K)]
    if kind == 1:
        p = rng.random()
        return [0 if rng.random() < p else rng.randrange(256) for _ in range(K)]
    if kind == 2:
        return [rng.choice([0, 1]) for _ in range(K)]
    if kind == 3:
        return [rng.choice([0, 1, 2, 3]) for _ in range(K)]
    if kind == 4:                                 # syndromes of a pattern, perhaps then spoilt
        e = rng.randint(0, K // 2 + 1)
        pat = [(p, rng.randint(1, 255)) for p in rng.sample(range(255), min(e, 255))]
        S = [pattern_syndrome(pat, j, 1) for j in range(K)]
        if rng.random() < .5 and K:
            for _ in range(rng.randint(1, 3)):
                S[rng.randrange(K)] = rng.choice([0, rng.randrange(256)])
        return S
    if kind == 5:                                 # zeros then something late
        z = rng.randint(0, K)
        return [0] * z + [rng.choice([0, rng.randrange(256)]) for _ in range(K - z)]
    # a list made so that every discrepancy is chosen (often zero, zero syndromes too)
    S = []
    run = Run('plain')
    for r in range(K):
        rest = 0
        for i in range(1, r + 1):
            rest ^= mul(run.st.L[i], S[r - i])
        want = rng.choice([0, 0, rng.randrange(256)])
        s = div(want ^ rest, run.st.L[0])
        if rng.random() < .2:
            s = 0
        S.append(s)
        run.syn = S
        run._it_plain()
    return S


@test
def demand3_exhaustive_small(rng):
    lists = points = 0
    for K in range(0, 5 if SCALE >= .5 else 4):
        for S in itertools.product((0, 1, 2), repeat=K):
            for c in cuttings(list(S)):
                for e in range(len(c) + 1):
                    for rounds in (c, c[:e] + [[]] + c[e:]):
                        bad, seen = demand3_problems(rounds)
                        assert not bad, (rounds, bad[0])
                        lists += 1
                        points += seen
    return '%d lists of rounds, %d points' % (lists, points)


@test
def demand3_every_cutting(rng):
    lists = points = 0
    for q in range(N(25)):
        S = nasty_list(rng, rng.randint(1, 7))
        for c in cuttings(S):
            bad, seen = demand3_problems(with_empties(rng, c))
            assert not bad, (c, bad[0])
            lists += 1
            points += seen
    return '%d lists of rounds, %d points' % (lists, points)


@test
def demand3_long(rng):
    lists = points = empties = at48 = 0
    for q in range(N(1500)):
        K = rng.choice([48, 48, 47, 28, 36, rng.randint(0, 48), rng.randint(0, 12)])
        S = nasty_list(rng, K)
        cuts = sorted(rng.sample(range(1, K), min(rng.randint(0, 5), K - 1))) if K > 1 else []
        rounds = [S[a:b] for a, b in zip([0] + cuts, cuts + [K])] if K else []
        rounds = with_empties(rng, rounds, 3)
        empties += sum(1 for r in rounds if not r)
        at48 += K == 48 and bool(rounds) and not rounds[-1]
        bad, seen = demand3_problems(rounds)
        assert not bad, (rounds, bad[0])
        lists += 1
        points += seen
    return '%d lists, %d points, %d empty rounds, %d of them entered at 48' % (lists, points, empties, at48)


@test
def empty_round_changes_nothing(rng):
    n = 0
    for q in range(N(600)):
        rounds = [nasty_list(rng, rng.randint(0, 10)) for _ in range(rng.randint(0, 4))]
        for form in FORMS:
            run = run_rounds(form, rounds)
            before = run.st.copy()
            run.enter([])
            assert run.st == before
            if form == 'ahead':                   # all seven are zero at a round's end
                assert all(run.st[x] == 0 for x in ('gamma_S', 'delta_S', 'theta_S', 'g1', 'g2', 'h1', 'h2'))
            if form == 'scaled':
                assert run.st.g == 1
            n += 1
    return '%d empty entries' % n


@test
def settle_small(rng):
    n = fails = beyond = 0
    for q in range(N(1500)):
        t = rng.choice([1, 1, 2, 2, 3])
        nn = rng.randint(2 * t + 1, {1: 40, 2: 18, 3: 9}[t])
        f = rng.choice([1, 1, rng.randint(0, 254)])
        kind = rng.randrange(4)
        if kind == 0:
            S = nasty_list(rng, 2 * t)
        else:                                     # pattern, sometimes beyond n-1 or beyond strength
            lim = nn if kind < 3 else 255
            e = rng.randint(0, t if kind == 1 else min(t + 2, lim))
            pat = [(p, rng.randint(1, 255)) for p in rng.sample(range(lim), e)]
            S = [pattern_syndrome(pat, j, f) for j in range(2 * t)]
        b = settle_brute(S, t, nn, f)
        assert b == settle_peterson(S, t, nn, f), (S, t, nn, f)
        for form in FORMS:
            cut = rng.randint(0, 2 * t)
            run = run_rounds(form, [S[:cut], S[cut:]])
            assert settle_run(run, S, t, nn, f) == b
            pr = propose_from_run(run, S, t, nn, f)
            assert pr == b                        # what is proposed always fits (by theory)
        if b is None:
            fails += 1
            if settle_peterson(S, t, 255, f) is not None:
                beyond += 1
        n += 1
    return '%d strips, %d failing, %d of them only because roots lie beyond n-1' % (n, fails, beyond)


@test
def settle_255(rng):
    n = fails = 0
    for q in range(N(150)):
        t = rng.choice([1, 2, 5, 14, 24])
        f = rng.choice([1, rng.randint(0, 254)])
        nn = rng.choice([255, 255, rng.randint(2 * t + 1, 255)])
        e = rng.choice([rng.randint(0, t), t, t + 1, t + 2, min(2 * t, nn)])
        pat = tuple(sorted((p, rng.randint(1, 255)) for p in rng.sample(range(nn), e)))
        S = [pattern_syndrome(pat, j, f) for j in range(2 * t)]
        if rng.random() < .1:
            S = nasty_list(rng, 2 * t)
            pat = None
        b = settle_peterson(S, t, nn, f)
        if pat is not None and e <= t:
            assert b == pat
        for form in FORMS:
            assert settle_run(run_rounds(form, [S]), S, t, nn, f) == b
        fails += b is None
        n += 1
    for q in range(N(6)):                         # brute force at n=255, t=1 and 2
        t = rng.choice([1, 1, 2])
        S = [rng.randrange(256) for _ in range(2 * t)]
        if t == 2 and q > 3:
            continue
        assert settle_brute(S, t, 255) == settle_peterson(S, t, 255)
    return '%d strips, %d failing' % (n, fails)


def corrupt(rng, P, w, style):
    b = bytearray(w)
    counts = [0] * P.m
    order = list(range(P.m))
    rng.shuffle(order)
    if style == 'within':                         # e_i <= t_(v-i) for the worst strips, others <= t0
        for q, i in enumerate(order):
            lim = P.t[P.v - q] if q < P.v else P.t[0]
            counts[i] = rng.choice([rng.randint(0, lim), lim, 0])
    elif style == 'some':
        for i in order:
            counts[i] = rng.choice([0, 0, rng.randint(0, P.tv + 1)])
    else:
        for i in order:
            counts[i] = rng.randint(0, min(P.n, P.tv + 3))
    for i in range(P.m):
        for p in rng.sample(range(P.n), min(counts[i], P.n)):
            b[i * P.n + p] ^= rng.randint(1, 255)
    return bytes(b), counts


def same(a, b, states=False):
    if (a.number, a.stage) != (b.number, b.stage) or a.block != b.block:
        return False
    if a.number:
        return True
    return (a.lines, a.changed, a.last, a.bits, a.strip_bits) == (b.lines, b.changed, b.last, b.bits, b.strip_bits)


@test
def reader_small(rng):
    seen, miss, restored, within = {}, 0, 0, 0
    for q in range(N(2500)):
        raw = random_profile(rng, rng.choice([2, 4, 6]), 2, rng.choice([10, 20, 40]), f=None)
        P = prof(*raw)
        w = write_triangular(P, bytes(rng.randrange(256) for _ in range(P.data_size)))
        style = rng.choice(['within', 'some', 'wild', 'within'])
        b, counts = corrupt(rng, P, w, style)
        answers = [read(raw, b, P.size, form) for form in FORMS]
        for a in answers[1:]:
            assert same(a, answers[0])
        a = answers[0]
        other = read(raw, b, P.size, 'plain', settle=lambda S, t, n, f, mk: settle_peterson(S, t, n, f))
        assert same(other, a)
        if P.n <= 12 and P.tv <= 3:
            assert same(read(raw, b, P.size, 'plain', settle=settle_brute), a)
        key = a.number if a.number != 8 else '8/%d' % a.stage
        seen[key] = seen.get(key, 0) + 1
        if a.number == 0:
            assert is_codeword(P, a.block)
            states_stand_to_each_other(answers)
        if style == 'within':
            within += 1
            if a.number == 0 and a.block == w:
                restored += 1
            else:
                miss += 1
    return 'verdicts %s; of %d within strength %d restored, %d not (wrongly settled strips)' % (
        dict(sorted(seen.items(), key=str)), within, restored, miss)


def states_stand_to_each_other(answers):
    a = answers[0]
    for i in range(len(a.lines)):
        if a.lines[i][0] == 'clean':
            assert all(x.states[i] is None for x in answers)
            continue
        rounds = a.rounds_of[i]
        assert all(x.rounds_of[i] == rounds for x in answers)
        if a.states[i] is None:                   # marked strip
            assert all(x.states[i] is None for x in answers)
            continue
        assert len(rounds) == a.lines[i][2] + 1
        for x, form in zip(answers, FORMS):
            assert x.states[i] == run_rounds(form, rounds).st


@test
def rounds_give_error_syndromes(rng):
    """When every settled strip is right, the table's S_j are the error's own."""
    n = 0
    for q in range(N(400)):
        raw = random_profile(rng, 6, 2, 60, vmin=1)
        P = prof(*raw)
        w = write_triangular(P, bytes(rng.randrange(256) for _ in range(P.data_size)))
        b, counts = corrupt(rng, P, w, 'within')
        rd = staged(P, b)
        if rd.number or rd.block != w:
            continue
        for i in range(P.m):
            e = [x ^ y for x, y in zip(P.strip(b, i), P.strip(w, i))]
            upto = 2 * P.t[0] if rd.line[i][0] == 'clean' else 2 * P.t[rd.line[i][2]]
            assert rd.table[i][:upto] == [value(e, P.point(j)) for j in range(upto)]
            assert not any(rd.table[i][upto:])
            n += 1
        assert not any(any(x) for x in rd.table[P.m:])
    return '%d strips' % n


@test
def equal_strengths(rng):
    """An empty round settles nothing, its limit on b holds."""
    P = prof(4, 3, 20, 1, 2, 2, 4)
    w = write_triangular(P, bytes(rng.randrange(256) for _ in range(P.data_size)))
    got = {}
    for q in range(N(600)):
        b = bytearray(w)
        k = rng.choice([1, 2])
        for i in rng.sample(range(4), k):
            for p in rng.sample(range(20), rng.choice([3, 4])):
                b[i * 20 + p] ^= rng.randint(1, 255)
        a = [decode(P, bytes(b), f) for f in FORMS]
        assert same(a[0], a[1]) and same(a[0], a[2])
        if a[0].number == 0:
            states_stand_to_each_other(a)
        key = (k, a[0].number, a[0].stage, a[0].last if a[0].number == 0 else None)
        got[key] = got.get(key, 0) + 1
    return '(bad strips, number, stage, last): %s' % got


@test
def reader_factory(rng):
    raw = bytes([8, 3, 255, 14, 16, 18, 24])
    P = prof(*raw)
    seen = {}
    for q in range(N(16)):
        w = write_triangular(P, bytes(rng.randrange(256) for _ in range(P.data_size)))
        b, counts = corrupt(rng, P, w, 'within' if q % 4 else 'some')
        ans = [read(raw, b, P.size, form) for form in FORMS]
        assert same(ans[0], ans[1]) and same(ans[0], ans[2])
        assert same(ans[0], read(raw, b, P.size, settle=lambda S, t, n, f, mk: settle_peterson(S, t, n, f)))
        if ans[0].number == 0:
            states_stand_to_each_other(ans)
        if q % 4:
            assert ans[0].block == w
        key = ans[0].number if ans[0].number != 8 else '8/%d' % ans[0].stage
        seen[key] = seen.get(key, 0) + 1
    return 'verdicts %s' % seen


@test
def card_program_edges(rng):
    p = [7, 2, 1, 5, 1, 2, 0, 0]
    R = BASE
    t = lambda b, r=R: card_program(bytes(b), r)
    assert t([]) == 'card refused 11\n'
    assert t([6]) == 'card refused 1\n' and t([0]) == 'card refused 1\n' and t([255]) == 'card refused 1\n'
    assert t([8] + p[1:]) == 'card refused 1\n'
    for k in range(1, 8):
        assert t(p[:k]) == 'card refused 11\n'
    assert t([7, 9, 1, 5, 1, 2, 0, 0]) == 'card refused 2\n'
    assert t([7, 9]) == 'card refused 11\n'
    assert t([7, 2, 2, 5, 1, 2, 0, 0]) == 'card refused 3\n'
    assert t(p) == 'card refused 11\n' and t(p + [0]) == 'card refused 11\n'
    assert t(p + [0, 0]) == 'blocks 0\n' and t(p + [0, 0, 9]) == 'blocks 0\ncard refused 12\n'
    assert t(p + [0, 1]) == 'blocks 1\ncard refused 11\n'
    assert t(p + [1, 0] + [0] * 15) == 'blocks 256\n0 ok 0 0\ncard refused 11\n'
    assert t(p + [0, 1] + [0] * 10) == 'blocks 1\n0 ok 0 0\n'
    assert t(p + [0, 1] + [0] * 11) == 'blocks 1\n0 ok 0 0\ncard refused 12\n'
    assert t([0, 0, 1] + [0] * 2040, Rules(2)) == 'blocks 1\n0 ok 0 0 0\n'
    assert t([8] + p[1:] + [255, 0, 0], Rules(5)) == 'card refused 14\n'
    assert t([8] + p[1:] + [254, 0, 0], Rules(5)) == 'blocks 0\n'
    assert t([8] + p[1:], Rules(5)) == 'card refused 11\n'
    return 'edge cards'


@test
def request3_marks(rng):
    n = fails = over = zero = 0
    for q in range(N(900)):
        t = rng.choice([1, 2, 2, 3])
        nn = rng.randint(2 * t + 1, {1: 20, 2: 12, 3: 9}[t])
        f = rng.choice([1, rng.randint(0, 254)])
        s = rng.randint(1, min(nn, 2 * t + 1))
        marks = tuple(sorted(rng.sample(range(nn), s)))
        if rng.random() < .3:
            S = nasty_list(rng, 2 * t)
        else:
            e = rng.randint(0, max(0, (2 * t - s) // 2 + rng.choice([0, 0, 0, 1])))
            free = [p for p in range(nn) if p not in marks]
            pat = [(p, rng.randint(1, 255)) for p in rng.sample(free, min(e, len(free)))]
            pat += [(p, rng.randrange(256)) for p in marks]
            S = [pattern_syndrome(pat, j, f) for j in range(2 * t)]
        b = settle_brute(S, t, nn, f, marks)
        assert b == settle_marked(S, t, nn, f, marks), (S, t, nn, f, marks)
        n += 1
        fails += b is None
        over += s > 2 * t
    # whole readings
    seen = {}
    for q in range(N(500)):
        raw = random_profile(rng, 4, 2, 12, vmin=rng.choice([0, 1]))
        P = prof(*raw)
        w = write_triangular(P, bytes(rng.randrange(256) for _ in range(P.data_size)))
        b = bytearray(w)
        mk = []
        for i in range(P.m):
            s = rng.choice([0, 0, 1, 2, rng.randint(0, min(P.n, 2 * P.tv + 1))])
            places = sorted(rng.sample(range(P.n), s))
            mk += [(i, p) for p in places]
            for p in places:
                b[i * P.n + p] ^= rng.choice([0, rng.randrange(256)])
            for p in rng.sample(range(P.n), rng.choice([0, 0, 1, 2])):
                b[i * P.n + p] ^= rng.randrange(256)
        marks = bytes(x for pr in mk for x in pr)
        ans = [read(raw, b, P.size, form, Rules(3), marks) for form in FORMS]
        assert same(ans[0], ans[1]) and same(ans[0], ans[2])
        if P.n <= 10 and P.tv <= 3:
            assert same(ans[0], read(raw, b, P.size, 'plain', Rules(3), marks, settle_brute))
        if ans[0].number == 0:
            states_stand_to_each_other(ans)
            zero += sum(1 for l in ans[0].lines if l[0] == 'mended' and l[1] == 0)
        seen[ans[0].number] = seen.get(ans[0].number, 0) + 1
    raw = bytes([2, 1, 5, 1, 2, 0, 0])
    z = bytes(10)
    R = Rules(3)
    for mk, want in ((b'', 0), (b'\0', 13), (b'\0\0', 0), (b'\0\4\1\0', 0), (b'\1\0\0\4', 13), (b'\0\2\0\2', 13),
                     (b'\0\5', 13), (b'\2\0', 13), (b'\0\1\0\0', 13), (b'\0\0\0\1\0\2', 0)):
        assert read(raw, z, 10, 'plain', R, mk).number == want, mk
    a = read(raw, z, 10, 'plain', R, b'\0\0\0\1\0\2')      # three marks > 2 t0 on a zero strip
    assert a.lines == [('mended', 0, 1), ('clean',)] and a.last == 1 and a.changed == 0
    assert read(raw, z, 10, 'plain', R, b'\0\0\0\1\0\2\0\3').number == 0
    a = read(raw, z, 10, 'plain', R, bytes(x for p in range(5) for x in (0, p)))
    assert (a.number, a.stage) == (8, 1)                   # five marks > 2 t1: untouched block is refused
    a = read(raw, z, 10, 'plain', R, bytes(x for i in range(2) for p in range(3) for x in (i, p)))
    assert (a.number, a.stage) == (8, 0)                   # two strips with 3 marks: b=2 > v
    return '%d marked strips (%d failing, %d with s>2t); readings %s; %d lines mended with count 0' % (
        n, fails, over, seen, zero)


@test
def request5_first_root(rng):
    n = 0
    fs = list(range(255)) if SCALE >= 1 else rng.sample(range(255), N(255))
    for f in fs:
        raw = random_profile(rng, 4, 2, 16, vmin=1, f=f)
        P = prof(*raw)
        data = bytes(rng.randrange(256) for _ in range(P.data_size))
        w = write(raw, data, P.size, Rules(5))[1]
        assert w == write_linear(P, data)
        b, _ = corrupt(rng, P, w, 'within')
        ans = [read(raw, b, P.size, form, Rules(5)) for form in FORMS]
        assert same(ans[0], ans[1]) and same(ans[0], ans[2])
        if f == 1:
            assert w == write(raw[:7], data, P.size, Rules(5))[1]
        n += 1
    assert read_profile(bytes([2, 1, 5, 1, 2, 0, 0, 255]), Rules(5))[0] == 14
    assert read_profile(bytes([2, 1, 4, 1, 2, 0, 0, 255]), Rules(5))[0] == 5
    assert read_profile(bytes([2, 1, 5, 1, 2, 0, 0, 1]), Rules(4))[0] == 1
    return '%d values of f' % n


@test
def request6_values(rng):
    n = places = short = 0
    for q in range(N(500)):
        t = rng.choice([1, 2, 3, 5, 14, 24])
        f = rng.choice([1, 0, 254, rng.randint(0, 254)])
        nn = rng.randint(2 * t + 1, 255)
        e = rng.choice([1, t, rng.randint(1, t)])
        pat = tuple(sorted((p, rng.randint(1, 255)) for p in rng.sample(range(nn), e)))
        S = [pattern_syndrome(pat, j, f) for j in range(2 * t)]
        cuts = sorted(rng.sample(range(0, 2 * t + 1), rng.randint(0, 2)))
        rounds = [S[a:b] for a, b in zip([0] + cuts, cuts + [2 * t])]
        for form in FORMS:
            run = run_rounds(form, rounds)
            for p, y in pat:
                w = alpha_pow(-p)
                assert values_auxiliary(run, w, f) == y, (form, pat, f)
                assert values_evaluator(run.st.L, S, 2 * t, w, f) == y
                places += 1
        short += e < t
        n += 1
    return '%d patterns (%d below strength), %d values both ways' % (n, short, places)


@test
def request8_wrong(rng):
    seen, took, unalike, count0, wrongblock = {}, 0, 0, 0, 0
    alternatives = {}
    tries = 0
    while tries < N(800):
        raw = random_profile(rng, rng.choice([2, 3, 5]), 1, rng.choice([20, 60, 255]), vmin=1)
        P = prof(*raw)
        w = bytes(P.size)
        if rng.random() >= .5:
            w = write_triangular(P, bytes(rng.randrange(256) for _ in range(P.data_size)))
        b, _ = corrupt(rng, P, w, rng.choice(['within', 'some']))
        rd = staged(P, b)
        if rd.number or is_codeword(P, rd.block):
            if rng.random() < .97:
                continue
        tries += 1
        base = decode(P, b, 'plain', Rules(7))
        ans = [decode(P, b, form, Rules(8)) for form in FORMS]
        assert same(ans[0], ans[1]) and same(ans[0], ans[2])
        a = ans[0]
        key = (a.number, len(a.good))
        alternatives[key] = alternatives.get(key, 0) + 1
        if a.alternative is not None:
            # an accepted alternative is always the only one
            assert len(a.good) == 1 and a.lines[a.alternative][1] > P.t[0]
        if base.number == 0 or base.number == 8:
            assert same(a, base)
        if a.number == 0:
            assert is_codeword(P, a.block)
            states_stand_to_each_other(ans)
            if a.alternative is not None:
                took += 1
                count0 += any(l == ('mended', 0) + l[2:] for l in a.lines if l[0] == 'mended')
                wrongblock += a.block != w
        key = (base.number, a.number)
        seen[key] = seen.get(key, 0) + 1
    return ('(before, after): %s; (number, good alternatives): %s; '
            '%d by an alternative (%d other than the written block, %d with a count-0 line)') % (
        seen, alternatives, took, wrongblock, count0)


def binary_oracle(strip):
    """Pairs plus the third place from S_0; any length."""
    n = len(strip)
    S = [value(strip, alpha_pow(j + 1)) for j in range(6)]
    found = set()

    def tryit(c):
        for j in (0, 2, 4):
            x = S[j]
            for p in c:
                x ^= alpha_pow((j + 1) * p)
            if x:
                return
        found.add(tuple(sorted(c)))
    tryit(())
    for p in range(n):
        tryit((p,))
        for q in range(p):
            x = S[0] ^ POW[p] ^ POW[q]
            if x == 0:
                tryit((p, q))
            elif LOG[x] < q:
                tryit((p, q, LOG[x]))
    assert len(found) <= 1
    if not found:
        return 17, None
    out = bytearray(strip)
    for p in found.pop():
        out[p] ^= 1
    return 0, bytes(out)


@test
def request9_binary(rng):
    n = 0
    seen = {}
    for q in range(N(3000)):
        nn = rng.choice([1, 2, 3, 6, 7, 10, 15, 31, rng.randint(1, 40)])
        s = bytes(rng.randint(0, 1) for _ in range(nn)) if rng.random() < .5 else \
            bytes(1 if rng.random() < 4 / nn else 0 for _ in range(nn))
        a = read_binary(s, nn)
        assert a == read_binary(s, nn, direct=False) == binary_oracle(s)
        if nn <= 15:
            assert a == read_binary_brute(s)
        seen[a[0]] = seen.get(a[0], 0) + 1
    for q in range(N(60)):
        s = bytearray(255)
        for p in rng.sample(range(255), rng.randint(0, 6)):
            s[p] ^= 1
        if q % 3 == 0:
            s = bytearray(rng.randint(0, 1) for _ in range(255))
        a = read_binary(bytes(s), 255)
        assert a == read_binary(bytes(s), 255, direct=False) == binary_oracle(bytes(s))
        seen[a[0]] = seen.get(a[0], 0) + 1
    assert read_binary(b'', 0)[0] == 5 and read_binary(bytes(256), 256)[0] == 5
    assert read_binary(b'\2', 2)[0] == 7 and read_binary(b'\2', 1)[0] == 16
    m = 0
    for s0 in range(2):                           # homogeneity: S_j -> c^(j+1) S_j
        for s2 in range(256):
            for s4 in range(256) if SCALE >= 1 else rng.sample(range(256), N(256)):
                if s0 | s2 | s4:
                    assert piba([s0, mul(s0, s0), s2, power(s0, 4), s4, mul(s2, s2)]) == direct_formulas(s0, s2, s4)
                    m += 1
    for _ in range(N(20000)):
        s0, s2, s4 = (rng.choice([0, rng.randrange(256)]) for _ in range(3))
        if rng.random() < .3:
            s2 = power(s0, 3)
        if s0 | s2 | s4:
            assert piba([s0, mul(s0, s0), s2, power(s0, 4), s4, mul(s2, s2)]) == direct_formulas(s0, s2, s4)
            m += 1
    return 'strips %s, %d triples' % (seen, m)


@test
def request10_half(rng):
    for a in range(256):
        t = half_tables(a)
        for b in range(256):
            assert half_mul(t, b) == mul(a, b)
    return '65536 products'


@test
def request11_ranges(rng):
    seen = {}
    R = Rules(11)
    for q in range(N(150)):
        raw = random_profile(rng, 3, 1, 9, vmin=0)
        P = prof(*raw)
        k = rng.randint(0, 4)
        datas = [bytes(rng.randrange(256) for _ in range(P.data_size)) for _ in range(k)]
        blocks = [bytearray(write_triangular(P, d)) for d in datas]
        for b in blocks:
            for _ in range(rng.choice([0, 0, 1, 5])):
                b[rng.randrange(P.size)] ^= rng.randrange(256)
        image = b''.join(bytes(b) for b in blocks)
        total = k * P.data_size
        rs = []
        for _ in range(rng.randint(0, 8)):
            s = rng.randint(0, total)
            rs.append((s, rng.choice([0, rng.randint(0, total - s)])))
        raw_r = b''.join(s.to_bytes(4, 'big') + l.to_bytes(4, 'big') for s, l in rs)
        a = read_ranges(raw, image, raw_r, sum(l for _, l in rs), R)
        assert a['number'] == 0
        # independent: decode all
        dec = [decode(P, bytes(b), 'plain', R) for b in blocks]
        flat, refs = [], []
        for d in dec:
            flat += [d.block[p] if d.number == 0 else None for p in data_places(P)]
            refs += [d] * P.data_size
        touched, out = set(), []
        for (s, l), v in zip(rs, a['verdicts']):
            hit = [refs[x] for x in range(s, s + l)]
            touched |= {x // P.data_size for x in range(s, s + l)}
            bad = [h for h in hit if h.number]
            if bad:
                assert v == ((8, bad[0].stage) if bad[0].number == 8 else (9,))
                out += [None] * l
            else:
                assert v == (0,)
                out += flat[s:s + l]
            seen[v] = seen.get(v, 0) + 1
        assert out == a['out'] and a['touched'] == len(touched)
        assert read_ranges(raw, image + b'x', raw_r, 0, R)['number'] == 6
        assert read_ranges(raw, image, raw_r + b'x', 0, R)['number'] == 18
        assert read_ranges(raw, image, bytes(8 * 65), 0, R)['number'] == 18
        assert read_ranges(raw, image, bytes(8 * 64), 0, R)['number'] == 0
        assert read_ranges(raw, image, (total + 1).to_bytes(4, 'big') + bytes(4), 0, R)['number'] == 19
        assert read_ranges(raw, image, total.to_bytes(4, 'big') + bytes(4), 0, R)['number'] == 0
        assert read_ranges(raw, image, b'\xff' * 4 + (1).to_bytes(4, 'big'), 0, R)['number'] == 19
        assert read_ranges(raw, image, b'\xff' * 8, 0, R)['number'] == 19
        assert read_ranges(raw, image, raw_r, sum(l for _, l in rs) + 1, R)['number'] == 20
    return 'range verdicts %s' % seen


@test
def request12_stacks(rng):
    seen = {}
    R = Rules(12)
    for q in range(N(150)):
        raw = random_profile(rng, 3, 1, 8, vmin=0, strict=True)
        P = prof(*raw)
        Nn = rng.choice([2, 3, 5, rng.randint(2, 12)])
        c = rng.randint(1, min(Nn - 1, 4))
        data = bytes(rng.randrange(256) for _ in range((Nn - c) * P.data_size))
        no, st = stack_write(raw, Nn, c, data, Nn * P.size, R)
        assert no == 0
        blocks = [st[i * P.size:(i + 1) * P.size] for i in range(Nn)]
        assert all(is_codeword(P, b) for b in blocks) and stack_columns_hold(blocks, c)
        d = P.data_size
        assert st[c * P.size:] == b''.join(write_triangular(P, data[i * d:(i + 1) * d]) for i in range(Nn - c))
        b = bytearray(st)
        for i in rng.sample(range(Nn), rng.randint(0, min(Nn, c + 1))):
            for p in range(P.size):
                b[i * P.size + p] = rng.randrange(256)
        a = stack_read(raw, Nn, c, bytes(b), len(b), R)
        refused = wrong = 0
        for i in range(Nn):
            d = decode(P, bytes(b[i * P.size:(i + 1) * P.size]), 'plain', R)
            refused += d.number != 0
            wrong += d.number == 0 and d.block != blocks[i]
        if refused > c:
            assert a[0] == 22
        elif wrong == 0:
            assert a == (0, st)
        else:
            assert a[0] in (0, 23)
            if a[0] == 0:
                bl = [a[1][i * P.size:(i + 1) * P.size] for i in range(Nn)]
                assert all(is_codeword(P, x) for x in bl) and stack_columns_hold(bl, c)
        seen[a[0]] = seen.get(a[0], 0) + 1
        for nn, cc in ((1, 1), (256, 1), (5, 0), (5, 5), (40, 33)):
            assert stack_read(raw, nn, cc, b'', 0, R)[0] == 21 == stack_write(raw, nn, cc, b'', 0, R)[0]
    raw = bytes([1, 0, 3, 1, 0, 0, 0])
    P = prof(*raw)
    no, st = stack_write(raw, 255, 32, bytes(rng.randrange(256) for _ in range(223)), 765, R)
    b = bytearray(st)
    for i in rng.sample(range(255), 32):
        b[3 * i:3 * i + 3] = b'\1\2\4'
    bl = [decode(P, bytes(b[3 * i:3 * i + 3]), 'plain', R).number for i in range(255)]
    a = stack_read(raw, 255, 32, bytes(b), 765, R)
    seen['255/32: %d refused' % sum(1 for x in bl if x)] = a[0]
    return 'verdicts %s' % seen


@test
def request13_trials(rng):
    out = []
    for k in range(N(6)):
        raw = random_profile(rng, 4, 2, 30, vmin=1)
        c = bytes([7]) + raw + rng.randrange(2 ** 32).to_bytes(4, 'big')
        c += rng.choice([0, 1000, 4000, 65535]).to_bytes(2, 'big') + (40).to_bytes(2, 'big')
        o = [trial_program(c, Rules(13), f) for f in FORMS]
        assert o[0] == o[1] == o[2]
        x = list(map(int, o[0].split()))
        assert len(x) == 7 and sum(x[:6]) == 40 and x[6] <= sum(x[:4])
        out.append(o[0].strip())
    c = bytes([7, 2, 1, 5, 1, 2, 0, 0, 1, 2, 3, 4, 0, 0, 0, 3])
    for k in range(len(c)):
        assert trial_program(c[:k], Rules(13)) == 'card refused 11\n'
    assert trial_program(c + b'x', Rules(13)) == 'card refused 12\n'
    assert trial_program(b'\x06', Rules(13)) == 'card refused 1\n'
    return ' | '.join(out)


@test
def request14_length(rng):
    n = 0
    for K in range(0, 6):
        for S in itertools.product((0, 1, 2), repeat=K):
            S = list(S)
            assert run_rounds('plain', [S]).length == least_length(S)
            n += 1
    for q in range(N(1200)):
        K = rng.choice([rng.randint(0, 12), rng.randint(0, 48)]) if q % 20 else 48
        S = nasty_list(rng, K)
        want = least_length(S)
        cut = rng.randint(0, K)
        for form in FORMS:
            assert run_rounds(form, [S[:cut], [], S[cut:]]).length == want
        n += 1
    assert least_length([0] * 48) == 0 and least_length([]) == 0
    return '%d lists' % n


@test
def predicted_outcome(rng):
    """Restoring.  If at no stage a strip with more than t_r errors settles (wrongly), the
    reading is told by the error counts alone: strip i settles at the least r with e_i <= t_r,
    the answer is 8 after the first r where more than v-r strips have e_i > t_r, else the
    written block."""
    n = ok = eights = wrong = 0
    for q in range(N(1500)):
        raw = random_profile(rng, rng.choice([2, 4, 8]), 2, rng.choice([12, 20, 60]))
        P = prof(*raw)
        w = write_triangular(P, bytes(rng.randrange(256) for _ in range(P.data_size)))
        b, _ = corrupt(rng, P, w, rng.choice(['within', 'some']))
        err = [[(p, x ^ y) for p, (x, y) in enumerate(zip(P.strip(b, i), P.strip(w, i))) if x != y] for i in range(P.m)]
        e = [len(x) for x in err]
        number, stage, misled, lines = 0, None, False, [None] * P.m
        for r in range(P.v + 1):
            left = [i for i in range(P.m) if lines[i] is None]
            for i in left:
                S = [pattern_syndrome(err[i], j, P.f) for j in range(2 * P.t[r])]
                if e[i] > P.t[r] and settle_peterson(S, P.t[r], P.n, P.f) is not None:
                    misled = True
                if e[i] <= P.t[r]:
                    lines[i] = ('clean',) if e[i] == 0 else ('mended', e[i], r)
            k = sum(1 for x in lines if x is None)
            if k == 0:
                break
            if k > P.v - r:
                number, stage = 8, r
                break
        if misled:
            wrong += 1
            continue
        a = decode(P, b)
        assert (a.number, a.stage) == (number, stage)
        if number == 0:
            assert a.block == w and a.lines == lines and a.last == r and a.changed == sum(e)
            ok += 1
        else:
            eights += 1
        n += 1
    return '%d readings predicted (%d restored, %d refused 8), %d left out for a wrongly settled strip' % (
        n, ok, eights, wrong)


@test
def request3_untouched_and_continued(rng):
    zero = n = 0
    for q in range(N(300)):
        raw = random_profile(rng, 4, 2, 14, vmin=1)
        P = prof(*raw)
        w = write_triangular(P, bytes(rng.randrange(256) for _ in range(P.data_size)))
        mk = []
        for i in range(P.m):
            mk += [(i, p) for p in sorted(rng.sample(range(P.n), rng.choice([0, 0, rng.randint(0, P.n)])))]
        s = [sum(1 for x in mk if x[0] == i) for i in range(P.m)]
        a = read(raw, w, P.size, 'plain', Rules(3), bytes(x for pr in mk for x in pr))
        lines, number, stage = [None] * P.m, 0, None
        for r in range(P.v + 1):
            for i in range(P.m):
                if lines[i] is None and s[i] <= 2 * P.t[r]:
                    lines[i] = ('clean',) if r == 0 else ('mended', 0, r)
            k = lines.count(None)
            if k == 0:
                break
            if k > P.v - r:
                number, stage = 8, r
                break
        assert (a.number, a.stage) == (number, stage)
        if number == 0:
            assert a.lines == lines and a.last == r and a.changed == 0 and a.block == w
            zero += sum(1 for l in lines if l != ('clean',))
        n += 1
    # the folded list of a marked strip only grows from stage to stage, so it is a run of rounds too
    for q in range(N(200)):
        S = [rng.randrange(256) for _ in range(48)]
        s = rng.randint(1, 20)
        G = [1]
        for p in rng.sample(range(255), s):
            G = [x ^ mul(alpha_pow(p), y) for x, y in zip(G + [0], [0] + G)]

        def fold(K):
            return [functools.reduce(lambda x, i: x ^ mul(G[i], S[j + s - i]), range(s + 1), 0)
                    for j in range(max(0, K - s))]
        a, b = sorted(rng.sample(range(0, 49), 2))
        assert fold(b)[:len(fold(a))] == fold(a)
    return '%d readings of untouched blocks with marks, %d lines mended with count 0' % (n, zero)


@test
def request6_identity(rng):
    """Why both ways agree: with A = (Lambda S) mod z^r and C = (B S) mod z^(r-1), after at
    least one swap: deg A < L, deg C < r-L, (B S) has gamma at z^(r-1), and
    A B + Lambda C = gamma Lambda_0 z^(r-1) exactly."""
    def pm(p, q):
        out = [0] * (len(p) + len(q))
        for i, x in enumerate(p):
            if x:
                for j, y in enumerate(q):
                    out[i + j] ^= mul(x, y)
        return out
    n = 0
    for q in range(N(600)):
        S = nasty_list(rng, rng.randint(1, rng.choice([6, 12, 24])))
        run = Run('plain')
        run.syn = S
        for r in range(1, len(S) + 1):
            run._it_plain()
            if not run.swaps:
                continue
            st, L = run.st, run.length
            A = pm(st.L, S)[:r]
            BS = pm(st.B, S)
            C = BS[:r - 1]
            assert BS[r - 1] == st.gamma and not any(A[L:]) and not any(C[r - L:])
            assert not any(st.B[r - L + 1:]) and not any(st.L[L + 1:])
            assert run.st.L[0] != 0 and st.gamma != 0
            tot = [x ^ y for x, y in zip(pm(A, st.B) + [0] * 60, pm(st.L, C) + [0] * 60)]
            assert tot[r - 1] == mul(st.gamma, st.L[0]) and sum(1 for x in tot if x) == 1
            n += 1
    return '%d states' % n


@test
def request8_lemma(rng):
    """An alternative whose held strip settles as it did at stage 0 never ends in a codeword,
    hence two good alternatives never give the same block."""
    good = pairs = 0
    tries = 0
    while tries < N(250):
        raw = random_profile(rng, rng.choice([2, 3, 4]), 1, rng.choice([20, 40, 200]), vmin=1)
        P = prof(*raw)
        b, _ = corrupt(rng, P, bytes(P.size), rng.choice(['within', 'some']))
        rd = staged(P, b)
        if rd.number or is_codeword(P, rd.block):
            continue
        tries += 1
        found = []
        for i in range(P.m):
            if i in rd.failed0:
                continue
            alt = staged(P, b, 'plain', None, i)
            if alt.number == 0:
                if P.strip(alt.block, i) == P.strip(rd.block, i):
                    assert not is_codeword(P, alt.block)
                elif is_codeword(P, alt.block):
                    found.append(alt.block)
                    good += 1
        assert len(set(found)) == len(found)
        pairs += len(found) > 1
    return '%d refused-9 blocks, %d good alternatives, %d blocks with several (never alike)' % (tries, good, pairs)


@test
def request12_columns(rng):
    """23: one block swapped for another codeword, none or some rebuilt."""
    seen = {}
    R = Rules(14)
    for q in range(N(120)):
        raw = random_profile(rng, 3, 1, 8, strict=True)
        P = prof(*raw)
        Nn = rng.randint(3, 8)
        c = rng.randint(1, Nn - 1)
        data = bytes(rng.randrange(256) for _ in range((Nn - c) * P.data_size))
        st = bytearray(stack_write(raw, Nn, c, data, Nn * P.size, R)[1])
        i = rng.randrange(Nn)
        other = write_triangular(P, bytes(rng.randrange(256) for _ in range(P.data_size)))
        diff = other != bytes(st[i * P.size:(i + 1) * P.size])
        st[i * P.size:(i + 1) * P.size] = other
        lost = rng.randint(0, c)
        k = 0
        for x in [x for x in range(Nn) if x != i][:lost]:
            keep = bytes(st[x * P.size:(x + 1) * P.size])
            for _ in range(30):
                for p in range(P.size):
                    st[x * P.size + p] = rng.randrange(256)
                if decode(P, bytes(st[x * P.size:(x + 1) * P.size]), 'plain', R).number:
                    k += 1
                    break
            else:
                st[x * P.size:(x + 1) * P.size] = keep
        a = stack_read(raw, Nn, c, bytes(st), len(st), R)
        if diff:
            assert a[0] == (23 if k < c else 0), (a[0], k, c)
        if a[0] == 0:
            bl = [a[1][x * P.size:(x + 1) * P.size] for x in range(Nn)]
            assert all(is_codeword(P, x) for x in bl)
        key = (a[0], 'all c rebuilt' if k == c else 'fewer')
        seen[key] = seen.get(key, 0) + 1
    return '%s' % seen


def rs_encode(t, f, data):
    """Independent Reed-Solomon encoder: shift register by g(z) = product of (z - alpha^(f+j))."""
    g = [1]                                      # high power first
    for j in range(2 * t):
        root = POW[(f + j) % 255]
        g = [a ^ b for a, b in zip(g + [0], [0] + [slow_mul(root, x) for x in g])]
    reg = [0] * (2 * t)                          # reg[0] is the highest power
    for d in reversed(data):                     # highest place first
        fb = d ^ reg[0]
        reg = reg[1:] + [0]
        for i in range(2 * t):
            reg[i] ^= slow_mul(fb, g[i + 1])
    return bytes(reversed(reg)) + bytes(data)


@test
def second_reed_solomon(rng):
    n = 0
    for q in range(N(150)):
        t = rng.choice([1, 2, 3, 8, 24])
        nn = rng.choice([2 * t + 1, 255, rng.randint(2 * t + 1, 255)])
        f = rng.choice([1, 0, 254, rng.randint(0, 254)])
        data = bytes(rng.randrange(256) for _ in range(nn - 2 * t))
        w = rs_encode(t, f, data)
        P = Profile(1, 0, nn, [t, 0, 0, 0], f)
        assert in_code(P, w, t) and write_triangular(P, data) == w
        b = bytearray(w)
        for p in rng.sample(range(nn), rng.randint(0, t)):
            b[p] ^= rng.randint(1, 255)
        assert decode(P, bytes(b), rng.choice(FORMS)).block == w
        n += 1
    return '%d strips' % n


def second_reader(P, received, rules8):
    """Written apart from gii.staged: recursion over stages, strip values combined (not sums
    evaluated), the b x b system solved by the closed Lagrange form, codeword check by the
    parity rows, patterns by Peterson.  Returns (number, stage, block, last, lines)."""
    n, m, v, t = P.n, P.m, P.v, P.t
    at = [POW[(P.f + j) % 255] for j in range(48)]

    def val(word, x):
        s, xp = 0, 1
        for c in word:
            s ^= slow_mul(c, xp) if c else 0
            xp = MUL[xp][x]
        return s

    def lagrange(xs, rhs):
        """x_w with sum_w xs_w^l x_w = rhs_l: coefficients of the Lagrange basis dotted with rhs."""
        out = []
        for w, xw in enumerate(xs):
            poly, den = [1], 1
            for u, xu in enumerate(xs):
                if u != w:
                    poly = [a ^ b for a, b in zip([0] + poly, [MUL[xu][c] for c in poly] + [0])]
                    den = MUL[den][xw ^ xu]
            s = 0
            for l, c in enumerate(poly):
                s ^= MUL[c][rhs[l]]
            out.append(div(s, den))
        return out

    def stage(r, strips, S, lines, held):
        left = [i for i in range(m) if lines[i] is None]
        for i in left:
            pat = None if (r == 0 and i == held) else settle_peterson(S[i], t[r], n, P.f)
            if pat is not None:
                w = bytearray(strips[i])
                for p, y in pat:
                    w[p] ^= y
                strips = strips[:i] + [bytes(w)] + strips[i + 1:]
                lines = lines[:i] + [('clean',) if r == 0 and not pat else ('mended', len(pat), r)] + lines[i + 1:]
        left = [i for i in range(m) if lines[i] is None]
        if not left:
            return 0, None, b''.join(strips), r, lines
        if len(left) > v - r:
            return 8, r, None, None, None
        S = [list(x) for x in S]
        for j in range(2 * t[r], 2 * t[r + 1]):
            vals = [val(w, at[j]) for w in strips]
            rhs = []
            for l in range(len(left)):
                x = 0
                for i in range(m):
                    x ^= MUL[POW[(i * l) % 255]][vals[i]]
                rhs.append(x)
            for i, x in zip(left, lagrange([POW[i] for i in left], rhs)):
                S[i].append(x)
        return stage(r + 1, strips, S, lines, held)

    strips = [received[i * n:(i + 1) * n] for i in range(m)]
    S0 = [[val(w, at[j]) for j in range(2 * t[0])] for w in strips]
    rows = parity_rows(P)

    def codeword(b):
        for r in rows:
            x = 0
            for c, d in zip(r, b):
                x ^= MUL[c][d]
            if x:
                return False
        return True

    out = stage(0, strips, S0, [None] * m, None)
    if out[0] == 0 and not codeword(out[2]):
        alts = []
        if rules8:
            for i in range(m):
                if out[4][i][-1] == 0 or out[4][i] == ('clean',):
                    a = stage(0, strips, S0, [None] * m, i)
                    if a[0] == 0 and codeword(a[2]):
                        alts.append(a)
        if len({a[2] for a in alts}) == 1:
            return alts[0]
        return 9, None, None, None, None
    return out


@test
def second_reader_agrees(rng):
    seen = {}
    for q in range(N(1200)):
        raw = random_profile(rng, rng.choice([2, 4, 6]), rng.choice([1, 2]), rng.choice([8, 14, 30]),
                             f=rng.choice([None, -1]))
        P = prof(*raw)
        w = write_triangular(P, bytes(rng.randrange(256) for _ in range(P.data_size)))
        b, _ = corrupt(rng, P, w, rng.choice(['within', 'within', 'some', 'wild']))
        for request in (7, 8):
            a = decode(P, b, FORMS[q % 3], Rules(request))
            s = second_reader(P, b, request == 8)
            if a.number:
                assert s[:2] == (a.number, a.stage)
            else:
                assert s == (0, None, a.block, a.last, a.lines)
            key = (request, a.number if a.number != 8 else '8/%d' % a.stage)
            seen[key] = seen.get(key, 0) + 1
    P = prof(*FACTORY)
    for q in range(N(4)):
        w = write_triangular(P, bytes(rng.randrange(256) for _ in range(P.data_size)))
        b, _ = corrupt(rng, P, w, 'within' if q % 4 else 'some')
        a = decode(P, b)
        s = second_reader(P, b, False)
        assert (s[:2] == (a.number, a.stage)) and (a.number or s == (0, None, a.block, a.last, a.lines))
        seen['factory'] = seen.get('factory', 0) + 1
    return '%s' % dict(sorted(seen.items(), key=str))


@test
def codeword_by_rows(rng):
    n = yes = 0
    for q in range(N(400)):
        P = prof(*random_profile(rng, 4, 2, 10, f=rng.choice([None, -1])))
        w = bytearray(write_triangular(P, bytes(rng.randrange(256) for _ in range(P.data_size))))
        k = rng.randrange(3)
        if k == 1:
            w[rng.randrange(P.size)] ^= rng.randrange(256)
        if k == 2 and P.v:                        # strips right, nested sums wrong
            i = rng.randrange(P.m)
            d = bytes(rng.randrange(256) for _ in range(P.n - 2 * P.t[0]))
            e = fill_checks(P, bytes(2 * P.t[0]) + d, 2 * P.t[0], [0] * (2 * P.t[0]))
            for p in range(P.n):
                w[i * P.n + p] ^= e[p]
        want = True
        for r in parity_rows(P):
            x = 0
            for a, b in zip(r, w):
                x ^= mul(a, b)
            want = want and x == 0
        assert is_codeword(P, bytes(w)) == want
        yes += want
        n += 1
    return '%d blocks, %d codewords' % (n, yes)


def pattern_with_zeros(rng, n, e, zeros, f):
    """e changes at places below n whose S_j vanish for the j in zeros (fewer than e), or None."""
    at = sorted(rng.sample(range(n), e))
    free = at[:e - len(zeros)]
    rest = at[e - len(zeros):]
    val = {p: rng.randint(1, 255) for p in free}
    if rest:
        rows = [[alpha_pow((f + j) * p) for p in rest] for j in zeros]
        rhs = [pattern_syndrome(list(val.items()), j, f) for j in zeros]
        kind, x = solve_linear(rows, rhs)
        if kind != 'one' or not all(x):
            return None
        val.update(zip(rest, x))
    return tuple(sorted(val.items()))


def hard_block(rng):
    """A block whose failing strips have zero syndromes at chosen places (long locators,
    S' = 1 cases, holds), within strength."""
    while True:
        raw = random_profile(rng, rng.choice([2, 3, 5]), rng.choice([3, 5]), rng.choice([16, 24, 40]), vmin=1)
        P = prof(*raw)
        w = write_triangular(P, bytes(rng.randrange(256) for _ in range(P.data_size)))
        b = bytearray(w)
        for q, i in enumerate(rng.sample(range(P.m), rng.randint(1, P.v))):
            lim = P.t[P.v - q]
            e = rng.randint(min(lim, P.t[0] + 1), lim)
            if e > 3 and rng.random() < .6:       # first looks like `few` errors, then turns
                few = rng.randint(1, e - 3)
                pat = pattern_with_zeros(rng, P.n, e - few, list(range(e - few - 1)), P.f)
                if pat:
                    more = rng.sample([p for p in range(P.n) if p not in dict(pat)], few)
                    pat = pat + tuple((p, rng.randint(1, 255)) for p in more)
            else:
                k = rng.randint(1, e - 1) if e > 1 else 0
                zeros = list(range(k)) if rng.random() < .6 else sorted(rng.sample(range(2 * lim), k))
                pat = pattern_with_zeros(rng, P.n, e, zeros, P.f)
            if pat:
                for p, y in pat:
                    b[i * P.n + p] ^= y
        if bytes(b) != w:
            return raw, P, w, bytes(b)


@test
def long_locators(rng):
    seen, longer = {}, 0
    for q in range(N(800)):
        raw, P, w, b = hard_block(rng)
        ans = [decode(P, b, form) for form in FORMS]
        assert same(ans[0], ans[1]) and same(ans[0], ans[2])
        s = second_reader(P, b, False)
        a = ans[0]
        assert s[:2] == (a.number, a.stage) and (a.number or s == (0, None, a.block, a.last, a.lines))
        if ans[0].number == 0:
            states_stand_to_each_other(ans)
            for i in range(P.m):
                rounds = ans[0].rounds_of[i]
                for r in range(1, len(rounds)):
                    run = run_rounds('plain', rounds[:r])
                    if run.length > P.t[r - 1]:
                        longer += 1
        key = ans[0].number if ans[0].number != 8 else '8/%d' % ans[0].stage
        seen[key] = seen.get(key, 0) + 1
    return '%s; %d times a settled strip had a locator longer than the strength of an earlier stage' % (seen, longer)


if __name__ == '__main__':
    bad = 0
    for fn in TESTS:
        if ONLY and fn.__name__ not in ONLY:
            continue
        t0 = time.time()
        try:
            msg = fn(random.Random('%s/%d' % (fn.__name__, SEED)))
            print('ok   %-28s %6.1fs  %s' % (fn.__name__, time.time() - t0, msg), flush=True)
        except AssertionError as e:
            bad += 1
            traceback.print_exc()
            print('FAIL %-28s %s' % (fn.__name__, e), flush=True)
    sys.exit(bad != 0)
