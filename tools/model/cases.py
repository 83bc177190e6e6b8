"""Cases with the model's answers, from a fixed generator: python3 cases.py SEED DIR [REQUESTS]

With REQUESTS, as 2,7, every case is judged with just these requests landed: the field 'as of request' says nothing
then, and an expected card list is NAME.txt. Without, a card list as of request NN is NAME.asNN.txt.

Plain text, one case a line, decimal numbers, fields split by ' | ', an empty field is '-'. Lines that start with #
name the fields. The test programs' stored cases are from seed 7.
"""
import os, random, sys
from gii import *
import test_gii as T

FORMS = ('plain', 'ahead', 'scaled')
DIR = None               # where the cases go
LANDED = None            # the requests that have landed, where they were named


def rules(as_of):
    return LANDED or Rules(as_of)


peterson = lambda S, t, n, f, mk: settle_marked(S, t, n, f, mk) if mk else settle_peterson(S, t, n, f)


def nums(x):
    return ' '.join(str(v) for v in x) if len(x) else '-'


def trim(p):
    p = list(p)
    while p and p[-1] == 0:
        p.pop()
    return nums(p) if p else '0'


class Out:
    def __init__(self, name, *head):
        self.f = open(os.path.join(DIR, name), 'w')
        for h in head:
            self.f.write('# %s\n' % h)
        self.n = 0

    def line(self, *fields):
        self.f.write(' | '.join(str(x) for x in fields) + '\n')
        self.n += 1

    def close(self):
        self.f.close()
        print('%-22s %6d cases' % (os.path.basename(self.f.name), self.n))


def field():
    o = Out('field_products.txt', 'a | the 256 products of a with 0..255')
    for a in range(256):
        o.line(a, nums(MUL[a]))
    o.close()
    o = Out('field_tables.txt', 'log table; power table; inverses of 1..255')
    o.line(nums(LOG))
    o.line(nums(POW))
    o.line(nums([inv(a) for a in range(1, 256)]))
    o.close()


def profiles(rng):
    o = Out('profiles.txt', 'as of request | writer 0/1 | profile bytes | number | data size (0 if refused)')
    seen = set()
    fixed = ['2 1 5 1 2 0 0', '2 1 4 1 2 0 0', '8 3 255 14 16 18 24', '1 0 3 1 0 0 0', '1 0 2 1 0 0 0', '0 0 3 1 0 0 0',
             '9 0 3 1 0 0 0', '1 1 9 1 2 0 0', '4 4 9 1 2 0 0', '4 3 20 1 2 2 4', '4 3 20 1 2 2 2', '4 3 20 2 2 3 4',
             '4 3 20 1 3 2 4', '4 2 20 1 3 4 1', '4 0 20 1 1 0 0', '1 0 49 24 0 0 0', '1 0 48 24 0 0 0',
             '1 0 255 25 0 0 0', '2 1 255 1 24 0 0', '2 1 255 1 25 0 0', '2 1 5 0 2 0 0', '-', '2 1 5 1 2 0',
             '2 1 5 1 2 0 0 0', '2 1 5 1 2 0 0 254', '2 1 5 1 2 0 0 255', '2 1 4 1 2 0 0 255', '3 2 4 1 2 2 0',
             '3 2 5 1 2 2 0', '2 1 5 1 2 0 0 1 1', '0 9 0 9 9 9 9']
    for s in fixed:
        p = bytes(int(x) for x in s.split()) if s != '-' else b''
        for as_of in (0, 2, 5, 7, 14):
            for w in (0, 1):
                seen.add((as_of, w, p))
    for _ in range(1500):
        p = bytearray(T.random_profile(rng, 8, 20, 60, f=rng.choice([None, None, -1])))
        for _ in range(rng.choice([0, 1, 1, 2])):
            i = rng.randrange(len(p))
            p[i] = rng.choice([0, 1, 2, 3, 4, 8, 9, 24, 25, 48, 49, 255, (p[i] + 1) % 256, (p[i] - 1) % 256])
        seen.add((rng.choice([0, 0, 5, 7, 14]), rng.randint(0, 1), bytes(p)))
    for as_of, w, p in sorted(seen):
        no, P = read_profile(p, rules(as_of), bool(w))
        o.line(as_of, w, nums(p), no, P.data_size if P else 0)
    o.close()


def writer(rng):
    o = Out('writer.txt', 'as of request | profile | data | output length | number | block ("-" if refused)')
    def put(as_of, raw, data, olen):
        no, b = write(raw, data, olen, rules(as_of))
        if no == 0 and len(b) < 80:
            assert b == write_linear(read_profile(raw, rules(as_of))[1], data)
        o.line(as_of, nums(raw), nums(data), olen, no, nums(b) if b else '-')
    for q in range(300):
        raw = T.random_profile(rng, rng.choice([2, 4, 8]), 4, rng.choice([10, 16, 40]), f=rng.choice([None, None, -1]))
        as_of = 0 if len(raw) == 7 and q % 3 else rng.choice([5, 7, 14]) if len(raw) == 8 else rng.choice([0, 7])
        P = T.prof(*raw)
        k = rng.random()
        data = bytes(rng.choice([0, rng.randrange(256)]) for _ in range(P.data_size))
        olen = P.size
        if k < .08:
            data = data[:-1] if k < .04 else data + b'\0'
        elif k < .16:
            olen += rng.choice([-1, 1])
        put(as_of, raw, data, olen)
    P = T.prof(*FACTORY)
    for q in range(4):
        put(0 if q < 2 else 2, FACTORY if q < 3 else b'', bytes(rng.randrange(256) for _ in range(P.data_size)), P.size)
    put(0, bytes([2, 1, 5, 1, 2, 0, 0]), bytes([1, 0, 0, 0]), 10)
    put(0, bytes([2, 1, 5, 1, 2, 0, 0]), bytes([0, 1, 0, 0]), 10)
    o.close()


def rounds_text(rounds):
    return ' '.join('[' + ' '.join(map(str, r)) + ']' for r in rounds)


def lines_text(a):
    return ' '.join('C' if l[0] == 'clean' else 'M%d/%d' % (l[1], l[2]) for l in a.lines)


def reader_line(o, as_of, raw, received, olen, marks=b''):
    R = rules(as_of)
    ans = [read(raw, received, olen, f, R, marks) for f in FORMS]
    assert T.same(ans[0], ans[1]) and T.same(ans[0], ans[2])
    a = ans[0]
    assert T.same(a, read(raw, received, olen, 'plain', R, marks, peterson))
    if a.number:
        o.line(as_of, nums(raw), nums(marks), olen, nums(received), a.number, a.stage if a.number == 8 else '-',
               *['-'] * 6)
    else:
        o.line(as_of, nums(raw), nums(marks), olen, nums(received), 0, '-', a.last, a.changed, a.bits,
               lines_text(a), nums(a.strip_bits), nums(a.block))
    return a


READER_HEAD = ('as of request | profile | marks | output length | received | number | stage (8 only) | last stage | '
               'changed bytes | bits (meaningful from request 1) | lines per strip: C clean, Mcount/stage mended | '
               'bits per strip | mended block')


def reader(rng):
    o = Out('reader.txt', READER_HEAD)
    seen = {}
    def put(*a, **k):
        r = reader_line(o, *a, **k)
        key = (a[0], r.number, r.stage if r.number == 8 else None)
        seen[key] = seen.get(key, 0) + 1
    z = bytearray(52)
    z[0] = z[1] = 1
    for as_of in (0, 7, 8, 14):
        put(as_of, bytes([2, 1, 26, 1, 2, 0, 0]), bytes(z), 52)
    put(0, bytes([2, 1, 25, 1, 2, 0, 0]), bytes(z[:50]), 50)      # place 25 lies beyond n-1
    put(0, bytes([2, 1, 5, 1, 2, 0, 0]), bytes([117, 230, 216, 30, 1, 0, 0, 0, 0, 0]), 10)
    put(0, bytes([2, 1, 5, 1, 2, 0, 0]), bytes([8, 6, 1, 0, 0, 0, 0, 0, 0, 0]), 10)
    for q in range(700):
        as_of = rng.choice([0, 0, 0, 5, 8, 14])
        raw = T.random_profile(rng, rng.choice([2, 4, 6, 8]), 2, rng.choice([10, 20, 40]),
                               f=-1 if as_of >= 5 and rng.random() < .5 else None)
        P = T.prof(*raw)
        w = write_triangular(P, bytes(rng.randrange(256) for _ in range(P.data_size)))
        b, _ = T.corrupt(rng, P, w, rng.choice(['within', 'within', 'some', 'wild']))
        olen = P.size
        if rng.random() < .03:
            b = b + b'\0'
        elif rng.random() < .03:
            olen += 1
        put(as_of, raw, b, olen)
    # wrongly settled strips, number 9 and request 8
    made = 0
    while made < 60:
        raw = T.random_profile(rng, rng.choice([2, 3, 5]), 1, rng.choice([20, 40]), vmin=1)
        P = T.prof(*raw)
        w = write_triangular(P, bytes(rng.randrange(256) for _ in range(P.data_size)))
        b, _ = T.corrupt(rng, P, w, 'within')
        if decode(P, b).number == 9:
            put(0, raw, b, P.size)
            put(8, raw, b, P.size)
            made += 1
    # equal strengths
    for q in range(60):
        raw = bytes(rng.choice([[4, 3, 12, 1, 2, 2, 4], [4, 3, 12, 1, 2, 2, 2], [4, 3, 12, 1, 2, 3, 3],
                                [3, 2, 12, 1, 2, 2, 0]]))
        P = T.prof(*raw)
        w = write_triangular(P, bytes(rng.randrange(256) for _ in range(P.data_size)))
        b = bytearray(w)
        for i in rng.sample(range(P.m), rng.randint(1, P.v)):
            for p in rng.sample(range(P.n), rng.randint(2, 5)):
                b[i * P.n + p] ^= rng.randint(1, 255)
        put(rng.choice([0, 7]), raw, bytes(b), P.size)
    # zero syndromes at chosen places, long locators
    for q in range(120):
        raw, P, w, b = T.hard_block(rng)
        put(0, raw, b, P.size)
    # factory profile
    P = T.prof(*FACTORY)
    for q in range(12):
        w = write_triangular(P, bytes(rng.randrange(256) for _ in range(P.data_size)))
        b, _ = T.corrupt(rng, P, w, 'within' if q % 3 else 'some')
        put(0 if q % 4 else 2, FACTORY if q % 4 else b'', b, P.size)
    for raw, ln in ((b'\1', 3), (bytes([9, 0, 3, 1, 0, 0, 0]), 3), (bytes([1, 1, 3, 1, 0, 0, 0]), 3),
                    (bytes([1, 0, 3, 0, 0, 0, 0]), 3), (bytes([1, 0, 2, 1, 0, 0, 0]), 2)):
        put(0, raw, bytes(ln), ln)
    o.close()
    print('   reader verdicts (as of, number, stage): %s' % dict(sorted(seen.items(), key=str)))


def report_states(rng):
    o = Out('report_states.txt',
            'profile | received | strip (mended, as of base) | rounds it went through | form | Lambda | B | gamma | '
            'k | L | [Delta | Theta | held]',
            'the report\'s last state of that form for that strip; held as in solver.txt')
    made = 0
    while made < 60:
        raw = T.random_profile(rng, 4, 2, 16, vmin=rng.choice([0, 1, 2]))
        P = T.prof(*raw)
        w = write_triangular(P, bytes(rng.randrange(256) for _ in range(P.data_size)))
        b, _ = T.corrupt(rng, P, w, 'within')
        if made % 2:
            raw, P, w, b = T.hard_block(rng)
        ans = [read(raw, b, P.size, f) for f in FORMS]
        if ans[0].number:
            continue
        made += 1
        for i in range(P.m):
            if ans[0].lines[i][0] == 'clean':
                continue
            rounds = ans[0].rounds_of[i]
            for a, f in zip(ans, FORMS):
                run = run_rounds(f, rounds)
                assert run.st == a.states[i]
                o.line(nums(raw), nums(b), i, rounds_text(rounds), f, *state_fields(run))
    o.close()


def marked(rng):
    o = Out('reader_marks.txt', READER_HEAD)
    for q in range(300):
        raw = T.random_profile(rng, 4, 2, 14, vmin=rng.choice([0, 1]), f=-1 if q % 3 == 0 else None)
        P = T.prof(*raw)
        w = write_triangular(P, bytes(rng.randrange(256) for _ in range(P.data_size)))
        b = bytearray(w)
        mk = []
        for i in range(P.m):
            s = rng.choice([0, 0, 1, 2, rng.randint(0, min(P.n, 2 * P.tv + 1))])
            places = sorted(rng.sample(range(P.n), s))
            mk += [(i, p) for p in places]
            for p in places:
                b[i * P.n + p] ^= rng.choice([0, rng.randrange(256)])
            for p in rng.sample(range(P.n), rng.choice([0, 0, 1, 2])):
                b[i * P.n + p] ^= rng.randrange(256)
        marks = bytearray(x for pr in mk for x in pr)
        if rng.random() < .1 and marks:
            k = rng.randrange(4)
            if k == 0:
                marks = marks[:-1]
            elif k == 1:
                marks = marks + marks[-2:]
            elif k == 2:
                marks[-1] = P.n
            else:
                marks[-2] = P.m
        reader_line(o, 14 if len(raw) == 8 else rng.choice([3, 14]), raw, bytes(b), P.size, bytes(marks))
    raw = bytes([2, 1, 5, 1, 2, 0, 0])
    for k in range(6):
        reader_line(o, 3, raw, bytes(10), 10, bytes(x for p in range(k) for x in (0, p)))
    o.close()


def fetches(rng):
    o = Out('fetch.txt', 'as of request | profile | block length | strip | number | start | '
            'end (part of the block, empty if refused)')
    for q in range(200):
        raw = T.random_profile(rng, 8, 4, 40, f=rng.choice([None, -1]))
        P = T.prof(*raw)
        ln = P.size + rng.choice([0, 0, 0, 0, 1, -1])
        i = rng.choice([rng.randrange(P.m), rng.randrange(P.m), P.m, 255])
        as_of = rng.choice([0, 5, 14])
        no, s, e = fetch(raw, ln, i, rules(as_of))
        o.line(as_of, nums(raw), ln, i, no, s, e)
    o.close()


def state_fields(run):
    st = run.st
    out = [trim(st.L), trim(st.B), st.gamma, st.k, run.length]
    if run.form != 'plain':
        out += [trim(st.D), trim(st.T)]
    if run.form == 'ahead':
        out.append(nums([st[x] for x in ('gamma_S', 'delta_S', 'theta_S', 'g1', 'g2', 'h1', 'h2')]))
    if run.form == 'scaled':
        out.append(nums([st[x] for x in ('rho', 'xi', 'rho_S', 'xi_S', 'g')]))
    return out


def solver(rng):
    o = Out('solver.txt',
            'case | form | event (start/entry/iteration) | r | Lambda | B | gamma (scaled: gamma\') | k | L | '
            '[Delta | Theta | held]',
            'polynomials low power first, trailing zeros dropped, 0 for zero;',
            'held of ahead: gamma_S delta_S theta_S g1 g2 h1 h2;',
            'held of scaled: rho xi rho_S xi_S g, all for the NEXT iteration r; plain has no Delta, Theta, held',
            'rounds lines: case | rounds | each round in brackets')
    lists = [[[2, 4]], [[0, 1]], [[3, 5, 9, 17]], [[0, 0, 0, 0]], [], [[]], [[], [], []], [[], [5], []], [[0], [7]],
             [[1], [], [0, 0], [9]], [[0] * 48], [[0] * 47 + [1]], [[0] * 47 + [1], []], [[1] + [0] * 47, []]]
    for q in range(90):
        S = T.nasty_list(rng, rng.randint(1, 9))
        c = rng.choice(list(T.cuttings(S)))
        lists.append(T.with_empties(rng, c))
    for q in range(10):
        K = rng.choice([48, 36, 28, 20])
        S = T.nasty_list(rng, K)
        cuts = sorted(rng.sample(range(1, K), rng.randint(0, 3)))
        lists.append(T.with_empties(rng, [S[a:b] for a, b in zip([0] + cuts, cuts + [K])]))
    for case, rounds in enumerate(lists):
        bad, _ = demand3_problems(rounds)
        assert not bad
        o.line(case, 'rounds', rounds_text(rounds) or '-')
        for form in FORMS:
            run = Run(form)
            o.line(case, form, 'start', run.r, *state_fields(run))
            for rnd in rounds:
                run.enter(rnd)
                o.line(case, form, 'entry', run.r, *state_fields(run))
                for _ in rnd:
                    run.iterate()
                    o.line(case, form, 'iteration', run.r, *state_fields(run))
    o.close()


def settle(rng):
    o = Out('settle.txt',
            't | n | f | marks (places) | syndromes S_0.. | settled 1 / fails 0 | pattern: place change ...')
    for q in range(900):
        t = rng.choice([1, 1, 2, 2, 3, 5, 14, 24])
        nn = rng.choice([2 * t + 1, 255, rng.randint(2 * t + 1, 255), min(255, 2 * t + 4)])
        f = rng.choice([1, 1, rng.randint(0, 254)])
        marks = ()
        if rng.random() < .25:
            marks = tuple(sorted(rng.sample(range(nn), rng.randint(1, min(nn, 2 * t + 1)))))
        lim = nn if rng.random() < .8 else 255
        e = rng.choice([rng.randint(0, t), t, t + 1, t + 2])
        pat = [(p, rng.randint(1, 255)) for p in rng.sample(range(lim), min(e, lim))]
        pat += [(p, rng.randrange(256)) for p in marks if rng.random() < .5]
        S = [pattern_syndrome(pat, j, f) for j in range(2 * t)]
        if rng.random() < .15:
            S = T.nasty_list(rng, 2 * t)
        a = settle_marked(S, t, nn, f, marks) if marks else settle_peterson(S, t, nn, f)
        if not marks:
            assert a == settle_run(run_rounds(rng.choice(FORMS), [S]), S, t, nn, f)
        if t <= 2 and nn <= 12:
            assert a == settle_brute(S, t, nn, f, marks)
        o.line(t, nn, f, nums(marks), nums(S), int(a is not None), nums([x for pr in a for x in pr]) if a else '-')
    o.close()


def values(rng):
    o = Out('values.txt', 'request 6: K | f | syndromes | pattern place change ...: '
            'both ways must give the change at each place')
    for q in range(200):
        t = rng.choice([1, 2, 3, 5, 14, 24])
        f = rng.choice([1, 0, 254, rng.randint(0, 254)])
        e = rng.choice([1, t, rng.randint(1, t)])
        pat = tuple(sorted((p, rng.randint(1, 255)) for p in rng.sample(range(255), e)))
        S = [pattern_syndrome(pat, j, f) for j in range(2 * t)]
        for form in FORMS:
            run = run_rounds(form, [S])
            for p, y in pat:
                w = alpha_pow(-p)
                assert values_auxiliary(run, w, f) == y == values_evaluator(run.st.L, S, 2 * t, w, f)
        o.line(2 * t, f, nums(S), nums([x for pr in pat for x in pr]))
    o.close()


def cards(rng):
    d = os.path.join(DIR, 'cards')
    os.makedirs(d, exist_ok=True)
    n = 0

    def put(name, data, as_ofs=(0, 1)):
        nonlocal n
        with open(os.path.join(d, name + '.bin'), 'wb') as f:
            f.write(data)
        for as_of in as_ofs:
            outs = {card_program(data, rules(as_of), fm) for fm in FORMS}
            assert len(outs) == 1
            with open(os.path.join(d, '%s.txt' % name if LANDED else '%s.as%02d.txt' % (name, as_of)), 'w') as f:
                f.write(outs.pop())
            n += 1
    p = bytes([7, 2, 1, 5, 1, 2, 0, 0])
    sample = p + bytes([0, 2, 117, 230, 216, 30, 1, 0, 0, 0, 0, 0, 8, 6, 1, 0, 0, 0, 0, 0, 0, 0])
    put('sample', sample, (0, 1, 8, 14))
    for k in range(len(sample)):
        put('cut%02d' % k, sample[:k])
    put('beyond', sample + b'\0')
    put('none', p + b'\0\0')
    put('none_beyond', p + b'\0\0\0')
    for name, b in (('count6', [6]), ('count0', [0]), ('count8', [8]), ('m9', [7, 9, 1, 5, 1, 2, 0, 0]),
                    ('m9cut', [7, 9, 1]), ('v', [7, 2, 2, 5, 1, 2, 3, 0]),
                    ('t', [7, 2, 1, 5, 1, 1, 0, 0]), ('n', [7, 2, 1, 4, 1, 2, 0, 0]),
                    ('t_nocount', [7, 2, 1, 5, 1, 1, 0, 0, 0]),
                    ('n26', [7, 2, 1, 26, 1, 2, 0, 0, 0, 1, 1, 1] + [0] * 50),
                    ('n25', [7, 2, 1, 25, 1, 2, 0, 0, 0, 1, 1, 1] + [0] * 48),
                    ('f255', [8, 2, 1, 5, 1, 2, 0, 0, 255, 0, 0]),
                    ('f254', [8, 2, 1, 5, 1, 2, 0, 0, 254, 0, 1] + [0] * 10),
                    ('equal', [7, 3, 2, 5, 1, 2, 2, 0, 0, 1] + [0] * 15), ('m0', [7, 0, 0, 3, 1, 0, 0, 0]),
                    ('v0', [7, 1, 0, 3, 1, 0, 0, 0, 0, 3, 0, 0, 0, 0, 7, 0, 1, 2, 4])):
        put(name, bytes(b), (0, 1, 2, 5, 8, 14))
    for q in range(14):
        as_of = rng.choice([0, 8])
        raw = T.random_profile(rng, 8, 2, 20, vmin=rng.choice([0, 1, 2]))
        P = T.prof(*raw)
        k = rng.randint(3, 12)
        body = b''
        for _ in range(k):
            w = write_triangular(P, bytes(rng.randrange(256) for _ in range(P.data_size)))
            body += T.corrupt(rng, P, w, rng.choice(['within', 'within', 'some', 'wild']))[0]
        put('random%02d' % q, bytes([7]) + raw + k.to_bytes(2, 'big') + body, (0, 1, 8, 14))
    P = T.prof(*FACTORY)
    body = b''
    for q in range(5):
        w = write_triangular(P, bytes(rng.randrange(256) for _ in range(P.data_size)))
        body += T.corrupt(rng, P, w, 'within' if q < 4 else 'wild')[0]
    put('factory', bytes([7]) + FACTORY + b'\0\5' + body, (0, 1, 14))
    put('factory0', bytes([0]) + b'\0\5' + body, (0, 2, 14))
    body = bytes(rng.choice([0, 0, 1]) for _ in range(900))
    put('wide', bytes([7, 1, 0, 3, 1, 0, 0, 0]) + (300).to_bytes(2, 'big') + body, (0, 1))
    print('%-22s %6d outputs' % ('cards/', n))
    d = os.path.join(DIR, 'trials')
    os.makedirs(d, exist_ok=True)
    n = 0
    for q in range(12):
        if q == 0:
            c = bytes([7, 2, 1, 5, 1, 2, 0, 0, 1, 2, 3, 4, 0, 0, 0, 3])
        elif q == 1:
            c = bytes([0, 255, 255, 255, 255]) + (2600).to_bytes(2, 'big') + (6).to_bytes(2, 'big')
        else:
            raw = T.random_profile(rng, 5, 2, 40, vmin=1, f=rng.choice([None, -1]))
            c = bytes([len(raw)]) + raw + rng.randrange(2 ** 32).to_bytes(4, 'big') + \
                rng.choice([1000, 2500, 4000, 8000, 65535]).to_bytes(2, 'big') + \
                rng.choice([0, 20, 60]).to_bytes(2, 'big')
        if q == 10:
            c = c[:-1]
        if q == 11:
            c = c + b'\0'
        with open(os.path.join(d, 'trial%02d.bin' % q), 'wb') as f:
            f.write(c)
        with open(os.path.join(d, 'trial%02d%s.txt' % (q, '' if LANDED else '.as13')), 'w') as f:
            f.write(trial_program(c, rules(13)))
        n += 1
    # one-byte-changed strips: a hit draw of top byte 255 gives 1, not 0 (the byte is changed)
    q, made = 20, 0
    while made < 3:
        start = rng.randrange(2 ** 32)
        x, hits, top = start, 0, 0
        for p in range(3):
            x = (1664525 * x + 1013904223) % 2 ** 32
            if x // 65536 < 30000:
                x = (1664525 * x + 1013904223) % 2 ** 32
                hits += 1
                top += x // 16777216 == 255
        if hits == 2 and top == 1:
            c = bytes([7, 1, 0, 3, 1, 0, 0, 0]) + start.to_bytes(4, 'big')
            c += (30000).to_bytes(2, 'big') + (1).to_bytes(2, 'big')
            with open(os.path.join(d, 'trial%02d.bin' % q), 'wb') as f:
                f.write(c)
            with open(os.path.join(d, 'trial%02d%s.txt' % (q, '' if LANDED else '.as13')), 'w') as f:
                f.write(trial_program(c, rules(13)))
            q += 1
            n += 1
            made += 1
    print('%-22s %6d outputs' % ('trials/', n))


def binary(rng):
    o = Out('binary.txt', 'request 9: output length | strip | number | answer')
    def put(s, olen):
        no, b = read_binary(bytes(s), olen)
        if no in (0, 17):
            assert (no, b) == T.binary_oracle(bytes(s))
        o.line(olen, nums(bytes(s)), no, nums(b) if b else '-')
    for q in range(250):
        nn = rng.choice([1, 2, 6, 7, 15, 31, 63, rng.randint(1, 120)]) if q % 5 else 255
        s = bytearray(nn)
        for p in rng.sample(range(nn), min(nn, rng.randint(0, 5))):
            s[p] = 1
        if q % 7 == 0:
            s = bytearray(rng.randint(0, 1) for _ in range(nn))
        olen = nn
        if rng.random() < .03:
            olen += 1
        if rng.random() < .03:
            s[rng.randrange(nn)] = 2
        put(s, olen)
    put(b'', 0)
    put(bytes(256), 256)
    put(b'\2', 2)
    o.close()
    o = Out('tables000.txt', 'request 9: S0 S2 S4 | branch vector | Lambda | Delta_even | B | Theta_even | gamma | '
            'L_Lambda | L_B (three iterations)')
    for q in range(600):
        s0, s2, s4 = (rng.choice([0, rng.randrange(256), rng.randrange(256)]) for _ in range(3))
        if rng.random() < .3:
            s2 = power(s0, 3)
        if rng.random() < .3 and s0:
            s4 = div(power(s0, 6) ^ mul(s2, power(s0, 3)) ^ mul(s2, s2), s0)
        if not (s0 | s2 | s4):
            continue
        a = piba([s0, mul(s0, s0), s2, power(s0, 4), s4, mul(s2, s2)])
        assert a == direct_formulas(s0, s2, s4)
        o.line('%d %d %d' % (s0, s2, s4), a['vec'], trim(a['L']), trim(a['D']), trim(a['xB'][1:]), trim(a['T']),
               a['gamma'], a['LL'], a['LB'])
    o.close()


def ranges_and_stacks(rng):
    o = Out('ranges.txt', 'request 11: profile | image | ranges (start length ...) | output length | number | '
            'touched | verdicts (0, 8/stage, 9) | output (k = byte kept)')
    R = rules(14)
    for q in range(120):
        raw = T.random_profile(rng, 3, 1, 9, vmin=0)
        P = T.prof(*raw)
        k = rng.randint(0, 4)
        blocks = [bytearray(write_triangular(P, bytes(rng.randrange(256) for _ in range(P.data_size))))
                  for _ in range(k)]
        for b in blocks:
            for _ in range(rng.choice([0, 0, 1, 6])):
                b[rng.randrange(P.size)] ^= rng.randrange(256)
        image = b''.join(bytes(b) for b in blocks)
        total = k * P.data_size
        rs = []
        for _ in range(rng.choice([0, 1, 3, 6, 64, 65]) if q % 10 == 0 else rng.randint(0, 6)):
            s = rng.randint(0, total)
            rs.append((s, rng.choice([0, rng.randint(0, min(12, total - s))])))
        x = rng.random()
        if x < .06 and rs:
            bad = rng.choice([(total + 1, 0), (total, 1), (2 ** 32 - 1, 1), (2 ** 32 - 1, 2 ** 32 - 1)])
            rs[rng.randrange(len(rs))] = bad
        olen = sum(l for _, l in rs)
        if .06 < x < .1:
            olen += 1
        if .1 < x < .14:
            image += b'\0'
        rb = b''.join(s.to_bytes(4, 'big') + l.to_bytes(4, 'big') for s, l in rs)
        a = read_ranges(raw, image, rb, olen, R)
        if a['number']:
            o.line(nums(raw), nums(image), nums([v for r in rs for v in r]), olen, a['number'], '-', '-', '-')
        else:
            o.line(nums(raw), nums(image), nums([v for r in rs for v in r]), olen, 0, a['touched'],
                   nums(['/'.join(map(str, v)) for v in a['verdicts']]),
                   nums(['k' if v is None else v for v in a['out']]))
    o.close()
    o = Out('stack_write.txt', 'request 12: profile | N | c | data | output length | number | stack')
    o2 = Out('stack_read.txt', 'request 12: profile | N | c | stack | output length | number | mended stack')
    for q in range(80):
        raw = T.random_profile(rng, 3, 1, 8, vmin=0, strict=q % 10 != 0)
        P = T.prof(*raw)
        Nn = rng.choice([2, 3, 5, rng.randint(2, 9)])
        c = rng.randint(1, min(Nn - 1, 3))
        data = bytes(rng.randrange(256) for _ in range((Nn - c) * P.data_size))
        no, st = stack_write(raw, Nn, c, data, Nn * P.size, R)
        o.line(nums(raw), Nn, c, nums(data), Nn * P.size, no, nums(st) if st else '-')
        if no:
            continue
        b = bytearray(st)
        for i in rng.sample(range(Nn), rng.randint(0, min(Nn, c + 1))):
            for p in range(P.size):
                b[i * P.size + p] = rng.randrange(256)
        olen = len(b)
        if q % 12 == 0:
            olen += 1
        if q % 15 == 1:
            c = rng.choice([0, Nn, 33])
        no, m = stack_read(raw, Nn, c, bytes(b), olen, R)
        o2.line(nums(raw), Nn, c, nums(bytes(b)), olen, no, nums(m) if m else '-')
    for q in range(40):                          # an accepted but other codeword in one block
        raw = T.random_profile(rng, 3, 1, 8, vmin=0, strict=True)
        P = T.prof(*raw)
        Nn = rng.randint(3, 7)
        c = rng.randint(1, min(Nn - 1, 3))
        data = bytes(rng.randrange(256) for _ in range((Nn - c) * P.data_size))
        st = bytearray(stack_write(raw, Nn, c, data, Nn * P.size, R)[1])
        order = rng.sample(range(Nn), Nn)
        i = order[0]
        st[i * P.size:(i + 1) * P.size] = write_triangular(P, bytes(rng.randrange(256) for _ in range(P.data_size)))
        for x in order[1:1 + rng.randint(0, c)]:
            for p in range(P.size):
                st[x * P.size + p] = rng.randrange(256)
        no, m = stack_read(raw, Nn, c, bytes(st), len(st), R)
        o2.line(nums(raw), Nn, c, nums(bytes(st)), len(st), no, nums(m) if m else '-')
    raw = bytes([1, 0, 3, 1, 0, 0, 0])
    for Nn, c, ln, olen in ((1, 1, 5, 5), (2, 2, 6, 6), (2, 0, 7, 6), (256, 1, 3, 3), (40, 33, 120, 120),
                            (40, 32, 119, 120), (40, 32, 120, 119), (2, 1, 5, 5), (2, 1, 6, 5), (255, 32, 765, 765),
                            (34, 33, 1, 1), (33, 32, 99, 99)):
        no, m = stack_read(raw, Nn, c, bytes(ln), olen, R)
        o2.line(nums(raw), Nn, c, nums(bytes(ln)), olen, no, nums(m) if m else '-')
        no, m = stack_write(raw, Nn, c, bytes(ln), olen, R)
        o.line(nums(raw), Nn, c, nums(bytes(ln)), olen, no, nums(m) if m else '-')
    for raw in (bytes([1, 0, 2, 1, 0, 0, 0]), bytes([3, 2, 5, 1, 2, 2, 0]), bytes([3, 2, 4, 1, 2, 2, 0]),
                bytes([1, 0, 3, 1, 0, 0, 0, 255])):
        o2.line(nums(raw), 1, 1, '-', 0, stack_read(raw, 1, 1, b'', 0, R)[0], '-')
        o.line(nums(raw), 1, 1, '-', 0, stack_write(raw, 1, 1, b'', 0, R)[0], '-')
    o.close()
    o2.close()


def rs_strips(rng):
    """A second Reed-Solomon encoder: remainder by the generator polynomial."""
    o = Out('rs_strips.txt',
            't | n | f | data (n-2t bytes) | strip (check bytes first), by generator polynomial division')
    for q in range(150):
        t = rng.choice([1, 2, 3, 8, 16, 24])
        nn = rng.choice([2 * t + 1, 255, rng.randint(2 * t + 1, 255)])
        f = rng.choice([1, 1, 0, 254, rng.randint(0, 254)])
        data = bytes(rng.randrange(256) for _ in range(nn - 2 * t))
        o.line(t, nn, f, nums(data), nums(T.rs_encode(t, f, data)))
    o.close()


def lengths(rng):
    o = Out('lengths.txt', 'request 14: syndromes | least length')
    for q in range(300):
        S = T.nasty_list(rng, rng.choice([rng.randint(0, 12), rng.randint(0, 48)]))
        L = least_length(S)
        assert all(run_rounds(f, [S]).length == L for f in FORMS)
        o.line(nums(S), L)
    o.close()


EVERY = (profiles, writer, reader, report_states, marked, fetches, solver, settle, values, cards, binary,
         ranges_and_stacks, rs_strips, lengths)


def make(seed, directory, kinds=EVERY, landed=None):
    """Writes the cases of each kind. A kind has a generator of its own, so that it does not matter which are made."""
    global DIR, LANDED
    DIR, LANDED = directory, landed
    os.makedirs(DIR, exist_ok=True)
    for kind in kinds:
        kind(random.Random('%s/%d' % (kind.__name__, seed)))


if __name__ == '__main__':
    if len(sys.argv) not in (3, 4):
        sys.exit('usage: cases.py SEED DIR [N | N,N,..]')
    make(int(sys.argv[1]), sys.argv[2], landed=Rules.named(sys.argv[3]) if len(sys.argv) > 3 else None)
    field()
