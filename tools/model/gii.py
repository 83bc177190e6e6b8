"""A model of the codec, written apart from it and literal rather than fast: the answers that the test programs are
held to come from here. No proof rests on it. Python 3, standard library only.

    python3 gii.py card [REQUESTS] < CARD       what the card program prints
    python3 gii.py trial [REQUESTS] < TRIAL     what request 13's program prints

A Rules value says which of the customer's change requests have landed: Rules(0) is the base without any, Rules(14)
has requests 1 to 14, Rules(requests={3, 8}) just these. As REQUESTS, 5 stands for requests 1 to 5, and 2,7 for just
these two.
"""

# ---------------------------------------------------------------- rules switch

class Rules:
    def __init__(self, as_of=0, requests=None):
        self.requests = set(range(1, as_of + 1)) if requests is None else set(requests)

    @staticmethod
    def named(text):
        """'5' is requests 1 to 5, '2,7' is just these, ',' is none of them."""
        if ',' in text:
            return Rules(requests={int(x) for x in text.split(',') if x})
        return Rules(int(text))

    def has(self, request):
        return request in self.requests

    def __repr__(self):
        return 'Rules(%s)' % sorted(self.requests)


BASE = Rules(0)
FACTORY = bytes([8, 3, 255, 14, 16, 18, 24])

# ---------------------------------------------------------------------- field

def slow_mul(a, b):
    """Polynomial product modulo z^8+z^4+z^3+z^2+1 (285), bit by bit."""
    p = 0
    for i in range(8):
        if (b >> i) & 1:
            p ^= a << i
    for i in range(14, 7, -1):
        if (p >> i) & 1:
            p ^= 285 << (i - 8)
    return p


MUL = [bytes(slow_mul(a, b) for b in range(256)) for a in range(256)]
ZERO, ONE, ALPHA = 0, 1, 2

POW = [0] * 256          # POW[255] is never used and written 0
LOG = [0] * 256          # LOG[0]   is never used and written 0
_x = 1
for _e in range(255):
    POW[_e] = _x
    LOG[_x] = _e
    _x = slow_mul(_x, ALPHA)


def table_mul(a, b):
    """Product by the two tables, as a program would do it."""
    if a == 0 or b == 0:
        return 0
    return POW[(LOG[a] + LOG[b]) % 255]


def mul(a, b):
    return MUL[a][b]


def inv(a):
    assert a != 0
    return POW[(255 - LOG[a]) % 255]


def div(a, b):
    return MUL[a][inv(b)]


def alpha_pow(e):
    """alpha to any integer exponent, negative too."""
    return POW[e % 255]


def power(a, e):
    """a to the power e >= 0; 0^0 is 1."""
    r = 1
    for _ in range(e):
        r = MUL[r][a]
    return r


def value(word, x):
    """Value at x of the polynomial whose coefficient of z^p is word[p]."""
    r = 0
    row = MUL[x]
    for c in reversed(word):
        r = row[r] ^ c
    return r


def solve_linear(rows, rhs):
    """Gaussian elimination over the field.  Returns ('one', x), ('none', None)
    or ('many', some x)."""
    nvar = len(rows[0]) if rows else 0
    a = [list(r) + [v] for r, v in zip(rows, rhs)]
    where, rank = [], 0
    for col in range(nvar):
        piv = next((i for i in range(rank, len(a)) if a[i][col]), None)
        if piv is None:
            continue
        a[rank], a[piv] = a[piv], a[rank]
        s = MUL[inv(a[rank][col])]
        a[rank] = [s[e] for e in a[rank]]
        for i in range(len(a)):
            if i != rank and a[i][col]:
                f = MUL[a[i][col]]
                a[i] = [e ^ f[g] for e, g in zip(a[i], a[rank])]
        where.append(col)
        rank += 1
    for i in range(rank, len(a)):
        if a[i][nvar]:
            return ('none', None)
    x = [0] * nvar
    for i, col in enumerate(where):
        x[col] = a[i][nvar]
    return ('one' if rank == nvar else 'many', x)

# -------------------------------------------------------------------- profile

class Profile:
    def __init__(self, m, v, n, t, f=1):
        self.m, self.v, self.n, self.t, self.f = m, v, n, list(t), f

    @property
    def tv(self):
        return self.t[self.v]

    @property
    def size(self):
        return self.m * self.n

    def checks(self, i):
        """Number of check bytes of strip i."""
        return 2 * self.t[self.v - i] if i < self.v else 2 * self.t[0]

    @property
    def data_size(self):
        return (self.m * self.n - 2 * sum(self.t[1:self.v + 1])
                - 2 * (self.m - self.v) * self.t[0])

    def point(self, j):
        """The field value at which S_j is taken."""
        return alpha_pow(self.f + j)

    def strip(self, block, i):
        return block[i * self.n:(i + 1) * self.n]


def read_profile(p, rules=BASE, writer=False):
    """Questions 1-5 (15 for the writer after 4, 14 after 5).
    Returns (0, Profile) or (number, None)."""
    p = bytes(p)
    lengths = {7}
    if rules.has(2):
        lengths.add(0)
    if rules.has(5):
        lengths.add(8)
    if len(p) not in lengths:
        return 1, None
    if len(p) == 0:
        p = FACTORY
    m, v, n, t, f = p[0], p[1], p[2], list(p[3:7]), (p[7] if len(p) == 8 else 1)
    if not 1 <= m <= 8:
        return 2, None
    if not (0 <= v <= 3 and v < m):
        return 3, None
    ok = t[0] >= 1 and t[v] <= 24
    if v >= 1:
        ok = ok and t[0] < t[1]
        for i in range(1, v):
            ok = ok and t[i] <= t[i + 1]
    ok = ok and all(x == 0 for x in t[v + 1:])
    if not ok:
        return 4, None
    if writer and rules.has(7):
        if any(not t[i] < t[i + 1] for i in range(1, v)):
            return 15, None
    if not 2 * t[v] < n <= 255:
        return 5, None
    if f == 255:
        return 14, None
    return 0, Profile(m, v, n, t, f)

# ---------------------------------------------------- nested sums, codewords

def nested_sum(prof, block, l):
    s = [0] * prof.n
    for i in range(prof.m):
        row = MUL[alpha_pow(i * l)]
        c = prof.strip(block, i)
        for p in range(prof.n):
            s[p] ^= row[c[p]]
    return bytes(s)


def in_code(prof, word, t):
    return all(value(word, prof.point(j)) == 0 for j in range(2 * t))


def is_codeword(prof, block):
    return (all(in_code(prof, prof.strip(block, i), prof.t[0]) for i in range(prof.m))
            and all(in_code(prof, nested_sum(prof, block, l), prof.t[prof.v - l])
                    for l in range(prof.v)))

# --------------------------------------------------------------------- writer

def data_places(prof):
    out = []
    for i in range(prof.m):
        out += [i * prof.n + p for p in range(prof.checks(i), prof.n)]
    return out


def fill_checks(prof, word, k, wanted):
    """Set the first k places of word so that S_j == wanted[j] for j < k."""
    word = bytearray(word)
    for p in range(k):
        word[p] = 0
    have = [value(word, prof.point(j)) for j in range(k)]
    rows = [[alpha_pow((prof.f + j) * p) for p in range(k)] for j in range(k)]
    kind, x = solve_linear(rows, [h ^ w for h, w in zip(have, wanted)])
    assert kind == 'one'
    word[:k] = bytes(x)
    return bytes(word)


def write_triangular(prof, data):
    """Strips m-1 .. v first, then v-1 .. 0; the wanted syndromes of strip i come
    from the nested sums, those j that strip v-r.. already have being known."""
    block = bytearray(prof.size)
    for d, p in zip(data, data_places(prof)):
        block[p] = d
    v, t = prof.v, prof.t

    def put(i, wanted):
        block[i * prof.n:(i + 1) * prof.n] = fill_checks(
            prof, prof.strip(block, i), prof.checks(i), wanted)

    for i in range(prof.m - 1, v - 1, -1):
        put(i, [0] * (2 * t[0]))
    for i in range(v - 1, -1, -1):
        wanted = [0] * (2 * t[0])
        for r in range(0, v - i):              # j from 2 t_r to 2 t_(r+1)-1
            b = v - r                          # strips 0..b-1 unknown at these j
            for j in range(2 * t[r], 2 * t[r + 1]):
                rhs = []
                for l in range(b):
                    x = 0
                    for q in range(b, prof.m):
                        x ^= mul(alpha_pow(q * l), value(prof.strip(block, q), prof.point(j)))
                    rhs.append(x)
                kind, s = solve_linear([[alpha_pow(q * l) for q in range(b)] for l in range(b)], rhs)
                assert kind == 'one'
                wanted.append(s[i])
        put(i, wanted)
    return bytes(block)


def parity_rows(prof):
    """All linear equations of the code, as rows over the m*n bytes."""
    rows = []
    n = prof.n
    for i in range(prof.m):
        for j in range(2 * prof.t[0]):
            r = [0] * prof.size
            for p in range(n):
                r[i * n + p] = alpha_pow((prof.f + j) * p)
            rows.append(r)
    for l in range(prof.v):
        for j in range(2 * prof.t[prof.v - l]):
            r = [0] * prof.size
            for i in range(prof.m):
                for p in range(n):
                    r[i * n + p] = alpha_pow(i * l + (prof.f + j) * p)
            rows.append(r)
    return rows


def write_linear(prof, data):
    """Independent writer: one linear system in all check bytes."""
    dp = data_places(prof)
    isdata = set(dp)
    unknown = [p for p in range(prof.size) if p not in isdata]
    rows, rhs = [], []
    for r in parity_rows(prof):
        x = 0
        for d, p in zip(data, dp):
            x ^= MUL[d][r[p]]
        rows.append([r[p] for p in unknown])
        rhs.append(x)
    kind, sol = solve_linear(rows, rhs)
    assert kind == 'one', kind
    block = bytearray(prof.size)
    for d, p in zip(data, dp):
        block[p] = d
    for s, p in zip(sol, unknown):
        block[p] = s
    return bytes(block)


def write(profile, data, out_len, rules=BASE):
    """(number, block or None)."""
    no, prof = read_profile(profile, rules, writer=True)
    if no:
        return no, None
    if len(data) != prof.data_size:
        return 6, None
    if out_len != prof.size:
        return 7, None
    return 0, write_triangular(prof, data)


def fetch(profile, block_len, i, rules=BASE):
    """(number, start, end) of the data part of strip i; empty part if refused."""
    no, prof = read_profile(profile, rules)
    if no:
        return no, 0, 0
    if block_len != prof.size:
        return 6, 0, 0
    if i >= prof.m:
        return 10, 0, 0
    return 0, i * prof.n + prof.checks(i), (i + 1) * prof.n

# -------------------------------------------------------------------- solvers

NC = 49                  # coefficients of every polynomial


def _poly(*c):
    return list(c) + [0] * (NC - len(c))


def _scale(a, p):
    row = MUL[a]
    return [row[c] for c in p]


def _add(p, q):
    return [a ^ b for a, b in zip(p, q)]


def _up(p):              # times z; nothing may be lost
    assert p[NC - 1] == 0, 'degree beyond 48'
    return [0] + p[:-1]


def _down(p):            # divided by z; the constant term is lost
    return p[1:] + [0]


class State(dict):
    """A solver state: a dict of named values, compared by equality."""
    __getattr__ = dict.__getitem__

    def copy(self):
        return State({k: (list(v) if isinstance(v, list) else v) for k, v in self.items()})


class Run:
    """A run: a list of rounds in one form.  syn holds the syndromes so far and
    nothing past the round just entered; reading past it gives 0."""

    def __init__(self, form):
        self.form = form
        self.syn = []
        self.r = 0
        self.swaps = []
        s = dict(L=_poly(1), B=_poly(1), gamma=1, k=0)
        if form != 'plain':
            s.update(D=_poly(), T=_poly())
        self.st = State(s)
        self._held_from_definition_at_start()

    def S(self, j):
        return self.syn[j] if j < len(self.syn) else 0

    def Sp(self, j):
        return self.S(j) or 1

    # At the start no round has been entered, so every syndrome that a held
    # scalar depends on is read as 0.
    def _held_from_definition_at_start(self):
        if self.form == 'ahead':
            for name in ('gamma_S', 'delta_S', 'theta_S', 'g1', 'g2', 'h1', 'h2'):
                self.st[name] = 0
        elif self.form == 'scaled':
            self._scaled_scalars()

    def _scaled_scalars(self):
        st, r = self.st, self.r
        d = st.D[0]
        st['g'] = div(self.Sp(r + 1), self.Sp(r))
        st['rho'] = st.gamma if d else 1
        st['xi'] = d
        st['rho_S'] = mul(st.g, st.rho)
        st['xi_S'] = mul(st.g, st.xi)

    def enter(self, rnd):
        u = self.r
        assert len(self.syn) == u and u + len(rnd) <= 48
        self.syn = self.syn + list(rnd)
        st, S = self.st, self.S
        if self.form == 'plain':
            return
        if self.form == 'ahead':                 # document 003, Algorithm 2
            n = st.copy()
            n['gamma_S'] = mul(st.gamma, S(u + 1))
            n['delta_S'] = mul(S(u + 1), st.D[0]) ^ mul(mul(S(u + 1), S(u)), st.L[0])
            n['theta_S'] = mul(S(u + 2), st.T[0]) ^ mul(mul(S(u + 2), S(u)), st.B[0])
            n['g1'] = mul(S(u + 1), S(u + 3))
            n['g2'] = mul(S(u + 2), S(u + 3))
            n['h1'] = mul(st.gamma, S(u + 2))
            n['h2'] = mul(mul(st.gamma, S(u + 1)), S(u + 2))
            n['D'] = _add(st.D, _scale(S(u), st.L))
            n['T'] = _add(st.T, _scale(S(u), st.B))
            self.st = n
            return
        n = st.copy()                            # scaled
        n['D'] = _add(st.D, _scale(S(u), st.L))
        n['T'] = _add(st.T, _scale(S(u), st.B))
        n['L'] = _scale(self.Sp(u), st.L)
        n['B'] = _scale(self.Sp(u), st.B)
        self.st = n
        self._scaled_scalars()

    def iterate(self):
        getattr(self, '_it_' + self.form)()

    def _it_plain(self):
        st, r = self.st, self.r
        delta = 0
        for i in range(r + 1):
            delta ^= mul(st.L[i], self.S(r - i))
        n = State(L=_add(_scale(st.gamma, st.L), _scale(delta, _up(st.B))))
        if delta and st.k >= 0:
            n.update(B=list(st.L), gamma=delta, k=-st.k - 1)
            self.swaps.append(r)
        else:
            n.update(B=_up(st.B), gamma=st.gamma, k=st.k + 1)
        self.last_delta = delta
        self.st = n
        self.r += 1

    def _it_ahead(self):
        st, r, S = self.st, self.r, self.S
        d0, d1 = st.D[0], st.D[1]
        zB = _up(st.B)
        n = State()
        n['L'] = _add(_scale(st.gamma, st.L), _scale(d0, zB))                     # 1
        n['D'] = _add(_add(_scale(st.gamma, _down(st.D)), _scale(st.gamma_S, st.L)),
                      _add(_scale(d0, st.T), _scale(st.delta_S, zB)))             # 2
        n['delta_S'] = mul(st.h1, d1) ^ mul(st.h2, st.L[0]) ^ mul(d0, st.theta_S)  # 3
        n['g1'] = mul(S(r + 2), S(r + 4))                                         # 4
        n['g2'] = mul(S(r + 3), S(r + 4))
        if d0 and st.k >= 0:
            n['B'] = list(st.L)                                                   # 5
            n['T'] = _add(_down(st.D), _scale(S(r + 1), st.L))                    # 6
            n['theta_S'] = mul(S(r + 3), d1) ^ mul(st.g1, st.L[0])                # 7
            n['gamma'] = d0                                                       # 8
            n['gamma_S'] = mul(d0, S(r + 2))
            n['h1'] = mul(d0, S(r + 3))                                           # 9
            n['h2'] = mul(d0, st.g2)
            n['k'] = -st.k - 1                                                    # 10
            self.swaps.append(r)
        else:
            n['B'] = zB                                                           # 11
            n['T'] = _add(st.T, _scale(S(r + 1), zB))                             # 12
            n['theta_S'] = mul(S(r + 3), st.T[0])                                 # 13
            n['gamma'] = st.gamma                                                 # 14
            n['gamma_S'] = mul(st.gamma, S(r + 2))
            n['h1'] = mul(st.gamma, S(r + 3))                                     # 15
            n['h2'] = mul(st.gamma, st.g2)
            n['k'] = st.k + 1                                                     # 16
        self.st = n
        self.r += 1

    def _it_scaled(self):
        st, r = self.st, self.r
        d = st.D[0]
        g, rho, xi, rho_S, xi_S = st.g, st.rho, st.xi, st.rho_S, st.xi_S   # held
        past = self.S(r + 1) == 0                 # then nothing is added
        zB = _up(st.B)
        none = _poly()
        n = State()
        n['L'] = _add(_scale(rho_S, st.L), _scale(xi_S, zB))
        n['D'] = _add(_add(_scale(rho, _down(st.D)), _scale(xi, st.T)),
                      none if past else n.L)
        if d and st.k >= 0:
            n['B'] = _scale(rho_S, st.L)
            n['T'] = _add(_scale(rho, _down(st.D)), none if past else n.B)
            n['gamma'] = mul(rho, d)
            n['k'] = -st.k - 1
            self.swaps.append(r)
        else:
            if d == 0:
                xi, xi_S = 1, g
            n['B'] = _scale(xi_S, zB)
            n['T'] = _add(_scale(xi, st.T), none if past else n.B)
            n['gamma'] = mul(xi, st.gamma)
            n['k'] = st.k + 1
        self.st = n
        self.r += 1
        self._scaled_scalars()

    @property
    def length(self):
        x = self.r - self.st.k
        assert x % 2 == 0
        return x // 2


def run_rounds(form, rounds):
    run = Run(form)
    for rnd in rounds:
        run.enter(rnd)
        for _ in rnd:
            run.iterate()
    return run


class Measure:
    """The plain iteration over the joined syndromes, uncut: states after r, and
    the factors a and b after r, by which the scaled form differs."""

    def __init__(self, joined):
        run = Run('plain')
        run.syn = list(joined)
        self.joined = list(joined)
        self.states, self.swaps, self.lengths = [run.st], [], [0]
        self.a, self.b = [1], [1]
        for r in range(len(joined)):
            gamma, k, a, b = run.st.gamma, run.st.k, self.a[-1], self.b[-1]
            run._it_plain()
            delta = run.last_delta
            self.states.append(run.st)
            self.lengths.append(run.length)
            ab = mul(a, b)
            if delta == 0:
                self.a.append(div(a, gamma))
                self.b.append(b)
            else:
                self.a.append(ab)
                self.b.append(mul(ab, gamma) if k >= 0 else mul(ab, delta))
        self.swaps = run.swaps


def convolution(P, S, r):
    """Coefficient of z^j: sum of P_i * S_(r+j-i) over i from j to r+j."""
    out = _poly()
    for j in range(NC):
        x = 0
        for i in range(j, min(r + j, NC - 1) + 1):
            x ^= mul(P[i], S(r + j - i))
        out[j] = x
    return out


def demand3_problems(rounds, forms=('plain', 'ahead', 'scaled')):
    """What is claimed of the three forms over a list of rounds.  Returns the
    disagreements (none where the claim holds) and the number of points seen."""
    joined = [x for rnd in rounds for x in rnd]
    me = Measure(joined)
    bad, seen = [], 0
    for form in forms:
        run = Run(form)

        def look(where):
            nonlocal seen
            seen += 1
            r, st = run.r, run.st
            m = me.states[r]

            def expect(name, got, want):
                if got != want:
                    bad.append((form, where, r, name, got, want))

            expect('swaps', run.swaps, [x for x in me.swaps if x < r])
            expect('k', st.k, m.k)
            expect('length', run.length, me.lengths[r])
            if form in ('plain', 'ahead'):
                expect('L', st.L, m.L)
                expect('B', st.B, m.B)
                expect('gamma', st.gamma, m.gamma)
            else:
                a, b = me.a[r], me.b[r]
                sp = run.Sp(r)
                expect('L', st.L, _scale(mul(a, sp), m.L))
                expect('B', st.B, _scale(mul(b, sp), m.B))
                expect('gamma', st.gamma, mul(b, m.gamma))
            if form == 'plain':
                expect('fields', set(st), {'L', 'B', 'gamma', 'k'})
                return
            D, T = convolution(m.L, run.S, r), convolution(m.B, run.S, r)
            S = run.S
            if form == 'ahead':
                expect('D', st.D, D)
                expect('T', st.T, T)
                expect('gamma_S', st.gamma_S, mul(m.gamma, S(r + 1)))
                expect('delta_S', st.delta_S, mul(D[0], S(r + 1)))
                expect('theta_S', st.theta_S, mul(T[0], S(r + 2)))
                expect('g1', st.g1, mul(S(r + 1), S(r + 3)))
                expect('g2', st.g2, mul(S(r + 2), S(r + 3)))
                expect('h1', st.h1, mul(m.gamma, S(r + 2)))
                expect('h2', st.h2, mul(mul(m.gamma, S(r + 1)), S(r + 2)))
            else:
                expect('D', st.D, _scale(a, D))
                expect('T', st.T, _scale(b, T))
                d = mul(a, D[0])
                g = div(run.Sp(r + 1), run.Sp(r))
                rho = mul(b, m.gamma) if d else 1
                expect('g', st.g, g)
                expect('rho', st.rho, rho)
                expect('xi', st.xi, d)
                expect('rho_S', st.rho_S, mul(g, rho))
                expect('xi_S', st.xi_S, mul(g, d))

        look('start')
        for rnd in rounds:
            run.enter(rnd)
            look('entry')
            for _ in rnd:
                run.iterate()
                look('iteration')
    return bad, seen

# ------------------------------------------------------------ settling a strip
# A pattern is a tuple of (place, change) pairs, places rising, changes nonzero
# (with marks, too: a marked place changed by 0 is simply not listed).

def pattern_syndrome(pattern, j, f):
    x = 0
    for p, y in pattern:
        x ^= mul(y, alpha_pow((f + j) * p))
    return x


def fits(pattern, S, t, n, f=1, marks=()):
    e = sum(1 for p, y in pattern if p not in marks)
    return (all(0 <= p < n and y for p, y in pattern)
            and all(pattern[i][0] < pattern[i + 1][0] for i in range(len(pattern) - 1))
            and 2 * e + len(marks) <= 2 * t
            and all(pattern_syndrome(pattern, j, f) == S[j] for j in range(2 * t)))


def values_evaluator(L, S, K, w, f=1):
    """w * Omega(w) / L_odd(w), times location^(1-f)."""
    om = 0
    for q in range(K - 1, -1, -1):
        c = 0
        for i in range(min(q, NC - 1) + 1):
            c ^= mul(L[i], S[q - i])
        om = mul(om, w) ^ c
    odd = value([c if i & 1 else 0 for i, c in enumerate(L)], w)
    if odd == 0:
        return None
    return mul(div(mul(w, om), odd), alpha_pow((LOG[w] * (f - 1)) % 255))


def values_auxiliary(run, w, f=1):
    """Request 6: gamma * L_0 * w^K / (B(w) * L_odd(w)); scaled with S'_K."""
    st, K = run.st, run.r
    odd = value([c if i & 1 else 0 for i, c in enumerate(st.L)], w)
    below = mul(value(st.B, w), odd)
    if below == 0:
        return None
    y = mul(mul(st.gamma, st.L[0]), alpha_pow(LOG[w] * K))
    if run.form == 'scaled':
        y = mul(y, run.Sp(K))
    return mul(div(y, below), alpha_pow((LOG[w] * (f - 1)) % 255))


def propose_from_run(run, S, t, n, f=1):
    """Roots of the locator below place n, change values by the evaluator."""
    L = run.st.L
    if run.length > t:
        return None
    places = [p for p in range(n) if value(L, alpha_pow(-p)) == 0]
    if len(places) != run.length:
        return None
    pat = []
    for p in places:
        y = values_evaluator(L, S, 2 * t, alpha_pow(-p), f)
        if not y:
            return None
        pat.append((p, y))
    return tuple(pat)


def settle_run(run, S, t, n, f=1):
    pat = propose_from_run(run, S, t, n, f)
    return pat if pat is not None and fits(pat, S, t, n, f) else None


def settle_marked(S, t, n, f, marks):
    """Marked strip: fold the marks' locator into the syndromes, solve, verify."""
    s = len(marks)
    if s > 2 * t:
        return None
    G = [1]
    for p in marks:
        x = alpha_pow(p)
        G = [a ^ mul(x, b) for a, b in zip(G + [0], [0] + G)]
    folded = []
    for j in range(2 * t - s):
        x = 0
        for i in range(s + 1):
            x ^= mul(G[i], S[j + s - i])
        folded.append(x)
    run = run_rounds('plain', [folded])
    if run.length > (2 * t - s) // 2:
        return None
    places = [p for p in range(n) if value(run.st.L, alpha_pow(-p)) == 0]
    if len(places) != run.length or set(places) & set(marks):
        return None
    at = sorted(set(places) | set(marks))
    kind, y = solve_linear([[alpha_pow((f + j) * p) for p in at] for j in range(2 * t)], S[:2 * t]) \
        if at else ('one' if not any(S[:2 * t]) else 'none', [])
    if kind != 'one':
        return None
    pat = tuple((p, c) for p, c in zip(at, y) if c)
    return pat if fits(pat, S, t, n, f, marks) else None


def settle_peterson(S, t, n, f=1):
    """Independent: Peterson-Gorenstein-Zierler with linear algebra only."""
    S = list(S[:2 * t])
    if not any(S):
        return ()
    for nu in range(t, 0, -1):
        kind, c = solve_linear([[S[i + j] for j in range(nu)] for i in range(nu)],
                               [S[i + nu] for i in range(nu)])
        if kind != 'one':
            continue
        L = [1] + [c[nu - i] for i in range(1, nu + 1)]     # L_i multiplies z^i
        at = [p for p in range(n) if value(L, alpha_pow(-p)) == 0]
        if len(at) != nu:
            return None
        kind, y = solve_linear([[alpha_pow((f + j) * p) for p in at] for j in range(2 * t)], S)
        if kind != 'one' or not all(y):
            return None
        pat = tuple(zip(at, y))
        return pat if fits(pat, S, t, n, f) else None
    return None


def settle_brute(S, t, n, f=1, marks=()):
    """Independent: every choice of places, values by linear algebra.  Also
    checks that at most one pattern fits."""
    from itertools import combinations
    S = list(S[:2 * t])
    s = len(marks)
    if s > 2 * t:
        return None
    found = set()
    free = [p for p in range(n) if p not in marks]
    for e in range((2 * t - s) // 2 + 1):
        for c in combinations(free, e):
            at = sorted(c + tuple(marks))
            if at:
                kind, y = solve_linear([[alpha_pow((f + j) * p) for p in at] for j in range(2 * t)], S)
            else:
                kind, y = ('one', []) if not any(S) else ('none', None)
            if kind == 'none':
                continue
            assert kind == 'one'
            found.add(tuple((p, v) for p, v in zip(at, y) if v))
    assert len(found) <= 1, found
    return found.pop() if found else None

# ------------------------------------------------------------- staged decoding

class Reading:
    """What staged decoding ended with."""


def staged(prof, received, form='plain', marks=None, hold=None, settle=None):
    """marks: dict strip -> tuple of places.  hold: a strip held as failed at
    stage 0 (request 8).  settle: None uses the named solver with verification;
    else a function (S,t,n,f,marks) used in its place (independent decoders)."""
    marks = marks or {}
    m, n, v, t, f = prof.m, prof.n, prof.v, prof.t, prof.f
    block = bytearray(received)
    table = [[0] * 48 for _ in range(8)]
    runs = {}
    rd = Reading()
    rd.line = [None] * m
    rd.state = [None] * m
    rd.failed0 = []
    rounds_of = [[] for _ in range(m)]
    unsettled = list(range(m))
    r = 0
    while True:
        lo, hi = (0, 2 * t[0]) if r == 0 else (2 * t[r - 1], 2 * t[r])
        if r == 0:
            for i in unsettled:
                for j in range(lo, hi):
                    table[i][j] = value(prof.strip(received, i), prof.point(j))
        else:
            b = len(unsettled)
            sums = [nested_sum(prof, block, l) for l in range(b)]
            for j in range(lo, hi):
                kind, s = solve_linear([[alpha_pow(i * l) for i in unsettled] for l in range(b)],
                                       [value(x, prof.point(j)) for x in sums])
                assert kind == 'one'
                for i, x in zip(unsettled, s):
                    table[i][j] = x
        still = []
        for i in unsettled:
            S, mk = table[i], tuple(marks.get(i, ()))
            rounds_of[i].append(list(S[lo:hi]))
            if not mk:
                run = runs.setdefault(i, Run(form))
                run.enter(S[lo:hi])
                for _ in range(lo, hi):
                    run.iterate()
            if settle is not None:
                pat = settle(S, t[r], n, f, mk)
                assert pat is None or fits(pat, S, t[r], n, f, mk)
            elif mk:
                pat = settle_marked(S, t[r], n, f, mk)
            else:
                pat = settle_run(run, S, t[r], n, f)
            if r == 0 and i == hold:
                pat = None
            if pat is None:
                still.append(i)
                continue
            for p, y in pat:
                block[i * n + p] ^= y
            if r == 0 and not pat:
                rd.line[i] = ('clean',)
            else:
                rd.line[i] = ('mended', len(pat), r)
                if not mk:
                    rd.state[i] = runs[i].st
        unsettled = still
        if r == 0:
            rd.failed0 = list(still)
        b = len(unsettled)
        rd.table, rd.rounds_of, rd.last = table, rounds_of, r
        if b == 0:
            rd.number, rd.stage, rd.block = 0, None, bytes(block)
            return rd
        if b > v - r:
            rd.number, rd.stage, rd.block = 8, r, None
            return rd
        r += 1


def read_marks(prof, raw):
    """Request 3.  (0, dict) or (13, None)."""
    if len(raw) % 2:
        return 13, None
    out, before = {}, None
    for q in range(0, len(raw), 2):
        pair = (raw[q], raw[q + 1])
        if pair[0] >= prof.m or pair[1] >= prof.n:
            return 13, None
        if before is not None and not before < pair:
            return 13, None
        before = pair
        out.setdefault(pair[0], []).append(pair[1])
    return 0, {i: tuple(p) for i, p in out.items()}


class Answer:
    """number, stage (8 only), block, lines, changed, last, states, bits, strip_bits"""


def decode(prof, received, form='plain', rules=BASE, marks=None, settle=None):
    """Questions 8 and 9 on a block of the right size."""
    ans = Answer()
    ans.number = ans.stage = ans.block = None
    rd = staged(prof, received, form, marks, None, settle)
    ans.alternative, ans.good = None, []
    if rd.number == 8:
        ans.number, ans.stage = 8, rd.stage
        return ans
    if not is_codeword(prof, rd.block):
        if not (rules.has(8) and prof.v >= 1):
            ans.number = 9
            return ans
        good = []
        for i in range(prof.m):
            if i in rd.failed0:
                continue
            alt = staged(prof, received, form, marks, i, settle)
            if alt.number == 0 and is_codeword(prof, alt.block):
                good.append((i, alt))
        ans.good = [i for i, _ in good]          # for the tests only
        if not good or any(a.block != good[0][1].block for _, a in good):
            ans.number = 9
            return ans
        ans.alternative, rd = good[0]
    n = prof.n
    diff = [[a ^ b for a, b in zip(prof.strip(received, i), prof.strip(rd.block, i))]
            for i in range(prof.m)]
    for i in range(prof.m):                      # the report's meaning
        cnt = sum(1 for x in diff[i] if x)
        assert rd.line[i] == ('clean',) and cnt == 0 or rd.line[i][0] == 'mended' and rd.line[i][1] == cnt
    ans.number, ans.block, ans.lines, ans.last = 0, rd.block, rd.line, rd.last
    ans.changed = sum(1 for d in diff for x in d if x)
    ans.strip_bits = [sum(bin(x).count('1') for x in d) for d in diff]
    ans.bits = sum(ans.strip_bits)
    ans.states, ans.rounds_of = rd.state, rd.rounds_of
    return ans


def read(profile, block, out_len, form='plain', rules=BASE, marks=b'', settle=None):
    ans = Answer()
    ans.stage = ans.block = None
    ans.number, prof = read_profile(profile, rules)
    if ans.number:
        return ans
    if len(block) != prof.size:
        ans.number = 6
        return ans
    if out_len != prof.size:
        ans.number = 7
        return ans
    mk = None
    if rules.has(3):
        no, mk = read_marks(prof, marks)
        if no:
            ans.number = no
            return ans
    return decode(prof, bytes(block), form, rules, mk, settle)

# --------------------------------------------------------------- card program

def profile_section(card, rules):
    """(number, profile bytes, Profile, place of the next byte)"""
    if len(card) < 1:
        return 11, None, None, 0
    k = card[0]
    if not (k == 7 or (k == 0 and rules.has(2)) or (k == 8 and rules.has(5))):
        return 1, None, None, 0
    if len(card) < 1 + k:
        return 11, None, None, 0
    raw = card[1:1 + k]
    no, prof = read_profile(raw, rules)
    return no, raw, prof, 1 + k


def card_program(card, rules=BASE, form='plain'):
    card = bytes(card)
    no, raw, prof, at = profile_section(card, rules)
    if no:
        return 'card refused %d\n' % no
    if len(card) < at + 2:
        return 'card refused 11\n'
    count = card[at] * 256 + card[at + 1]
    at += 2
    out = ['blocks %d' % count]
    for q in range(count):
        if len(card) < at + prof.size:
            out.append('card refused 11')
            break
        a = read(raw, card[at:at + prof.size], prof.size, form, rules)
        at += prof.size
        if a.number:
            out.append('%d refused %d' % (q, a.number))
        elif rules.has(1):
            out.append('%d ok %d %d %d' % (q, a.last, a.changed, a.bits))
        else:
            out.append('%d ok %d %d' % (q, a.last, a.changed))
    else:
        if len(card) > at:
            out.append('card refused 12')
    return '\n'.join(out) + '\n'

# ------------------------------------------------------- request 9: binary strips

def piba(S, t=3):
    """Document 000, Algorithm 1, on six syndromes.  B is kept times x (so that
    x^-1 can be written).  Returns Lambda, D_even, B (without x, degree>=0
    after 3 iterations), T_even, gamma, L_L, L_B, branch vector string."""
    size = 12
    L = [1] + [0] * (size - 1)
    xB = [1] + [0] * (size - 1)
    D = [S[j] if j % 2 == 0 and j < 2 * t else 0 for j in range(size)]
    T = [S[j + 1] if j % 2 == 0 and j < 2 * t else 0 for j in range(size)]
    gamma, LL, LB, vec = 1, 0, -1, ''

    def sc(a, p):
        return [mul(a, x) for x in p]

    def add(p, q):
        return [a ^ b for a, b in zip(p, q)]

    for r in range(t):
        d = D[0]
        D2 = D[2:] + [0, 0]
        L1 = add(sc(gamma, L), sc(d, [0] + xB[:-1]))       # x^2 B = x (xB)
        D1 = add(sc(gamma, D2), sc(d, T))
        if d and LB - LL >= -1:
            vec += '0'
            xB, T, gamma, LB, LL = [0] + L[:-1], D2, d, LL, LB + 2
        else:
            vec += '1'
            xB, LB = [0, 0] + xB[:-2], LB + 2
        L, D = L1, D1
    return dict(L=L, D=D, xB=xB, T=T, gamma=gamma, LL=LL, LB=LB, vec=vec)


def branch_vector(S0, S2, S4):
    """Chosen from whether S_0, S_2+S_0^3 and phi are zero."""
    d1 = S2 ^ power(S0, 3)
    phi = mul(S0, S4) ^ power(S0, 6) ^ mul(S2, power(S0, 3)) ^ mul(S2, S2)
    z = (S0 == 0, d1 == 0, phi == 0)
    return {(False, False, False): '000', (False, False, True): '001',
            (False, True, False): '010', (False, True, True): '011',
            (True, False, False): '101', (True, True, True): '110'}[z]


def direct_formulas(S0, S2, S4, as_printed=False):
    """Tables II and III; as_printed gives the tables with their misprints."""
    P = power
    d1 = S2 ^ P(S0, 3)
    phi = mul(S0, S4) ^ P(S0, 6) ^ mul(S2, P(S0, 3)) ^ mul(S2, S2)
    b = branch_vector(S0, S2, S4)
    e = mul(S0, S4) ^ mul(P(S0, 3), S2)          # S0 S4 + S0^3 S2
    q = mul(S0, S4) ^ P(S0, 6)                   # S0 S4 + S0^6
    h = P(S0, 6) ^ P(S2, 2)                      # S0^6 + S2^2
    S2k = S2 if as_printed else P(S2, 2)         # misprint: S2 for S2^2
    if b == '000':
        L = [mul(S0, d1), mul(P(S0, 2), d1), e, mul(S0, phi)]
        D = [mul(mul(P(S0, 2), S2k), d1) ^ mul(e, S4) ^ mul(P(S0, 5), phi), 0,
             mul(mul(S0, P(S2, 2)), phi)]
        B = [S0, P(S0, 2), d1]
        T = [mul(P(S0, 2), P(S2, 2)) ^ mul(S4, d1)]
        g, LL, LB = phi, 3, 2
    elif b == '001':
        L = [mul(S0, d1), mul(P(S0, 2), d1), h]
        D = [mul(mul(P(S0, 2), S2k), d1) ^ mul(h, S4)]
        B = [0, 0, 1, S0]
        T = [S4 ^ P(S0, 5), 0, mul(S0, P(S2, 2))]
        g, LL, LB = d1, 2, 3
    elif b == '010':
        L = [P(S0, 2), P(S0, 3), 0, 0, q]
        D = [mul(P(S0, 3), P(S2, 2)) ^ mul(q, S2), 0, mul(q, S4)]
        B = [S0, P(S0, 2)]
        T = [mul(P(S0, 2), P(S2, 2))]
        g, LL, LB = q, 4, 1
    elif b == '011':
        L = [P(S0, 2), P(S0, 3)]
        D = [mul(P(S0, 3), P(S2, 2))]
        B = [0, 0, 0, 0, 1]
        T = [S2, 0, S4]
        g, LL, LB = S0, 1, 4
    elif b == '101':
        L = [S2, 0, S4, P(S2, 2)]
        D = [P(S2, 4) if as_printed else P(S4, 2), 0, P(S2, 4)]   # misprint: S2^4 for S4^2
        B = [0, 0, 1]
        T = [S4]
        g, LL, LB = S2, 3, 2
    else:
        L = [1, 0, 0, 0, 0, S4]
        D = [0]
        B = [1]
        T = [0]
        g, LL, LB = S4, 5, 0
    pad = lambda p: p + [0] * (12 - len(p))
    return dict(L=pad(L), D=pad(D), xB=pad([0] + B), T=pad(T), gamma=g, LL=LL, LB=LB, vec=b)


def read_binary(strip, out_len, direct=True):
    """Request 9: (number, strip or None).  5, 7, 16, 17 in this order."""
    n = len(strip)
    if not 1 <= n <= 255:
        return 5, None
    if out_len != n:
        return 7, None
    if any(x > 1 for x in strip):
        return 16, None
    S = [value(strip, alpha_pow(j + 1)) for j in range(6)]
    if not any(S):
        return 0, bytes(strip)
    st = direct_formulas(S[0], S[2], S[4]) if direct else piba(S)
    if st['LL'] > 3:
        return 17, None
    at = [p for p in range(n) if value(st['L'], alpha_pow(-p)) == 0]
    out = bytearray(strip)
    for p in at:
        out[p] ^= 1
    if len(at) > 3 or any(value(out, alpha_pow(j + 1)) for j in range(6)):
        return 17, None
    return 0, bytes(out)


def read_binary_brute(strip):
    from itertools import combinations
    n, found = len(strip), []
    S = tuple(value(strip, alpha_pow(j + 1)) for j in (0, 2, 4))
    col = [tuple(alpha_pow((j + 1) * p) for j in (0, 2, 4)) for p in range(n)]
    for e in range(4):
        for c in combinations(range(n), e):
            x = [0, 0, 0]
            for p in c:
                for q in range(3):
                    x[q] ^= col[p][q]
            if tuple(x) == S:
                found.append(c)
    assert len(found) <= 1
    if not found:
        return 17, None
    out = bytearray(strip)
    for p in found[0]:
        out[p] ^= 1
    return 0, bytes(out)

# ---------------------------------------------------- request 10: half-byte tables

def half_tables(a):
    return [mul(a, x) for x in range(16)], [mul(a, x << 4) for x in range(16)]


def half_mul(tables, b):
    return tables[0][b & 15] ^ tables[1][b >> 4]

# ---------------------------------------------------------- request 11: ranges

def read_ranges(profile, image, ranges, out_len, rules, form='plain'):
    """Returns dict: number; touched; verdicts [(0,) | (8,stage) | (9,)];
    out: list of byte or None (kept)."""
    no, prof = read_profile(profile, rules)
    if no:
        return dict(number=no)
    if len(image) % prof.size:
        return dict(number=6)
    if len(ranges) % 8 or len(ranges) > 64 * 8:
        return dict(number=18)
    rs = [(int.from_bytes(ranges[q:q + 4], 'big'), int.from_bytes(ranges[q + 4:q + 8], 'big'))
          for q in range(0, len(ranges), 8)]
    blocks = len(image) // prof.size
    total = blocks * prof.data_size
    if any(s + l > total for s, l in rs):
        return dict(number=19)
    if out_len != sum(l for _, l in rs):
        return dict(number=20)
    ans, places = {}, data_places(prof)
    verdicts, out = [], []
    for s, l in rs:
        touched = range(s // prof.data_size, (s + l - 1) // prof.data_size + 1) if l else range(0)
        verdict = (0,)
        for b in touched:
            if b not in ans:
                ans[b] = decode(prof, image[b * prof.size:(b + 1) * prof.size], form, rules)
            if ans[b].number and verdict == (0,):
                verdict = (8, ans[b].stage) if ans[b].number == 8 else (ans[b].number,)
        verdicts.append(verdict)
        for q in range(s, s + l):
            out.append(None if verdict != (0,) else
                       ans[q // prof.data_size].block[places[q % prof.data_size]])
    return dict(number=0, touched=len(ans), verdicts=verdicts, out=out)

# ---------------------------------------------------------- request 12: stacks

def stack_columns_hold(blocks, c):
    size = len(blocks[0])
    return all(value([b[p] for b in blocks], alpha_pow(k)) == 0
               for p in range(size) for k in range(1, c + 1))


def rebuild(blocks, missing):
    """Rebuild blocks[i] for i in missing (<= c of them) from the first
    len(missing) column equations."""
    size = len(next(b for b in blocks if b is not None))
    q = len(missing)
    out = [bytearray(b) if b is not None else bytearray(size) for b in blocks]
    if q == 0:
        return [bytes(b) for b in out]
    rows = [[alpha_pow(k * i) for i in missing] for k in range(1, q + 1)]
    inv_cols = []
    for e in range(q):
        kind, x = solve_linear(rows, [1 if k == e else 0 for k in range(q)])
        assert kind == 'one'
        inv_cols.append(x)
    for p in range(size):
        syn = [value([b[p] for b in out], alpha_pow(k)) for k in range(1, q + 1)]
        if any(syn):
            for w, i in enumerate(missing):
                x = 0
                for e in range(q):
                    x ^= mul(inv_cols[e][w], syn[e])
                out[i][p] = x
    return [bytes(b) for b in out]


def stack_write(profile, N, c, data, out_len, rules):
    no, prof = read_profile(profile, rules, writer=True)
    if no:
        return no, None
    if not (2 <= N <= 255 and 1 <= c <= 32 and c < N):
        return 21, None
    if len(data) != (N - c) * prof.data_size:
        return 6, None
    if out_len != N * prof.size:
        return 7, None
    d = prof.data_size
    blocks = [None] * c + [write_triangular(prof, data[q * d:(q + 1) * d]) for q in range(N - c)]
    return 0, b''.join(rebuild(blocks, list(range(c))))


def stack_read(profile, N, c, stack, out_len, rules, form='plain'):
    no, prof = read_profile(profile, rules)
    if no:
        return no, None
    if not (2 <= N <= 255 and 1 <= c <= 32 and c < N):
        return 21, None
    if len(stack) != N * prof.size:
        return 6, None
    if out_len != N * prof.size:
        return 7, None
    blocks = []
    for q in range(N):
        a = decode(prof, stack[q * prof.size:(q + 1) * prof.size], form, rules)
        blocks.append(a.block if a.number == 0 else None)
    missing = [i for i, b in enumerate(blocks) if b is None]
    if len(missing) > c:
        return 22, None
    blocks = rebuild(blocks, missing)
    if not stack_columns_hold(blocks, c):
        return 23, None
    return 0, b''.join(blocks)

# ---------------------------------------------------------- request 13: trials

def trial_program(card, rules, form='plain'):
    card = bytes(card)
    no, raw, prof, at = profile_section(card, rules)
    if no:
        return 'card refused %d\n' % no
    if len(card) < at + 8:
        return 'card refused 11\n'
    if len(card) > at + 8:
        return 'card refused 12\n'
    x = int.from_bytes(card[at:at + 4], 'big')
    rate = int.from_bytes(card[at + 4:at + 6], 'big')
    readings = int.from_bytes(card[at + 6:at + 8], 'big')
    tally = [0] * 7
    for _ in range(readings):
        block = bytearray(prof.size)
        for p in range(prof.size):
            x = (1664525 * x + 1013904223) % 2 ** 32
            if x // 65536 < rate:
                x = (1664525 * x + 1013904223) % 2 ** 32
                block[p] = 1 + (x // 16777216) % 255
        a = decode(prof, bytes(block), form, rules)
        if a.number == 8:
            tally[4] += 1
        elif a.number == 9:
            tally[5] += 1
        else:
            tally[a.last] += 1
            if any(a.block):
                tally[6] += 1
    return ' '.join(map(str, tally)) + '\n'

# ---------------------------------------------------------- request 14: length

def least_length(S):
    """Least L such that each S_j, j >= L, is a fixed combination of the L before."""
    K = len(S)
    for L in range(K + 1):
        rows = [[S[j - 1 - i] for i in range(L)] for j in range(L, K)]
        rhs = [S[j] for j in range(L, K)]
        if L == 0:
            if not any(rhs):
                return 0
            continue
        if not rows or solve_linear(rows, rhs)[0] != 'none':
            return L
    return K


if __name__ == '__main__':
    import sys
    args = sys.argv[1:]
    what = args[0] if args else 'card'
    rules = Rules.named(args[1]) if len(args) > 1 else BASE
    data = sys.stdin.buffer.read()
    if what == 'card':
        sys.stdout.write(card_program(data, rules))
    elif what == 'trial':
        sys.stdout.write(trial_program(data, rules))
    else:
        sys.exit('usage: gii.py card|trial [N | N,N,..]  < bytes')
