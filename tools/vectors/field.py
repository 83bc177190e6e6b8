"""test_field: zero, one and α, logarithms, powers, inverses, and every product, from the product of polynomials over
GF(2). The program takes the products in three ways, and prints them for each."""
from .common import text

MODULUS = 0x11d          # z^8 + z^4 + z^3 + z^2 + 1
NAMED = [0, 1, 1 << 1]   # the polynomials 0, 1 and z


def product(a, b):
    p = 0
    for i in range(8):
        if b >> i & 1:
            p ^= a << i
    for i in range(14, 7, -1):
        if p >> i & 1:
            p ^= MODULUS << (i - 8)
    return p


def make():
    _, one, alpha = NAMED
    powers = [one]
    while len(powers) < 255:
        powers.append(product(powers[-1], alpha))
    products = [[product(a, b) for b in range(256)] for a in range(256)]
    logarithms = [0] + [powers.index(a) for a in range(1, 256)]
    inverses = [products[a].index(one) for a in range(1, 256)]
    lines = [NAMED, logarithms, powers, inverses] + 3 * products
    return {'stdout': text(' '.join(map(str, line)) for line in lines)}
