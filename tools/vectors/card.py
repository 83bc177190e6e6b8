"""test_card: the model's cards of seed 7, FORMAT's sample card cut at every byte and followed by one byte too many, and
a card of hundreds of blocks, whole, cut in its last block and followed by one byte too many, cards without a profile,
cards whose profile has eight bytes and cards with many wrong bits. The lists are what the model's card program
prints."""
import random

import cases
import gii
from .common import LANDED, number, sized, stored

BLOCKS = 500                                     # more than a byte can number
PROFILE = bytes([2, 1, 5, 1, 2, 0, 0])           # FORMAT's small profile: blocks of ten bytes


def long():
    """A card of hundreds of blocks, of which some are clean, some are damaged, and some are lost."""
    rng = random.Random('long card/7')
    _, profile = gii.read_profile(PROFILE)
    card = bytes([len(PROFILE)]) + PROFILE + number(BLOCKS)
    for _ in range(BLOCKS):
        block = bytearray(gii.write_triangular(profile, bytes(rng.randrange(256) for _ in range(profile.data_size))))
        for place in rng.sample(range(profile.size), rng.choice([0, 0, 1, 2, 3])):
            block[place] ^= rng.randint(1, 255)
        card += block
    return card


def long_cards():
    card = long()
    return [card, card[:-1], card + b'\0']


def no_profile_cards():
    """Cards whose first byte is 0: cut in and after each section, with a byte too many; the last has two blocks."""
    rng = random.Random('card without a profile/7')
    _, profile = gii.read_profile(b'', LANDED)
    block = gii.write_triangular(profile, bytes(rng.randrange(256) for _ in range(profile.data_size)))
    changed = bytearray(block)
    for place in range(20):
        changed[place] ^= rng.randint(1, 255)
    one = bytes([0, 0, 1]) + changed
    cut = [one[:k] for k in (1, 2, 3, 4, 8, profile.size + 2)]
    return cut + [one, one + b'\0', bytes([0, 0, 0]), bytes([0, 0, 0, 7]), bytes([0, 0, 2]) + block + changed]


def damaged(rng, profile, counts):
    """The profile's section and the number of blocks, and a block for each count, which has so many changes."""
    _, p = gii.read_profile(profile, LANDED)
    card = bytes([len(profile)]) + profile + number(len(counts))
    for count in counts:
        block = bytearray(gii.write_triangular(p, bytes(rng.randrange(256) for _ in range(p.data_size))))
        for place in rng.sample(range(p.size), count):
            block[place] ^= rng.randint(1, 255)
        card += block
    return card


def first_root_cards():
    """Cards whose first byte is 8: one cut at every byte; each first root, cut and with a byte too many too; refused
    ones, with another fault beside the eighth byte; and cards whose first byte is 9, or more."""
    rng = random.Random('card with a first root/7')
    whole = damaged(rng, PROFILE + bytes([0]), (0, 2, 3))
    every = [whole[:k] for k in range(1, len(whole) + 1)] + [whole + b'\0']
    for f in 0, 1, 2, 127, 254:
        card = damaged(rng, PROFILE + bytes([f]), (0, 1, 1, 2, 2, 3, 3, 4, 5))
        every += [card, card[:-1], card + b'\0']
    card = damaged(rng, bytes([3, 2, 12, 1, 2, 2, 0, 2]), (0, 3, 4))                 # equal strengths are read
    every += [card, damaged(rng, bytes([8, 3, 255, 14, 16, 18, 24, 254]), (0, 90))]
    for profile in [2, 1, 5, 1, 2, 0, 0], [9, 1, 5, 1, 2, 0, 0], [2, 2, 5, 1, 2, 2, 0], [2, 1, 5, 2, 2, 0, 0], \
            [2, 1, 4, 1, 2, 0, 0]:
        refused = bytes([8] + profile + [255])
        every += [refused[:-1], refused, refused + whole[9:]]
    return every + [bytes([9]), bytes([9]) + whole[1:], bytes([9]) + PROFILE + bytes([0, 0, 0, 0]), bytes([255])]


def leaked_cards():
    """Blocks with so many changes in a strip, each of one bit, of eight and of any number."""
    rng = random.Random('card with wrong bits/7')
    every = []
    for seven in [2, 1, 5, 1, 2, 0, 0], [8, 0, 60, 16, 0, 0, 0], [8, 0, 255, 24, 0, 0, 0]:
        _, p = gii.read_profile(bytes(seven), LANDED)
        card = bytes([7] + seven) + number(9)
        for count in 0, 1, p.t[0]:
            for changes in [1 << i for i in range(8)], [255], range(1, 256):
                block = bytearray(gii.write_triangular(p, bytes(rng.randrange(256) for _ in range(p.data_size))))
                for i in range(p.m):
                    for place in rng.sample(range(p.n), count):
                        block[i * p.n + place] ^= rng.choice(changes)
                card += block
        every.append(card)
    return every


def make():
    with stored(cases.cards) as folder:
        cards = {path.stem: path.read_bytes() for path in sorted((folder / 'cards').glob('*.bin'))}
    sample = cards['sample']
    every = list(cards.values()) + [sample[:k] for k in range(len(sample))] + [sample + b'\0'] + long_cards()
    every += no_profile_cards() + first_root_cards() + leaked_cards()
    stdin = number(len(every)) + b''.join(sized(card) for card in every)
    stdout = ''.join('card of %d\n' % len(card) + gii.card_program(card, LANDED) for card in every)
    return {'stdin': stdin, 'stdout': stdout.encode()}
