"""Weights and traces from a seed, by the rule in oracle/README.md, "Seeds"."""

import struct

from .double import shipped
from .trace import ENTRIES, flattened, unflattened

WORD = 2**64 - 1
FRACTION = 2**52 - 1
SIGN = 2**63
NAN = 0x7FF8000000000000

# By kind: the lowest exponent field, how many from it, one special in so many (0: none).
KINDS = {1: (1019, 16, 0), 2: (0, 2047, 64), 3: (0, 1, 0), 4: (2034, 4, 0), 5: (1019, 16, 256)}

SPECIALS = (
    0x7FF8000000000000, 0x7FF0000000000000, 0xFFF0000000000000, 0x0000000000000000,
    0x8000000000000000, 0x0000000000000001, 0x8000000000000001, 0x000FFFFFFFFFFFFF,
    0x800FFFFFFFFFFFFF, 0x0010000000000000, 0x8010000000000000, 0x7FEFFFFFFFFFFFFF,
    0xFFEFFFFFFFFFFFFF, 0x3FF0000000000000, 0x3FF0000000000001, 0xBFEFFFFFFFFFFFFF,
)


def stream(state):
    """xorshift64: each draw is the state after three shifts and xors."""
    while True:
        state ^= state << 13 & WORD
        state ^= state >> 7
        state ^= state << 17 & WORD
        yield state


def stirred(numbers):
    """All doubles of a list in one number: from 1 on, each one's bits xored in and a draw made."""
    state = 1
    for number in numbers:
        state = next(stream(state ^ (NAN if number != number else to_bits(number))))
    return state


def from_bits(bits):
    return struct.unpack("<d", struct.pack("<Q", bits))[0]


def to_bits(number):
    return struct.unpack("<Q", struct.pack("<d", number))[0]


def weight(kind, draw):
    lowest, exponents, special_in = KINDS[kind]
    if special_in and draw % special_in == 0:
        return from_bits(SPECIALS[(draw >> 16) % 16])
    exponent = lowest + (draw >> 52 & 2047) % exponents
    return from_bits(draw & SIGN | exponent << 52 | draw & FRACTION)


def seeded_weights(kind, seed):
    """779 weights: the eleven, then the squares."""
    if kind == 0:
        return shipped()
    draws = stream(seed)
    return [weight(kind, next(draws)) for _ in range(779)]


def seeded_trace(seed):
    """Every number inside TRACE's ranges; need be no position's."""
    draws = stream(seed)
    numbers = [next(draws) % 65 for _ in range(10)] + [next(draws) % 2 for _ in range(2)]
    numbers += [next(draws) % 1729 for _ in range(12)]
    numbers += [1 - 2 * (next(draws) % 2), next(draws) % 65]
    sparse = next(draws) % 8
    numbers += [1 if next(draws) % 2**sparse == 0 else 0 for _ in range(ENTRIES)]
    return unflattened(numbers)


def odd_trace(seed, place, value):
    """The same with one of its numbers changed, in range or not."""
    numbers = flattened(seeded_trace(seed))
    numbers[place] = value
    return unflattened(numbers)
